//! The simulator's queues under ids: a push refuses an id that no queue has, a task that waits anywhere, and a queue
//! where tasks wait in the other order.

use crate::plain_tasks::{NOWHERE, Queue, Tasks};

#[derive(Clone, Copy, PartialEq)]
pub enum Order {
    Fifo,
    Vtime,
}

#[derive(Debug)]
pub enum Refusal {
    NoSuchQueue,
    AlreadyThere,
    Mixed,
}

pub struct Queues {
    queues: Vec<Queue>,
    tasks: Tasks,
    pushes: u64,
}

impl Queues {
    pub fn new(ids: &[u64], tasks: usize) -> Queues {
        let made = |id: &u64| {
            let mut queue = Queue::EMPTY;
            queue.id = *id;
            queue.reserve(tasks);
            queue
        };
        Queues { queues: ids.iter().map(made).collect(), tasks: Tasks::new(), pushes: 0 }
    }

    #[inline(always)]
    fn find(&self, id: u64) -> Option<usize> {
        self.queues.iter().position(|queue| queue.id == id)
    }

    #[inline(always)]
    pub fn push(&mut self, id: u64, task: u16, by: Order, key: u64) -> Result<(), Refusal> {
        let place = self.find(id).ok_or(Refusal::NoSuchQueue)?;
        let queue = &mut self.queues[place];
        if self.tasks.of(task).queue != NOWHERE {
            return Err(Refusal::AlreadyThere);
        }
        if queue.length > 0 && queue.is_by_vtime != (by == Order::Vtime) {
            return Err(Refusal::Mixed);
        }
        self.pushes += 1;
        match by {
            Order::Fifo => queue.push(&mut self.tasks, task, place as u8),
            Order::Vtime => queue.push_by_vtime(&mut self.tasks, task, place as u8, key, self.pushes),
        }
        Ok(())
    }

    #[inline(always)]
    pub fn pop(&mut self, id: u64) -> Option<u16> {
        let place = self.find(id)?;
        let queue = &mut self.queues[place];
        (queue.length > 0).then(|| queue.pop(&mut self.tasks))
    }

    #[inline(always)]
    pub fn remove(&mut self, task: u16) -> bool {
        let place = self.tasks.of(task).queue;
        if place == NOWHERE {
            return false;
        }
        self.queues[usize::from(place)].remove(&mut self.tasks, task);
        true
    }
}

/// The number of `scx_tests_bench queues_fifo TASKS TIMES`, or of `queues_vtime`.
pub fn go_round(order: Order, tasks: u16, times: u64) -> u64 {
    let mut queues = Queues::new(&[0], tasks.into());
    let push = |queues: &mut Queues, task: u16, number: u64| {
        let key = number.wrapping_mul(0x9e37_79b9_7f4a_7c15) >> 54;
        queues.push(0, task, order, key).expect("room in the queue");
    };
    for task in 0..tasks {
        push(&mut queues, task, task.into());
    }
    let mut sum = 0u64;
    for time in 0..times {
        let front = queues.pop(0).expect("a task that waits");
        push(&mut queues, front, time);
        let other = (time % u64::from(tasks.max(1))) as u16;
        queues.remove(other);
        push(&mut queues, other, time);
        sum = sum.wrapping_mul(31).wrapping_add(front.into());
    }
    sum
}

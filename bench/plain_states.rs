//! What is looked at while all lists of events are gone through, and which states of a machine are the same.

use crate::plain_explore::Words;
use crate::plain_files::{Policy, Workload};
use crate::plain_machine::Machine;
use crate::plain_notes::{HELD, Notes, PARKED};
use crate::plain_slots::{CALL, Slot};
use crate::plain_tasks::{NEVER, NOWHERE};
use crate::plain_verify::Callback;

/// The most tasks that are told apart though no program does so, where states keep no slices.
const MOST_APART: usize = 4;

/// What a list has shown so far, by the notes that its machine takes.
#[derive(Clone)]
pub struct Watch {
    pub homes: Vec<usize>,
    waits: Vec<bool>,
    /// Of each task, who of its group began to run since it waits.
    pub began: Vec<Vec<bool>>,
    pub is_overtaken: bool,
    /// How often a task came into a queue.
    pushes: u64,
    pub choices: u64,
    pub keeps_slice: bool,
    /// The most instructions of each callback, by the event at hand.
    pub most: [u64; 7],
}

impl Watch {
    pub fn new(workload: &Workload) -> Watch {
        let tasks = workload.tasks.len();
        Watch {
            homes: workload.tasks.iter().map(|task| task.group).collect(),
            waits: vec![false; tasks],
            began: vec![vec![false; tasks]; tasks],
            is_overtaken: false,
            pushes: 0,
            choices: 0,
            keeps_slice: false,
            most: [0; 7],
        }
    }

    /// The task waits no more.
    fn leave(&mut self, task: u16) {
        self.waits[usize::from(task)] = false;
        self.began[usize::from(task)].fill(false);
    }
}

impl Notes for Watch {
    const IS_DRIVEN: bool = false;

    fn wake(&mut self, _: u16) {
        self.choices += 1;
    }

    fn sleep(&mut self, task: u16) {
        self.choices += 1;
        self.leave(task);
    }

    /// A parked task doesn't wait.
    fn insert(&mut self, task: u16, queue: usize) {
        self.pushes += 1;
        if queue == PARKED {
            self.leave(task);
        } else {
            self.waits[usize::from(task)] = true;
        }
    }

    fn moved(&mut self, _: u16, _: u32) {
        self.pushes += 1;
    }

    fn run(&mut self, task: u16, _: u32) {
        self.leave(task);
        let runner = usize::from(task);
        for other in 0..self.homes.len() {
            if self.waits[other] && self.homes[other] == self.homes[runner] {
                self.is_overtaken |= self.began[other][runner];
                self.began[other][runner] = true;
            }
        }
    }

    fn ran(&mut self, callback: Callback, instructions: u64) {
        let most = &mut self.most[callback as usize];
        *most = (*most).max(instructions);
    }

    fn keeps_slice(&mut self, _: u16) {
        self.keeps_slice = true;
    }
}

/// What is kept of a state beside where its tasks are, the bytes of maps, and who began to run.
pub struct Form {
    clock: bool,
    pushes: bool,
    waits: bool,
    run: bool,
    vtime: bool,
    keys: bool,
    weights: bool,
    usages: bool,
    choices: bool,
    /// Slices of tasks that sleep, or that are held.
    pub slices: bool,
    /// Whether of a slice only is kept if it never ends.
    pub rows: bool,
    alike: bool,
}

impl Form {
    pub fn new(machine: &Machine<Watch>, policy: &Policy, workload: &Workload, words: &Words) -> Form {
        let calls = |helper: i32| machine.slots().any(|(_, slot)| slot.opcode() == CALL && slot.immediate() == helper);
        let loads = |offset: i16, size: u8| machine.slots().any(|(_, slot)| is_load(slot, offset, size));
        let all = words.form == "all";
        let is_limited = machine.world.is_limited;
        let by_pid = calls(1007);
        let late = |callback| matches!(callback, Callback::Running | Callback::Stopping);
        let early = |(callback, slot): (Callback, Slot)| is_load(slot, 8, 8) && (by_pid || !late(callback));
        let shortened = matches!(words.form.as_str(), "slices" | "alike" | "rows");
        let is_counted = is_limited || loads(8, 8) || loads(32, 8);
        let rows = words.form == "rows" && !words.ms && !is_counted;
        let are_few = rows && words.few.is_none() && workload.tasks.len() <= MOST_APART;
        let is_alike = matches!(words.form.as_str(), "alike" | "rows") && !words.ms && !are_few;
        Form {
            clock: all || is_limited || calls(5),
            pushes: all,
            waits: all || words.ms || policy.timeout_ms < words.depth,
            run: all || loads(32, 8),
            vtime: all || loads(16, 8),
            keys: all || calls(1003),
            weights: !workload.changes.is_empty(),
            usages: is_limited,
            choices: words.few.is_some(),
            slices: !shortened || machine.slots().any(early),
            rows,
            alike: is_alike && !by_pid && !loads(0, 4),
        }
    }

    /// The state as numbers, the tasks in that order.
    fn numbers(&self, machine: &Machine<Watch>, order: &[u16]) -> Vec<u64> {
        let world = &machine.world;
        let mut numbers = Vec::new();
        for task in order {
            self.add_task(machine, *task, &mut numbers);
            let began = &world.notes.began[usize::from(*task)];
            numbers.push(order.iter().fold(0, |bits, other| bits << 1 | u64::from(began[usize::from(*other)])));
        }
        let single = [
            (self.clock, world.clock),
            (self.pushes, world.notes.pushes),
            (self.choices, world.notes.choices),
        ];
        numbers.extend(single.iter().filter(|(is_kept, _)| *is_kept).map(|(_, number)| *number));
        if self.weights {
            numbers.extend(world.weights());
        }
        if self.usages {
            numbers.extend(world.usages());
        }
        numbers.extend(world.maps.bytes.iter().map(|byte| u64::from(*byte)));
        numbers
    }

    fn add_task(&self, machine: &Machine<Watch>, task: u16, numbers: &mut Vec<u64>) {
        let world = &machine.world;
        let record = world.tasks.of(task);
        let is_queued = record.queue != NOWHERE;
        let (mut place, mut ahead, mut key) = (u64::MAX, 0, None);
        if is_queued {
            let queue = world.queues[usize::from(record.queue)].in_order(&world.tasks);
            ahead = queue.iter().position(|(other, _)| *other == task).expect("a place in the queue");
            (place, key) = (record.queue.into(), queue[ahead].1);
        } else if record.is_runnable {
            place = 1000 + u64::from(record.prev_cpu);
        }
        let is_live = record.is_runnable && usize::from(record.queue) != HELD;
        let wait = if record.since == NEVER { 0 } else { 1 + world.clock - record.since };
        let slice = if self.rows { u64::from(record.slice == u64::MAX) } else { record.slice };
        let slice = if self.slices || is_live { slice } else { 0 };
        numbers.extend([place, ahead as u64, key.is_some().into(), record.prev_cpu.into(), slice]);
        let others = [
            (self.keys, key.unwrap_or(0)),
            (self.waits, wait),
            (self.vtime, record.vtime),
            (self.run, record.run_ns),
        ];
        numbers.extend(others.iter().filter(|(is_kept, _)| *is_kept).map(|(_, number)| *number));
    }

    /// The state as bytes. Where tasks are alike, it is the least of those with tasks of a group in other places.
    pub fn bytes(&self, machine: &Machine<Watch>, orders: &[Vec<u16>]) -> Box<[u8]> {
        let orders = if self.alike { orders } else { &orders[..1] };
        let least = orders.iter().map(|order| self.numbers(machine, order)).min().expect("an order");
        let mut bytes = Vec::new();
        for number in least {
            // Small numbers take one byte.
            match u8::try_from(number) {
                Ok(byte) if byte < 255 => bytes.push(byte),
                _ => {
                    bytes.push(255);
                    bytes.extend(number.to_le_bytes());
                }
            }
        }
        bytes.into()
    }

    /// Whether both tasks sleep, and nobody can tell them from each other.
    pub fn are_same(&self, machine: &Machine<Watch>, one: u16, other: u16) -> bool {
        let homes = &machine.world.notes.homes;
        if !self.alike || homes[usize::from(one)] != homes[usize::from(other)] {
            return false;
        }
        let order: Vec<u16> = (0..machine.world.count).collect();
        let mut swapped = order.clone();
        swapped.swap(one.into(), other.into());
        self.numbers(machine, &order) == self.numbers(machine, &swapped)
    }
}

/// Whether it is a load of so many bytes at that offset, of a task or not.
fn is_load(slot: Slot, at: i16, bytes: u8) -> bool {
    slot.opcode() & 7 == 1 && (slot.offset(), slot.size()) == (at, bytes)
}

/// All orders of the tasks in which each is in the place of one of its group, as they are the first.
pub fn orders(homes: &[usize]) -> Vec<Vec<u16>> {
    let mut orders: Vec<Vec<u16>> = vec![Vec::new()];
    for place in 0..homes.len() {
        let fits = |order: &Vec<u16>, task: &usize| homes[*task] == homes[place] && !order.contains(&(*task as u16));
        let longer = |order: &Vec<u16>, task: usize| order.iter().copied().chain([task as u16]).collect();
        orders = orders
            .iter()
            .flat_map(|order| (0..homes.len()).filter(|task| fits(order, task)).map(|task| longer(order, task)))
            .collect();
    }
    orders
}

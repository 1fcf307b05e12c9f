//! The records of tasks, the queues in which they wait, and sets of them.

/// No task.
pub const NOBODY: u16 = u16::MAX;
/// No queue.
pub const NOWHERE: u8 = u8::MAX;
/// A clock that isn't reached: a task that doesn't wait does so since then.
pub const NEVER: u64 = u64::MAX;
pub const DEFAULT_SLICE: u64 = 20_000_000;

/// A task, with its place in a queue: neighbours where that is in order of arrival, else where it stands in
/// the heap.
#[derive(Clone, Copy)]
pub struct Task {
    pub run_ns: u64,
    /// What it will have run once it has run enough and goes to sleep.
    pub ends: u64,
    pub slice: u64,
    pub vtime: u64,
    pub builtin: u64,
    pub since: u64,
    pub prev_cpu: u16,
    pub group: u16,
    pub next: u16,
    pub previous: u16,
    pub position: u16,
    pub queue: u8,
    pub is_runnable: bool,
}

impl Task {
    /// It ran for that long.
    #[inline(always)]
    pub fn run(&mut self, ms: u64) {
        if self.slice != NEVER {
            self.slice = self.slice.saturating_sub(1_000_000 * ms);
        }
        self.run_ns += 1_000_000 * ms;
    }
}

/// As many records as there may be tasks, so that ten bits always name one.
pub struct Tasks(Box<[Task; 1024]>);

impl Tasks {
    pub fn new() -> Tasks {
        let task = Task {
            run_ns: 0,
            ends: NEVER,
            slice: DEFAULT_SLICE,
            vtime: 0,
            builtin: 0,
            since: NEVER,
            prev_cpu: 0,
            group: 0,
            next: NOBODY,
            previous: NOBODY,
            position: 0,
            queue: NOWHERE,
            is_runnable: false,
        };
        Tasks(Box::new([task; 1024]))
    }

    #[inline(always)]
    pub fn of(&self, task: u16) -> &Task {
        &self.0[usize::from(task) & 1023]
    }

    #[inline(always)]
    pub fn at(&mut self, task: u16) -> &mut Task {
        &mut self.0[usize::from(task) & 1023]
    }
}

/// A queue: a list through its tasks, or a heap of virtual times, each over how many came before and the task's
/// number.
#[derive(Clone)]
pub struct Queue {
    pub id: u64,
    pub length: usize,
    pub first: u16,
    last: u16,
    pub is_by_vtime: bool,
    heap: Vec<u128>,
}

impl Queue {
    pub const EMPTY: Queue =
        Queue { id: 0, length: 0, first: NOBODY, last: NOBODY, is_by_vtime: false, heap: Vec::new() };

    /// Room for so many by virtual time.
    pub fn reserve(&mut self, tasks: usize) {
        self.heap.reserve_exact(tasks);
    }

    #[inline(always)]
    pub fn push(&mut self, tasks: &mut Tasks, task: u16, place: u8) {
        if self.length == 0 {
            self.first = task;
            self.is_by_vtime = false;
        } else {
            tasks.at(self.last).next = task;
        }
        let record = tasks.at(task);
        record.previous = self.last;
        record.queue = place;
        self.last = task;
        self.length += 1;
    }

    pub fn push_by_vtime(&mut self, tasks: &mut Tasks, task: u16, place: u8, vtime: u64, order: u64) {
        self.is_by_vtime = true;
        self.length += 1;
        tasks.at(task).queue = place;
        let entry = u128::from(vtime) << 64 | u128::from(order << 16 | u64::from(task));
        let hole = self.heap.len();
        self.heap.push(entry);
        rise(&mut self.heap, tasks, hole, entry);
    }

    /// The front of a queue that isn't empty.
    pub fn front(&self) -> u16 {
        if self.is_by_vtime { self.heap[0] as u16 } else { self.first }
    }

    /// Who comes behind, in order of arrival.
    pub fn behind(&self, tasks: &Tasks, task: u16) -> u16 {
        if task == self.last { NOBODY } else { tasks.of(task).next }
    }

    /// Who waits, from the front on, each with the virtual time by which it does.
    pub fn in_order(&self, tasks: &Tasks) -> Vec<(u16, Option<u64>)> {
        if self.is_by_vtime {
            let mut heap = self.heap.clone();
            heap.sort_unstable();
            return heap.into_iter().map(|entry| (entry as u16, Some((entry >> 64) as u64))).collect();
        }
        let mut waiting = Vec::new();
        let mut task = self.first;
        for _ in 0..self.length {
            waiting.push((task, None));
            task = tasks.of(task).next;
        }
        waiting
    }

    /// The front leaves a queue that isn't empty.
    #[inline(always)]
    pub fn pop(&mut self, tasks: &mut Tasks) -> u16 {
        if self.is_by_vtime {
            return self.pop_least(tasks);
        }
        let task = self.first;
        let record = tasks.at(task);
        record.queue = NOWHERE;
        self.first = record.next;
        self.length -= 1;
        task
    }

    fn pop_least(&mut self, tasks: &mut Tasks) -> u16 {
        let task = self.heap[0] as u16;
        self.leave_heap(tasks, 0);
        tasks.at(task).queue = NOWHERE;
        task
    }

    /// A task leaves from wherever it stands.
    pub fn remove(&mut self, tasks: &mut Tasks, task: u16) {
        let Task { next, previous, position, .. } = *tasks.of(task);
        tasks.at(task).queue = NOWHERE;
        if self.is_by_vtime {
            return self.leave_heap(tasks, position.into());
        }
        self.length -= 1;
        match (self.first == task, self.last == task) {
            (true, true) => {}
            (true, false) => self.first = next,
            (false, true) => self.last = previous,
            (false, false) => {
                tasks.at(previous).next = next;
                tasks.at(next).previous = previous;
            }
        }
    }

    /// The last entry comes into the place that is free: from the bottom, since there it came from.
    fn leave_heap(&mut self, tasks: &mut Tasks, place: usize) {
        self.length -= 1;
        let Some(last) = self.heap.pop() else { return };
        let heap = &mut self.heap[..];
        if place >= heap.len() {
            return;
        }
        let mut hole = place;
        while 2 * hole + 2 < heap.len() {
            let left = 2 * hole + 1;
            let child = left + usize::from(heap[left + 1] < heap[left]);
            set(heap, tasks, hole, heap[child]);
            hole = child;
        }
        if 2 * hole + 1 < heap.len() {
            set(heap, tasks, hole, heap[2 * hole + 1]);
            hole = 2 * hole + 1;
        }
        rise(heap, tasks, hole, last);
    }
}

#[inline(always)]
fn set(heap: &mut [u128], tasks: &mut Tasks, place: usize, entry: u128) {
    heap[place] = entry;
    tasks.at(entry as u16).position = place as u16;
}

/// An entry goes from a free place up to where it belongs.
#[inline(always)]
fn rise(heap: &mut [u128], tasks: &mut Tasks, from: usize, entry: u128) {
    let mut hole = from;
    while hole > 0 {
        let parent = (hole - 1) / 2;
        if heap[parent] <= entry {
            break;
        }
        set(heap, tasks, hole, heap[parent]);
        hole = parent;
    }
    set(heap, tasks, hole, entry);
}

/// A set of tasks: a bit each, and a bit for each sixty-four of them where there is one.
#[derive(Clone, Copy)]
pub struct Set {
    some: u16,
    bits: [u64; 16],
}

impl Set {
    pub const EMPTY: Set = Set { some: 0, bits: [0; 16] };

    #[inline(always)]
    pub fn is_empty(&self) -> bool {
        self.some == 0
    }

    pub fn insert(&mut self, task: u16) {
        let block = usize::from(task >> 6) & 15;
        self.some |= 1 << block;
        self.bits[block] |= 1 << (task & 63);
    }

    /// The least task leaves a set that isn't empty.
    pub fn pop(&mut self) -> u16 {
        let block = self.some.trailing_zeros() as usize & 15;
        let bits = self.bits[block];
        self.bits[block] = bits & bits.wrapping_sub(1);
        if self.bits[block] == 0 {
            self.some &= self.some.wrapping_sub(1);
        }
        (block as u16) << 6 | bits.trailing_zeros() as u16
    }
}

/// A bit for each of the next 256 milliseconds at which something is due, by its remainder.
#[derive(Clone)]
pub struct Calendar {
    bits: [u64; 4],
}

impl Calendar {
    pub const DAYS: u64 = 256;
    pub const EMPTY: Calendar = Calendar { bits: [0; 4] };

    #[inline(always)]
    pub fn mark(&mut self, ms: u64) {
        self.bits[ms as usize >> 6 & 3] |= 1 << (ms & 63);
    }

    #[inline(always)]
    pub fn clear(&mut self, ms: u64) {
        self.bits[ms as usize >> 6 & 3] &= !(1 << (ms & 63));
    }

    /// The first millisecond from that one on that has a bit, or one within the next 256.
    #[inline(always)]
    pub fn next(&self, ms: u64) -> u64 {
        let first = self.bits[ms as usize >> 6 & 3] >> (ms & 63);
        if first != 0 {
            return ms + u64::from(first.trailing_zeros());
        }
        let mut from = (ms | 63) + 1;
        for _ in 0..3 {
            let bits = self.bits[from as usize >> 6 & 3];
            if bits != 0 {
                return from + u64::from(bits.trailing_zeros());
            }
            from += 64;
        }
        from
    }
}

//! The clock, tasks, processors, queues and groups that the programs of a policy see, and what their helper
//! calls do (docs/POLICIES.md). All memory is taken at the start.

use crate::plain_files::{self, Policy, Workload};
use crate::plain_notes::{BUILTIN, GLOBAL, HELD, LOCAL, Notes, PARKED};
use crate::plain_run::{Host, Maps};
use crate::plain_tasks::{Calendar, DEFAULT_SLICE, NEVER, NOBODY, NOWHERE, Queue, Task, Tasks};
use crate::plain_verify::{Callback, Field};

/// Mistakes of a callback, by their numbers.
#[derive(Clone, Copy, PartialEq)]
#[rustfmt::skip]
pub enum Fault { NoQueue = 1, CannotInsert, Mixed, BuiltinVtime, NoCpu, UnknownFlag, CannotCreate }

const OWN_END: u64 = 1 << 63;
const GLOBAL_ID: u64 = OWN_END + 1;
const LOCAL_ID: u64 = OWN_END + 2;
const LOCAL_ON: u64 = 0xc000_0000_0000_0000;
const INVALID: u64 = -22i64 as u64;

/// Where a callback wants a task to wait: a place among the queues, or, with LOCAL_HERE, the own queue of
/// the processor that is meant.
#[derive(Clone, Copy)]
pub struct Insert {
    pub queue: usize,
    pub slice: u64,
    pub vtime: Option<u64>,
}

const LOCAL_HERE: usize = 127;

/// Nanoseconds up to which a CPU is planned, within the days of a calendar.
const LONGEST_PLAN: u64 = 200_000_000;

/// True for a queue that an idle CPU may take tasks from.
#[inline(always)]
fn is_open(queue: usize) -> bool {
    queue <= GLOBAL || queue == BUILTIN
}

impl Insert {
    pub fn for_cpu(self, cpu: u32) -> Insert {
        let queue = if self.queue == LOCAL_HERE { LOCAL + cpu as usize } else { self.queue };
        Insert { queue, ..self }
    }
}

/// The callback at hand.
#[derive(Clone, Copy)]
pub struct Call {
    pub callback: Callback,
    pub task: u16,
    pub cpu: u32,
    pub insert: Option<Insert>,
    pub has_moved: bool,
    pub fault: Option<Fault>,
}

/// A group, with how many tasks are runnable in it or below it.
#[derive(Clone)]
struct Group {
    weight: u64,
    parent: Option<usize>,
    runnable: u64,
    quota: u64,
    period: u64,
    used: u64,
}

impl Group {
    fn new(group: &plain_files::Group) -> Group {
        Group {
            weight: group.weight.into(),
            parent: group.parent,
            runnable: 0,
            quota: group.quota.unwrap_or(NEVER),
            period: group.period,
            used: 0,
        }
    }
}

/// Why and when a policy was ejected.
#[derive(Clone, Copy)]
pub enum Eject {
    Stall(u16, u64),
    Fault(u8, u64),
}

pub struct World<N> {
    pub notes: N,
    pub clock: u64,
    pub maps: Maps,
    pub tasks: Tasks,
    pub count: u16,
    pub cpus: u32,
    /// Who runs on each processor.
    pub running: [u16; 64],
    /// A bit for each processor on which a task runs, and for each that isn't there.
    pub busy: u64,
    /// A bit for the processor on which a cycle is under way.
    pub cycling: u64,
    pub queues: Box<[Queue; 128]>,
    own: usize,
    pushes: u64,
    groups: Vec<Group>,
    /// The weights of groups with runnable tasks, added up: those at the top, then for each its children.
    sums: Vec<u64>,
    pub is_limited: bool,
    /// A number of milliseconds that divides all periods.
    beat: u64,
    pub call: Call,
    pub ejected: Option<Eject>,
    pub builtin_clock: u64,
    /// Nobody waits since before that clock.
    pub oldest: u64,
    pub timeout_ms: u64,
    /// Bits for the CPUs that are due at a millisecond of that remainder, and the milliseconds that have any.
    pub due: [u64; Calendar::DAYS as usize],
    pub days: Calendar,
    /// The ticks of each CPU that its task was given.
    accounted: [u64; 64],
    /// The CPUs that ticked in this millisecond.
    pub ticked: u32,
    /// Bits for the CPUs whose own queues have tasks.
    pub supplied: u64,
    /// Tasks in queues that an idle CPU may take them from.
    pub waiting: usize,
    /// Bits for the CPUs whose programs found nothing while no task waited.
    pub asked: u64,
}

/// All that events change of a world with a policy in force.
#[derive(Clone)]
pub struct Saved<N> {
    notes: N,
    clock: u64,
    maps: Vec<u8>,
    tasks: Vec<Task>,
    running: Vec<u16>,
    busy: u64,
    queues: Vec<Queue>,
    pushes: u64,
    groups: Vec<Group>,
    sums: Vec<u64>,
    oldest: u64,
}

/// Queues with room for so many tasks.
fn queues(tasks: usize) -> Box<[Queue; 128]> {
    let mut queues = Box::new([const { Queue::EMPTY }; 128]);
    for queue in (0..GLOBAL).chain([BUILTIN]) {
        queues[queue].reserve(tasks);
    }
    queues
}

fn common_divisor(a: u64, b: u64) -> u64 {
    if b == 0 { a } else { common_divisor(b, a % b) }
}

impl<N: Notes> World<N> {
    pub fn new(notes: N, policy: &Policy, workload: &Workload) -> World<N> {
        let mut tasks = Tasks::new();
        for (number, task) in workload.tasks.iter().enumerate() {
            tasks.at(number as u16).group = task.group as u16;
        }
        World {
            notes,
            clock: 0,
            maps: Maps::new(policy.maps.iter().map(|map| (map.entries, map.value_size as u16))),
            tasks,
            count: workload.tasks.len() as u16,
            cpus: workload.cpus,
            running: [NOBODY; 64],
            busy: u64::MAX.checked_shl(workload.cpus).unwrap_or(0),
            cycling: 0,
            queues: queues(workload.tasks.len()),
            own: 0,
            pushes: 0,
            groups: workload.groups.iter().map(Group::new).collect(),
            sums: vec![0; workload.groups.len() + 1],
            is_limited: workload.groups.iter().any(|group| group.quota.is_some()),
            beat: workload.groups.iter().fold(0, |beat, group| common_divisor(beat, group.period)),
            call: Call { callback: Callback::Init, task: 0, cpu: 0, insert: None, has_moved: false, fault: None },
            ejected: None,
            builtin_clock: 0,
            oldest: 0,
            timeout_ms: policy.timeout_ms,
            due: [0; Calendar::DAYS as usize],
            days: Calendar::EMPTY,
            accounted: [0; 64],
            ticked: 0,
            supplied: 0,
            waiting: 0,
            asked: 0,
        }
    }

    // ---- queues

    #[inline(always)]
    pub fn push(&mut self, queue: usize, task: u16) {
        self.entered(queue);
        self.queues[queue & 127].push(&mut self.tasks, task, queue as u8);
    }

    #[inline(always)]
    fn entered(&mut self, queue: usize) {
        if queue >= LOCAL {
            self.supplied |= 1 << ((queue - LOCAL) & 63);
        } else {
            self.waiting += usize::from(is_open(queue));
        }
    }

    #[inline(always)]
    fn left(&mut self, queue: usize) {
        if queue < LOCAL {
            self.waiting -= usize::from(is_open(queue));
        } else if self.length(queue) == 0 {
            self.supplied &= !(1 << ((queue - LOCAL) & 63));
        }
    }

    pub fn push_by_vtime(&mut self, queue: usize, task: u16, vtime: u64) {
        self.pushes += 1;
        self.entered(queue);
        self.queues[queue & 127].push_by_vtime(&mut self.tasks, task, queue as u8, vtime, self.pushes);
    }

    /// The front of a queue that isn't empty leaves it.
    #[inline(always)]
    pub fn pop(&mut self, queue: usize) -> u16 {
        let task = self.queues[queue & 127].pop(&mut self.tasks);
        self.left(queue);
        task
    }

    #[inline(always)]
    pub fn length(&self, queue: usize) -> usize {
        self.queues[queue & 127].length
    }

    pub fn leave_queue(&mut self, task: u16) {
        let queue = self.tasks.of(task).queue;
        if queue != NOWHERE {
            self.queues[usize::from(queue) & 127].remove(&mut self.tasks, task);
            self.left(queue.into());
        }
    }

    /// A task comes into a queue, as the insert wants it to.
    pub fn enter(&mut self, task: u16, insert: Insert) {
        self.notes.insert(task, insert.queue);
        let record = self.tasks.at(task);
        if insert.slice != 0 {
            record.slice = insert.slice;
        } else if insert.queue != HELD {
            self.notes.keeps_slice(task);
        }
        match insert.vtime {
            Some(vtime) => {
                record.vtime = vtime;
                self.push_by_vtime(insert.queue, task, vtime);
            }
            None => self.push(insert.queue, task),
        }
    }

    // ---- groups

    fn slot(&self, group: usize) -> usize {
        self.groups[group].parent.map_or(0, |parent| parent + 1)
    }

    pub fn wake(&mut self, task: u16) {
        self.notes.wake(task);
        let record = self.tasks.at(task);
        (record.since, record.is_runnable) = (self.clock, true);
        let mut at = Some(usize::from(record.group));
        while let Some(group) = at {
            let slot = self.slot(group);
            let facts = &mut self.groups[group];
            if facts.runnable == 0 {
                self.sums[slot] += facts.weight;
            }
            facts.runnable += 1;
            at = facts.parent;
        }
    }

    pub fn sleep(&mut self, task: u16) {
        let record = self.tasks.at(task);
        (record.since, record.is_runnable) = (NEVER, false);
        let mut at = Some(usize::from(record.group));
        while let Some(group) = at {
            let slot = self.slot(group);
            let facts = &mut self.groups[group];
            facts.runnable -= 1;
            if facts.runnable == 0 {
                self.sums[slot] -= facts.weight;
            }
            at = facts.parent;
        }
    }

    pub fn set_weight(&mut self, group: usize, weight: u32) {
        let slot = self.slot(group);
        let facts = &mut self.groups[group];
        if facts.runnable > 0 {
            self.sums[slot] = self.sums[slot] - facts.weight + u64::from(weight);
        }
        facts.weight = weight.into();
        self.notes.weight(group, weight);
    }

    /// The task's share in parts of 10,000, itself counted as runnable; at least 1.
    pub fn weight(&self, task: u16) -> u64 {
        let record = self.tasks.of(task);
        let home = usize::from(record.group);
        let mut part = 10_000;
        let mut whole = self.groups[home].runnable + u64::from(!record.is_runnable);
        let mut at = Some(home);
        while let Some(group) = at {
            let facts = &self.groups[group];
            let siblings = self.sums[self.slot(group)] + if facts.runnable == 0 { facts.weight } else { 0 };
            // A part is at most 10,000 to the fourth, so beside a whole that is too large it is nothing.
            (part, whole) = (part * facts.weight, siblings.saturating_mul(whole));
            at = facts.parent;
        }
        (part / whole).max(1)
    }

    pub fn use_ms(&mut self, task: u16) {
        let mut at = Some(usize::from(self.tasks.of(task).group));
        while let Some(group) = at {
            self.groups[group].used += 1;
            at = self.groups[group].parent;
        }
    }

    pub fn is_throttled(&self, task: u16) -> bool {
        let mut at = Some(usize::from(self.tasks.of(task).group));
        while let Some(group) = at {
            let facts = &self.groups[group];
            if facts.used >= facts.quota {
                return true;
            }
            at = facts.parent;
        }
        false
    }

    /// Whether a period of a group that is throttled begins at this clock.
    pub fn begin_periods(&mut self) -> bool {
        if self.clock % self.beat != 0 {
            return false;
        }
        let mut frees = false;
        for group in self.groups.iter_mut().filter(|group| self.clock % group.period == 0) {
            frees |= group.used >= group.quota;
            group.used = 0;
        }
        frees
    }

    // ---- waits

    /// Who waits longer than the policy may let one wait; of several the first.
    #[inline(always)]
    pub fn overdue(&mut self) -> Option<u16> {
        if self.clock - self.oldest <= self.timeout_ms { None } else { self.first_overdue() }
    }

    #[inline(never)]
    fn first_overdue(&mut self) -> Option<u16> {
        let waits = (0..self.count).map(|task| self.tasks.of(task).since);
        self.oldest = waits.clone().min().unwrap_or(NEVER).min(self.clock);
        let overdue = |since: u64| since != NEVER && self.clock - since > self.timeout_ms;
        (0..self.count).find(|task| overdue(self.tasks.of(*task).since))
    }

    /// A task comes to wait for the built-in scheduler.
    pub fn enter_builtin(&mut self, task: u16) {
        self.notes.insert(task, BUILTIN);
        let record = self.tasks.at(task);
        record.builtin = record.builtin.max(self.builtin_clock.saturating_sub(DEFAULT_SLICE));
        record.slice = DEFAULT_SLICE;
        let vtime = record.builtin;
        self.push_by_vtime(BUILTIN, task, vtime);
    }

    // ---- processors

    #[inline(always)]
    pub fn is_idle(&self, cpu: u32) -> bool {
        (self.busy | self.cycling) >> (cpu & 63) & 1 == 0
    }

    pub fn default_choice(&self, task: u16) -> u32 {
        let before = u32::from(self.tasks.of(task).prev_cpu);
        let taken = self.busy | self.cycling;
        if self.is_idle(before) || taken == u64::MAX { before } else { (!taken).trailing_zeros() }
    }

    /// A task leaves its processor, and waits from now on.
    #[inline(always)]
    pub fn stop(&mut self, task: u16, cpu: u32) {
        self.notes.stop(task, cpu);
        self.catch_up(cpu);
        self.tasks.at(task).since = self.clock;
        self.running[cpu as usize & 63] = NOBODY;
        self.busy &= !(1 << (cpu & 63));
    }

    /// The front of the processor's own queue runs.
    #[inline(always)]
    pub fn start(&mut self, cpu: u32) -> u16 {
        let task = self.pop(LOCAL + cpu as usize);
        let record = self.tasks.at(task);
        (record.since, record.prev_cpu) = (NEVER, cpu as u16);
        self.running[cpu as usize & 63] = task;
        self.busy |= 1 << (cpu & 63);
        self.accounted[cpu as usize & 63] = self.ticks(cpu);
        self.notes.run(task, cpu);
        task
    }

    // ---- ticks

    /// The ticks that a CPU had.
    #[inline(always)]
    fn ticks(&self, cpu: u32) -> u64 {
        self.clock + u64::from(cpu < self.ticked)
    }

    /// The task of a CPU is given the ticks that were left out.
    #[inline(always)]
    pub fn catch_up(&mut self, cpu: u32) {
        if N::IS_DRIVEN {
            let ticks = self.ticks(cpu);
            let ran = ticks - std::mem::replace(&mut self.accounted[cpu as usize & 63], ticks);
            self.tasks.at(self.running[cpu as usize & 63]).run(ran);
        }
    }

    /// The same of a task that may run.
    #[inline(always)]
    fn account(&mut self, task: u16) {
        let cpu = self.tasks.of(task).prev_cpu;
        if self.running[usize::from(cpu) & 63] == task {
            self.catch_up(cpu.into());
        }
    }

    pub fn set_slice(&mut self, task: u16, slice: u64) {
        self.account(task);
        self.tasks.at(task).slice = slice;
        let cpu = self.tasks.of(task).prev_cpu;
        if self.running[usize::from(cpu) & 63] == task {
            self.plan(cpu.into());
        }
    }

    /// Files a CPU whose task has all its ticks under the millisecond of the next one that counts.
    #[inline(always)]
    pub fn plan(&mut self, cpu: u32) {
        let record = self.tasks.of(self.running[cpu as usize & 63]);
        let rest = record.slice.min(record.ends.saturating_sub(record.run_ns)).min(LONGEST_PLAN);
        let ms = self.accounted[cpu as usize & 63] + u64::from(rest.saturating_sub(1) as u32 / 1_000_000);
        self.due[(ms % Calendar::DAYS) as usize] |= 1 << (cpu & 63);
        self.days.mark(ms);
    }

    // ---- saved states

    /// The places of queues in which tasks may wait.
    pub fn places(&self) -> impl Iterator<Item = usize> + use<N> {
        (0..self.own).chain(GLOBAL..=PARKED).chain(LOCAL..LOCAL + self.cpus as usize)
    }

    pub fn weights(&self) -> impl Iterator<Item = u64> + use<'_, N> {
        self.groups.iter().map(|group| group.weight)
    }

    /// What each group used of its quota.
    pub fn usages(&self) -> impl Iterator<Item = u64> + use<'_, N> {
        self.groups.iter().map(|group| group.used)
    }

    pub fn save(&self) -> Saved<N>
    where
        N: Clone,
    {
        Saved {
            notes: self.notes.clone(),
            clock: self.clock,
            maps: self.maps.bytes.clone(),
            tasks: (0..self.count).map(|task| *self.tasks.of(task)).collect(),
            running: self.running[..self.cpus as usize].to_vec(),
            busy: self.busy,
            queues: self.places().map(|place| self.queues[place].clone()).collect(),
            pushes: self.pushes,
            groups: self.groups.clone(),
            sums: self.sums.clone(),
            oldest: self.oldest,
        }
    }

    /// The world is as it was, and the policy is in force.
    pub fn restore(&mut self, saved: &Saved<N>)
    where
        N: Clone,
    {
        self.notes.clone_from(&saved.notes);
        self.clock = saved.clock;
        self.maps.bytes.copy_from_slice(&saved.maps);
        for (number, task) in saved.tasks.iter().enumerate() {
            *self.tasks.at(number as u16) = *task;
        }
        self.running[..self.cpus as usize].copy_from_slice(&saved.running);
        self.busy = saved.busy;
        for (place, queue) in self.places().zip(&saved.queues) {
            self.queues[place].clone_from(queue);
        }
        self.pushes = saved.pushes;
        self.groups.clone_from(&saved.groups);
        self.sums.clone_from(&saved.sums);
        self.oldest = saved.oldest;
        (self.ejected, self.builtin_clock) = (None, 0);
        let waiting = (0..LOCAL).filter(|queue| is_open(*queue));
        self.waiting = waiting.map(|queue| self.length(queue)).sum();
    }

    // ---- helper calls

    #[inline(always)]
    pub fn begin(&mut self, callback: Callback, task: u16, cpu: u32) {
        self.call = Call { callback, task, cpu, insert: None, has_moved: false, fault: None };
    }

    #[inline(always)]
    fn answer(&mut self, answer: Result<u64, Fault>) -> u64 {
        answer.unwrap_or_else(|fault| {
            if self.call.fault.is_none() {
                self.call.fault = Some(fault);
            }
            INVALID
        })
    }

    /// The place of a queue of the policy.
    #[inline(always)]
    fn own(&self, id: u64) -> Result<usize, Fault> {
        let found = self.queues[..self.own & 31].iter().position(|queue| queue.id == id);
        found.ok_or(Fault::NoQueue)
    }

    /// The place of a queue into which a policy inserts.
    #[inline(always)]
    fn place(&self, id: u64) -> Result<usize, Fault> {
        match id {
            _ if id < OWN_END => self.own(id),
            GLOBAL_ID => Ok(GLOBAL),
            LOCAL_ID => Ok(LOCAL_HERE),
            _ if id < LOCAL_ON => Err(Fault::NoQueue),
            _ if id - LOCAL_ON < self.cpus.into() => Ok(LOCAL + (id - LOCAL_ON) as usize),
            _ if id - LOCAL_ON < 1 << 32 => Err(Fault::NoCpu),
            _ => Err(Fault::NoQueue),
        }
    }

    fn may_insert(&self, task: u16) -> bool {
        match self.call.callback {
            Callback::SelectCpu | Callback::Enqueue => self.call.insert.is_none() && task == self.call.task,
            Callback::Dispatch => usize::from(self.tasks.of(task).queue) == HELD,
            _ => false,
        }
    }

    #[inline(always)]
    fn insert(&mut self, given: &[u64; 11], vtime: Option<u64>, flags: u64) -> Result<u64, Fault> {
        let [_, pointer, id, slice, ..] = *given;
        let task = task_of(pointer);
        if !self.may_insert(task) {
            return Err(Fault::CannotInsert);
        }
        if flags > 1 {
            return Err(Fault::UnknownFlag);
        }
        let queue = self.place(id)?;
        if vtime.is_some() && id >= OWN_END {
            return Err(Fault::BuiltinVtime);
        }
        let others = &self.queues[queue & 127];
        if others.length > 0 && others.is_by_vtime != vtime.is_some() {
            return Err(Fault::Mixed);
        }
        let insert = Insert { queue, slice, vtime };
        if self.call.callback == Callback::Dispatch {
            self.leave_queue(task);
            self.enter(task, insert.for_cpu(self.call.cpu));
            self.call.has_moved = true;
        } else {
            self.call.insert = Some(insert);
        }
        Ok(0)
    }

    fn create(&mut self, id: u64) -> Result<u64, Fault> {
        let is_free = id < OWN_END && self.own < GLOBAL && self.own(id).is_err();
        if !is_free {
            return Err(Fault::CannotCreate);
        }
        self.queues[self.own].id = id;
        self.notes.queue(self.own, id);
        self.own += 1;
        Ok(0)
    }

    #[inline(always)]
    fn move_to_local(&mut self, id: u64) -> Result<u64, Fault> {
        let queue = self.own(id)?;
        if self.length(queue) == 0 {
            return Ok(0);
        }
        let (task, cpu) = (self.pop(queue), self.call.cpu);
        self.push(LOCAL + cpu as usize, task);
        self.call.has_moved = true;
        self.notes.moved(task, cpu);
        Ok(1)
    }

    fn ask_idle(&self, cpu: u64) -> Result<u64, Fault> {
        if cpu < self.cpus.into() { Ok(self.is_idle(cpu as u32).into()) } else { Err(Fault::NoCpu) }
    }
}

/// The number of the task to which a pointer points.
#[inline(always)]
fn task_of(pointer: u64) -> u16 {
    (pointer as u16).wrapping_sub(1)
}

impl<N: Notes> Host for World<N> {
    #[inline(always)]
    fn load(&mut self, pointer: u64, field: Field) -> u64 {
        let task = task_of(pointer);
        if matches!(field, Field::Slice | Field::RunNs) {
            self.account(task);
        }
        let record = self.tasks.of(task);
        match field {
            Field::Pid => pointer,
            Field::Weight => self.weight(task),
            Field::Slice => record.slice,
            Field::Vtime => record.vtime,
            Field::PrevCpu => record.prev_cpu.into(),
            Field::Group => record.group.into(),
            Field::RunNs => record.run_ns,
        }
    }

    #[inline(always)]
    fn store(&mut self, pointer: u64, field: Field, number: u64) {
        let task = task_of(pointer);
        if field == Field::Vtime {
            self.tasks.at(task).vtime = number;
        } else {
            self.set_slice(task, number);
        }
    }

    #[inline(always)]
    fn call(&mut self, helper: i32, given: &[u64; 11]) -> u64 {
        let answer = match helper {
            5 => Ok(self.clock * 1_000_000),
            1001 => self.create(given[1]),
            1002 => self.insert(given, None, given[4]),
            1003 => self.insert(given, Some(given[4]), given[5]),
            1004 => self.move_to_local(given[1]),
            1005 => Ok(self.default_choice(task_of(given[1])).into()),
            1006 => self.ask_idle(given[1]),
            1007 => Ok(if given[1] <= self.count.into() { given[1] } else { 0 }),
            _ => self.own(given[1]).map(|queue| self.length(queue) as u64),
        };
        self.answer(answer)
    }

    #[inline(always)]
    fn look_up(&mut self, map: u64, key: u32) -> u64 {
        self.maps.look_up(map, key)
    }
}

//! A whole simulator in plain Rust: it reads a policy and a workload file, and writes the trace or the report as
//! `scxsim run` and `scxsim report` do, byte for byte. Its programs are verified and threaded, a step takes no memory but
//! for rare lines of a trace, and ticks that change nothing are left out.

use crate::plain_driver::Driver;
use crate::plain_files::{Policy, Workload};
use crate::plain_notes::{BUILTIN, GLOBAL, HELD, LOCAL, Notes, PARKED, Silence, Trace};
use crate::plain_tasks::{DEFAULT_SLICE, NEVER, NOBODY, NOWHERE};
use crate::plain_run::{Op, run};
use crate::plain_slots::{CALL, Slot, WIDE};
use crate::plain_verify::{CALLBACKS, Callback, Callback::*, verify};
use crate::plain_world::{Eject, Fault, Insert, World};
use crate::plain_text;
use std::io::{self, Write};

const TICK: u64 = 1_000_000;

/// The programs of a policy, empty where there is none, and the world that they see.
pub struct Machine<N> {
    code: [Vec<Slot>; 7],
    programs: [Vec<Op<World<N>>>; 7],
    /// Dispatch finds nothing where no task waits.
    only_moves: bool,
    pub world: World<N>,
}

/// The pid of a task, which is its pointer, too; 0 for nobody.
fn pid(task: u16) -> u64 {
    task.wrapping_add(1).into()
}

/// The slots and the operations of each program of a policy.
type Programs<N> = ([Vec<Slot>; 7], [Vec<Op<World<N>>>; 7]);

fn programs<N: Notes>(policy: &Policy) -> Result<Programs<N>, String> {
    let (mut code, mut ops) = ([const { Vec::new() }; 7], [const { Vec::new() }; 7]);
    let sizes: Vec<u16> = policy.maps.iter().map(|map| map.value_size as u16).collect();
    for (key, text) in &policy.texts {
        let known = CALLBACKS.iter().find(|(_, name)| name == key);
        let (callback, _) = *known.ok_or_else(|| format!("policy code.{key}: unknown"))?;
        let slots = plain_text::assemble(text).ok_or_else(|| format!("policy code.{key}: no program"))?;
        let found = verify(&slots, callback, &sizes);
        ops[callback as usize] = found.map_err(|(why, slot)| format!("policy code.{key}: {why:?} at {slot}"))?;
        code[callback as usize] = slots;
    }
    Ok((code, ops))
}

/// True if what the slot does depends on registers and lengths of queues alone.
fn is_of_moves(slot: Slot) -> bool {
    match slot.opcode() {
        CALL => matches!(slot.immediate(), 1004 | 1008),
        WIDE => slot.source() == 0,
        opcode => slot.is_second_half() || matches!(opcode & 7, 4..=7),
    }
}

impl<N: Notes> Machine<N> {
    /// After init, and after enable of each task.
    pub fn new(notes: N, policy: &Policy, workload: &Workload) -> Result<Machine<N>, String> {
        let world = World::new(notes, policy, workload);
        let (code, programs) = programs(policy)?;
        let only_moves = code[Dispatch as usize].iter().all(|slot| is_of_moves(*slot));
        let mut machine = Machine { code, programs, only_moves, world };
        if machine.programs[Dispatch as usize].is_empty() {
            machine.world.asked = u64::MAX;
        }
        let answer = machine.begin_with(Init, 0);
        if answer != 0 {
            return Err(format!("init {}", answer as i64));
        }
        for task in 0..machine.world.count {
            machine.begin_with(Enable, task);
            if machine.world.call.fault.is_some() {
                return Err("init -22".to_string());
            }
        }
        Ok(machine)
    }

    /// The slots of all programs.
    pub fn slots(&self) -> impl Iterator<Item = (Callback, Slot)> + use<'_, N> {
        let callbacks = CALLBACKS.iter().map(|(callback, _)| *callback);
        callbacks.zip(&self.code).flat_map(|(callback, code)| code.iter().map(move |slot| (callback, *slot)))
    }

    /// Runs a program, if there is one, and answers its r0.
    #[inline(always)]
    fn run(&mut self, callback: Callback, given: [u64; 3]) -> u64 {
        let program = &self.programs[callback as usize];
        let (answer, instructions) = run(program, given, &mut self.world);
        self.world.notes.ran(callback, instructions);
        answer
    }

    /// What a callback answers before the policy is in force; -22 where it has a fault.
    fn begin_with(&mut self, callback: Callback, task: u16) -> u64 {
        self.world.begin(callback, task, 0);
        let is_there = !self.programs[callback as usize].is_empty();
        let answer = if is_there { self.run(callback, [pid(task), 0, 0]) } else { 0 };
        if self.world.call.fault.is_none() { answer } else { -22i64 as u64 }
    }

    /// Runs a callback while the policy is in force, and answers what its program does; else 0.
    #[inline(always)]
    fn call_back(&mut self, callback: Callback, given: [u64; 3], task: u16, cpu: u32) -> u64 {
        self.world.begin(callback, task, cpu);
        if self.programs[callback as usize].is_empty() || self.world.ejected.is_some() {
            return 0;
        }
        let answer = self.run(callback, given);
        if callback == SelectCpu && self.world.call.fault.is_none() && answer >= self.world.cpus.into() {
            self.world.call.fault = Some(Fault::NoCpu);
        }
        if let Some(fault) = self.world.call.fault {
            self.eject(Eject::Fault(fault as u8, self.world.clock));
        }
        answer
    }

    fn has_local(&self, cpu: u32) -> bool {
        self.world.length(LOCAL + cpu as usize) != 0
    }

    // ---- ejection

    /// The policy is out of force, and who waits goes to the built-in scheduler.
    #[cold]
    #[inline(never)]
    fn eject(&mut self, why: Eject) {
        let world = &mut self.world;
        match why {
            Eject::Stall(task, _) => world.notes.stall(task),
            Eject::Fault(fault, _) => world.notes.fault(fault),
        }
        world.ejected = Some(why);
        (world.call.insert, world.call.has_moved) = (None, false);
        world.asked = u64::MAX;
        for task in 0..world.count {
            let queue = world.tasks.of(task).queue;
            if queue != NOWHERE && usize::from(queue) != PARKED {
                world.leave_queue(task);
                world.enter_builtin(task);
            }
        }
        for cpu in 0..world.cpus as usize {
            let task = world.running[cpu & 63];
            if task != NOBODY {
                world.catch_up(cpu as u32);
                let record = world.tasks.at(task);
                record.slice = record.slice.min(DEFAULT_SLICE);
                world.plan(cpu as u32);
            }
        }
    }

    fn charge(&mut self, task: u16) {
        let weight = self.world.weight(task);
        let record = self.world.tasks.at(task);
        let gone = DEFAULT_SLICE.saturating_sub(record.slice);
        record.builtin = record.builtin.saturating_add(gone * 100 / weight);
    }

    // ---- quotas

    fn park(&mut self, task: u16) {
        self.world.notes.insert(task, PARKED);
        self.world.tasks.at(task).since = NEVER;
        self.world.push(PARKED, task);
    }

    /// The front of a queue is parked if it may not run, and else false is answered.
    fn park_front(&mut self, queue: usize) -> bool {
        if self.world.length(queue) == 0 || !self.world.is_throttled(self.world.queues[queue].front()) {
            return false;
        }
        let task = self.world.pop(queue);
        self.park(task);
        true
    }

    /// Parked tasks that may run again are put as for where they ran last.
    #[inline(never)]
    fn let_go(&mut self) {
        let mut left = self.world.length(PARKED);
        let mut task = self.world.queues[PARKED].first;
        while left > 0 {
            let next = self.world.queues[PARKED].behind(&self.world.tasks, task);
            if !self.world.is_throttled(task) {
                self.world.tasks.at(task).since = self.world.clock;
                self.world.leave_queue(task);
                self.put(task, self.world.tasks.of(task).prev_cpu.into(), 0);
            }
            (left, task) = (left - 1, next);
        }
    }

    // ---- a cycle

    /// Where the processor's own queue is empty, the front of another comes to it.
    #[inline(always)]
    fn fill(&mut self, queue: usize, cpu: u32) {
        if !self.has_local(cpu) && self.world.length(queue) != 0 {
            let task = self.world.pop(queue);
            self.world.push(LOCAL + cpu as usize, task);
            self.world.notes.moved(task, cpu);
        }
    }

    /// The processor's own queue comes to have a front that may run, or stays empty.
    #[inline(always)]
    fn supply(&mut self, cpu: u32) {
        self.fill(GLOBAL, cpu);
        while self.world.is_limited && self.park_front(LOCAL + cpu as usize) {
            self.fill(GLOBAL, cpu);
        }
    }

    /// Asks enqueue where the task is to wait, and puts it there.
    fn put(&mut self, task: u16, cpu: u32, flags: u64) {
        self.call_back(Enqueue, [pid(task), flags, 0], task, cpu);
        if self.world.ejected.is_some() {
            return self.world.enter_builtin(task);
        }
        let insert = match self.world.call.insert {
            Some(insert) => insert.for_cpu(cpu),
            None if self.programs[Enqueue as usize].is_empty() => Insert { queue: GLOBAL, slice: DEFAULT_SLICE, vtime: None },
            None => Insert { queue: HELD, slice: 0, vtime: None },
        };
        self.world.enter(task, insert);
    }

    /// A task stops.
    fn stop(&mut self, task: u16, cpu: u32, is_runnable: bool) {
        self.world.stop(task, cpu);
        if self.world.ejected.is_some() {
            self.charge(task);
        } else {
            self.call_back(Stopping, [pid(task), is_runnable.into(), 0], task, cpu);
        }
    }

    fn leave(&mut self, cpu: u32, before: u16) {
        if before != NOBODY {
            self.stop(before, cpu, true);
            self.put(before, cpu, 0);
        }
    }

    fn start(&mut self, cpu: u32) {
        let task = self.world.start(cpu);
        if self.world.ejected.is_some() {
            self.world.builtin_clock = self.world.builtin_clock.max(self.world.tasks.of(task).builtin);
        } else {
            self.call_back(Running, [pid(task), 0, 0], task, cpu);
        }
        self.world.plan(cpu);
    }

    /// Nobody comes: the task before stays, or the processor is idle.
    #[inline(always)]
    fn rest(&mut self, cpu: u32, before: u16, ran: bool) {
        if before != NOBODY {
            let record = self.world.tasks.at(before);
            if record.slice == 0 {
                record.slice = DEFAULT_SLICE;
            }
        } else if ran {
            self.world.notes.idle(cpu);
        }
    }

    /// A cycle of the built-in scheduler.
    #[cold]
    #[inline(never)]
    fn builtin_cycle(&mut self, cpu: u32, before: u16, ran: bool) {
        self.supply(cpu);
        if !self.has_local(cpu) {
            while self.world.is_limited && self.park_front(BUILTIN) {}
            self.fill(BUILTIN, cpu);
        }
        if self.has_local(cpu) {
            self.leave(cpu, before);
            self.start(cpu);
        } else {
            self.rest(cpu, before, ran);
        }
    }

    fn pick(&mut self, cpu: u32, before: u16, ran: bool) {
        self.leave(cpu, before);
        if self.has_local(cpu) {
            self.start(cpu);
        } else {
            self.builtin_cycle(cpu, NOBODY, ran);
        }
    }

    /// Asks dispatch as long as it moves a task, and none comes, at most 32 times.
    #[inline(always)]
    fn dispatch(&mut self, cpu: u32, before: u16) {
        for _ in 0..32 {
            self.call_back(Dispatch, [cpu.into(), pid(before), 0], 0, cpu);
            self.supply(cpu);
            if self.has_local(cpu) {
                return;
            }
            if !self.world.call.has_moved {
                let found_nothing = before == NOBODY && self.world.waiting == 0;
                self.world.asked |= u64::from(found_nothing) << (cpu & 63);
                return;
            }
        }
    }

    #[inline(always)]
    fn seek(&mut self, cpu: u32, before: u16, ran: bool) {
        self.supply(cpu);
        if !self.has_local(cpu) && !self.programs[Dispatch as usize].is_empty() {
            self.dispatch(cpu, before);
        }
        if self.world.ejected.is_some() {
            self.builtin_cycle(cpu, before, ran);
        } else if self.has_local(cpu) {
            self.pick(cpu, before, ran);
        } else {
            self.rest(cpu, before, ran);
        }
    }

    /// A processor seeks the task that it runs next; one ran there as the event began, or none.
    #[inline(never)]
    fn cycle(&mut self, cpu: u32, before: u16, ran: bool) {
        self.world.cycling = 1 << (cpu & 63);
        if self.world.ejected.is_some() {
            self.builtin_cycle(cpu, before, ran);
        } else {
            self.seek(cpu, before, ran);
        }
        self.world.cycling = 0;
    }

    // ---- events

    /// For which processor a task is put that woke.
    fn target(&mut self, task: u16) -> u32 {
        let before = self.world.tasks.of(task).prev_cpu;
        let answer = self.call_back(SelectCpu, [pid(task), before.into(), 0], task, before.into());
        if self.world.ejected.is_some() || self.programs[SelectCpu as usize].is_empty() {
            return self.world.default_choice(task);
        }
        answer as u32
    }

    pub fn wake(&mut self, task: u16) {
        self.world.wake(task);
        let cpu = self.target(task);
        match self.world.call.insert {
            Some(insert) => self.world.enter(task, insert.for_cpu(cpu)),
            None => self.put(task, cpu, 1),
        }
        if self.world.is_idle(cpu) {
            self.cycle(cpu, NOBODY, false);
        }
    }

    pub fn sleep(&mut self, task: u16) {
        self.world.notes.sleep(task);
        let cpu = self.world.tasks.of(task).prev_cpu.into();
        if self.world.running[cpu as usize & 63] == task {
            self.stop(task, cpu, false);
            self.world.sleep(task);
            self.cycle(cpu, NOBODY, true);
        } else {
            self.world.leave_queue(task);
            self.world.sleep(task);
        }
    }

    #[inline(never)]
    fn throttle(&mut self, task: u16, cpu: u32) {
        self.stop(task, cpu, true);
        self.park(task);
        self.cycle(cpu, NOBODY, true);
    }

    /// A processor ran for a millisecond. Its task is answered where that has run enough, and goes to sleep.
    #[inline(always)]
    pub fn tick(&mut self, cpu: u32) -> Option<u16> {
        let task = self.world.running[cpu as usize & 63];
        if task == NOBODY {
            if !self.is_quiet(cpu) {
                self.cycle(cpu, NOBODY, false);
            }
            return None;
        }
        if N::IS_DRIVEN {
            self.world.catch_up(cpu);
        } else {
            self.world.tasks.at(task).run(1);
        }
        let record = self.world.tasks.of(task);
        let (slice, is_enough) = (record.slice, record.run_ns >= record.ends);
        if self.world.is_limited {
            self.world.use_ms(task);
        }
        if self.world.is_limited && self.world.is_throttled(task) {
            self.throttle(task, cpu);
        } else if slice == 0 {
            self.cycle(cpu, task, true);
        }
        if self.world.running[cpu as usize & 63] == task {
            self.world.plan(cpu);
        }
        is_enough.then_some(task)
    }

    /// True if an idle CPU has no queue and no program to ask.
    #[inline(always)]
    fn is_quiet(&self, cpu: u32) -> bool {
        let asks = !self.programs[Dispatch as usize].is_empty() || self.world.ejected.is_some();
        !asks && !self.has_local(cpu) && self.world.length(GLOBAL) == 0
    }

    /// Bits for the CPUs that tick although none of their tasks is due.
    #[inline(always)]
    pub fn asking(&self) -> u64 {
        let world = &self.world;
        let idle = !world.busy;
        if world.is_limited {
            u64::MAX >> (64 - world.cpus)
        } else if world.waiting > 0 || !self.only_moves && world.ejected.is_none() {
            idle
        } else {
            idle & (world.supplied | !world.asked)
        }
    }

    /// The last millisecond, from this one on, before which no clock counts.
    pub fn quiet_until(&self) -> u64 {
        let world = &self.world;
        if world.ejected.is_some() { NEVER } else { world.oldest + world.timeout_ms }
    }

    #[inline(always)]
    pub fn clock(&mut self) {
        self.world.clock += 1;
        self.world.ticked = 0;
        self.world.notes.clock(self.world.clock);
        if self.world.is_limited && self.world.begin_periods() {
            self.let_go();
        }
        if self.world.ejected.is_none() {
            if let Some(task) = self.world.overdue() {
                self.eject(Eject::Stall(task, self.world.clock));
            }
        }
    }
}

fn report<N: Notes>(machine: &Machine<N>, workload: &Workload) -> Vec<u8> {
    let world = &machine.world;
    let runs: Vec<u64> = (0..world.count).map(|task| world.tasks.of(task).run_ns / TICK).collect();
    let total: u64 = runs.iter().sum();
    let mut text = String::new();
    for (task, run) in workload.tasks.iter().zip(runs) {
        let share = (10_000 * run).checked_div(total).unwrap_or(0);
        text += &format!("task {} run {run} share {share}\n", task.name);
    }
    text += &format!("total {total}\n");
    text += &match world.ejected {
        None => "policy in force\n".to_string(),
        Some(Eject::Stall(task, clock)) => format!("policy ejected stall {} at {clock}\n", workload.tasks[usize::from(task)].name),
        Some(Eject::Fault(fault, clock)) => format!("policy ejected fault {fault} at {clock}\n"),
    };
    text.into_bytes()
}

fn go<N: Notes>(notes: N, policy: &Policy, workload: &Workload) -> Result<Machine<N>, String> {
    let mut machine = Machine::new(notes, policy, workload)?;
    Driver::new(workload).go(&mut machine);
    Ok(machine)
}

/// Writes the trace, or the report, of a workload under a policy; or answers why not.
pub fn simulate(command: &str, policy: &str, workload: &str) -> Result<(), String> {
    let policy = Policy::read(policy).map_err(|fault| format!("policy line {}: {}", fault.line, fault.why))?;
    let workload = Workload::read(workload).map_err(|fault| format!("workload line {}: {}", fault.line, fault.why))?;
    let failed = |error: io::Error| error.to_string();
    if command == "run" {
        let names: Vec<&str> = workload.tasks.iter().map(|task| task.name.as_str()).collect();
        let groups: Vec<&str> = workload.groups.iter().map(|group| group.name.as_str()).collect();
        let trace = Trace::new(&names, &groups).map_err(failed)?;
        go(trace, &policy, &workload)?.world.notes.flush();
        return Ok(());
    }
    let mut machine = go(Silence, &policy, &workload)?;
    for cpu in (0..machine.world.cpus).filter(|cpu| machine.world.running[*cpu as usize] != NOBODY).collect::<Vec<u32>>() {
        machine.world.catch_up(cpu);
    }
    io::stdout().write_all(&report(&machine, &workload)).map_err(failed)
}

//! Gives a machine the events of a workload. A calendar has the milliseconds at which tasks wake, and another those in
//! which the tick of a CPU may change something. All others are left out.

use crate::plain_files::{Change, Task, Workload};
use crate::plain_machine::Machine;
use crate::plain_notes::Notes;
use crate::plain_tasks::{Calendar, NEVER, Set};

const TICK: u64 = 1_000_000;
const DAYS: u64 = Calendar::DAYS;

struct Timing {
    /// When it wakes next.
    due: u64,
    /// How long it runs, in nanoseconds, and then sleeps.
    run: u64,
    sleep: u64,
}

/// The tasks that wake at milliseconds of that remainder, and the soonest of these.
#[derive(Clone, Copy)]
struct Day {
    there: Set,
    soonest: u64,
}

impl Day {
    const EMPTY: Day = Day { there: Set::EMPTY, soonest: NEVER };

    fn insert(&mut self, task: u16, due: u64) {
        self.there.insert(task);
        self.soonest = self.soonest.min(due);
    }
}

pub struct Driver {
    cpus: u32,
    ms: u64,
    timings: Vec<Timing>,
    days: Vec<Day>,
    wakes: Calendar,
    /// Changes of weights that are to come, the last first.
    changes: Vec<Change>,
}

impl Driver {
    pub fn new(workload: &Workload) -> Driver {
        let mut changes = workload.changes.clone();
        changes.sort_by_key(|change| change.at);
        changes.reverse();
        let timing = |task: &Task| Timing { due: task.start, run: TICK * task.run, sleep: task.sleep };
        let timings: Vec<Timing> = workload.tasks.iter().map(timing).collect();
        let mut days = vec![Day::EMPTY; DAYS as usize];
        let mut wakes = Calendar::EMPTY;
        for (task, timing) in timings.iter().enumerate() {
            days[(timing.due % DAYS) as usize].insert(task as u16, timing.due);
            wakes.mark(timing.due);
        }
        Driver { cpus: workload.cpus, ms: workload.ms, timings, days, wakes, changes }
    }

    #[inline(always)]
    fn change<N: Notes>(&mut self, machine: &mut Machine<N>, now: u64) {
        while let Some(change) = self.changes.last().copied().filter(|change| change.at == now) {
            machine.world.set_weight(change.group, change.weight);
            self.changes.pop();
        }
    }

    #[inline(never)]
    fn wake<N: Notes>(&mut self, machine: &mut Machine<N>, now: u64) {
        let day = (now % DAYS) as usize;
        let Day { mut there, .. } = std::mem::replace(&mut self.days[day], Day::EMPTY);
        self.wakes.clear(now);
        while !there.is_empty() {
            let task = there.pop();
            let timing = &self.timings[usize::from(task)];
            if timing.due != now {
                self.days[day].insert(task, timing.due);
                self.wakes.mark(now);
                continue;
            }
            let record = machine.world.tasks.at(task);
            record.ends = if timing.run == 0 { NEVER } else { record.run_ns + timing.run };
            machine.wake(task);
        }
    }

    #[inline(never)]
    fn sleep<N: Notes>(&mut self, machine: &mut Machine<N>, mut tired: Set, now: u64) {
        while !tired.is_empty() {
            let task = tired.pop();
            let timing = &mut self.timings[usize::from(task)];
            timing.due = now + 1 + timing.sleep;
            self.days[(timing.due % DAYS) as usize].insert(task, timing.due);
            self.wakes.mark(timing.due);
            machine.sleep(task);
        }
    }

    /// Ticks that may change something. The tasks that ran enough are answered.
    #[inline(always)]
    fn tick<N: Notes>(&mut self, machine: &mut Machine<N>, now: u64) -> Set {
        let mut tired = Set::EMPTY;
        let day = (now % DAYS) as usize;
        let mut rest = u64::MAX;
        loop {
            let there = (machine.world.due[day] | machine.asking()) & rest;
            if there == 0 {
                break;
            }
            let cpu = there.trailing_zeros();
            rest = (u64::MAX << cpu) << 1;
            machine.world.ticked = cpu + 1;
            if let Some(task) = machine.tick(cpu) {
                tired.insert(task);
            }
        }
        machine.world.ticked = self.cpus;
        machine.world.due[day] = 0;
        machine.world.days.clear(now);
        tired
    }

    /// The next millisecond in which something may happen.
    #[inline(always)]
    fn next<N: Notes>(&self, machine: &Machine<N>, now: u64) -> u64 {
        if machine.asking() != 0 {
            return now;
        }
        let due = machine.world.days.next(now).min(self.wakes.next(now)).min(machine.quiet_until());
        let change = self.changes.last().map_or(NEVER, |change| change.at);
        due.min(change).min(self.ms).max(now)
    }

    /// All events, up to the end.
    pub fn go<N: Notes>(&mut self, machine: &mut Machine<N>) {
        let mut now = 0;
        while now < self.ms {
            self.change(machine, now);
            if self.days[(now % DAYS) as usize].soonest == now {
                self.wake(machine, now);
            }
            let tired = self.tick(machine, now);
            if !tired.is_empty() {
                self.sleep(machine, tired, now);
            }
            machine.clock();
            now += 1;
            let next = self.next(machine, now);
            if next > now {
                now = next;
                machine.world.clock = now;
                machine.world.notes.jump(now);
            }
        }
    }
}

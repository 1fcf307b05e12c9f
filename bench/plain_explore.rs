//! All lists of events of a policy's machine, the shorter ones first (docs/EXPLORE.md). It is written plainly, to
//! compare `scxsim explore` with: a machine is saved whole, and put back for each event. What is kept of a state
//! only says whether it was met before.
//!
//!   plain explore POLICY WORKLOAD events|ms DEPTH [FORM] [K]
//!
//! FORM says what is kept of a state: `all` (everything), `read` (without what no program reads), `slices` (also
//! without slices that an insert sets anew before they count), `alike` (also without who is who in a group; in
//! `events` alone) or `rows` (also without how long slices are, but for those that never end; in `events` alone, where no
//! program loads a slice or a run time and no group has a quota). With `rows` a CPU ticks until its task's slice ends, as
//! one step, and without K tasks of a workload with at most four are told apart. No list has more than K wakes and sleeps, if K is given.

use crate::plain_verify::CALLBACKS;
use crate::plain_files::{Policy, Workload};
use crate::plain_machine::Machine;
use crate::plain_notes::{GLOBAL, HELD};
use crate::plain_states::{Form, Watch, orders};
use crate::plain_tasks::{NEVER, NOBODY};
use crate::plain_world::{Eject, Saved};
use std::collections::HashSet;

#[derive(Clone, Copy, PartialEq)]
enum Event {
    Wake(u16),
    Sleep(u16),
    Tick(u32),
    Clock,
    /// The change of that number in the workload.
    Change(usize),
}

/// What leads from a state to another.
#[derive(Clone, Copy)]
enum Step {
    First,
    /// An event, and how often it comes in a row.
    One(Event, u64),
    /// Bits for the tasks that wake, and for those that go to sleep.
    Ms(u16, u16),
}

/// What is looked for.
#[derive(Clone, Copy, PartialEq)]
enum Sort {
    Fault(u8),
    Stall,
    Idle,
    Overtaken,
}

impl Sort {
    fn word(self) -> String {
        match self {
            Sort::Fault(fault) => format!("fault {fault}"),
            Sort::Stall => "stall".to_string(),
            Sort::Idle => "idle".to_string(),
            Sort::Overtaken => "overtaken".to_string(),
        }
    }
}

pub struct Words {
    pub ms: bool,
    pub depth: u64,
    pub form: String,
    pub few: Option<u64>,
}

impl Words {
    fn new(words: &[&str]) -> Option<Words> {
        let ms = match *words.first()? {
            "events" => false,
            "ms" => true,
            _ => return None,
        };
        let form = words.get(2).unwrap_or(&"read").to_string();
        let few = match words.get(3) {
            Some(few) => Some(few.parse().ok()?),
            None => None,
        };
        let is_known = ["all", "read", "slices", "alike", "rows"].contains(&form.as_str());
        is_known.then_some(Words { ms, depth: words.get(1)?.parse().ok()?, form, few })
    }
}

/// The most of something, and the list that shows it first.
#[derive(Clone, Default)]
struct Most {
    number: u64,
    depth: u64,
    list: Vec<Event>,
}

struct Search<'a> {
    machine: Machine<Watch>,
    workload: &'a Workload,
    words: Words,
    form: Form,
    orders: Vec<Vec<u16>>,
    met: HashSet<Box<[u8]>>,
    /// From which state a state was met first, and how.
    ways: Vec<(usize, Step)>,
    /// The states of the next depth, by their numbers.
    next: Vec<(usize, Saved<Watch>)>,
    depth: u64,
    events: u64,
    /// The state that is gone on from, and the events behind it.
    from: usize,
    behind: Vec<Event>,
    found: Vec<Sort>,
    longest: Most,
    /// The most instructions of each callback.
    most: [Most; 7],
}

impl Search<'_> {
    fn name(&self, task: u16) -> &str {
        &self.workload.tasks[usize::from(task)].name
    }

    fn word(&self, event: Event) -> String {
        match event {
            Event::Wake(task) => format!("wake {}", self.name(task)),
            Event::Sleep(task) => format!("sleep {}", self.name(task)),
            Event::Tick(cpu) => format!("tick {cpu}"),
            Event::Clock => "clock".to_string(),
            Event::Change(number) => {
                let change = self.workload.changes[number];
                format!("weight {} {}", self.workload.groups[change.group].name, change.weight)
            }
        }
    }

    fn tasks_in(&self, bits: u16) -> impl Iterator<Item = u16> + use<> {
        (0..16).filter(move |task| bits >> task & 1 == 1)
    }

    fn events_of(&self, step: Step) -> Vec<Event> {
        match step {
            Step::First => Vec::new(),
            Step::One(event, times) => vec![event; times as usize],
            Step::Ms(wakes, sleeps) => {
                let ticks = (0..self.workload.cpus).map(Event::Tick);
                let before = self.tasks_in(wakes).map(Event::Wake).chain(ticks);
                before.chain(self.tasks_in(sleeps).map(Event::Sleep)).chain([Event::Clock]).collect()
            }
        }
    }

    /// The events up to the one at hand.
    fn list(&self) -> Vec<Event> {
        let (mut steps, mut at) = (Vec::new(), self.from);
        while at != 0 {
            steps.push(self.ways[at].1);
            at = self.ways[at].0;
        }
        let before = steps.iter().rev().flat_map(|step| self.events_of(*step));
        before.chain(self.behind.iter().copied()).collect()
    }

    fn tell(&self, what: &str, depth: u64, list: &[Event]) {
        let words: Vec<String> = list.iter().map(|event| self.word(*event)).collect();
        println!("{what} depth {depth} events {}: {}", list.len(), words.join(", "));
    }

    fn find(&mut self, sort: Sort) {
        if !self.found.contains(&sort) {
            self.found.push(sort);
            self.tell(&format!("found {}", sort.word()), self.depth + 1, &self.list());
        }
    }

    /// The more of both, the one before where they are the same.
    fn more(&self, before: &Most, number: u64) -> Most {
        if number <= before.number {
            return before.clone();
        }
        Most { number, depth: self.depth + 1, list: self.list() }
    }

    /// Whether the processor is idle, while a task waits in a queue of the policy, or in none that it chose.
    fn is_idle_in_vain(&self, cpu: u32) -> bool {
        let world = &self.machine.world;
        let mut places = world.places().filter(|place| *place < GLOBAL || *place == HELD);
        world.running[cpu as usize] == NOBODY && places.any(|place| world.length(place) > 0)
    }

    /// What the event has led to.
    fn look(&mut self, event: Event) {
        for callback in 0..7 {
            self.most[callback] = self.more(&self.most[callback], self.machine.world.notes.most[callback]);
        }
        match (self.machine.world.ejected, event) {
            (Some(Eject::Fault(fault, _)), _) => return self.find(Sort::Fault(fault)),
            // Where no tick needs to be between clocks, every policy stalls.
            (Some(Eject::Stall(..)), _) if !self.words.ms => return,
            (Some(Eject::Stall(..)), _) => return self.find(Sort::Stall),
            (None, Event::Tick(cpu)) if self.is_idle_in_vain(cpu) => self.find(Sort::Idle),
            (None, Event::Clock) => self.longest = self.more(&self.longest, self.longest_wait()),
            _ => {}
        }
        if self.machine.world.notes.is_overtaken {
            self.find(Sort::Overtaken);
        }
    }

    fn longest_wait(&self) -> u64 {
        let world = &self.machine.world;
        let since = (0..world.count).map(|task| world.tasks.of(task).since).filter(|since| *since != NEVER).min();
        since.map_or(0, |since| world.clock - since)
    }

    /// Whether the policy is in force after the event.
    fn try_event(&mut self, event: Event) -> bool {
        self.events += 1;
        self.behind.push(event);
        let notes = &mut self.machine.world.notes;
        (notes.is_overtaken, notes.most) = (false, [0; 7]);
        match event {
            Event::Wake(task) => self.machine.wake(task),
            Event::Sleep(task) => self.machine.sleep(task),
            Event::Tick(cpu) => drop(self.machine.tick(cpu)),
            Event::Clock => self.machine.clock(),
            Event::Change(number) => {
                let change = self.workload.changes[number];
                self.machine.world.set_weight(change.group, change.weight);
            }
        }
        self.look(event);
        self.machine.world.ejected.is_none()
    }

    /// Once a task was overtaken twice, nobody asks any more who began to run.
    fn forget(&mut self) {
        if self.found.contains(&Sort::Overtaken) {
            self.machine.world.notes.began.iter_mut().for_each(|began| began.fill(false));
        }
    }

    /// The machine is at a state of the next depth.
    fn enter(&mut self, step: Step) {
        assert!(self.form.slices || !self.machine.world.notes.keeps_slice, "slices may not be left out here");
        self.forget();
        if self.met.insert(self.form.bytes(&self.machine, &self.orders)) {
            self.next.push((self.ways.len(), self.machine.world.save()));
            self.ways.push((self.from, step));
        }
    }

    /// Whether so many more wakes and sleeps may be.
    fn allows(&self, more: u32) -> bool {
        self.words.few.is_none_or(|few| self.machine.world.notes.choices + u64::from(more) <= few)
    }

    fn is_runnable(&self, task: u16) -> bool {
        self.machine.world.tasks.of(task).is_runnable
    }

    /// Each weight that a group may come to have, once.
    fn changes(&self) -> impl Iterator<Item = usize> + use<'_> {
        let what = |number: &usize| (self.workload.changes[*number].group, self.workload.changes[*number].weight);
        let is_first = move |number: &usize| (0..*number).all(|before| what(&before) != what(number));
        (0..self.workload.changes.len()).filter(is_first)
    }

    fn accepted(&self) -> Vec<Event> {
        let world = &self.machine.world;
        let mut events = Vec::new();
        for task in 0..if self.allows(1) { world.count } else { 0 } {
            let is_same = |other: u16| !self.is_runnable(other) && self.form.are_same(&self.machine, other, task);
            if self.is_runnable(task) {
                events.push(Event::Sleep(task));
            } else if !(0..task).any(is_same) {
                events.push(Event::Wake(task));
            }
        }
        events.extend((0..world.cpus).map(Event::Tick));
        events.extend(self.changes().map(Event::Change));
        events.push(Event::Clock);
        events
    }

    /// How often the event comes in a row: a tick until the slice of the CPU's task ends, where slices are left out.
    fn times(&self, event: Event) -> u64 {
        let (world, Event::Tick(cpu)) = (&self.machine.world, event) else {
            return 1;
        };
        let task = world.running[cpu as usize];
        if !self.form.rows || task == NOBODY || world.tasks.of(task).slice == u64::MAX {
            return 1;
        }
        world.tasks.of(task).slice.div_ceil(1_000_000).max(1)
    }

    fn go_through_events(&mut self, state: &Saved<Watch>) {
        self.machine.world.restore(state);
        self.forget();
        for event in self.accepted() {
            self.machine.world.restore(state);
            self.behind.clear();
            let times = self.times(event);
            if (0..times).all(|_| self.try_event(event)) {
                self.enter(Step::One(event, times));
            }
        }
    }

    /// All sets of tasks that are runnable, or that aren't, as bits.
    fn sets(&self, are_runnable: bool) -> impl Iterator<Item = u16> + use<> {
        let bit = |task: u16| u16::from(self.is_runnable(task) == are_runnable) << task;
        let all = (0..self.machine.world.count).map(bit).sum::<u16>();
        (0..=all).filter(move |set| set & !all == 0)
    }

    fn go_through_ms(&mut self, state: &Saved<Watch>) {
        self.machine.world.restore(state);
        for wakes in self.sets(false) {
            self.machine.world.restore(state);
            self.behind.clear();
            if !self.allows(wakes.count_ones()) {
                continue;
            }
            let ticks = (0..self.workload.cpus).map(Event::Tick);
            let before: Vec<Event> = self.tasks_in(wakes).map(Event::Wake).chain(ticks).collect();
            if !before.iter().all(|event| self.try_event(*event)) {
                continue;
            }
            let saved = self.machine.world.save();
            for sleeps in self.sets(true) {
                self.machine.world.restore(&saved);
                self.behind.truncate(before.len());
                if !self.allows(sleeps.count_ones()) {
                    continue;
                }
                if self.tasks_in(sleeps).map(Event::Sleep).chain([Event::Clock]).all(|event| self.try_event(event)) {
                    self.enter(Step::Ms(wakes, sleeps));
                }
            }
        }
    }

    fn tell_most(&self) {
        if self.words.ms && self.longest.number > 0 {
            self.tell(&format!("longest wait {}", self.longest.number), self.longest.depth, &self.longest.list);
        }
        for ((_, name), most) in CALLBACKS.iter().zip(&self.most).filter(|(_, most)| most.number > 0) {
            self.tell(&format!("most {name} {}", most.number), most.depth, &most.list);
        }
    }

    /// Goes through all lists, and answers whether they have come to an end.
    fn go(&mut self) -> bool {
        self.enter(Step::First);
        while self.depth < self.words.depth {
            for (number, state) in std::mem::take(&mut self.next) {
                self.from = number;
                if self.words.ms { self.go_through_ms(&state) } else { self.go_through_events(&state) }
            }
            self.depth += 1;
            println!("depth {} states {} events {}", self.depth, self.ways.len(), self.events);
            if self.next.is_empty() {
                return true;
            }
        }
        false
    }
}

/// Writes what `scxsim explore` is compared with.
pub fn explore(policy: &str, workload: &str, words: &[&str]) -> Result<(), String> {
    let policy = Policy::read(policy).map_err(|fault| format!("policy line {}: {}", fault.line, fault.why))?;
    let workload = Workload::read(workload).map_err(|fault| format!("workload line {}: {}", fault.line, fault.why))?;
    let words = Words::new(words).ok_or("events or ms, a depth, a form and a number are wanted")?;
    if workload.tasks.len() > 8 {
        return Err("more than eight tasks".to_string());
    }
    let machine = Machine::new(Watch::new(&workload), &policy, &workload)?;
    let form = Form::new(&machine, &policy, &workload, &words);
    let orders = orders(&machine.world.notes.homes);
    // What init and enable took, before any event.
    let most = machine.world.notes.most.map(|number| Most { number, ..Most::default() });
    let mut search = Search {
        machine,
        workload: &workload,
        words,
        form,
        orders,
        met: HashSet::new(),
        ways: Vec::new(),
        next: Vec::new(),
        depth: 0,
        events: 0,
        from: 0,
        behind: Vec::new(),
        found: Vec::new(),
        longest: Most::default(),
        most,
    };
    let has_ended = search.go();
    search.tell_most();
    println!("{}", if has_ended { "ended" } else { "not ended" });
    Ok(())
}

//! The lines of a trace (docs/FILES.md). A line is put together where it goes out from: the clock's text, which
//! is kept until the clock grows, a word, a name, and what stands behind it, each of which is kept as a text of a
//! fixed size and copied whole.

use crate::plain_verify::Callback;
use std::fs::File;
use std::io::{self, Write};
use std::os::fd::AsFd;

/// What takes notes of what happens. Queues go by their places in the world.
pub trait Notes {
    fn wake(&mut self, _task: u16) {}
    fn sleep(&mut self, _task: u16) {}
    fn insert(&mut self, _task: u16, _queue: usize) {}
    fn moved(&mut self, _task: u16, _cpu: u32) {}
    fn run(&mut self, _task: u16, _cpu: u32) {}
    fn stop(&mut self, _task: u16, _cpu: u32) {}
    fn idle(&mut self, _cpu: u32) {}
    fn weight(&mut self, _group: usize, _weight: u32) {}
    fn stall(&mut self, _task: u16) {}
    fn fault(&mut self, _fault: u8) {}
    /// Ticks come once in a millisecond, the first CPU's first, so those that change nothing may be left out.
    const IS_DRIVEN: bool = true;
    /// The clock grew by 1.
    fn clock(&mut self, _ms: u64) {}
    /// The clock grew by more.
    fn jump(&mut self, ms: u64) {
        self.clock(ms);
    }
    /// A queue of the policy has that id.
    fn queue(&mut self, _queue: usize, _id: u64) {}
    /// A program of that callback came to its end after so many instructions.
    fn ran(&mut self, _callback: Callback, _instructions: u64) {}
    /// A task waits with the slice that it has.
    fn keeps_slice(&mut self, _task: u16) {}
}

/// Takes no notes.
pub struct Silence;

impl Notes for Silence {}

/// A text of at most so many bytes, and how many it has.
#[derive(Clone, Copy)]
struct Text<const N: usize> {
    bytes: [u8; N],
    length: usize,
}

impl<const N: usize> Text<N> {
    const EMPTY: Text<N> = Text { bytes: [0; N], length: 0 };

    fn new(text: &str) -> Text<N> {
        let mut made = Self::EMPTY;
        made.length = text.len();
        made.bytes[..text.len()].copy_from_slice(text.as_bytes());
        made
    }
}

const WAKE: &[u8; 8] = b"wake    ";
const SLEEP: &[u8; 8] = b"sleep   ";
const INSERT: &[u8; 8] = b"insert  ";
const MOVE: &[u8; 8] = b"move    ";
const RUN: &[u8; 8] = b"run     ";
const STOP: &[u8; 8] = b"stop    ";

/// How many bytes are written at once, a power of two, and how many a line may have beyond.
const BLOCK: usize = 65_536;
const LINE: usize = 256;

/// Places of the machine's own queues.
pub const GLOBAL: usize = 16;
pub const HELD: usize = 17;
pub const BUILTIN: usize = 18;
pub const PARKED: usize = 19;
pub const LOCAL: usize = 20;

/// Writes the lines to standard output.
pub struct Trace {
    block: Box<[u8; BLOCK + LINE]>,
    used: usize,
    clock: Text<8>,
    names: Vec<Text<16>>,
    groups: Vec<String>,
    /// What stands behind a name, with the line feed: for each queue, ` cpu C`, ` local C`, and `idle cpu C`.
    queues: [Text<32>; 128],
    on_cpu: [Text<8>; 64],
    to_local: [Text<16>; 64],
    idle: [Text<16>; 64],
    out: File,
}

impl Trace {
    pub fn new(names: &[&str], groups: &[&str]) -> io::Result<Trace> {
        let mut queues = [Text::EMPTY; 128];
        for (queue, text) in [(GLOBAL, " global\n"), (HELD, " held\n"), (BUILTIN, " builtin\n"), (PARKED, " parked\n")] {
            queues[queue] = Text::new(text);
        }
        for cpu in 0..64 {
            queues[LOCAL + cpu] = Text::new(&format!(" local {cpu}\n"));
        }
        Ok(Trace {
            block: Box::new([0; BLOCK + LINE]),
            used: 0,
            clock: Text::new("0 "),
            names: names.iter().map(|name| Text::new(name)).collect(),
            groups: groups.iter().map(|group| group.to_string()).collect(),
            queues,
            on_cpu: std::array::from_fn(|cpu| Text::new(&format!(" cpu {cpu}\n"))),
            to_local: std::array::from_fn(|cpu| Text::new(&format!(" local {cpu}\n"))),
            idle: std::array::from_fn(|cpu| Text::new(&format!("idle cpu {cpu}\n"))),
            out: File::from(io::stdout().as_fd().try_clone_to_owned()?),
        })
    }

    /// Writes out all lines. A trace that can't be written ends the process.
    #[inline(never)]
    pub fn flush(&mut self) {
        self.out.write_all(&self.block[..self.used]).expect("an output that takes all");
        self.used = 0;
    }

    /// Puts a text of a fixed size there, and answers where the next one begins.
    #[inline(always)]
    fn put<const N: usize>(&mut self, at: usize, bytes: &[u8; N], length: usize) -> usize {
        self.block[at..at + N].copy_from_slice(bytes);
        at + (length & 31)
    }

    /// The clock's text.
    #[inline(always)]
    fn begin(&mut self) -> usize {
        let Text { bytes, length } = self.clock;
        self.put(self.used & (BLOCK - 1), &bytes, length)
    }

    #[inline(always)]
    fn end(&mut self, used: usize) {
        self.used = used;
        if used >= BLOCK {
            self.spill();
        }
    }

    /// Writes a full block out, and keeps what goes beyond it.
    #[cold]
    #[inline(never)]
    fn spill(&mut self) {
        self.out.write_all(&self.block[..BLOCK]).expect("an output that takes all");
        self.block.copy_within(BLOCK..self.used, 0);
        self.used -= BLOCK;
    }

    #[inline(always)]
    fn line<const N: usize>(&mut self, verb: &[u8; 8], length: usize, task: u16, end: Text<N>) {
        let at = self.begin();
        let at = self.put(at, verb, length);
        let Text { bytes, length } = self.names[usize::from(task)];
        let at = self.put(at, &bytes, length);
        let at = self.put(at, &end.bytes, end.length);
        self.end(at);
    }

    /// A line of a kind that is rare.
    #[cold]
    fn rare(&mut self, words: &str) {
        let mut at = self.begin();
        self.block[at..at + words.len()].copy_from_slice(words.as_bytes());
        at += words.len();
        self.end(at);
    }

    fn name(&self, task: u16) -> String {
        let name = &self.names[usize::from(task)];
        String::from_utf8_lossy(&name.bytes[..name.length]).into_owned()
    }
}

const FEED: Text<8> = Text { bytes: *b"\n       ", length: 1 };

impl Notes for Trace {
    fn wake(&mut self, task: u16) {
        self.line(WAKE, 5, task, FEED);
    }

    fn sleep(&mut self, task: u16) {
        self.line(SLEEP, 6, task, FEED);
    }

    fn insert(&mut self, task: u16, queue: usize) {
        self.line(INSERT, 7, task, self.queues[queue & 127]);
    }

    fn moved(&mut self, task: u16, cpu: u32) {
        self.line(MOVE, 5, task, self.to_local[cpu as usize & 63]);
    }

    fn run(&mut self, task: u16, cpu: u32) {
        self.line(RUN, 4, task, self.on_cpu[cpu as usize & 63]);
    }

    fn stop(&mut self, task: u16, cpu: u32) {
        self.line(STOP, 5, task, self.on_cpu[cpu as usize & 63]);
    }

    fn idle(&mut self, cpu: u32) {
        let Text { bytes, length } = self.idle[cpu as usize & 63];
        let at = self.begin();
        let at = self.put(at, &bytes, length);
        self.end(at);
    }

    fn weight(&mut self, group: usize, weight: u32) {
        self.rare(&format!("weight {} {weight}\n", self.groups[group]));
    }

    fn stall(&mut self, task: u16) {
        self.rare(&format!("eject stall {}\n", self.name(task)));
    }

    fn fault(&mut self, fault: u8) {
        self.rare(&format!("eject fault {fault}\n"));
    }

    /// Most often the last digit grows.
    #[inline(always)]
    fn clock(&mut self, ms: u64) {
        let digit = &mut self.clock.bytes[self.clock.length.wrapping_sub(2) & 7];
        if *digit < b'9' {
            *digit += 1;
        } else {
            self.carry(ms);
        }
    }

    fn jump(&mut self, ms: u64) {
        self.carry(ms);
    }

    fn queue(&mut self, queue: usize, id: u64) {
        self.queues[queue & 127] = Text::new(&format!(" queue {id}\n"));
    }
}

impl Trace {
    #[inline(never)]
    fn carry(&mut self, ms: u64) {
        let (mut bytes, mut at, mut rest) = ([b' '; 8], 7, ms);
        while rest != 0 {
            at -= 1;
            bytes[at] = b'0' + (rest % 10) as u8;
            rest /= 10;
        }
        self.clock.length = 8 - at;
        self.clock.bytes = [b' '; 8];
        self.clock.bytes[..8 - at].copy_from_slice(&bytes[at..]);
    }
}

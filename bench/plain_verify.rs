//! A verifier that changes one state in place, keeps a copy of it where jumps lead, and chooses the operation of each
//! slot on its way. Numbers in registers and offsets in elements have ranges; numbers on the stack have none.

use crate::plain_run::{Host, Op, compute32, compute64, low_bytes, reorder};
use crate::plain_slots::{CALL, EXIT, GOTO, GOTO_LONG, MAP, Slot, WIDE, flow_fault, flows, jumps};

#[derive(Clone, Copy, Debug, PartialEq)]
pub enum Callback {
    Init,
    Enable,
    SelectCpu,
    Enqueue,
    Dispatch,
    Running,
    Stopping,
    /// A program of its own.
    Plain,
}
use Callback::*;

/// Callbacks with their keys in policy files.
pub const CALLBACKS: [(Callback, &str); 7] = [
    (Init, "init"),
    (Enable, "enable"),
    (SelectCpu, "select_cpu"),
    (Enqueue, "enqueue"),
    (Dispatch, "dispatch"),
    (Running, "running"),
    (Stopping, "stopping"),
];

#[derive(Clone, Copy, PartialEq)]
pub enum Field {
    Pid,
    Weight,
    Slice,
    Vtime,
    PrevCpu,
    Group,
    RunNs,
}

impl Field {
    pub const ALL: [Field; 7] =
        [Field::Pid, Field::Weight, Field::Slice, Field::Vtime, Field::PrevCpu, Field::Group, Field::RunNs];

    /// The field that an access takes whole.
    fn at(offset: i16, size: u8) -> Option<Field> {
        const PLACES: [(i16, u8); 7] = [(0, 4), (4, 4), (8, 8), (16, 8), (24, 4), (28, 4), (32, 8)];
        let at = PLACES.iter().position(|place| *place == (offset, size))?;
        Some(Field::ALL[at])
    }
}

/// Faults, by the names that `scxsim` gives them.
#[derive(Clone, Copy, Debug, PartialEq)]
pub enum Why {
    BadFlow,
    UnusableRegister,
    WritesFrame,
    UnwrittenStack,
    OutOfBounds,
    Misaligned,
    NullNotTested,
    PointerArithmetic,
    PointerCompare,
    PointerStore,
    TaskField,
    UnknownHelper,
    HelperNotHere,
    BadArgument,
    BadReturn,
    UnknownMap,
}

pub const LOOK_UP: i32 = 1;

#[derive(Clone, Copy)]
enum Parameter {
    Map,
    Key,
    Task,
    Number,
}

/// What a helper takes from register 1 on, and the callbacks that may call it.
fn helper(number: i32) -> Option<(&'static [Parameter], &'static [Callback])> {
    use Parameter::{Key, Map, Number, Task};
    const ALL: &[Callback] = &[Init, Enable, SelectCpu, Enqueue, Dispatch, Running, Stopping];
    const INSERTS: &[Callback] = &[SelectCpu, Enqueue, Dispatch];
    Some(match number {
        LOOK_UP => (&[Map, Key], ALL),
        5 => (&[], ALL),
        1001 => (&[Number], &[Init]),
        1002 => (&[Task, Number, Number, Number], INSERTS),
        1003 => (&[Task, Number, Number, Number, Number], INSERTS),
        1004 => (&[Number], &[Dispatch]),
        1005 => (&[Task], &[SelectCpu, Enqueue]),
        1006 => (&[Number], INSERTS),
        1007 | 1008 => (&[Number], ALL),
        _ => return None,
    })
}

/// Kinds of what a register holds; 0 is nothing.
mod kind {
    pub const UNUSABLE: u8 = 0;
    pub const NUMBER: u8 = 1;
    pub const STACK: u8 = 2;
    pub const ELEMENT: u8 = 3;
    pub const ELEMENT_OR_NULL: u8 = 4;
    pub const TASK: u8 = 5;
    pub const TASK_OR_NULL: u8 = 6;
    pub const MAP: u8 = 7;
}

/// What a register may hold: numbers or offsets from `low` to `high` that are multiples of a power of two. The head has
/// the kind, the map and the exponent of that power, at most 3, in a byte each.
#[derive(Clone, Copy, PartialEq)]
struct Register {
    head: u64,
    low: u64,
    high: u64,
}

const WORD: u64 = u32::MAX as u64;

#[inline(always)]
fn step_of(number: u64) -> u64 {
    u64::from((number | 8).trailing_zeros())
}

impl Register {
    const UNUSABLE: Register = Register { head: kind::UNUSABLE as u64, low: 0, high: 0 };
    const ANY: Register = Register { head: kind::NUMBER as u64, low: 0, high: u64::MAX };
    const WORDS: Register = Register { high: WORD, ..Register::ANY };
    const TASK: Register = Register { head: kind::TASK as u64, low: 0, high: 0 };
    const TASK_OR_NULL: Register = Register { head: kind::TASK_OR_NULL as u64, low: 0, high: 0 };

    #[inline(always)]
    fn number(number: u64) -> Register {
        Register { head: kind::NUMBER.into(), low: number, high: number }
    }

    #[inline(always)]
    fn kind(self) -> u8 {
        self.head as u8
    }

    #[inline(always)]
    fn map(self) -> usize {
        usize::from((self.head >> 8) as u8)
    }

    /// The same with another kind.
    fn of_kind(self, kind: u8) -> Register {
        Register { head: self.head & !255 | u64::from(kind), ..self }
    }

    /// A single member is a multiple of what fits.
    #[inline(always)]
    fn step(self) -> u64 {
        if self.low == self.high { step_of(self.low) } else { self.head >> 16 }
    }

    #[inline(always)]
    fn widest(whole: bool) -> Register {
        if whole { Register::ANY } else { Register::WORDS }
    }

    /// The same kind, with a range.
    #[inline(always)]
    fn between(self, low: u64, high: u64, step: u64) -> Register {
        Register { head: self.head & 0xffff | step << 16, low, high }
    }

    #[inline(always)]
    fn is_number(self) -> bool {
        self.kind() == kind::NUMBER
    }

    /// The number, if there is one alone.
    #[inline(always)]
    fn one(self) -> Option<u64> {
        (self.low == self.high).then_some(self.low)
    }

    fn step_bytes(self) -> u64 {
        1 << self.step()
    }

    /// The greatest multiple that isn't above a number.
    fn floor(self, number: u64) -> u64 {
        number & !(self.step_bytes() - 1)
    }

    fn mapped(self, whole: bool, f: impl Fn(u64) -> u64) -> Register {
        match self.one() {
            Some(number) if whole => Register::number(f(number)),
            Some(number) => Register::number(f(number) & WORD),
            None => Register::widest(whole),
        }
    }

    /// What arithmetic with a range leaves, other than a move.
    #[inline(never)]
    fn ranged(self, whole: bool, operation: u8, signed: bool, by: Register) -> Register {
        match by.one() {
            _ if !whole => Register::WORDS,
            _ if operation == 0 => match self.high.checked_add(by.high) {
                Some(high) => self.between(self.low + by.low, high, self.step().min(by.step())),
                None => Register::ANY,
            },
            Some(c) if !signed => self.with_constant(operation, c),
            _ => Register::ANY,
        }
    }

    fn with_constant(self, operation: u8, c: u64) -> Register {
        match operation {
            2 => self.scaled(c),
            5 => self.capped(c, self.step().max(step_of(c))),
            6 => self.scaled(1 << (c & 63)),
            7 => self.between(self.low >> (c & 63), self.high >> (c & 63), 0),
            9 if c != 0 => self.capped(c - 1, self.step().min(step_of(c))),
            _ => Register::ANY,
        }
    }

    fn scaled(self, c: u64) -> Register {
        match self.high.checked_mul(c) {
            Some(high) => self.between(self.low * c, high, (self.step() + step_of(c)).min(3)),
            None => Register::ANY,
        }
    }

    /// From 0 to the greatest multiple that is neither above the highest member nor above `c`.
    fn capped(self, c: u64, step: u64) -> Register {
        self.between(0, self.high.min(c) >> step << step, step)
    }

    /// The members for which the comparison of 64 bits with `c` has that answer, if there are any.
    #[inline(always)]
    fn refined(self, comparison: u8, answer: bool, c: u64) -> Option<Register> {
        match (comparison, answer) {
            (1, true) | (5, false) => self.has(c).then(|| Register::number(c)),
            (1, false) | (5, true) => self.without(c),
            (2, true) | (11, false) => self.above(c),
            (2, false) | (11, true) => self.up_to(c),
            (3, true) | (10, false) => if c == 0 { Some(self) } else { self.above(c - 1) },
            (3, false) | (10, true) => if c == 0 { None } else { self.up_to(c - 1) },
            _ => Some(self),
        }
    }

    fn has(self, c: u64) -> bool {
        self.low <= c && c <= self.high && self.floor(c) == c
    }

    /// A range has no hole: only an end is taken away.
    fn without(self, c: u64) -> Option<Register> {
        match (c == self.low, c == self.high) {
            (true, true) => None,
            (true, false) => Some(self.between(self.low + self.step_bytes(), self.high, self.step())),
            (false, true) => Some(self.between(self.low, self.high - self.step_bytes(), self.step())),
            (false, false) => Some(self),
        }
    }

    fn above(self, c: u64) -> Option<Register> {
        let low = || self.low.max(self.floor(c) + self.step_bytes());
        (c < self.high).then(|| self.between(low(), self.high, self.step()))
    }

    fn up_to(self, c: u64) -> Option<Register> {
        (self.low <= c).then(|| self.between(self.low, self.high.min(self.floor(c)), self.step()))
    }

    /// A pointer that far on, if all of its offsets stay in the memory or come to its end.
    fn moved(self, bytes: u16, by: i64) -> Option<Register> {
        let (low, high) = (self.low as i64 + by, self.high as i64 + by);
        let step = self.step().min(step_of(by.unsigned_abs()));
        (low >= 0 && high <= i64::from(bytes)).then(|| self.between(low as u64, high as u64, step))
    }

    /// A pointer as far on as each of the numbers.
    fn advanced(self, bytes: u16, by: Register) -> Option<Register> {
        let high = self.high.checked_add(by.high).filter(|high| *high <= bytes.into())?;
        Some(self.between(self.low + by.low, high, self.step().min(by.step())))
    }

    #[inline(never)]
    fn join(&mut self, other: &Register) {
        let (one, two) = (*self, *other);
        let element = |one: Register| matches!(one.kind(), kind::ELEMENT | kind::ELEMENT_OR_NULL);
        *self = match (one.kind(), two.kind()) {
            (kind::NUMBER, kind::NUMBER) => one.spanning(two),
            (kind::STACK, kind::STACK) if one.low == two.low => one,
            (kind::ELEMENT, kind::ELEMENT) if one.map() == two.map() => one.spanning(two),
            _ if element(one) && element(two) && one.map() == two.map() && one.high | two.high == 0 => {
                one.of_kind(kind::ELEMENT_OR_NULL)
            }
            (kind::TASK | kind::TASK_OR_NULL, kind::TASK | kind::TASK_OR_NULL) => Register::TASK_OR_NULL,
            _ => Register::UNUSABLE,
        }
    }

    fn spanning(self, other: Register) -> Register {
        self.between(self.low.min(other.low), self.high.max(other.high), self.step().min(other.step()))
    }
}

/// Eight bytes of the stack: bits for those that were written, or a pointer with its kind in the highest byte.
#[derive(Clone, Copy, PartialEq)]
struct Cell(u64);

impl Cell {
    const UNWRITTEN: Cell = Cell(0);

    fn of(pointer: Register) -> Cell {
        Cell(pointer.head << 56 | (pointer.map() as u64) << 48 | pointer.step() << 40 | pointer.high << 16 | pointer.low)
    }

    fn pointer(self) -> Option<Register> {
        let (kind, map, step) = (self.0 >> 56, self.0 >> 48 & 255, self.0 >> 40 & 255);
        let [low, high] = [self.0 as u16, (self.0 >> 16) as u16].map(u64::from);
        (kind != 0).then_some(Register { head: kind | map << 8 | step << 16, low, high })
    }

    fn has(self, bits: u64) -> bool {
        self.0 & (0xff << 56 | bits) == bits
    }

    fn written(self, bits: u64) -> Cell {
        if self.0 >> 56 == 0 { Cell(self.0 | bits) } else { Cell(bits) }
    }

    #[cold]
    fn join(self, other: Cell) -> Cell {
        match (self.pointer(), other.pointer()) {
            (None, None) => Cell(self.0 & other.0),
            (Some(mut one), Some(two)) => {
                one.join(&two);
                if one.kind() == kind::UNUSABLE { Cell::UNWRITTEN } else { Cell::of(one) }
            }
            _ => Cell::UNWRITTEN,
        }
    }
}

#[derive(Clone)]
struct State {
    /// Eleven, with room for four bits.
    registers: [Register; 16],
    cells: [Cell; 64],
    /// No cell below this one was ever written.
    low: usize,
}

impl State {
    fn new(callback: Callback) -> State {
        let mut registers = [Register::UNUSABLE; 16];
        registers[10] = Register { head: kind::STACK.into(), low: 512, high: 512 };
        let (task, number) = (Register::TASK, Register::ANY);
        let given = match callback {
            Init | Plain => &[][..],
            Enable | Running => &[task],
            SelectCpu => &[task, number, number],
            Enqueue | Stopping => &[task, number],
            Dispatch => &[number, Register::TASK_OR_NULL],
        };
        registers[1..=given.len()].copy_from_slice(given);
        State { registers, cells: [Cell::UNWRITTEN; 64], low: 64 }
    }

    #[inline(always)]
    fn copy(&mut self, other: &State) {
        self.registers[..11].copy_from_slice(&other.registers[..11]);
        let low = self.low.min(other.low);
        self.cells[low..].copy_from_slice(&other.cells[low..]);
        self.low = other.low;
    }

    #[inline(never)]
    fn join(&mut self, other: &State) {
        for (one, two) in self.registers[..11].iter_mut().zip(&other.registers) {
            if one != two {
                one.join(two);
            }
        }
        self.low = self.low.min(other.low);
        for (one, two) in self.cells[self.low..].iter_mut().zip(&other.cells[self.low..]) {
            if one != two {
                *one = one.join(*two);
            }
        }
    }

    #[inline(always)]
    fn usable(&self, register: u8) -> Result<Register, Why> {
        let found = self.registers[usize::from(register & 15)];
        if found.kind() == kind::UNUSABLE { Err(Why::UnusableRegister) } else { Ok(found) }
    }

    #[inline(always)]
    fn operand(&self, slot: Slot, whole: bool) -> Result<Register, Why> {
        if slot.opcode() & 8 != 0 {
            return self.usable(slot.source());
        }
        let number = slot.immediate();
        Ok(Register::number(if whole { number as u64 } else { u64::from(number as u32) }))
    }

    #[inline(always)]
    fn set(&mut self, slot: Slot, register: Register) {
        self.registers[usize::from(slot.destination())] = register;
    }

    /// The number in a register alone, or its width.
    fn set_mapped(&mut self, slot: Slot, register: u8, whole: bool, f: impl Fn(u64) -> u64) -> Result<(), Why> {
        let found = self.usable(register)?;
        if !found.is_number() {
            return Err(Why::PointerArithmetic);
        }
        self.set(slot, found.mapped(whole, f));
        Ok(())
    }
}

/// Which memory an access takes.
enum Area {
    Stack(usize),
    Element,
    Task(Field),
}

/// True if control goes on after a slot.
type GoesOn = bool;

/// The states that jumps sent ahead: the index of each slot's own, if it has one.
struct Ahead {
    indices: Vec<u16>,
    states: Vec<Box<State>>,
    free: Vec<u16>,
}

const NONE: u16 = u16::MAX;

impl Ahead {
    /// Sends a copy of a state to a slot.
    #[inline(always)]
    fn send(&mut self, to: usize, state: &State) {
        let index = self.indices[to];
        if index != NONE {
            self.states[usize::from(index)].join(state);
        } else {
            let free = self.place(to);
            free.copy(state);
        }
    }

    /// Sends the state itself, which is another one from then on.
    #[inline(always)]
    fn give(&mut self, to: usize, state: &mut Box<State>) {
        let index = self.indices[to];
        if index != NONE {
            self.states[usize::from(index)].join(state);
        } else {
            std::mem::swap(self.place(to), state);
        }
    }

    /// A state that no slot has, for one that has none.
    #[inline(always)]
    fn place(&mut self, to: usize) -> &mut Box<State> {
        let index = self.free.pop().unwrap_or_else(|| {
            self.states.push(Box::new(State::new(Plain)));
            self.states.len() as u16 - 1
        });
        self.indices[to] = index;
        &mut self.states[usize::from(index)]
    }

    /// Takes what was sent to a slot.
    #[inline(always)]
    fn take(&mut self, index: u16, now: &mut Box<State>, live: bool) {
        let sent = &mut self.states[usize::from(index)];
        if live { now.join(sent) } else { std::mem::swap(now, sent) }
        self.free.push(index);
    }
}

struct Walk<'a, H> {
    code: &'a [Slot],
    callback: Callback,
    /// The bytes of the values of each map.
    sizes: &'a [u16],
    now: Box<State>,
    ahead: Ahead,
    /// Room for an operation of each slot.
    ops: Vec<Op<H>>,
}

/// The operations of a program that is safe as that callback, one for each slot, or the first fault and its slot. Faults
/// of the flow come first.
#[inline(never)]
pub fn verify<H: Host>(code: &[Slot], callback: Callback, sizes: &[u16]) -> Result<Vec<Op<H>>, (Why, usize)> {
    let ahead = Ahead { indices: vec![NONE; code.len()], states: Vec::new(), free: Vec::new() };
    let (now, ops) = (Box::new(State::new(callback)), Vec::with_capacity(code.len()));
    let mut walk = Walk { code, callback, sizes, now, ahead, ops };
    match walk.go() {
        Ok(()) => Ok(walk.ops),
        Err(fault) => Err(flow_fault(code).map_or(fault, |slot| (Why::BadFlow, slot))),
    }
}

impl<H: Host> Walk<'_, H> {
    #[inline(always)]
    fn put(&mut self, at: usize, op: Op<H>) {
        // There is room for an operation of each slot.
        unsafe { self.ops.as_mut_ptr().add(at).write(op) }
    }

    #[inline(always)]
    fn go(&mut self) -> Result<(), (Why, usize)> {
        let code = self.code;
        let (mut at, mut live) = (0, true);
        while at < code.len() {
            let slot = code[at];
            let index = self.ahead.indices[at];
            if index != NONE {
                self.ahead.take(index, &mut self.now, live);
            } else if !live {
                if !flows(code, at, slot) {
                    return Err((Why::BadFlow, at));
                }
                self.put(at, Op::usual(slot));
                at += 1;
                continue;
            }
            match self.pass(at, slot) {
                Ok(goes_on) => live = goes_on,
                Err(why) => return Err((why, at)),
            }
            at += 1;
            if slot.is_wide() {
                self.put(at, Op::usual(code[at]));
                at += 1;
            }
        }
        // All were written.
        unsafe { self.ops.set_len(code.len()) };
        if live { Err((Why::BadFlow, code.len())) } else { Ok(()) }
    }

    /// Checks an instruction, changes the state, and chooses the operation.
    #[inline(always)]
    fn pass(&mut self, at: usize, slot: Slot) -> Result<GoesOn, Why> {
        let op = match slot.opcode() & 7 {
            4 | 7 => {
                self.arithmetic(slot)?;
                Op::arithmetic(slot)
            }
            1 => self.load(slot)?,
            2 | 3 => self.store(slot)?,
            0 => {
                self.wide(at, slot)?;
                Op::usual(slot)
            }
            _ if slot.opcode() == CALL => {
                self.call(slot)?;
                Op::call(slot)
            }
            _ => {
                self.put(at, Op::usual(slot));
                return self.jump(at, slot);
            }
        };
        self.put(at, op);
        Ok(true)
    }

    fn wide(&mut self, at: usize, slot: Slot) -> Result<(), Why> {
        debug_assert_eq!(slot.opcode(), WIDE);
        if slot.destination() == 10 {
            return Err(Why::WritesFrame);
        }
        if slot.source() != MAP {
            let number = u64::from(slot.immediate() as u32) | u64::from(self.code[at + 1].immediate() as u32) << 32;
            self.now.set(slot, Register::number(number));
            return Ok(());
        }
        let map = usize::try_from(slot.immediate()).ok().filter(|map| *map < self.sizes.len()).ok_or(Why::UnknownMap)?;
        self.now.set(slot, Register { head: u64::from(kind::MAP) | (map as u64) << 8, ..Register::UNUSABLE });
        Ok(())
    }

    #[inline(always)]
    fn arithmetic(&mut self, slot: Slot) -> Result<(), Why> {
        let (whole, operation) = (slot.opcode() & 7 == 7, slot.opcode() >> 4);
        if slot.destination() == 10 {
            return Err(Why::WritesFrame);
        }
        match operation {
            11 => return self.moves(slot, whole),
            8 => return self.now.set_mapped(slot, slot.destination(), whole, u64::wrapping_neg),
            13 => {
                let swap = |number| reorder(slot.opcode(), slot.immediate(), number);
                return self.now.set_mapped(slot, slot.destination(), true, swap);
            }
            _ => {}
        }
        let by = self.now.operand(slot, whole)?;
        let one = &mut self.now.registers[usize::from(slot.destination())];
        if !one.is_number() || !by.is_number() || one.low != one.high || by.low != by.high {
            return self.arithmetic_of_many(slot, by);
        }
        let (signed, a) = (slot.offset() != 0, one.low);
        let number = if whole {
            compute64(operation, signed, a, by.low)
        } else {
            compute32(operation, signed, a as u32, by.low as u32).into()
        };
        (one.low, one.high) = (number, number);
        Ok(())
    }

    /// With a range or a pointer.
    #[inline(never)]
    fn arithmetic_of_many(&mut self, slot: Slot, by: Register) -> Result<(), Why> {
        let one = self.now.usable(slot.destination())?;
        let found = if one.is_number() && by.is_number() {
            one.ranged(slot.opcode() & 7 == 7, slot.opcode() >> 4, slot.offset() != 0, by)
        } else {
            self.moved(slot, one, by)?
        };
        self.now.set(slot, found);
        Ok(())
    }

    #[inline(always)]
    fn moves(&mut self, slot: Slot, whole: bool) -> Result<(), Why> {
        if slot.offset() != 0 {
            let extended = |number| low_bytes(number, slot.offset() as u8 / 8, true);
            return self.now.set_mapped(slot, slot.source(), whole, extended);
        }
        let mut found = self.now.operand(slot, whole)?;
        if !whole {
            if !found.is_number() {
                return Err(Why::PointerArithmetic);
            }
            found = found.mapped(false, |number| number);
        }
        self.now.set(slot, found);
        Ok(())
    }

    /// A pointer and a number.
    fn moved(&self, slot: Slot, pointer: Register, by: Register) -> Result<Register, Why> {
        let size = match pointer.kind() {
            kind::STACK if slot.opcode() & 8 == 0 => 512,
            kind::ELEMENT => self.sizes[pointer.map()],
            _ => return Err(Why::PointerArithmetic),
        };
        let moved = match slot.opcode() {
            _ if !by.is_number() => return Err(Why::PointerArithmetic),
            0x07 => pointer.moved(size, slot.immediate().into()),
            0x17 => pointer.moved(size, -i64::from(slot.immediate())),
            0x0f => pointer.advanced(size, by),
            _ => return Err(Why::PointerArithmetic),
        };
        moved.ok_or(Why::OutOfBounds)
    }

    #[inline(always)]
    fn area(&self, base: Register, slot: Slot, size: u8) -> Result<Area, Why> {
        if base.kind() != kind::STACK {
            return self.other_area(base, slot, size);
        }
        let at = base.low.wrapping_add(slot.offset() as u64);
        if at > 512 - u64::from(size) {
            return Err(Why::OutOfBounds);
        }
        if at & u64::from(size - 1) != 0 { Err(Why::Misaligned) } else { Ok(Area::Stack(at as usize)) }
    }

    #[inline(never)]
    fn other_area(&self, base: Register, slot: Slot, size: u8) -> Result<Area, Why> {
        let bytes = match base.kind() {
            kind::ELEMENT => self.sizes[base.map()],
            kind::TASK => return Field::at(slot.offset(), size).map(Area::Task).ok_or(Why::TaskField),
            kind::ELEMENT_OR_NULL | kind::TASK_OR_NULL => return Err(Why::NullNotTested),
            _ => return Err(Why::OutOfBounds),
        };
        let offset = i64::from(slot.offset());
        let (low, high) = (base.low as i64 + offset, base.high as i64 + offset);
        if low < 0 || high + i64::from(size) > bytes.into() {
            return Err(Why::OutOfBounds);
        }
        let is_stepped = base.low == base.high || base.step_bytes() >= size.into();
        if low & i64::from(size - 1) != 0 || !is_stepped { Err(Why::Misaligned) } else { Ok(Area::Element) }
    }

    #[inline(always)]
    fn load(&mut self, slot: Slot) -> Result<Op<H>, Why> {
        let (size, signed) = (slot.size(), slot.opcode() >> 5 == 4);
        if slot.destination() == 10 {
            return Err(Why::WritesFrame);
        }
        let mut loaded = Register::ANY;
        if size < 8 && !signed {
            loaded.high = (1 << (8 * size)) - 1;
        }
        let mut op = Op::usual(slot);
        match self.area(self.now.usable(slot.source())?, slot, size)? {
            Area::Stack(at) => {
                let cell = self.now.cells[at / 8 % 64];
                if !cell.has(mask(at, size)) {
                    loaded = cell.pointer().filter(|_| size == 8).ok_or(Why::UnwrittenStack)?;
                }
            }
            Area::Element => {}
            Area::Task(_) if signed => return Err(Why::TaskField),
            Area::Task(field) => op = Op::load_field(slot, field),
        }
        self.now.set(slot, loaded);
        Ok(op)
    }

    #[inline(always)]
    fn store(&mut self, slot: Slot) -> Result<Op<H>, Why> {
        let size = slot.size();
        let base = self.now.usable(slot.destination())?;
        let pointer = if slot.opcode() & 7 == 3 {
            Some(self.now.usable(slot.source())?).filter(|found| !found.is_number())
        } else {
            None
        };
        match (self.area(base, slot, size)?, pointer) {
            (Area::Stack(at), None) => {
                let cell = &mut self.now.cells[at / 8 % 64];
                *cell = cell.written(mask(at, size));
                self.now.low = self.now.low.min(at / 8);
            }
            (Area::Stack(at), Some(pointer)) if size == 8 => {
                self.now.cells[at / 8 % 64] = Cell::of(pointer);
                self.now.low = self.now.low.min(at / 8);
            }
            (Area::Task(field), _) if !matches!(field, Field::Slice | Field::Vtime) => return Err(Why::TaskField),
            (_, Some(_)) => return Err(Why::PointerStore),
            (Area::Task(field), None) => return Ok(Op::store_field(slot, field)),
            (Area::Element, None) => {}
        }
        Ok(Op::usual(slot))
    }

    /// The slot to which a jump leads.
    #[inline(always)]
    fn target(&self, at: usize, slot: Slot) -> Result<usize, Why> {
        if jumps(self.code, at, slot) { Ok(at + 1 + slot.distance() as usize) } else { Err(Why::BadFlow) }
    }

    #[inline(always)]
    fn jump(&mut self, at: usize, slot: Slot) -> Result<GoesOn, Why> {
        match slot.opcode() {
            EXIT if matches!(self.callback, Init | SelectCpu | Plain) && !self.now.registers[0].is_number() => {
                Err(Why::BadReturn)
            }
            EXIT => Ok(false),
            GOTO | GOTO_LONG => {
                let to = self.target(at, slot)?;
                self.ahead.give(to, &mut self.now);
                Ok(false)
            }
            _ => self.branch(slot, self.target(at, slot)?),
        }
    }

    #[inline(always)]
    fn branch(&mut self, slot: Slot, to: usize) -> Result<GoesOn, Why> {
        let whole = slot.opcode() & 7 == 5;
        let (one, by) = (self.now.usable(slot.destination())?, self.now.operand(slot, whole)?);
        if !one.is_number() || !by.is_number() {
            return self.branch_by_null(slot, one, to);
        }
        let Some(c) = by.one().filter(|_| whole) else {
            self.ahead.send(to, &self.now);
            return Ok(true);
        };
        let comparison = slot.opcode() >> 4;
        let (on, away) = (one.refined(comparison, false, c), one.refined(comparison, true, c));
        self.part(slot, on, away, to)
    }

    /// Control goes both ways, if the register may hold something there.
    #[inline(always)]
    fn part(&mut self, slot: Slot, on: Option<Register>, away: Option<Register>, to: usize) -> Result<GoesOn, Why> {
        if let Some(away) = away {
            self.now.set(slot, away);
            self.ahead.send(to, &self.now);
        }
        if let Some(on) = on {
            self.now.set(slot, on);
        }
        Ok(on.is_some())
    }

    fn branch_by_null(&mut self, slot: Slot, pointer: Register, to: usize) -> Result<GoesOn, Why> {
        let jumps_if_null = match slot.opcode() {
            _ if pointer.is_number() || slot.immediate() != 0 => return Err(Why::PointerCompare),
            0x15 => true,
            0x55 => false,
            _ => return Err(Why::PointerCompare),
        };
        let found = match pointer.kind() {
            kind::ELEMENT_OR_NULL => Some(pointer.of_kind(kind::ELEMENT)),
            kind::TASK_OR_NULL => Some(Register::TASK),
            _ => None,
        };
        let null = found.map(|_| Register::number(0));
        let found = Some(found.unwrap_or(pointer));
        if jumps_if_null { self.part(slot, found, null, to) } else { self.part(slot, null, found, to) }
    }

    fn call(&mut self, slot: Slot) -> Result<(), Why> {
        let (parameters, callbacks) = helper(slot.immediate()).ok_or(Why::UnknownHelper)?;
        if !callbacks.contains(&self.callback) {
            return Err(Why::HelperNotHere);
        }
        for (register, parameter) in (1..).zip(parameters) {
            self.check_argument(*parameter, self.now.usable(register)?)?;
        }
        let answer = match slot.immediate() {
            LOOK_UP => self.now.registers[1].of_kind(kind::ELEMENT_OR_NULL),
            1007 => Register::TASK_OR_NULL,
            _ => Register::ANY,
        };
        self.now.registers[1..6].fill(Register::UNUSABLE);
        self.now.registers[0] = answer;
        Ok(())
    }

    fn check_argument(&self, parameter: Parameter, given: Register) -> Result<(), Why> {
        match (parameter, given.kind()) {
            (Parameter::Number, kind::NUMBER) | (Parameter::Map, kind::MAP) | (Parameter::Task, kind::TASK) => Ok(()),
            (Parameter::Task, kind::TASK_OR_NULL) | (Parameter::Key, kind::ELEMENT_OR_NULL) => Err(Why::NullNotTested),
            (Parameter::Key, kind::STACK | kind::ELEMENT) => match self.area(given, Slot(0), 4)? {
                Area::Stack(at) if !self.now.cells[at / 8].has(mask(at, 4)) => Err(Why::UnwrittenStack),
                _ => Ok(()),
            },
            _ => Err(Why::BadArgument),
        }
    }
}

/// The bits of bytes in their cell.
#[inline(always)]
fn mask(at: usize, size: u8) -> u64 {
    ((1 << size) - 1) << (at % 8)
}

//! An assembler and a disassembler of the whole language (docs/ASSEMBLY.md), by bytes: the one goes over a text once and
//! puts jumps to labels right at the end, the other copies pieces of fixed size into room that it has reserved.

use crate::plain_slots::{CALL, EXIT, GOTO, GOTO_LONG, MAP, MOST, Slot, WIDE};

// ---- assembling

static IN_WORDS: [bool; 256] = {
    let mut table = [false; 256];
    let mut byte = 0;
    while byte < 256 {
        table[byte] = (byte as u8).is_ascii_alphanumeric() || byte as u8 == b'_';
        byte += 1;
    }
    table
};

#[inline(always)]
fn is_in_word(byte: u8) -> bool {
    IN_WORDS[usize::from(byte)]
}

/// Reads one text; each function goes past what it reads, or answers None.
struct Reader<'a> {
    bytes: &'a [u8],
    at: usize,
}

impl<'a> Reader<'a> {
    /// The byte so far on; past the end there are line feeds.
    #[inline(always)]
    fn peek(&self, on: usize) -> u8 {
        self.bytes.get(self.at + on).copied().unwrap_or(b'\n')
    }

    #[inline(always)]
    fn blanks(&mut self) {
        while matches!(self.peek(0), b' ' | b'\t') {
            self.at += 1;
        }
    }

    /// A sign, and blanks after it.
    #[inline(always)]
    fn sign(&mut self, sign: u8) -> Option<()> {
        if self.peek(0) != sign {
            return None;
        }
        self.at += 1;
        self.blanks();
        Some(())
    }

    /// A word, of letters, digits and `_`; it may be empty.
    #[inline(always)]
    fn word(&mut self) -> &'a [u8] {
        let from = self.at;
        if self.peek(0).is_ascii_alphabetic() {
            while is_in_word(self.peek(0)) {
                self.at += 1;
            }
        }
        &self.bytes[from..self.at]
    }

    /// The width and number of a register that is here.
    #[inline(always)]
    fn register(&mut self) -> Option<(bool, u64)> {
        let (letter, digit) = (self.peek(0), self.peek(1).wrapping_sub(b'0'));
        if !matches!(letter, b'r' | b'w') || digit > 9 {
            return None;
        }
        let is_ten = digit == 1 && self.peek(2) == b'0';
        let (number, length) = if is_ten { (10, 3) } else { (u64::from(digit), 2) };
        if is_in_word(self.peek(length)) {
            return None;
        }
        self.at += length;
        self.blanks();
        Some((letter == b'r', number))
    }

    /// Digits; None also where they are more than 64 bits.
    #[inline(always)]
    fn digits(&mut self) -> Option<u64> {
        let mut digit = self.peek(0).wrapping_sub(b'0');
        if digit > 9 {
            return None;
        }
        if digit == 0 && self.peek(1) == b'x' {
            return self.hexadecimal();
        }
        let mut number = 0u64;
        while digit <= 9 {
            number = if number < 1 << 60 {
                10 * number + u64::from(digit)
            } else {
                number.checked_mul(10)?.checked_add(digit.into())?
            };
            self.at += 1;
            digit = self.peek(0).wrapping_sub(b'0');
        }
        self.blanks();
        Some(number)
    }

    #[cold]
    fn hexadecimal(&mut self) -> Option<u64> {
        self.at += 2;
        let mut digit = (self.peek(0) as char).to_digit(16)?;
        let mut number = 0u64;
        loop {
            if number >> 60 != 0 {
                return None;
            }
            number = number << 4 | u64::from(digit);
            self.at += 1;
            match (self.peek(0) as char).to_digit(16) {
                Some(next) => digit = next,
                None => break,
            }
        }
        self.blanks();
        Some(number)
    }

    /// A number with `-` directly before it, or none.
    #[inline(always)]
    fn number(&mut self) -> Option<i128> {
        let is_negative = self.peek(0) == b'-';
        self.at += usize::from(is_negative);
        let number = i128::from(self.digits()?);
        Some(if is_negative { -number } else { number })
    }

    /// A number of 32 bits, where slots have it.
    #[inline(always)]
    fn immediate(&mut self) -> Option<u64> {
        immediate(self.number()?)
    }

    /// A register of that width or a number, with the bits that both have in a slot.
    #[inline(always)]
    fn operand(&mut self, whole: bool) -> Option<u64> {
        match self.register() {
            Some((wide, register)) => (wide == whole).then_some(8 | register << 12),
            None => self.immediate(),
        }
    }

    /// A memory access: the bits of its size in an opcode, and of its base and offset, as for a load.
    #[inline(always)]
    fn access(&mut self) -> Option<(bool, u64)> {
        self.sign(b'*')?;
        self.sign(b'(')?;
        let (signed, size) = match self.word() {
            b"u8" => (false, 0x10),
            b"u16" => (false, 0x08),
            b"u32" => (false, 0x00),
            b"u64" => (false, 0x18),
            b"s8" => (true, 0x10),
            b"s16" => (true, 0x08),
            b"s32" => (true, 0x00),
            _ => return None,
        };
        self.blanks();
        self.sign(b'*')?;
        self.sign(b')')?;
        self.sign(b'(')?;
        let (_, base) = self.register().filter(|register| register.0)?;
        let is_negative = self.peek(0) == b'-';
        self.sign(if is_negative { b'-' } else { b'+' })?;
        let number = i64::try_from(self.digits()?).ok()?;
        let offset = i16::try_from(if is_negative { -number } else { number }).ok()?;
        self.sign(b')')?;
        Some((signed, size | base << 12 | u64::from(offset as u16) << 16))
    }

    /// The end of a line, with a comment or not.
    #[inline(always)]
    fn end(&mut self) -> Option<()> {
        if self.peek(0) == b'#' {
            while self.peek(0) != b'\n' {
                self.at += 1;
            }
        }
        if self.peek(0) == b'\r' && self.peek(1) == b'\n' && self.at + 1 < self.bytes.len() {
            self.at += 1;
        }
        if self.peek(0) != b'\n' {
            return None;
        }
        self.at += 1;
        Some(())
    }
}

#[inline(always)]
fn immediate(number: i128) -> Option<u64> {
    Some(u64::from(i32::try_from(number).ok()? as u32) << 32)
}

/// Labels with their slots, and a table of their numbers, from 1 on, by names.
struct Labels<'a> {
    table: Vec<u16>,
    names: Vec<(&'a [u8], usize)>,
}

impl<'a> Labels<'a> {
    const ROOM: usize = 16_384;

    /// The place of a name in the table, and its number, or that of a free place.
    #[inline(always)]
    fn place(&self, name: &[u8]) -> (usize, u16) {
        let mix = |sum: u64, byte: &u8| (sum.rotate_left(5) ^ u64::from(*byte)).wrapping_mul(0x9e37_79b9_7f4a_7c15);
        let mut at = (name.iter().fold(0, mix) >> 50) as usize;
        loop {
            let number = self.table[at];
            if number == 0 || self.names[usize::from(number) - 1].0 == name {
                return (at, number);
            }
            at = (at + 1) % Labels::ROOM;
        }
    }

    /// Refused is a name that is there, and more names than programs of that size need.
    fn define(&mut self, name: &'a [u8], slot: usize) -> Option<()> {
        if self.table.is_empty() {
            self.table = vec![0; Labels::ROOM];
        }
        let (place, number) = self.place(name);
        self.names.push((name, slot));
        self.table[place] = self.names.len() as u16;
        (number == 0 && self.names.len() < Labels::ROOM).then_some(())
    }

    fn find(&self, name: &[u8]) -> Option<usize> {
        if self.table.is_empty() {
            return None;
        }
        let number = usize::from(self.place(name).1);
        Some(self.names[number.checked_sub(1)?].1)
    }
}

struct Assembler<'a> {
    reader: Reader<'a>,
    code: Vec<Slot>,
    labels: Labels<'a>,
    /// Slots of jumps, and the labels to which they go.
    jumps: Vec<(usize, &'a [u8])>,
}

/// The program of a text.
#[inline(never)]
pub fn assemble(text: &str) -> Option<Vec<Slot>> {
    let reader = Reader { bytes: text.as_bytes(), at: 0 };
    let labels = Labels { table: Vec::new(), names: Vec::new() };
    let mut assembler = Assembler { reader, code: Vec::new(), labels, jumps: Vec::new() };
    while assembler.reader.at < text.len() {
        assembler.line()?;
    }
    assembler.finish()
}

impl<'a> Assembler<'a> {
    #[inline(always)]
    fn push(&mut self, slot: u64) {
        self.code.push(Slot(slot));
    }

    #[inline(always)]
    fn line(&mut self) -> Option<()> {
        self.reader.blanks();
        match self.reader.peek(0) {
            b'\n' | b'#' | b'\r' => {}
            b'*' => self.store()?,
            _ => self.statement()?,
        }
        self.reader.end()
    }

    #[inline(always)]
    fn store(&mut self) -> Option<()> {
        let (signed, access) = self.reader.access()?;
        self.reader.sign(b'=').filter(|()| !signed)?;
        let operand = self.reader.operand(true)?;
        let kind = if operand & 8 == 0 { 0x62 } else { 0x63 };
        // The base is where a load has it.
        let base = access >> 12 & 15;
        self.push(kind | access & 0xffff_0018 | base << 8 | operand & !8);
        Some(())
    }

    #[inline(always)]
    fn statement(&mut self) -> Option<()> {
        let from = self.reader.at;
        if let Some((wide, register)) = self.reader.register() {
            if self.reader.peek(0) != b':' {
                return self.assignment(wide, register << 8);
            }
            self.reader.at = from;
        }
        let name = self.reader.word();
        self.reader.blanks();
        if self.reader.peek(0) == b':' && !name.is_empty() {
            return self.label(name);
        }
        match name {
            b"if" => self.branch()?,
            b"goto" => {
                self.push(GOTO.into());
                self.target(false)?;
            }
            b"gotol" => {
                self.push(GOTO_LONG.into());
                self.target(true)?;
            }
            b"exit" => self.push(EXIT.into()),
            b"call" => {
                let number = self.reader.immediate()?;
                self.push(u64::from(CALL) | number);
            }
            _ => return None,
        }
        Some(())
    }

    fn label(&mut self, name: &'a [u8]) -> Option<()> {
        self.reader.sign(b':')?;
        self.labels.define(name, self.code.len())
    }

    /// What comes after the register of an assignment.
    #[inline(always)]
    fn assignment(&mut self, whole: bool, register: u64) -> Option<()> {
        let class = if whole { 7 } else { 4 };
        let reader = &mut self.reader;
        let (code, length) = match (reader.peek(0), reader.peek(1)) {
            (b'=', b'=') => return None,
            (b'=', _) => {
                reader.at += 1;
                reader.blanks();
                return self.assigned(whole, register);
            }
            (b'+', _) => (0x00, 1),
            (b'-', _) => (0x10, 1),
            (b'*', _) => (0x20, 1),
            (b'/', _) => (0x30, 1),
            (b'|', _) => (0x40, 1),
            (b'&', _) => (0x50, 1),
            (b'<', b'<') => (0x60, 2),
            (b'>', b'>') => (0x70, 2),
            (b'%', _) => (0x90, 1),
            (b'^', _) => (0xa0, 1),
            (b's', b'>') if reader.peek(2) == b'>' => (0xc0, 3),
            (b's', b'/') => (0x1_0030, 2),
            (b's', b'%') => (0x1_0090, 2),
            _ => return None,
        };
        reader.at += length;
        reader.sign(b'=')?;
        let operand = reader.operand(whole)?;
        self.push(code | class | register | operand);
        Some(())
    }

    /// What comes after the `=` of an assignment.
    #[inline(always)]
    fn assigned(&mut self, whole: bool, register: u64) -> Option<()> {
        let class = if whole { 7 } else { 4 };
        match self.reader.peek(0) {
            b'*' => {
                let (signed, access) = self.reader.access().filter(|_| whole)?;
                if signed && access & 0x18 == 0x18 {
                    return None;
                }
                self.push(if signed { 0x81 } else { 0x61 } | access | register);
            }
            b'(' => return self.extension(whole, register),
            b'-' if !self.reader.peek(1).is_ascii_digit() => {
                self.reader.at += 1;
                self.same_register(whole, register)?;
                self.push(0x80 | class | register);
            }
            b'-' | b'0'..=b'9' => return self.constant(whole, register),
            _ => match self.reader.register() {
                Some((wide, source)) if wide == whole => self.push(0xb8 | class | register | source << 12),
                Some(_) => return None,
                None => return self.other_word(whole, register),
            },
        }
        Some(())
    }

    fn same_register(&mut self, whole: bool, register: u64) -> Option<()> {
        let (wide, again) = self.reader.register()?;
        (wide == whole && again << 8 == register).then_some(())
    }

    #[inline(always)]
    fn constant(&mut self, whole: bool, register: u64) -> Option<()> {
        let number = self.reader.number()?;
        if self.reader.peek(0) != b'l' {
            self.push(if whole { 0xb7 } else { 0xb4 } | register | immediate(number)?);
            return Some(());
        }
        if self.reader.word() != b"ll" || !whole || number < i64::MIN.into() {
            return None;
        }
        self.reader.blanks();
        self.push(u64::from(WIDE) | register | (number as u64) << 32);
        self.push(number as u64 & !0 << 32);
        Some(())
    }

    fn extension(&mut self, whole: bool, register: u64) -> Option<()> {
        self.reader.sign(b'(')?;
        let bits = match self.reader.word() {
            b"s8" => 8,
            b"s16" => 16,
            b"s32" if whole => 32,
            _ => return None,
        };
        self.reader.blanks();
        self.reader.sign(b')')?;
        let (wide, source) = self.reader.register()?;
        self.push(if whole { 0xbf } else { 0xbc } | register | source << 12 | bits << 16);
        (wide == whole).then_some(())
    }

    /// A map, or bytes in another order.
    fn other_word(&mut self, whole: bool, register: u64) -> Option<()> {
        let word = self.reader.word();
        self.reader.blanks();
        if word == b"map" && whole {
            let number = self.reader.immediate()?;
            self.push(u64::from(WIDE) | register | u64::from(MAP) << 12 | number);
            self.push(0);
            return Some(());
        }
        let (opcode, bits) = match (word.strip_prefix(b"le"), word.strip_prefix(b"be"), word.strip_prefix(b"bswap")) {
            (Some(bits), _, _) => (0xd4, bits),
            (_, Some(bits), _) => (0xdc, bits),
            (_, _, Some(bits)) => (0xd7, bits),
            _ => return None,
        };
        let bits = match bits {
            b"16" => 16,
            b"32" => 32,
            b"64" => 64,
            _ => return None,
        };
        self.same_register(true, register).filter(|()| whole)?;
        self.push(opcode | register | bits << 32);
        Some(())
    }

    #[inline(always)]
    fn branch(&mut self) -> Option<()> {
        let reader = &mut self.reader;
        let (whole, register) = reader.register()?;
        let (code, length) = match (reader.peek(0), reader.peek(1), reader.peek(2)) {
            (b'=', b'=', _) => (0x10, 2),
            (b'!', b'=', _) => (0x50, 2),
            (b'>', b'=', _) => (0x30, 2),
            (b'>', _, _) => (0x20, 1),
            (b'<', b'=', _) => (0xb0, 2),
            (b'<', _, _) => (0xa0, 1),
            (b'&', _, _) => (0x40, 1),
            (b's', b'>', b'=') => (0x70, 3),
            (b's', b'>', _) => (0x60, 2),
            (b's', b'<', b'=') => (0xd0, 3),
            (b's', b'<', _) => (0xc0, 2),
            _ => return None,
        };
        reader.at += length;
        reader.blanks();
        let operand = reader.operand(whole)?;
        if reader.word() != b"goto" {
            return None;
        }
        reader.blanks();
        self.push(code | if whole { 5 } else { 6 } | register << 8 | operand);
        self.target(false)
    }

    /// Where the last instruction jumps.
    #[inline(always)]
    fn target(&mut self, is_long: bool) -> Option<()> {
        let slot = self.code.len() - 1;
        let sign = self.reader.peek(0);
        if matches!(sign, b'+' | b'-') {
            self.reader.at += 1;
            let number = i64::try_from(self.reader.digits()?).ok()?;
            return self.code[slot].lead(is_long, if sign == b'-' { -number } else { number });
        }
        let name = self.reader.word();
        self.reader.blanks();
        self.jumps.push((slot, name));
        (!name.is_empty()).then_some(())
    }

    fn finish(mut self) -> Option<Vec<Slot>> {
        if self.code.is_empty() || self.code.len() > MOST {
            return None;
        }
        for (slot, name) in &self.jumps {
            let distance = self.labels.find(name)? as i64 - *slot as i64 - 1;
            let jump = &mut self.code[*slot];
            jump.lead(jump.opcode() == GOTO_LONG, distance)?;
        }
        Some(self.code)
    }
}

impl Slot {
    /// Gives a jump its distance.
    #[inline(always)]
    fn lead(&mut self, is_long: bool, distance: i64) -> Option<()> {
        self.0 |= if is_long {
            u64::from(i32::try_from(distance).ok()? as u32) << 32
        } else {
            u64::from(i16::try_from(distance).ok()? as u16) << 16
        };
        Some(())
    }
}

// ---- disassembling

/// A piece of text, which is copied whole.
#[derive(Clone, Copy)]
struct Piece {
    bytes: [u8; 16],
    length: usize,
}

const fn piece(text: &str) -> Piece {
    let mut bytes = [b' '; 16];
    let mut at = 0;
    while at < text.len() {
        bytes[at] = text.as_bytes()[at];
        at += 1;
    }
    Piece { bytes, length: text.len() }
}

const fn pieces<const N: usize>(texts: [&str; N]) -> [Piece; N] {
    let mut made = [piece(""); N];
    let mut at = 0;
    while at < N {
        made[at] = piece(texts[at]);
        at += 1;
    }
    made
}

static OPERATIONS: [Piece; 16] = pieces([
    " += ", " -= ", " *= ", " /= ", " |= ", " &= ", " <<= ", " >>= ", "", " %= ", " ^= ", " = ", " s>>= ", "", "", "",
]);
static COMPARISONS: [Piece; 16] = pieces([
    "", " == ", " > ", " >= ", " & ", " != ", " s> ", " s>= ", "", "", " < ", " <= ", " s< ", " s<= ", "", "",
]);
/// By width, with room for four bits each.
static REGISTERS: [Piece; 32] = pieces([
    "w0", "w1", "w2", "w3", "w4", "w5", "w6", "w7", "w8", "w9", "w10", "", "", "", "", "", //
    "r0", "r1", "r2", "r3", "r4", "r5", "r6", "r7", "r8", "r9", "r10", "", "", "", "", "",
]);
/// By the bits of the size in an opcode, and by sign.
static ACCESSES: [Piece; 8] = pieces([
    "*(u32 *)(", "*(u16 *)(", "*(u8 *)(", "*(u64 *)(", "*(s32 *)(", "*(s16 *)(", "*(s8 *)(", "",
]);
static PAIRS: [[u8; 2]; 100] = {
    let mut pairs = [[0; 2]; 100];
    let mut at = 0;
    while at < 100 {
        pairs[at] = [b'0' + (at / 10) as u8, b'0' + (at % 10) as u8];
        at += 1;
    }
    pairs
};
/// The bytes that are reserved for a line. The longest has 40, and a piece may be put right before its end.
const LINE: usize = 64;

/// Writes into room that is reserved, which each line begins with `LINE` bytes of.
struct Writer {
    text: Vec<u8>,
}

impl Writer {
    #[inline(always)]
    fn copy<const N: usize>(&mut self, bytes: &[u8; N], length: usize) {
        unsafe {
            let end = self.text.len();
            self.text.as_mut_ptr().add(end).cast::<[u8; N]>().write_unaligned(*bytes);
            self.text.set_len(end + length);
        }
    }

    #[inline(always)]
    fn put(&mut self, piece: &Piece) {
        self.copy(&piece.bytes, piece.length);
    }

    #[inline(always)]
    fn word<const N: usize>(&mut self, word: &[u8; N]) {
        self.copy(word, N);
    }

    #[inline(always)]
    fn register(&mut self, whole: bool, register: u8) {
        self.put(&REGISTERS[usize::from(whole) << 4 | usize::from(register & 15)]);
    }

    #[inline(always)]
    fn digits(&mut self, number: u64) {
        if number < 10 {
            return self.word(&[b'0' + number as u8]);
        }
        if number >= 1000 {
            return self.many_digits(number);
        }
        if number >= 100 {
            self.word(&[b'0' + (number / 100) as u8]);
        }
        self.word(&PAIRS[number as usize % 100]);
    }

    #[inline(never)]
    fn many_digits(&mut self, number: u64) {
        let (mut digits, mut from, mut rest) = ([0; 20], 20, number);
        while rest != 0 {
            from -= 1;
            digits[from] = b'0' + (rest % 10) as u8;
            rest /= 10;
        }
        self.text.extend_from_slice(&digits[from..]);
    }

    #[inline(always)]
    fn number(&mut self, number: i32) {
        if number < 0 {
            self.word(b"-");
        }
        self.digits(number.unsigned_abs().into());
    }

    #[inline(always)]
    fn operand(&mut self, slot: Slot, whole: bool) {
        if slot.opcode() & 8 == 0 { self.number(slot.immediate()) } else { self.register(whole, slot.source()) }
    }

    #[inline(always)]
    fn stored(&mut self, slot: Slot) {
        if slot.opcode() & 7 == 2 { self.number(slot.immediate()) } else { self.register(true, slot.source()) }
    }

    #[inline(always)]
    fn access(&mut self, slot: Slot, base: u8) {
        let signed = slot.opcode() >> 5 == 4;
        self.put(&ACCESSES[usize::from(signed) << 2 | usize::from(slot.opcode() >> 3 & 3)]);
        self.register(true, base);
        self.word(if slot.offset() < 0 { b" - " } else { b" + " });
        self.digits(slot.offset().unsigned_abs().into());
        self.word(b")");
    }

    #[inline(always)]
    fn target(&mut self, distance: i64) {
        self.word(if distance < 0 { b"-" } else { b"+" });
        self.digits(distance.unsigned_abs());
    }

    #[inline(always)]
    fn arithmetic(&mut self, slot: Slot) {
        let whole = slot.opcode() & 7 == 7;
        if slot.offset() != 0 || matches!(slot.opcode() >> 4, 8 | 13) {
            return self.other_arithmetic(slot, whole);
        }
        self.register(whole, slot.destination());
        self.put(&OPERATIONS[usize::from(slot.opcode() >> 4)]);
        self.operand(slot, whole);
    }

    #[cold]
    fn other_arithmetic(&mut self, slot: Slot, whole: bool) {
        let is_swap = slot.opcode() >> 4 == 13;
        self.register(whole || is_swap, slot.destination());
        match slot.opcode() {
            0x84 | 0x87 => {
                self.word(b" = -");
                self.register(whole, slot.destination());
            }
            0xd4 | 0xd7 | 0xdc => {
                let name = match slot.opcode() {
                    0xd4 => " = le",
                    0xd7 => " = bswap",
                    _ => " = be",
                };
                self.put(&piece(name));
                self.digits(slot.immediate() as u64);
                self.word(b" ");
                self.register(true, slot.destination());
            }
            0xbc | 0xbf => {
                self.word(b" = (s");
                self.digits(slot.offset() as u64);
                self.word(b")");
                self.register(whole, slot.source());
            }
            opcode => {
                self.put(&piece(if opcode >> 4 == 3 { " s/= " } else { " s%= " }));
                self.operand(slot, whole);
            }
        }
    }

    fn wide(&mut self, slot: Slot, next: Slot) {
        self.register(true, slot.destination());
        if slot.source() == MAP {
            self.word(b" = map ");
            return self.number(slot.immediate());
        }
        self.word(b" = ");
        self.digits(u64::from(slot.immediate() as u32) | u64::from(next.immediate() as u32) << 32);
        self.word(b" ll");
    }

    #[inline(always)]
    fn jump(&mut self, slot: Slot) {
        match slot.opcode() {
            EXIT => self.word(b"exit"),
            CALL => {
                self.word(b"call ");
                self.number(slot.immediate());
            }
            GOTO => {
                self.word(b"goto ");
                self.target(slot.distance());
            }
            GOTO_LONG => {
                self.word(b"gotol ");
                self.target(slot.distance());
            }
            opcode => {
                let whole = opcode & 7 == 5;
                self.word(b"if ");
                self.register(whole, slot.destination());
                self.put(&COMPARISONS[usize::from(opcode >> 4)]);
                self.operand(slot, whole);
                self.word(b" goto ");
                self.target(slot.distance());
            }
        }
    }
}

/// The canonical text of a program, a line for each instruction.
#[inline(never)]
pub fn disassemble(code: &[Slot]) -> String {
    let mut writer = Writer { text: Vec::with_capacity(LINE * (code.len() + 1)) };
    for (at, slot) in code.iter().copied().enumerate() {
        match slot.opcode() & 7 {
            4 | 7 => writer.arithmetic(slot),
            1 => {
                writer.register(true, slot.destination());
                writer.word(b" = ");
                writer.access(slot, slot.source());
            }
            2 | 3 => {
                writer.access(slot, slot.destination());
                writer.word(b" = ");
                writer.stored(slot);
            }
            0 if slot.is_second_half() => continue,
            0 => writer.wide(slot, code[at + 1]),
            _ => writer.jump(slot),
        }
        writer.word(b"\n");
    }
    String::from_utf8(writer.text).expect("letters, digits and signs")
}

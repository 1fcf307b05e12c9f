//! Slots of eight bytes, which stay as they are: decoding only checks them.

/// The source of a wide instruction that is a map and no number.
pub const MAP: u8 = 5;
/// Slots of a program.
pub const MOST: usize = 4096;

/// An instruction, or the second half of one of two slots, whose opcode is 0.
#[derive(Clone, Copy, PartialEq)]
pub struct Slot(pub u64);

impl Slot {
    #[inline(always)]
    pub fn opcode(self) -> u8 {
        self.0 as u8
    }

    #[inline(always)]
    pub fn destination(self) -> u8 {
        (self.0 >> 8) as u8 & 15
    }

    #[inline(always)]
    pub fn source(self) -> u8 {
        (self.0 >> 12) as u8 & 15
    }

    #[inline(always)]
    pub fn offset(self) -> i16 {
        (self.0 >> 16) as i16
    }

    #[inline(always)]
    pub fn immediate(self) -> i32 {
        (self.0 >> 32) as i32
    }

    pub fn is_wide(self) -> bool {
        self.opcode() == WIDE
    }

    pub fn is_second_half(self) -> bool {
        self.opcode() == 0
    }

    /// The bytes of a memory access.
    #[inline(always)]
    pub fn size(self) -> u8 {
        (0x0801_0204u32 >> (self.opcode() & 0x18)) as u8
    }

    /// The distance of a jump, counted from the next slot.
    #[inline(always)]
    pub fn distance(self) -> i64 {
        if self.opcode() == GOTO_LONG { self.immediate().into() } else { self.offset().into() }
    }
}

pub const WIDE: u8 = 0x18;
pub const GOTO: u8 = 0x05;
pub const GOTO_LONG: u8 = 0x06;
pub const CALL: u8 = 0x85;
pub const EXIT: u8 = 0x95;

const DESTINATION: u64 = 0xf00;
const SOURCE: u64 = 0xf000;
const OFFSET: u64 = 0xffff_0000;
const IMMEDIATE: u64 = !0xffff_ffff;
/// No slot of that opcode has these bits.
const SPECIAL: u64 = u64::MAX;

/// The bits that are 0 in the usual form of an opcode.
const fn zeros(opcode: u8) -> u64 {
    let operand = if opcode & 8 == 0 { SOURCE } else { IMMEDIATE };
    match (opcode & 7, opcode >> 4, opcode >> 5) {
        (1, _, 3) => IMMEDIATE,
        (1, _, 4) if opcode != 0x99 => IMMEDIATE,
        (2, _, 3) => SOURCE,
        (3, _, 3) => IMMEDIATE,
        (4 | 7, 0..=7 | 9..=12, _) => OFFSET | operand,
        (4 | 7, 8, _) if opcode & 8 == 0 => SOURCE | OFFSET | IMMEDIATE,
        (5 | 6, 1..=7 | 10..=13, _) => operand,
        (5, 0, _) if opcode == GOTO => DESTINATION | SOURCE | IMMEDIATE,
        (6, 0, _) if opcode == GOTO_LONG => DESTINATION | SOURCE | OFFSET,
        (5, 8, _) if opcode == CALL => DESTINATION | SOURCE | OFFSET,
        (5, 9, _) if opcode == EXIT => DESTINATION | SOURCE | OFFSET | IMMEDIATE,
        _ => SPECIAL,
    }
}

static ZEROS: [u64; 256] = {
    let mut table = [0; 256];
    let mut opcode = 0;
    while opcode < 256 {
        table[opcode] = zeros(opcode as u8);
        opcode += 1;
    }
    table
};

/// Bytes of two registers: 1 where one of them is above 10.
static NO_REGISTERS: [u8; 256] = {
    let mut table = [0; 256];
    let mut byte = 0;
    while byte < 256 {
        table[byte] = (byte & 15 > 10 || byte >> 4 > 10) as u8;
        byte += 1;
    }
    table
};

/// The slots that an instruction of another form takes; 0 if it is none.
#[cold]
fn special(slot: Slot, next: Option<Slot>) -> usize {
    let (wide, from_register) = (slot.opcode() & 7 == 7, slot.opcode() & 8 != 0);
    let (source, offset, immediate) = (slot.source(), slot.offset(), slot.immediate());
    let fits = match (slot.opcode() & 7, slot.opcode() >> 4) {
        (0, _) if slot.is_wide() => {
            let half = next.is_some_and(|next| next.0 as u32 == 0 && (source == 0 || source == MAP && next.0 == 0));
            return if half && offset == 0 { 2 } else { 0 };
        }
        (4 | 7, 3 | 9) => matches!(offset, 0 | 1) && if from_register { immediate == 0 } else { source == 0 },
        (4 | 7, 11) => from_register && immediate == 0 && (matches!(offset, 8 | 16) || wide && offset == 32),
        (4 | 7, 13) => slot.opcode() != 0xdf && source == 0 && offset == 0 && matches!(immediate, 16 | 32 | 64),
        _ => false,
    };
    fits.into()
}

/// True for the first slot of a wide instruction.
fn is_first_half(slot: Slot) -> bool {
    slot.is_wide() && slot.offset() == 0 && slot.destination() <= 10 && matches!(slot.source(), 0 | MAP)
}

/// The slots of a program, or the slot that is none.
#[inline(never)]
pub fn decode(bytes: &[u8]) -> Result<Vec<Slot>, usize> {
    let (chunks, rest) = bytes.as_chunks::<8>();
    if chunks.is_empty() || !rest.is_empty() || chunks.len() > MOST {
        return Err(chunks.len().min(MOST));
    }
    let mut code = Vec::with_capacity(chunks.len());
    let room = code.spare_capacity_mut();
    let mut at = 0;
    while at < chunks.len() {
        let slot = Slot(u64::from_le_bytes(chunks[at]));
        room[at].write(slot);
        at += 1;
        // The opcode's own bits make all that is in no usual form differ from 0.
        let wrong = (slot.0 | 255) & ZEROS[usize::from(slot.opcode())];
        let registers = NO_REGISTERS[usize::from((slot.0 >> 8) as u8)];
        if wrong | u64::from(registers) == 0 {
            continue;
        }
        let next = chunks.get(at).map(|chunk| Slot(u64::from_le_bytes(*chunk)));
        match (special(slot, next), next) {
            (1, _) if registers == 0 => {}
            (2, Some(next)) if registers == 0 => {
                room[at].write(next);
                at += 1;
            }
            _ => return Err(at - usize::from(next.is_none() || !is_first_half(slot))),
        }
    }
    // All slots were written.
    unsafe { code.set_len(chunks.len()) };
    Ok(code)
}

/// The bytes of a program.
pub fn encode(code: &[Slot]) -> Vec<u8> {
    code.iter().flat_map(|slot| slot.0.to_le_bytes()).collect()
}


/// The first slot from which control goes back, into the middle of an instruction, or past the end.
pub fn flow_fault(code: &[Slot]) -> Option<usize> {
    code.iter().enumerate().find(|(at, slot)| !flows(code, *at, **slot)).map(|(at, _)| at)
}

/// True if control goes on to instructions that follow.
pub fn flows(code: &[Slot], at: usize, slot: Slot) -> bool {
    if slot.is_second_half() || slot.opcode() == EXIT {
        return true;
    }
    let goes_on = at + 1 + usize::from(slot.is_wide()) < code.len();
    match slot.opcode() {
        CALL => goes_on,
        GOTO | GOTO_LONG => jumps(code, at, slot),
        opcode if matches!(opcode & 7, 5 | 6) => goes_on && jumps(code, at, slot),
        _ => goes_on,
    }
}

/// True if a jump leads to an instruction that follows.
#[inline(always)]
pub fn jumps(code: &[Slot], at: usize, slot: Slot) -> bool {
    let distance = slot.distance();
    distance >= 0 && code.get(at + 1 + distance as usize).is_some_and(|slot| !slot.is_second_half())
}

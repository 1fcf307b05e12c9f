"""Programs of random lines, of which most are refused."""

# Numbers, and a pointer to the task.
HEAD = ["r0 = 7", "r2 = -5", "r3 = 70000", "r4 = 1", "r5 = 0x80000000 ll", "r6 = r1"]

LINES = HEAD + [
    "r0 += r2", "r2 *= r3", "r3 -= 9", "w4 ^= w2", "r5 >>= 3", "r0 s/= r2", "w3 s%= -7", "r2 = -r2", "r4 = (s8)r3",
    "r5 = be32 r5", "r3 = r0", "if r0 > r2 goto +1", "if w3 s< -4 goto +2", "if r4 & 6 goto +1", "goto +1",
    "*(u64 *)(r10 - 8) = r2", "*(u32 *)(r10 - 16) = r3", "*(u8 *)(r10 - 12) = 200", "*(u64 *)(r10 - 16) = 4",
    "*(u64 *)(r10 - 24) = r6", "r0 = *(u64 *)(r10 - 8)", "r2 = *(s32 *)(r10 - 16)", "r3 = *(u16 *)(r10 - 16)",
    "r6 = *(u64 *)(r10 - 24)", "r4 = *(u32 *)(r6 + 4)", "*(u64 *)(r6 + 8) = r3", "r5 = *(u64 *)(r6 + 16)",
    "*(u32 *)(r10 - 28) = 2\nr2 = r10\nr2 += -28\nr1 = map 0\ncall 1"
    "\nr2 = 3\nr3 = 4\nr4 = 5\nr5 = 6\nif r0 == 0 goto +3\n*(u64 *)(r0 + 0) = 11\nr3 = *(u64 *)(r0 + 0)\nr0 = 1",
    "*(u32 *)(r10 - 28) = 9\nr2 = r10\nr2 += -28\nr1 = map 0\ncall 1"
    "\nr2 = 3\nr3 = 4\nr4 = 5\nr5 = 6\nif r0 == 0 goto +2\n*(u32 *)(r0 + 4) = 12\nr0 = 1",
    "*(u32 *)(r10 - 28) = 1\nr2 = r10\nr2 += -28\nr1 = map 0\ncall 1\n*(u64 *)(r10 - 40) = r0\nr0 = *(u64 *)(r10 - 40)"
    "\nr2 = 3\nr3 = 4\nr4 = 5\nr5 = 6\nif r0 == 0 goto +3\nr7 = *(u64 *)(r10 - 40)\n*(u16 *)(r7 + 2) = r3\nr0 = *(u64 *)(r7 + 0)",
    "call 5\nr2 = 3\nr3 = 4\nr4 = 5\nr5 = 6", "r1 = 0\ncall 1008\nr2 = 3\nr3 = 4\nr4 = 5\nr5 = 6", "r2 <<= 40",
    "w0 = w2",
    # Tests and jumps, short and long, and lines that are often refused.
    "if r0 == 0 goto +1", "if r6 != 0 goto +2", "if r7 == 0 goto +3", "if r3 > 4 goto +5", "if r2 == r3 goto +8",
    "goto +2", "goto +0", "gotol +4", "r7 = r10", "r7 += -32", "*(u64 *)(r7 + 0) = r6", "*(u16 *)(r7 + 2) = 3",
    "r6 = *(u64 *)(r7 + 0)", "r1 = r6", "r9 = 0x1234567812345678 ll", "r8 = r9",
]

# The value of the key 1 in r6, and in r8 a number of which nothing is known.
ARRAY_HEAD = ["r8 = *(u64 *)(r1 + 8)", "*(u32 *)(r10 - 4) = 1", "r2 = r10", "r2 += -4", "r1 = map 0", "call 1",
              "if r0 == 0 goto out", "r6 = r0"]
NEXT = "r8 *= 1103515245\nr8 += 12345\nr3 = r8\nr3 >>= 16\n"  # the next number, in r8 and, from bit 16 on, in r3
PARTS = [  # the text before a number, the bits that the number may have, and the text after it
    ("r3 &= ", 63, "\nr7 = r6\nr7 += r3\nr5 = *(u8 *)(r7 + 0)\nr8 ^= r5"),
    ("r3 &= ", 62, "\nr7 = r6\nr7 += r3\n*(u16 *)(r7 + 0) = r8"),
    ("r3 &= ", 60, "\nr7 = r6\nr7 += r3\nr5 = *(s32 *)(r7 + 0)\nr8 ^= r5"),
    ("r3 &= ", 56, "\nr7 = r6\nr7 += r3\n*(u64 *)(r7 + 0) = r8"),
    ("r3 &= ", 60, "\nr7 = r6\nr7 += r3\nr5 = *(u64 *)(r7 + 0)\nr8 += r5"),
    ("r3 &= ", 127, "\nr7 = r6\nr7 += r3\n*(u8 *)(r7 + 0) = r8"),
    ("r3 &= 255\nif r3 > ", 63, " goto +3\nr7 = r6\nr7 += r3\n*(u8 *)(r7 + 0) = r8"),
    ("r3 &= 63\nif r3 >= ", 32, " goto +4\nr3 <<= 1\nr7 = r6\nr7 += r3\n*(u16 *)(r7 + 0) = r8"),
    ("r3 &= 31\nif r3 > ", 15, " goto +5\nr3 <<= 2\nr7 = r6\nr7 += r3\nr5 = *(u32 *)(r7 + 0)\nr8 ^= r5"),
    ("r3 &= 15\nif r3 > ", 15, " goto +4\nr3 *= 8\nr7 = r6\nr7 += r3\n*(u64 *)(r7 + 0) = r8"),
    ("r3 &= 255\nif r3 <= ", 63, " goto +1\ngoto +4\nr7 = r6\nr7 += r3\nr5 = *(u8 *)(r7 + 0)\nr8 ^= r5"),
    ("r3 &= 15\nif r3 < ", 15, " goto +1\ngoto +4\nr3 <<= 3\nr7 = r6\nr7 += r3\n*(u64 *)(r7 + 0) = r8"),
    ("r3 &= 127\nif r3 < 8 goto +5\nif r3 > ", 127, " goto +4\nr7 = r6\nr7 += r3\nr5 = *(u8 *)(r7 - 8)\nr8 ^= r5"),
    ("r3 &= 7\nif r3 != ", 7, " goto +3\nr7 = r6\nr7 += r3\n*(u8 *)(r7 + 0) = r8"),
    ("r3 &= 64\nif r3 == ", 64, " goto +3\nr7 = r6\nr7 += r3\n*(u8 *)(r7 + 0) = r8"),
    ("r3 %= 9\nr3 *= ", 15, "\nr7 = r6\nr7 += r3\n*(u8 *)(r7 + 0) = r8"),
    ("r3 >>= 43\nr3 += ", 60, "\nr7 = r6\nr7 += r3\n*(u8 *)(r7 + 0) = r8"),
    ("r3 &= 32\nr4 = r8\nr4 &= ", 28, "\nr7 = r6\nr7 += r3\nr7 += r4\nr5 = *(u32 *)(r7 + 0)\nr8 ^= r5"),
    ("r3 &= 24\nr7 = r6\nr7 += r3\nr7 += ", 56, "\nr7 -= 8\nr5 = *(u64 *)(r7 + 8)\nr8 ^= r5"),
    ("r7 = r6\nif r3 & 1 goto +1\nr7 += ", 60, "\nr5 = *(u32 *)(r7 + 0)\nr8 ^= r5"),
    ("r7 = r6\nr3 &= 24\nif r8 & 1 goto +1\nr7 += r3\n*(u8 *)(r7 + ", 63, ") = r8"),
    ("r3 &= ", 56, "\nr7 = r6\nr7 += r3\n*(u64 *)(r10 - 16) = r7\nr7 = *(u64 *)(r10 - 16)\n*(u64 *)(r7 + 0) = r8"),
    ("r3 &= ", 60, "\nr2 = r6\nr2 += r3\nr4 = r8\nr4 &= 7\n*(u32 *)(r2 + 0) = r4\nr1 = map 0\ncall 1"
     "\nif r0 == 0 goto +1\nr6 = r0"),
    ("r4 = r3\nr4 &= 15\nif r4 > ", 15, " goto +2\nr7 = r6\nr7 += r4"),
]


def random_lines(random):
    """Random lines, with room for jumps at the end, over a map of four values of 8 bytes."""
    room = [f"r0 = {number}" for number in range(8)]
    return "\n".join([*HEAD, *random.choices(LINES, k=random.randrange(2, 22)), *room, "exit"])


def random_array(random):
    """Random accesses at masked and tested offsets into a value of 64 bytes."""
    text = "\n".join([*ARRAY_HEAD, f"r8 += {random.getrandbits(31)}"])
    for _ in range(random.randrange(1, 5)):
        before, bits, after = random.choice(PARTS)
        text += f"\n{NEXT}{before}{random.getrandbits(31) & bits}{after}"
    return text + "\nout:\nr0 = r8\nexit"

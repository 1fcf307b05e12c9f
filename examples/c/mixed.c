/* Narrow, signed and swapped numbers: bytes of a struct, shifts with sign, byte order. */
struct packet {
	signed char delta;
	unsigned char flags;
	short offset;
	unsigned int length;
	unsigned long time;
};

unsigned long entry(void)
{
	volatile struct packet p;
	p.delta = -5, p.flags = 0x81, p.offset = -300;
	p.length = 0x01020304, p.time = 0x1122334455667788;
	unsigned long sum = (unsigned long)p.delta + p.flags;

	sum = sum * 1000003 + (unsigned long)p.offset;
	sum ^= __builtin_bswap32(p.length);
	sum += __builtin_bswap64(p.time) >> 3;
	sum ^= (unsigned long)((long)p.time << 9 >> 17);
	return (p.flags & 0x80) ? ~sum : sum;
}

/* CRC-32 of eight bytes without a table; the check value of "12345678". */
unsigned long entry(void)
{
	volatile unsigned char text[8];
	unsigned int crc = ~0u;
#pragma unroll
	for (int i = 0; i < 8; i++)
		text[i] = '1' + i;
#pragma unroll
	for (int i = 0; i < 8; i++) {
		crc ^= text[i];
#pragma unroll
		for (int bit = 0; bit < 8; bit++)
			crc = crc >> 1 ^ (0xedb88320u & -(crc & 1));
	}
	return ~crc;
}

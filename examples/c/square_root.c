/* The square root of a number, rounded down, bit by bit. */
unsigned long entry(void)
{
	volatile unsigned long number = 1234567890123456789ul;
	unsigned long rest = number, root = 0;
#pragma unroll
	for (int bit = 31; bit >= 0; bit--) {
		unsigned long step = (root << 1 | 1ul << bit) << bit;
		if (rest >= step) {
			rest -= step;
			root |= 1ul << bit;
		}
	}
	return root;
}

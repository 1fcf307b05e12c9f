/* Signed division and remainder, which BPF has from version 4 of its instruction set on. */
unsigned long entry(void)
{
	volatile long a = -1234567890123, b = 97;
	volatile int c = -1000000007, d = -13;
	long wide = a / b * 1000 + a % b;
	int narrow = c / d * 10 + c % d;
	return (unsigned long)wide ^ (unsigned long)(long)narrow;
}

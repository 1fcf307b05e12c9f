/* The day of the week, 0 for Sunday, and the day of the year of 22 November 2026: 326. */
unsigned long entry(void)
{
	volatile unsigned int year = 2026, month = 11, day = 22;
	unsigned int y = year, m = month, d = day;
	unsigned int leap = y % 4 == 0 && (y % 100 != 0 || y % 400 == 0);
	unsigned int before = (367 * m - 362) / 12 - (m > 2 ? 2 - leap : 0);
	unsigned int years = y - 1;
	unsigned int days = years * 365 + years / 4 - years / 100 + years / 400 + before + d;
	return (unsigned long)(days % 7) << 32 | (before + d);
}

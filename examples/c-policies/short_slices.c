/* Tasks in one line, two milliseconds each: whoever has run that long goes to the end of the line. */
#include "scx.h"

#define LINE 0		/* a queue of our own */
#define SLICE 2000000	/* 2 ms, in nanoseconds */

SEC("init") u64 line_init(void)
{
	return create_dsq(LINE);
}

SEC("enqueue") void line_enqueue(struct task *task, u64 flags)
{
	dsq_insert(task, LINE, SLICE, flags);
}

SEC("dispatch") void line_dispatch(u64 cpu, struct task *prev)
{
	dsq_move_to_local(LINE);
}

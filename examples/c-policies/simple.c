/*
 * scx_simple, the kernel's example, in its FIFO form: a task that wakes goes straight to an idle processor,
 * if there is one; all others run in the order in which they come, 20 ms at a time.
 */
#include "scx.h"

#define SHARED 0	/* a queue of our own */

SEC("init") u64 simple_init(void)
{
	return create_dsq(SHARED);
}

SEC("select_cpu") u64 simple_select_cpu(struct task *task, u64 prev_cpu, u64 flags)
{
	u64 cpu = select_cpu_dfl(task);

	if (cpu_idle(cpu))
		dsq_insert(task, SCX_DSQ_LOCAL, SCX_SLICE_DFL, 0);
	return cpu;
}

SEC("enqueue") void simple_enqueue(struct task *task, u64 flags)
{
	dsq_insert(task, SHARED, SCX_SLICE_DFL, flags);
}

SEC("dispatch") void simple_dispatch(u64 cpu, struct task *prev)
{
	dsq_move_to_local(SHARED);
}

/*
 * scx_simple, the kernel's example, by virtual time: each task has a virtual time, which grows by what it
 * ran, the slower the more it weighs, and the one of the least runs next.
 */
#include "scx.h"

#define SHARED 0	/* a queue of our own */
#define NOW 0		/* a map of one element: the greatest virtual time at which a task began to run */

DEFINE_MAP(NOW, 1, u64);

/* Whether virtual time a is before b. */
INLINE int is_before(u64 a, u64 b)
{
	return (s64)(a - b) < 0;
}

SEC("init") u64 vtime_init(void)
{
	return create_dsq(SHARED);
}

SEC("enable") void vtime_enable(struct task *task)
{
	u64 *now = LOOKUP(NOW, 0);

	if (now)
		task->dsq_vtime = *now;
}

SEC("select_cpu") u64 vtime_select_cpu(struct task *task, u64 prev_cpu, u64 flags)
{
	u64 cpu = select_cpu_dfl(task);

	if (cpu_idle(cpu))
		dsq_insert(task, SCX_DSQ_LOCAL, SCX_SLICE_DFL, 0);
	return cpu;
}

/* A task waits by its virtual time, which is at least that of now less a slice. */
SEC("enqueue") void vtime_enqueue(struct task *task, u64 flags)
{
	u64 *now = LOOKUP(NOW, 0);
	u64 vtime, least;

	if (!now)
		return;
	vtime = task->dsq_vtime;
	least = *now - SCX_SLICE_DFL;
	if (is_before(vtime, least))
		vtime = least;
	dsq_insert_vtime(task, SHARED, SCX_SLICE_DFL, vtime, flags);
}

SEC("dispatch") void vtime_dispatch(u64 cpu, struct task *prev)
{
	dsq_move_to_local(SHARED);
}

SEC("running") void vtime_running(struct task *task)
{
	u64 *now = LOOKUP(NOW, 0);

	if (now) {
		u64 vtime = task->dsq_vtime;

		if (is_before(*now, vtime))
			*now = vtime;
	}
}

/* A task that stops is charged for what it used of its slice, by its weight. */
SEC("stopping") void vtime_stopping(struct task *task, u64 runnable)
{
	task->dsq_vtime += (SCX_SLICE_DFL - task->slice) * 100 / task->weight;
}

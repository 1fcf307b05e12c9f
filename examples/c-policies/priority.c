/*
 * Strict priority by group: the tasks of an earlier group go before those of all later ones, and in a group
 * in the order in which they come. The queue is by virtual time, and the number of the group is the time.
 */
#include "scx.h"

#define SHARED 0		/* a queue of our own */
#define SLICE 2000000		/* 2 ms */

SEC("init") u64 priority_init(void)
{
	return create_dsq(SHARED);
}

SEC("enqueue") void priority_enqueue(struct task *task, u64 flags)
{
	dsq_insert_vtime(task, SHARED, SLICE, task->group, flags);
}

SEC("dispatch") void priority_dispatch(u64 cpu, struct task *prev)
{
	dsq_move_to_local(SHARED);
}

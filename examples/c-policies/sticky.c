/*
 * Each task keeps its processor: it gets one that is idle, if there is any, before it runs for the first
 * time, and then goes back to where it ran last, into the own queue of that processor.
 */
#include "scx.h"

#define SLICE 2000000	/* 2 ms */

SEC("select_cpu") u64 sticky_select_cpu(struct task *task, u64 prev_cpu, u64 flags)
{
	return task->run_ns ? prev_cpu : select_cpu_dfl(task);
}

SEC("enqueue") void sticky_enqueue(struct task *task, u64 flags)
{
	dsq_insert(task, SCX_DSQ_LOCAL, SLICE, flags);
}

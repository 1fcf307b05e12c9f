/*
 * One processor decides for two: enqueue puts no task anywhere, so all are held; dispatch on processor 0
 * hands them out, two at a time, one to each processor. The policy keeps the pids of those who wait in a
 * ring.
 */
#include "scx.h"

#define SLICE 2000000	/* 2 ms */
#define PIDS 64

#define RING 0		/* the pids */
#define COUNTS 1	/* how many were taken from the ring, and put into it */

struct counts {
	u64 taken;
	u64 put;
};

DEFINE_MAP(RING, PIDS, u64);
DEFINE_MAP(COUNTS, 1, struct counts);

SEC("enqueue") void central_enqueue(struct task *task, u64 flags)
{
	u32 pid = task->pid;
	struct counts *counts = LOOKUP(COUNTS, 0);
	u64 *place;

	if (!counts)
		return;
	place = LOOKUP(RING, counts->put % PIDS);
	if (!place)
		return;
	*place = pid;
	counts->put++;
}

/* Takes the next task from the ring and hands it to a queue; whether there was one. */
INLINE int hand_out(struct counts *counts, u64 queue)
{
	u64 *place;
	struct task *task;

	if (counts->taken == counts->put)
		return 0;
	place = LOOKUP(RING, counts->taken % PIDS);
	if (!place)
		return 0;
	counts->taken++;
	task = task_by_pid(*place);
	if (!task)
		return 0;
	dsq_insert(task, queue, SLICE, 0);
	return 1;
}

SEC("dispatch") void central_dispatch(u64 cpu, struct task *prev)
{
	struct counts *counts;

	if (cpu != 0)	/* processor 0 alone hands out */
		return;
	counts = LOOKUP(COUNTS, 0);
	if (counts && hand_out(counts, SCX_DSQ_LOCAL))
		hand_out(counts, SCX_DSQ_LOCAL_ON | 1);
}

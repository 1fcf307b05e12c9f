/*
 * A feedback queue: tasks have levels. One that uses up its slice sinks by a level, where slices are longer
 * and whose turn comes when no task waits above; one that goes to sleep rises by one. So a task that works
 * for a short time between sleeps goes before those that never sleep: the policy finds out which is which.
 * The levels are in one value of a map, a byte for each task, and so are the slices of the levels.
 */
#include "scx.h"

#define TASKS 1024	/* as many as there are at most, by the low bits of their pids */
#define LEVELS 3	/* each with a queue of the same number */

struct levels {
	u64 slice[LEVELS];	/* in nanoseconds */
	u8 of[TASKS];
};

DEFINE_MAP(0, 1, struct levels);

SEC("init") u64 feedback_init(void)
{
	struct levels *levels = LOOKUP(0, 0);

	if (!levels)
		return 1;
	levels->slice[0] = 2000000;
	levels->slice[1] = 4000000;
	levels->slice[2] = 8000000;
	return create_dsq(0) | create_dsq(1) | create_dsq(2);
}

/* The index is masked, and then the level is tested. */
SEC("enqueue") void feedback_enqueue(struct task *task, u64 flags)
{
	struct levels *levels = LOOKUP(0, 0);
	u64 level;

	if (!levels)
		return;
	level = INDEX(levels->of[INDEX(task->pid) % TASKS]);
	if (level < LEVELS)
		dsq_insert(task, level, levels->slice[level], flags);
}

SEC("dispatch") void feedback_dispatch(u64 cpu, struct task *prev)
{
	if (!dsq_move_to_local(0) && !dsq_move_to_local(1))
		dsq_move_to_local(2);
}

SEC("stopping") void feedback_stopping(struct task *task, u64 runnable)
{
	struct levels *levels = LOOKUP(0, 0);
	u8 *level;

	if (!levels)
		return;
	level = &levels->of[INDEX(task->pid) % TASKS];
	if (!runnable) {
		if (*level > 0)
			*level -= 1;
	} else if (task->slice == 0 && *level < LEVELS - 1) {
		*level += 1;
	}
}

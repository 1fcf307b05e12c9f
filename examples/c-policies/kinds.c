/*
 * Virtual time by task in a hash, which forgets a task that sleeps; runs are counted on each CPU, a stack has the tasks
 * that slept last, and a queue those that woke. By Linux rules alone.
 * Runs as c-policies/kernel-form/kinds.toml.
 */
#include "scx.h"

#define SHARED 0		/* a queue of our own */
#define SLICE 4000000		/* 4 ms */
#define ONLY_NEW 1		/* flags of an update */
#define MAKE_ROOM 2		/* flags of a push */

DEFINE_HASH(0, 64, u64, u64);
DEFINE_PERCPU(1, 1, u64);
DEFINE_STACK(2, 4, u32);
DEFINE_QUEUE(3, 4, u32);

SEC("init") u64 kinds_init(void)
{
	return create_dsq(SHARED);
}

SEC("enqueue") void kinds_enqueue(struct task *task, u64 flags)
{
	u64 key = task->pid, zero = 0, *time;

	map_update_elem(MAP(0), &key, &zero, ONLY_NEW);
	time = LOOKUP_KEY(0, &key);
	if (!time)
		return;
	*time += 1000;
	dsq_insert_vtime(task, SHARED, SLICE, *time, flags);
}

SEC("running") void kinds_running(struct task *task)
{
	u32 pid = task->pid, first;
	u64 *runs = LOOKUP(1, 0);

	if (runs)
		(*runs)++;
	map_push_elem(MAP(3), &pid, MAKE_ROOM);
	if (map_peek_elem(MAP(3), &first) == 0 && first == pid)
		map_pop_elem(MAP(3), &first);
}

SEC("dispatch") void kinds_dispatch(u64 cpu, struct task *prev)
{
	u64 *runs = LOOKUP_CPU(1, 0, cpu);

	if (!runs || *runs > 100000)
		exit_policy(1, 0);
	dsq_move_to_local(SHARED);
}

SEC("quiescent") void kinds_quiescent(struct task *task, u64 flags)
{
	u32 pid = task->pid, last;
	u64 key = pid;

	if (!(flags & 1))	/* it doesn't sleep: its weight changes */
		return;
	map_delete_elem(MAP(0), &key);
	if (map_push_elem(MAP(2), &pid, MAKE_ROOM) != 0)
		exit_policy(2, 0);
	if (map_peek_elem(MAP(2), &last) != 0 || last != pid)
		exit_policy(3, 0);
}

/*
 * A feedback queue: a task that uses up its slice sinks by a level, where slices are longer and whose turn comes when
 * no task waits above; one that goes to sleep rises by one.
 * Built with --set tasks=4.
 */
#include <scx/common.bpf.h>

char _license[] SEC("license") = "GPL";

UEI_DEFINE(uei);

#define LEVELS 3	/* each with a queue of the same number */

u64 slices[LEVELS] = { 2000000, 4000000, 8000000 };

struct task_level {
	u64 level;
};

struct {
	__uint(type, BPF_MAP_TYPE_TASK_STORAGE);
	__uint(map_flags, BPF_F_NO_PREALLOC);
	__type(key, int);
	__type(value, struct task_level);
} levels SEC(".maps");

void BPF_STRUCT_OPS(feedback_enqueue, struct task_struct *p, u64 enq_flags)
{
	struct task_level *of = bpf_task_storage_get(&levels, p, 0, 0);
	u64 *slice;

	if (!of)
		return;
	slice = ARRAY_ELEM_PTR(slices, of->level, LEVELS);
	if (slice)
		scx_bpf_dsq_insert(p, of->level, *slice, enq_flags);
}

void BPF_STRUCT_OPS(feedback_dispatch, s32 cpu, struct task_struct *prev)
{
	u32 level;

	bpf_for(level, 0, LEVELS) {
		if (scx_bpf_dsq_move_to_local(level))
			break;
	}
}

void BPF_STRUCT_OPS(feedback_stopping, struct task_struct *p, bool runnable)
{
	struct task_level *of = bpf_task_storage_get(&levels, p, 0, 0);

	if (!of)
		return;
	if (!runnable) {
		if (of->level > 0)
			of->level--;
	} else if (p->scx.slice == 0 && of->level < LEVELS - 1) {
		of->level++;
	}
}

s32 BPF_STRUCT_OPS(feedback_init_task, struct task_struct *p, struct scx_init_task_args *args)
{
	return bpf_task_storage_get(&levels, p, 0, BPF_LOCAL_STORAGE_GET_F_CREATE) ? 0 : -ENOMEM;
}

s32 BPF_STRUCT_OPS_SLEEPABLE(feedback_init)
{
	u32 level;
	s32 error;

	bpf_for(level, 0, LEVELS) {
		error = scx_bpf_create_dsq(level, -1);
		if (error)
			return error;
	}
	return 0;
}

void BPF_STRUCT_OPS(feedback_exit, struct scx_exit_info *ei)
{
	UEI_RECORD(uei, ei);
}

SCX_OPS_DEFINE(feedback_ops,
	       .enqueue = (void *)feedback_enqueue,
	       .dispatch = (void *)feedback_dispatch,
	       .stopping = (void *)feedback_stopping,
	       .init_task = (void *)feedback_init_task,
	       .init = (void *)feedback_init,
	       .exit = (void *)feedback_exit,
	       .name = "feedback");

/*
 * As per_cpu, but a task that wakes goes to an idle CPU, and a CPU whose queue is empty takes from the
 * other one. The counts, for each CPU, are those of tasks that were taken.
 */
#include <scx/common.bpf.h>

char _license[] SEC("license") = "GPL";

UEI_DEFINE(uei);

#define SLICE 4000000

struct {
	__uint(type, BPF_MAP_TYPE_PERCPU_ARRAY);
	__type(key, u32);
	__type(value, u64);
	__uint(max_entries, 1);
} taken SEC(".maps");

static void count(void)
{
	u32 key = 0;
	u64 *number = bpf_map_lookup_elem(&taken, &key);

	if (number)
		__sync_fetch_and_add(number, 1);
}

s32 BPF_STRUCT_OPS(balanced_select_cpu, struct task_struct *p, s32 prev_cpu, u64 wake_flags)
{
	bool is_idle = false;
	s32 cpu = scx_bpf_select_cpu_dfl(p, prev_cpu, wake_flags, &is_idle);

	if (is_idle)
		scx_bpf_dsq_insert(p, SCX_DSQ_LOCAL, SLICE, 0);
	return cpu;
}

void BPF_STRUCT_OPS(balanced_enqueue, struct task_struct *p, u64 enq_flags)
{
	scx_bpf_dsq_insert(p, scx_bpf_task_cpu(p), SLICE, enq_flags);
}

void BPF_STRUCT_OPS(balanced_dispatch, s32 cpu, struct task_struct *prev)
{
	if (scx_bpf_dsq_move_to_local(cpu))
		return;
	if (scx_bpf_dsq_move_to_local(1 - cpu))
		count();
}

s32 BPF_STRUCT_OPS_SLEEPABLE(balanced_init)
{
	s32 error = scx_bpf_create_dsq(0, -1);

	return error ? error : scx_bpf_create_dsq(1, -1);
}

void BPF_STRUCT_OPS(balanced_exit, struct scx_exit_info *ei)
{
	UEI_RECORD(uei, ei);
}

SCX_OPS_DEFINE(balanced_ops,
	       .select_cpu = (void *)balanced_select_cpu,
	       .enqueue = (void *)balanced_enqueue,
	       .dispatch = (void *)balanced_dispatch,
	       .init = (void *)balanced_init,
	       .exit = (void *)balanced_exit,
	       .name = "balanced");

/*
 * Tasks in the order in which they come, from one queue; one that wakes goes to an idle CPU at once. With the
 * names of Linux 6.12, and a count for each CPU.
 */
#include <scx/common.bpf.h>

char _license[] SEC("license") = "GPL";

#define LINE 0

u64 RESIZABLE_ARRAY(data, dispatches);
static u32 kept_here;

s32 BPF_STRUCT_OPS(simple_select_cpu, struct task_struct *p, s32 prev_cpu, u64 wake_flags)
{
	bool is_idle = false;
	s32 cpu = scx_bpf_select_cpu_dfl(p, prev_cpu, wake_flags, &is_idle);

	if (is_migration_disabled(p))
		WRITE_ONCE(kept_here, READ_ONCE(kept_here) + 1);
	if (is_idle)
		scx_bpf_dispatch(p, SCX_DSQ_LOCAL, SCX_SLICE_DFL, 0);
	return cpu;
}

void BPF_STRUCT_OPS(simple_enqueue, struct task_struct *p, u64 enq_flags)
{
	scx_bpf_dispatch(p, LINE, SCX_SLICE_DFL, enq_flags);
}

void BPF_STRUCT_OPS(simple_dispatch, s32 cpu, struct task_struct *prev)
{
	u64 *count = ARRAY_ELEM_PTR(dispatches, cpu, 64);

	if (count)
		(*count)++;
	scx_bpf_consume(LINE);
}

s32 BPF_STRUCT_OPS_SLEEPABLE(simple_init)
{
	return scx_bpf_create_dsq(LINE, -1);
}

SCX_OPS_DEFINE(simple_ops,
	       .select_cpu = (void *)simple_select_cpu,
	       .enqueue = (void *)simple_enqueue,
	       .dispatch = (void *)simple_dispatch,
	       .init = (void *)simple_init,
	       .name = "simple");

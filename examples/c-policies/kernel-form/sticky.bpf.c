/*
 * A task that has run goes back to where it was; one that never ran goes to an idle CPU.
 * Built with --set cpus=2.
 */
#include <scx/common.bpf.h>

char _license[] SEC("license") = "GPL";

static u64 bound, free_homes;

s32 BPF_STRUCT_OPS(sticky_select_cpu, struct task_struct *p, s32 prev_cpu, u64 wake_flags)
{
	bool is_idle;

	if (p->nr_cpus_allowed < scx_bpf_nr_cpu_ids())
		bound++;
	if (!p->se.sum_exec_runtime)
		return scx_bpf_select_cpu_dfl(p, prev_cpu, wake_flags, &is_idle);
	if (scx_bpf_test_and_clear_cpu_idle(prev_cpu))
		free_homes++;
	return prev_cpu;
}

void BPF_STRUCT_OPS(sticky_enqueue, struct task_struct *p, u64 enq_flags)
{
	scx_bpf_dsq_insert(p, SCX_DSQ_LOCAL, 2000000, enq_flags);
}

SCX_OPS_DEFINE(sticky_ops,
	       .select_cpu = (void *)sticky_select_cpu,
	       .enqueue = (void *)sticky_enqueue,
	       .name = "sticky");

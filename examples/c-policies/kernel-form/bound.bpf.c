/*
 * Tasks go where they may run: to an idle CPU if there is one, else to the lowest. Those that may run on CPU 1 wait
 * in its local queue, the others in queue 0. By Linux rules alone.
 * Runs as c-policies/kernel-form/bound.toml.
 * Built with --set cpus=2.
 */
#include <scx/common.bpf.h>
#include "line.bpf.h"

char _license[] SEC("license") = "GPL";

s32 BPF_STRUCT_OPS(bound_select_cpu, struct task_struct *p, s32 prev_cpu, u64 wake_flags)
{
	s32 cpu = scx_bpf_select_cpu_and(p, prev_cpu, wake_flags, p->cpus_ptr, 0);

	if (cpu >= 0 && !bpf_cpumask_test_cpu(cpu, p->cpus_ptr))
		scx_bpf_error("%d may not run on %d", p->pid, cpu);
	return cpu >= 0 ? cpu : bpf_cpumask_first(p->cpus_ptr);
}

void BPF_STRUCT_OPS(bound_enqueue, struct task_struct *p, u64 enq_flags)
{
	u64 line = bpf_cpumask_test_cpu(1, p->cpus_ptr) ? SCX_DSQ_LOCAL_ON | 1 : LINE;

	scx_bpf_dsq_insert(p, line, SCX_SLICE_DFL, enq_flags);
}

SCX_OPS_DEFINE(bound_ops,
	       .select_cpu = (void *)bound_select_cpu,
	       .enqueue = (void *)bound_enqueue,
	       LINE_OPS,
	       .name = "bound");

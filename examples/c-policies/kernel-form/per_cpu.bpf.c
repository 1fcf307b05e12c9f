/* A queue for each of two CPUs: a task waits in that of the CPU on which it ran last. */
#include <scx/common.bpf.h>

char _license[] SEC("license") = "GPL";

#define CPUS 2
#define SLICE 4000000

void BPF_STRUCT_OPS(per_cpu_enqueue, struct task_struct *p, u64 enq_flags)
{
	scx_bpf_dsq_insert(p, scx_bpf_task_cpu(p), SLICE, enq_flags);
}

void BPF_STRUCT_OPS(per_cpu_dispatch, s32 cpu, struct task_struct *prev)
{
	scx_bpf_dsq_move_to_local(cpu);
}

s32 BPF_STRUCT_OPS_SLEEPABLE(per_cpu_init)
{
	s32 cpu, error;

	bpf_for(cpu, 0, CPUS) {
		error = scx_bpf_create_dsq(cpu, -1);
		if (error) {
			scx_bpf_error("no queue for CPU %d: %d", cpu, error);
			return error;
		}
	}
	return 0;
}

SCX_OPS_DEFINE(per_cpu_ops,
	       .enqueue = (void *)per_cpu_enqueue,
	       .dispatch = (void *)per_cpu_dispatch,
	       .init = (void *)per_cpu_init,
	       .name = "per_cpu");

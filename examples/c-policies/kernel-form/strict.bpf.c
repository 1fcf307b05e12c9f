/* Strict priority: a queue for each of two groups, and the second has its turn only while the first is empty. */
#include <scx/common.bpf.h>

char _license[] SEC("license") = "GPL";

#define SLICE 4000000

void BPF_STRUCT_OPS(strict_enqueue, struct task_struct *p, u64 enq_flags)
{
	scx_bpf_dsq_insert(p, p->group, SLICE, enq_flags);
}

void BPF_STRUCT_OPS(strict_dispatch, s32 cpu, struct task_struct *prev)
{
	if (!scx_bpf_dsq_move_to_local(0))
		scx_bpf_dsq_move_to_local(1);
}

s32 BPF_STRUCT_OPS_SLEEPABLE(strict_init)
{
	s32 error = scx_bpf_create_dsq(0, -1);

	return error ? error : scx_bpf_create_dsq(1, -1);
}

SCX_OPS_DEFINE(strict_ops,
	       .enqueue = (void *)strict_enqueue,
	       .dispatch = (void *)strict_dispatch,
	       .init = (void *)strict_init,
	       .name = "strict");

/*
 * Round robin in two lines: tasks that have just woken go before those that used up their slice. A task waits a
 * second at most.
 */
#include <scx/common.bpf.h>

char _license[] SEC("license") = "GPL";

#define SLICE 4000000

enum {
	WOKEN,
	STOPPED,
};

void BPF_STRUCT_OPS(round_robin_enqueue, struct task_struct *p, u64 enq_flags)
{
	u64 line = enq_flags & SCX_ENQ_WAKEUP ? WOKEN : STOPPED;

	scx_bpf_dsq_insert(p, line, SLICE, enq_flags);
}

void BPF_STRUCT_OPS(round_robin_dispatch, s32 cpu, struct task_struct *prev)
{
	if (!scx_bpf_dsq_move_to_local(WOKEN))
		scx_bpf_dsq_move_to_local(STOPPED);
}

s32 BPF_STRUCT_OPS_SLEEPABLE(round_robin_init)
{
	s32 error = scx_bpf_create_dsq(WOKEN, -1);

	if (error)
		return error;
	return scx_bpf_create_dsq(STOPPED, -1);
}

SCX_OPS_DEFINE(round_robin_ops,
	       .enqueue = (void *)round_robin_enqueue,
	       .dispatch = (void *)round_robin_dispatch,
	       .init = (void *)round_robin_init,
	       .flags = SCX_OPS_ENQ_EXITING,
	       .timeout_ms = 1000,
	       .name = "round_robin");

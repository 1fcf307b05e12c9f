/* Two groups, each with a queue: of four turns of 4 ms, by the clock, the first group has three. */
#include <scx/common.bpf.h>

char _license[] SEC("license") = "GPL";

#define TURN 4000000

static u64 first_look, longest;	/* when dispatch was called first, and how long after that it was last */

void BPF_STRUCT_OPS(turns_enqueue, struct task_struct *p, u64 enq_flags)
{
	scx_bpf_dsq_insert(p, p->group, TURN, enq_flags);
}

void BPF_STRUCT_OPS(turns_dispatch, s32 cpu, struct task_struct *prev)
{
	u64 now = scx_bpf_now();
	u64 queue = now / TURN % 4 == 3;

	if (!first_look || time_after(first_look, now))
		first_look = bpf_ktime_get_ns();
	longest = time_delta(now, first_look);
	if (!scx_bpf_dsq_move_to_local(queue))
		scx_bpf_dsq_move_to_local(1 - queue);
}

s32 BPF_STRUCT_OPS_SLEEPABLE(turns_init)
{
	s32 error = 0;
	u64 queue = 0;

	bpf_repeat(2) {
		error = scx_bpf_create_dsq(queue++, -1);
		if (error)
			break;
	}
	return error;
}

SCX_OPS_DEFINE(turns_ops,
	       .enqueue = (void *)turns_enqueue,
	       .dispatch = (void *)turns_dispatch,
	       .init = (void *)turns_init,
	       .name = "turns");

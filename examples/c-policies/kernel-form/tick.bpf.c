/*
 * Tasks in the order in which they come, 20 ms at a time; tick takes the slice of the one that runs as soon as another waits.
 * By Linux rules alone. Runs as linux/tick.toml.
 */
#include <scx/common.bpf.h>

char _license[] SEC("license") = "GPL";

#define LINE 0

void BPF_STRUCT_OPS(tick_enqueue, struct task_struct *p, u64 enq_flags)
{
	scx_bpf_dsq_insert(p, LINE, SCX_SLICE_DFL, enq_flags);
}

void BPF_STRUCT_OPS(tick_dispatch, s32 cpu, struct task_struct *prev)
{
	scx_bpf_dsq_move_to_local(LINE);
}

void BPF_STRUCT_OPS(tick_tick, struct task_struct *p)
{
	if (!scx_bpf_task_running(p))
		scx_bpf_error("tick of %d, which doesn't run", p->pid);
	if (scx_bpf_dsq_peek(LINE))
		p->scx.slice = 0;
}

s32 BPF_STRUCT_OPS_SLEEPABLE(tick_init)
{
	return scx_bpf_create_dsq(LINE, -1);
}

SCX_OPS_DEFINE(tick_ops, .enqueue = (void *)tick_enqueue, .dispatch = (void *)tick_dispatch,
	       .tick = (void *)tick_tick, .init = (void *)tick_init, .name = "tick");

/*
 * Tasks in the order in which they come, 20 ms at a time. The policy is for two tasks: it counts who is awake, and ends
 * itself as a third wakes.
 * By Linux rules alone. Runs as linux/exit.toml.
 */
#include <scx/common.bpf.h>

char _license[] SEC("license") = "GPL";

const volatile u64 most = 2;
static u64 awake;

void BPF_STRUCT_OPS(exit_runnable, struct task_struct *p, u64 enq_flags)
{
	awake++;
	if (awake > most)
		scx_bpf_exit(awake, "%llu tasks are awake, the last is %d", awake, p->pid);
}

void BPF_STRUCT_OPS(exit_quiescent, struct task_struct *p, u64 deq_flags)
{
	awake--;
	if (awake > most)
		scx_bpf_error("%d sleeps, who wasn't awake", p->pid);
}

void BPF_STRUCT_OPS(exit_enqueue, struct task_struct *p, u64 enq_flags)
{
	scx_bpf_dsq_insert(p, SCX_DSQ_GLOBAL, SCX_SLICE_DFL, enq_flags);
}

SCX_OPS_DEFINE(exit_ops, .runnable = (void *)exit_runnable, .quiescent = (void *)exit_quiescent,
	       .enqueue = (void *)exit_enqueue, .name = "exit");

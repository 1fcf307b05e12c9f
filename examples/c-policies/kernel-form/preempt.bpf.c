/*
 * Tasks in the order in which they come, 20 ms at a time; one that wakes takes the CPU from the one that runs.
 * By Linux rules alone. Runs as linux/preempt.toml.
 */
#include <scx/common.bpf.h>
#include "line.bpf.h"

char _license[] SEC("license") = "GPL";

void BPF_STRUCT_OPS(preempt_enqueue, struct task_struct *p, u64 enq_flags)
{
	scx_bpf_dsq_insert(p, LINE, SCX_SLICE_DFL, 0);
	if (enq_flags & SCX_ENQ_WAKEUP)
		scx_bpf_kick_cpu(0, SCX_KICK_PREEMPT);
}

SCX_OPS_DEFINE(preempt_ops,
	       .enqueue = (void *)preempt_enqueue,
	       LINE_OPS,
	       .name = "preempt");

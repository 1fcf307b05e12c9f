/* A mistake: enqueue inserts a task that woke, and forgets one that was stopped. */
#include <scx/common.bpf.h>

char _license[] SEC("license") = "GPL";

#define SLICE 5000000

void BPF_STRUCT_OPS(held_enqueue, struct task_struct *p, u64 enq_flags)
{
	if (enq_flags & SCX_ENQ_WAKEUP)
		scx_bpf_dsq_insert(p, SCX_DSQ_GLOBAL, SLICE, enq_flags);
}

SCX_OPS_DEFINE(held_ops,
	       .enqueue = (void *)held_enqueue,
	       .timeout_ms = 30,
	       .name = "held");

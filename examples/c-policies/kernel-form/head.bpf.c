/*
 * Tasks in the order in which they come, 1 ms at a time; one that wakes goes before all that wait.
 * By Linux rules alone. Runs as linux/head.toml.
 */
#include <scx/common.bpf.h>
#include "line.bpf.h"

char _license[] SEC("license") = "GPL";

void BPF_STRUCT_OPS(head_enqueue, struct task_struct *p, u64 enq_flags)
{
	scx_bpf_dsq_insert(p, LINE, 1000000, enq_flags & SCX_ENQ_WAKEUP ? SCX_ENQ_HEAD : 0);
}

SCX_OPS_DEFINE(head_ops,
	       .enqueue = (void *)head_enqueue,
	       LINE_OPS,
	       .name = "head");

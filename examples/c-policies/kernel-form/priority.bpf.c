/*
 * The first group goes before the second, as a group's number is the virtual time of its tasks. With the names of
 * Linux 6.12.
 */
#include <scx/common.bpf.h>
#include "line.bpf.h"

char _license[] SEC("license") = "GPL";

void BPF_STRUCT_OPS(priority_enqueue, struct task_struct *p, u64 enq_flags)
{
	scx_bpf_dispatch_vtime(p, LINE, 2000000, p->group, enq_flags);
}

SCX_OPS_DEFINE(priority_ops,
	       .enqueue = (void *)priority_enqueue,
	       LINE_OPS,
	       .name = "priority");

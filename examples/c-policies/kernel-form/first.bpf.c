/* The first policy: all tasks wait in the queue of all CPUs, in order of arrival, and run for 20 ms at a time. */
#include <scx/common.bpf.h>

char _license[] SEC("license") = "GPL";

void BPF_STRUCT_OPS(first_enqueue, struct task_struct *p, u64 enq_flags)
{
	scx_bpf_dsq_insert(p, SCX_DSQ_GLOBAL, SCX_SLICE_DFL, enq_flags);
}

SCX_OPS_DEFINE(first_ops,
	       .enqueue = (void *)first_enqueue,
	       .name = "first");

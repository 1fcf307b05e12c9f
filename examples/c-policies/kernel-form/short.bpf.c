/* As first.bpf.c, with slices of 2 ms. */
#include <scx/common.bpf.h>

char _license[] SEC("license") = "GPL";

#define SLICE 2000000

void BPF_STRUCT_OPS(short_enqueue, struct task_struct *p, u64 enq_flags)
{
	scx_bpf_dsq_insert(p, SCX_DSQ_GLOBAL, SLICE, enq_flags);
}

SCX_OPS_DEFINE(short_ops,
	       .enqueue = (void *)short_enqueue,
	       .name = "short");

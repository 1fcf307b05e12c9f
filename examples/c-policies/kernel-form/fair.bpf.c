/* Virtual time alone: what a task ran, the slower the more it weighs, and the least goes next. */
#include <scx/common.bpf.h>

char _license[] SEC("license") = "GPL";

#define LINE 0

static u64 weighed;	/* what all tasks ran, the faster the more they weigh */

void BPF_STRUCT_OPS(fair_enqueue, struct task_struct *p, u64 enq_flags)
{
	scx_bpf_dsq_insert_vtime(p, LINE, SCX_SLICE_DFL, p->scx.dsq_vtime, enq_flags);
}

void BPF_STRUCT_OPS(fair_dispatch, s32 cpu, struct task_struct *prev)
{
	scx_bpf_dsq_move_to_local(LINE);
}

void BPF_STRUCT_OPS(fair_stopping, struct task_struct *p, bool runnable)
{
	u64 ran = SCX_SLICE_DFL - p->scx.slice;

	weighed += scale_by_task_weight(p, ran);
	scx_bpf_task_set_dsq_vtime(p, p->scx.dsq_vtime + scale_by_task_weight_inverse(p, ran));
}

s32 BPF_STRUCT_OPS_SLEEPABLE(fair_init)
{
	return scx_bpf_create_dsq(LINE, -1);
}

SCX_OPS_DEFINE(fair_ops,
	       .enqueue = (void *)fair_enqueue,
	       .dispatch = (void *)fair_dispatch,
	       .stopping = (void *)fair_stopping,
	       .init = (void *)fair_init,
	       .name = "fair");

/* Names that the header doesn't have: all are listed at once. */
#include <scx/common.bpf.h>
#include <scx/mine.bpf.h>	/* refused: scx/mine.bpf.h isn't here: leave it out */

void BPF_STRUCT_OPS(unknown_enqueue, struct task_struct *p, u64 enq_flags)
{
	if (enq_flags & SCX_ENQ_HEAD)	/* refused by plain rules: enqueue: SCX_ENQ_HEAD isn't here */
		return;
	scx_bpf_dsq_inser(p, SCX_DSQ_LOCAL, SCX_SLICE_DFL, enq_flags);	/* refused: enqueue: scx_bpf_dsq_inser isn't here: did you mean scx_bpf_dsq_insert? */
	scx_bpf_dsq_insert(p, SCX_DSQ_LOCL, SCX_SLICE_DFL, 0);	/* refused: enqueue: SCX_DSQ_LOCL isn't here: did you mean SCX_DSQ_LOCAL? */
	scx_bpf_kick_cpu(SCX_MY_CPU, SCX_KICK_IDLE);	/* refused: enqueue: SCX_MY_CPU isn't here: the host has nothing like it */ /* warned by plain rules: scx_bpf_kick_cpu is nothing */
}

SCX_OPS_DEFINE(unknown_ops, .enqueue = (void *)unknown_enqueue, .name = "unknown");

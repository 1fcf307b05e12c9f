/* Flags of an insert, of a kick and of the policy. */
#include <scx/common.bpf.h>

void BPF_STRUCT_OPS(flags_enqueue, struct task_struct *p, u64 enq_flags)
{
	scx_bpf_dsq_insert(p, SCX_DSQ_LOCAL, SCX_SLICE_DFL, enq_flags | SCX_ENQ_HEAD);	/* refused by plain rules: enqueue: SCX_ENQ_HEAD isn't here: by plain rules inserts go to the end of a queue */
	scx_bpf_kick_cpu(0, SCX_KICK_IDLE);	/* warned by plain rules: scx_bpf_kick_cpu is nothing */
	scx_bpf_kick_cpu(0, SCX_KICK_PREEMPT);	/* refused by plain rules: enqueue: scx_bpf_kick_cpu with these flags isn't here */
	scx_bpf_kick_cpu(0, SCX_KICK_WAIT);	/* refused by plain rules: enqueue: scx_bpf_kick_cpu with these flags isn't here */ /* warned by Linux rules: SCX_KICK_WAIT is nothing */
}

SCX_OPS_DEFINE(flags_ops,	/* warned: SCX_OPS_ENQ_LAST means nothing here */ /* warned: SCX_OPS_SWITCH_PARTIAL means nothing here */ /* warned: SCX_OPS_KEEP_BUILTIN_IDLE means nothing here */ /* refused: flags: flag 9 isn't here */
	       .enqueue = (void *)flags_enqueue,
	       .flags = SCX_OPS_ENQ_LAST | SCX_OPS_SWITCH_PARTIAL | SCX_OPS_KEEP_BUILTIN_IDLE | 1 << 9,
	       .name = "flags");

/* Members that a task and the policy don't have, which clang refuses, with what else is unknown. */
#include <scx/common.bpf.h>

void BPF_STRUCT_OPS(members_running, struct task_struct *p)
{
	if (p->recent_used_cpu)	/* refused: recent_used_cpu isn't here */
		p->scx.slic = 0;	/* refused: slic isn't here: did you mean slice? */
	scx_bpf_dsq_inser(p);	/* refused: scx_bpf_dsq_inser isn't here: did you mean scx_bpf_dsq_insert? */
}

SCX_OPS_DEFINE(members_ops,
	       .running = (void *)members_running,
	       .sub_attach = 0,	/* refused: sub_attach isn't here */
	       .name = "members");

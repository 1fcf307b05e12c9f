/* A signed remainder, at which clang stops. */
#include <scx/common.bpf.h>

void BPF_STRUCT_OPS(signed_running, struct task_struct *p)
{
	if (p->pid % 7 == 3)	/* refused: a signed division or remainder */
		p->scx.slice = 0;
}

SCX_OPS_DEFINE(signed_ops, .running = (void *)signed_running, .name = "signed");

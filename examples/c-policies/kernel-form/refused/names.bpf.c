/* A name that none has here, and a time that is too long. */
#include <scx/common.bpf.h>

void BPF_STRUCT_OPS(names_running, struct task_struct *p)
{
}

SCX_OPS_DEFINE(names_ops,	/* warned: the name "Two Words" is left out */ /* refused: timeout_ms is 40000; it is 30000 at most */
	       .running = (void *)names_running,
	       .timeout_ms = 40000,
	       .name = "Two Words");

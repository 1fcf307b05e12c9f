/* Pointers to a task that are kept over the callback: one as a number, and one that only the verifier refuses. */
#include <scx/common.bpf.h>

struct task_struct *last;
u64 number;

void BPF_STRUCT_OPS(kept_running, struct task_struct *p)
{
	number = (u64)p;	/* warned: the address of a task that is kept as a number is its pid */
	last = p;	/* refused: running refused 13 PointerStore */ /* reason: r1 holds a task here */
}

SCX_OPS_DEFINE(kept_ops, .running = (void *)kept_running, .name = "kept");

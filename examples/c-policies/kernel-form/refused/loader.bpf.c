/* What another file, or a loader, would have to know; and a call that stays one. */
#include <scx/common.bpf.h>

extern u64 of_the_kernel;

__attribute__((noinline)) static u64 apart(u64 number)
{
	asm volatile("" : "+r"(number));
	return number;
}

void BPF_STRUCT_OPS(loader_running, struct task_struct *p)
{
	p->scx.slice = of_the_kernel;	/* refused: running: the address of 'of_the_kernel', which a loader would have to know */
	p->scx.dsq_vtime = apart(p->pid);	/* refused: running: a call of a function that clang didn't put in its place */
}

SCX_OPS_DEFINE(loader_ops, .running = (void *)loader_running, .name = "loader");

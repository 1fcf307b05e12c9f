/* A callback that uses all of the stack, and variables beside it. */
#include <scx/common.bpf.h>

u64 sum;

void BPF_STRUCT_OPS(stack_running, struct task_struct *p)
{
	u64 numbers[63];
	u32 key = p->pid;

	asm volatile("" : : "r"(numbers), "r"(&key) : "memory");
	sum += key;
}

SCX_OPS_DEFINE(stack_ops, .running = (void *)stack_running, .name = "stack");	/* refused everywhere: running: 520 bytes of stack are wanted */

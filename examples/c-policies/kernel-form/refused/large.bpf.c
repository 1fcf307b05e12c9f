/* Variables that an element of a map can't hold. */
#include <scx/common.bpf.h>

u64 runs[1024];

void BPF_STRUCT_OPS(large_running, struct task_struct *p)
{
	u64 *run = ARRAY_ELEM_PTR(runs, p->pid, 1024);

	if (run)
		*run += 1;
}

SCX_OPS_DEFINE(large_ops, .running = (void *)large_running, .name = "large");	/* refused everywhere: variables of 8192 bytes; an element of a map holds 4096 */

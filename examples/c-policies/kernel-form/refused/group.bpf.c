/* init_task that looks at the group of the task, which isn't here: its second argument has zeros. */
#include <scx/common.bpf.h>

u64 group;

s32 BPF_STRUCT_OPS(group_init_task, struct task_struct *p, struct scx_init_task_args *args)
{
	group = args->cgroup->level;	/* refused: enable refused 8 OutOfBounds */
	return 0;
}

SCX_OPS_DEFINE(group_ops, .init_task = (void *)group_init_task, .name = "group");

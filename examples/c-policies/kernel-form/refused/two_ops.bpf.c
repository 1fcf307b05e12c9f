/* Two policies in one file. */
#include <scx/common.bpf.h>

void BPF_STRUCT_OPS(two_running, struct task_struct *p)
{
}

SCX_OPS_DEFINE(first_ops, .running = (void *)two_running, .name = "first");
SCX_OPS_DEFINE(second_ops, .running = (void *)two_running, .name = "second");	/* refused: first_ops and second_ops are struct_ops; build makes one policy of a file: say which, as --ops first_ops */

/* A policy that doesn't say which function is which callback. */
#include <scx/common.bpf.h>

void BPF_STRUCT_OPS(no_ops_running, struct task_struct *p)	/* refused everywhere: no struct_ops: SCX_OPS_DEFINE says which function is which callback */
{
}

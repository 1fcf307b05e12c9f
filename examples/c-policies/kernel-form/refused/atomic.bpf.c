/* Atomic operations: functions are here, atomic types aren't. */
#include <scx/common.bpf.h>

u64 started;
_Atomic u64 last;

void BPF_STRUCT_OPS(atomic_running, struct task_struct *p)
{
	__sync_fetch_and_add(&started, 1);	/* warned: an atomic function is a load, arithmetic and a store */
	last |= 8;	/* refused: running: an atomic operation on a type: call a function */
}

SCX_OPS_DEFINE(atomic_ops, .running = (void *)atomic_running, .name = "atomic");

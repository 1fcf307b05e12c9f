/* Loops: constant bounds and those of bpf_for are written out, others stay loops. */
#include <scx/common.bpf.h>

const volatile u32 queues = 3;

void BPF_STRUCT_OPS(loops_dispatch, s32 cpu, struct task_struct *prev)
{
	u32 queue;

	bpf_repeat(3) {
		if (scx_bpf_dsq_move_to_local(0))
			return;
	}
	bpf_for(queue, 0, queues) {	/* warned: a loop whose bounds aren't constant has at most 8 rounds */
		if (scx_bpf_dsq_move_to_local(queue))
			return;
	}
	for (queue = 0; queue < queues; queue++) {	/* refused: dispatch: a loop that clang didn't write out: take bpf_for */
		if (scx_bpf_dsq_move_to_local(queue))
			return;
	}
}

SCX_OPS_DEFINE(loops_ops, .dispatch = (void *)loops_dispatch, .name = "loops");

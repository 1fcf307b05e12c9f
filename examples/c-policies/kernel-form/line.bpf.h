/* One queue, of which each CPU takes the front: what several policies of this folder have. */
#define LINE 0

void BPF_STRUCT_OPS(line_dispatch, s32 cpu, struct task_struct *prev)
{
	scx_bpf_dsq_move_to_local(LINE);
}

s32 BPF_STRUCT_OPS_SLEEPABLE(line_init)
{
	return scx_bpf_create_dsq(LINE, -1);
}

#define LINE_OPS .dispatch = (void *)line_dispatch, .init = (void *)line_init

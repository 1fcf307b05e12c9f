/* Functions of the kernel that aren't here, and some of which a warning says what stands in for them. */
#include <scx/common.bpf.h>

s32 BPF_STRUCT_OPS(functions_select_cpu, struct task_struct *p, s32 prev_cpu, u64 wake_flags)
{
	s32 cpu = scx_bpf_pick_idle_cpu(p->cpus_ptr, 0);	/* warned by plain rules: p->cpus_ptr is 1: each task */ /* refused by plain rules: select_cpu: scx_bpf_pick_idle_cpu isn't here: say how many there are */

	bpf_printk("for %d", p->pid);	/* warned: printk and dump are left out */
	return cpu < 0 ? prev_cpu : cpu;
}

void BPF_STRUCT_OPS(functions_dispatch, s32 cpu, struct task_struct *prev)
{
	struct bpf_iter_scx_dsq iterator;

	if (scx_bpf_dispatch_nr_slots() == 0)	/* warned: scx_bpf_dispatch_nr_slots is 32 */
		return;
	if (bpf_get_prandom_u32() & 1)	/* warned by plain rules: bpf_get_prandom_u32 counts in a variable */
		scx_bpf_exit(3, "enough");	/* warned by plain rules: by plain rules scx_bpf_exit ends the policy as scx_bpf_error does */
	bpf_iter_scx_dsq_new(&iterator, 0, 0);	/* refused: dispatch: bpf_iter_scx_dsq_new isn't here: queues can't be looked through */
	scx_bpf_destroy_dsq(3);	/* refused: dispatch: scx_bpf_destroy_dsq isn't here: queues stay */
	scx_bpf_dsq_move_to_local(bpf_get_smp_processor_id());	/* warned by plain rules: bpf_get_smp_processor_id is the CPU of dispatch */
}

SCX_OPS_DEFINE(functions_ops,
	       .select_cpu = (void *)functions_select_cpu,
	       .dispatch = (void *)functions_dispatch,
	       .name = "functions");

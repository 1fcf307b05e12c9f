/*
 * Tasks in the order in which they come, 2 ms at a time; one that wakes gets an idle CPU by a kick, if there is one.
 * By Linux rules alone. Runs as linux/pick.toml.
 */
#include <scx/common.bpf.h>

char _license[] SEC("license") = "GPL";

s32 BPF_STRUCT_OPS(pick_select_cpu, struct task_struct *p, s32 prev_cpu, u64 wake_flags)
{
	s32 cpu = scx_bpf_pick_idle_cpu(p->cpus_ptr, 0);

	if (cpu < 0)
		return prev_cpu;
	if (scx_bpf_test_and_clear_cpu_idle(cpu))
		scx_bpf_error("CPU %d was picked, and is idle for the next who asks", cpu);
	scx_bpf_kick_cpu(cpu, 0);
	return prev_cpu;
}

void BPF_STRUCT_OPS(pick_enqueue, struct task_struct *p, u64 enq_flags)
{
	scx_bpf_dsq_insert(p, SCX_DSQ_GLOBAL, 2000000, enq_flags);
}

void BPF_STRUCT_OPS(pick_running, struct task_struct *p)
{
	struct task_struct *before = scx_bpf_cpu_curr(bpf_get_smp_processor_id());

	if (scx_bpf_task_running(p) != (before && before->pid == p->pid))
		scx_bpf_error("%d runs elsewhere too", p->pid);
}

SCX_OPS_DEFINE(pick_ops, .select_cpu = (void *)pick_select_cpu, .enqueue = (void *)pick_enqueue,
	       .running = (void *)pick_running, .name = "pick");

/*
 * The same as simple.bpf.c, with masks of CPUs, a stack, a random number, a compare-and-swap, a loop whose bound is a
 * variable, an init_task that reads its second argument, and callbacks that no run here calls.
 * Runs as simple.toml.
 * Built with --set cpus=2.
 */
#include <scx/common.bpf.h>

char _license[] SEC("license") = "GPL";

const volatile u32 lines = 1;	/* queues */
static u64 first, drawn;

struct {
	__uint(type, BPF_MAP_TYPE_STACK);
	__uint(max_entries, 4);
	__type(value, u64);
} kept SEC(".maps");

s32 BPF_STRUCT_OPS(masks_init_task, struct task_struct *p, struct scx_init_task_args *args)
{
	return args->fork ? -ENOMEM : 0;
}

s32 BPF_STRUCT_OPS(masks_select_cpu, struct task_struct *p, s32 prev_cpu, u64 wake_flags)
{
	s32 cpu = scx_bpf_select_cpu_and(p, prev_cpu, wake_flags, p->cpus_ptr, 0);

	if (cpu < 0)
		return prev_cpu;
	if (!bpf_cpumask_test_cpu(cpu, p->cpus_ptr))
		scx_bpf_error("%d isn't for %d", cpu, p->pid);
	scx_bpf_dsq_insert(p, SCX_DSQ_LOCAL, SCX_SLICE_DFL, 0);
	return cpu;
}

void BPF_STRUCT_OPS(masks_enqueue, struct task_struct *p, u64 enq_flags)
{
	u64 above = p->pid, taken = 0;

	drawn += bpf_get_prandom_u32() % 2;
	if (bpf_map_push_elem(&kept, &drawn, 0) || bpf_map_push_elem(&kept, &above, 0))
		scx_bpf_exit(1, "the stack has no room");
	if (bpf_map_pop_elem(&kept, &taken) || taken != p->pid || bpf_map_pop_elem(&kept, &taken) || taken != drawn)
		scx_bpf_error("the stack gives what isn't on top");
	if (__sync_val_compare_and_swap(&first, 0, p->pid) == 0)
		bpf_printk("%d came first", p->pid);
	scx_bpf_dsq_insert(p, 0, SCX_SLICE_DFL, enq_flags);
}

void BPF_STRUCT_OPS(masks_dispatch, s32 cpu, struct task_struct *prev)
{
	u32 line;

	if (!scx_bpf_dispatch_nr_slots())
		return;
	bpf_for(line, 0, lines)
		scx_bpf_dsq_move_to_local(line);
}

bool BPF_STRUCT_OPS(masks_yield, struct task_struct *from, struct task_struct *to)
{
	return to && to->pid > from->pid;
}

bool BPF_STRUCT_OPS(masks_core_sched_before, struct task_struct *a, struct task_struct *b)
{
	return a->scx.dsq_vtime < b->scx.dsq_vtime;
}

void BPF_STRUCT_OPS(masks_quiescent, struct task_struct *p, u64 deq_flags)
{
}

s32 BPF_STRUCT_OPS_SLEEPABLE(masks_init)
{
	return scx_bpf_create_dsq(0, -1);
}

SEC("syscall") int of_user_space(void *context)
{
	return 0;
}

SCX_OPS_DEFINE(masks_ops,
	       .init_task = (void *)masks_init_task,
	       .select_cpu = (void *)masks_select_cpu,
	       .enqueue = (void *)masks_enqueue,
	       .dispatch = (void *)masks_dispatch,
	       .yield = (void *)masks_yield,
	       .core_sched_before = (void *)masks_core_sched_before,
	       .quiescent = (void *)masks_quiescent,
	       .init = (void *)masks_init,
	       .name = "masks");

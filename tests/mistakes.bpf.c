/*
 * A policy without mistakes, into which tests/mistakes plants them. Each CPU has a queue, in which tasks wait by virtual
 * time: a turn costs a whole slice. It counts each task's waits by queue, and each queue's turns.
 */
#include <scx/common.bpf.h>

char _license[] SEC("license") = "GPL";

#define QUEUES 8

const volatile u64 slice_ns = 8000000;
static u64 vtime_now;

struct waits {
	u64 in_queue[QUEUES];
};

struct {
	__uint(type, BPF_MAP_TYPE_TASK_STORAGE);
	__uint(map_flags, BPF_F_NO_PREALLOC);
	__type(key, int);
	__type(value, struct waits);
} waits_of SEC(".maps");

struct {
	__uint(type, BPF_MAP_TYPE_ARRAY);
	__uint(max_entries, QUEUES);
	__type(key, u32);
	__type(value, u64);
} turns SEC(".maps");

s32 BPF_STRUCT_OPS(lines_select_cpu, struct task_struct *p, s32 prev_cpu, u64 wake_flags)
{
	bool is_idle = false;
	s32 cpu = scx_bpf_select_cpu_dfl(p, prev_cpu, wake_flags, &is_idle);
	/* An idle CPU takes it at once. */
	if (is_idle)
		scx_bpf_dsq_insert(p, SCX_DSQ_LOCAL, slice_ns, 0);
	return cpu;
}

void BPF_STRUCT_OPS(lines_enqueue, struct task_struct *p, u64 enq_flags)
{
	u32 queue = (u32)scx_bpf_task_cpu(p) % QUEUES;
	struct waits *waits = bpf_task_storage_get(&waits_of, p, NULL, 0);
	u64 *count;

	if (!waits)
		return;
	count = ARRAY_ELEM_PTR(waits->in_queue, queue, QUEUES);
	if (count)
		*count += 1;
	scx_bpf_dsq_insert_vtime(p, queue, slice_ns, p->scx.dsq_vtime, enq_flags);
	scx_bpf_kick_cpu(scx_bpf_task_cpu(p), SCX_KICK_IDLE);
}

void BPF_STRUCT_OPS(lines_dispatch, s32 cpu, struct task_struct *prev)
{
	u32 queue;

	if (scx_bpf_dsq_move_to_local((u32)cpu % QUEUES))
		return;
	bpf_for(queue, 0, QUEUES) {
		if (scx_bpf_dsq_move_to_local(queue))
			return;
	}
}

void BPF_STRUCT_OPS(lines_running, struct task_struct *p)
{
	u32 queue = (u32)scx_bpf_task_cpu(p) % QUEUES;
	u64 *count = bpf_map_lookup_elem(&turns, &queue);

	if (count)
		*count += 1;
	if (time_before(vtime_now, p->scx.dsq_vtime))
		vtime_now = p->scx.dsq_vtime;
	p->scx.dsq_vtime += slice_ns * 100 / p->scx.weight;
}

void BPF_STRUCT_OPS(lines_enable, struct task_struct *p)
{
	p->scx.dsq_vtime = vtime_now;
}

s32 BPF_STRUCT_OPS_SLEEPABLE(lines_init)
{
	s32 queue, error;

	bpf_for(queue, 0, QUEUES) {
		error = scx_bpf_create_dsq(queue, -1);
		if (error)
			return error;
	}
	return 0;
}

SCX_OPS_DEFINE(lines_ops,
	       .name = "lines",
	       .select_cpu = (void *)lines_select_cpu,
	       .enqueue = (void *)lines_enqueue,
	       .dispatch = (void *)lines_dispatch,
	       .enable = (void *)lines_enable,
	       .timeout_ms = 200,
	       .running = (void *)lines_running,
	       .init = (void *)lines_init);

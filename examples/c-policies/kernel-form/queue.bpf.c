/*
 * The same as central.bpf.c, with the pids of those who wait in a map that is a queue.
 * Runs as central.toml.
 */
#include <scx/common.bpf.h>
#include <scx/compat.bpf.h>

char _license[] SEC("license") = "GPL";

UEI_DEFINE(uei);

#define SLICE 2000000

const volatile s32 central_cpu;

struct {
	__uint(type, BPF_MAP_TYPE_QUEUE);
	__uint(max_entries, 64);
	__type(value, s32);
} waiting SEC(".maps");

void BPF_STRUCT_OPS(queue_enqueue, struct task_struct *p, u64 enq_flags)
{
	s32 pid = p->pid;

	if (bpf_map_push_elem(&waiting, &pid, 0))
		scx_bpf_error("no place for %d", pid);
}

/* Hands the next task to a queue; whether there was one. */
static bool hand_out(u64 queue)
{
	struct task_struct *p;
	s32 pid;

	if (bpf_map_pop_elem(&waiting, &pid))
		return false;
	p = bpf_task_from_pid(pid);
	if (!p)
		return false;
	scx_bpf_dsq_insert(p, queue, SLICE, 0);
	bpf_task_release(p);
	return true;
}

void BPF_STRUCT_OPS(queue_dispatch, s32 cpu, struct task_struct *prev)
{
	if (bpf_get_smp_processor_id() != central_cpu)
		return;
	if (hand_out(SCX_DSQ_LOCAL) && hand_out(SCX_DSQ_LOCAL_ON | 1))
		scx_bpf_kick_cpu(1, SCX_KICK_IDLE);
}

void BPF_STRUCT_OPS(queue_exit, struct scx_exit_info *ei)
{
	bpf_printk("ended: %d", ei->kind);
	UEI_RECORD(uei, ei);
}

SCX_OPS_DEFINE(queue_ops,
	       .enqueue = (void *)queue_enqueue,
	       .dispatch = (void *)queue_dispatch,
	       .exit = (void *)queue_exit,
	       .flags = SCX_OPS_ENQ_LAST,
	       .name = "queue");

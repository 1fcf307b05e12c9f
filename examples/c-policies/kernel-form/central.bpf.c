/*
 * One CPU decides for two: enqueue puts no task anywhere; dispatch on CPU 0 hands them out, one to each.
 * The pids of waiting tasks are in a ring. For tasks that never sleep.
 */
#include <scx/common.bpf.h>

char _license[] SEC("license") = "GPL";

UEI_DEFINE(uei);

#define SLICE 2000000
#define PIDS 64

const volatile s32 central_cpu;
static u64 taken, put;	/* from the ring, and into it */

struct {
	__uint(type, BPF_MAP_TYPE_ARRAY);
	__uint(max_entries, PIDS);
	__type(key, u32);
	__type(value, s32);
} ring SEC(".maps");

void BPF_STRUCT_OPS(central_enqueue, struct task_struct *p, u64 enq_flags)
{
	u32 at = put % PIDS;
	s32 pid = p->pid;

	if (bpf_map_update_elem(&ring, &at, &pid, BPF_ANY)) {
		scx_bpf_error("no place for %d", pid);
		return;
	}
	put++;
}

/* Hands the next task to a queue; whether there was one. */
static bool hand_out(u64 queue)
{
	u32 at = taken % PIDS;
	struct task_struct *p;
	s32 *pid;

	if (taken == put)
		return false;
	pid = bpf_map_lookup_elem(&ring, &at);
	if (!pid)
		return false;
	taken++;
	p = bpf_task_from_pid(*pid);
	if (!p)
		return false;
	scx_bpf_dsq_insert(p, queue, SLICE, 0);
	bpf_task_release(p);
	return true;
}

void BPF_STRUCT_OPS(central_dispatch, s32 cpu, struct task_struct *prev)
{
	if (cpu != central_cpu)
		return;
	if (hand_out(SCX_DSQ_LOCAL) && hand_out(SCX_DSQ_LOCAL_ON | 1))
		scx_bpf_kick_cpu(1, SCX_KICK_IDLE);
}

void BPF_STRUCT_OPS(central_exit, struct scx_exit_info *ei)
{
	UEI_RECORD(uei, ei);
}

SCX_OPS_DEFINE(central_ops,
	       .enqueue = (void *)central_enqueue,
	       .dispatch = (void *)central_dispatch,
	       .exit = (void *)central_exit,
	       .name = "central");

/* A long slice if no task waits, and a short one if one does. */
#include <scx/common.bpf.h>
#include "line.bpf.h"

char _license[] SEC("license") = "GPL";

struct {
	__uint(type, BPF_MAP_TYPE_ARRAY);
	__uint(max_entries, 1);
	__type(key, u32);
	__type(value, u64);
} turns SEC(".maps");

void BPF_STRUCT_OPS(safe_enqueue, struct task_struct *p, u64 enq_flags)
{
	u64 slice = scx_bpf_dsq_nr_queued(LINE) ? 2000000 : SCX_SLICE_DFL;

	scx_bpf_dsq_insert(p, LINE, slice, enq_flags);
}

void BPF_STRUCT_OPS(safe_running, struct task_struct *p)
{
	u64 *number, one = 1;
	u32 key = 0;

	scx_bpf_task_set_slice(p, p->scx.slice);
	number = bpf_map_lookup_elem(&turns, &key);
	if (number)
		(*number)++;
	else
		bpf_map_update_elem(&turns, &key, &one, BPF_ANY);
}

SCX_OPS_DEFINE(safe_ops,
	       .enqueue = (void *)safe_enqueue,
	       .running = (void *)safe_running,
	       LINE_OPS,
	       .name = "safe");

/*
 * Virtual time by task in a hash, which forgets a task that sleeps; runs are counted on each CPU, and a stack has the
 * tasks that slept last. By Linux rules alone.
 * Runs as c-policies/kernel-form/kinds.toml.
 */
#include <scx/common.bpf.h>

char _license[] SEC("license") = "GPL";

struct {
	__uint(type, BPF_MAP_TYPE_HASH);
	__uint(max_entries, 64);
	__type(key, u64);
	__type(value, u64);
} used SEC(".maps");

struct {
	__uint(type, BPF_MAP_TYPE_PERCPU_ARRAY);
	__uint(max_entries, 1);
	__type(key, u32);
	__type(value, u64);
} runs SEC(".maps");

struct {
	__uint(type, BPF_MAP_TYPE_STACK);
	__uint(max_entries, 4);
	__type(value, u32);
} slept SEC(".maps");

s32 BPF_STRUCT_OPS_SLEEPABLE(kinds_init)
{
	return scx_bpf_create_dsq(0, -1);
}

void BPF_STRUCT_OPS(kinds_running, struct task_struct *p)
{
	u32 zero = 0;
	u64 *count = bpf_map_lookup_elem(&runs, &zero);

	if (count)
		(*count)++;
}

void BPF_STRUCT_OPS(kinds_enqueue, struct task_struct *p, u64 enq_flags)
{
	u64 key = p->pid, zero = 0, *time;

	bpf_map_update_elem(&used, &key, &zero, BPF_NOEXIST);
	time = bpf_map_lookup_elem(&used, &key);
	if (!time)
		return;
	*time += 1000;
	scx_bpf_dsq_insert_vtime(p, 0, 4000000, *time, enq_flags);
}

void BPF_STRUCT_OPS(kinds_dispatch, s32 cpu, struct task_struct *prev)
{
	u32 zero = 0;
	u64 *count = bpf_map_lookup_percpu_elem(&runs, &zero, 0);

	if (count && *count > 100000)
		scx_bpf_error("ran too often");
	scx_bpf_dsq_move_to_local(0);
}

void BPF_STRUCT_OPS(kinds_quiescent, struct task_struct *p, u64 deq_flags)
{
	u32 pid = p->pid, last;
	u64 key = pid;

	if (!(deq_flags & SCX_DEQ_SLEEP))
		return;
	bpf_map_delete_elem(&used, &key);
	if (bpf_map_push_elem(&slept, &pid, BPF_EXIST))
		scx_bpf_error("a stack that makes room is never full");
	if (bpf_map_peek_elem(&slept, &last) || last != pid)
		scx_bpf_error("not the last");
}

SCX_OPS_DEFINE(kinds_ops, .name = "kinds", .init = (void *)kinds_init, .running = (void *)kinds_running,
	       .enqueue = (void *)kinds_enqueue, .dispatch = (void *)kinds_dispatch, .quiescent = (void *)kinds_quiescent);

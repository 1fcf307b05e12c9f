/*
 * Tasks wait in a queue of the policy's own, and each is counted there: by enqueue as it comes, by dequeue as it goes.
 * A CPU that becomes idle looks again where a task waits. By Linux rules alone.
 * Runs as c-policies/kernel-form/custody.toml.
 */
#include <scx/common.bpf.h>
#include "line.bpf.h"

char _license[] SEC("license") = "GPL";

static s64 waiting;

struct task_ctx {
	u64 slice;
	bool is_waiting;
};

struct {
	__uint(type, BPF_MAP_TYPE_TASK_STORAGE);
	__uint(map_flags, BPF_F_NO_PREALLOC);
	__type(key, int);
	__type(value, struct task_ctx);
} contexts SEC(".maps");

static struct task_ctx *context_of(struct task_struct *p)
{
	return bpf_task_storage_get(&contexts, p, NULL, BPF_LOCAL_STORAGE_GET_F_CREATE);
}

void BPF_STRUCT_OPS(custody_enqueue, struct task_struct *p, u64 enq_flags)
{
	struct task_ctx *context = context_of(p);

	if (!context)
		return;
	if (context->is_waiting)
		scx_bpf_error("%d waits twice", p->pid);
	context->is_waiting = true;
	waiting++;
	scx_bpf_dsq_insert(p, LINE, context->slice, enq_flags);
	scx_bpf_kick_cpu(scx_bpf_task_cpu(p), SCX_KICK_IDLE);
}

void BPF_STRUCT_OPS(custody_dequeue, struct task_struct *p, u64 deq_flags)
{
	struct task_ctx *context = context_of(p);

	if (!context)
		return;
	if (!context->is_waiting)
		scx_bpf_error("%d doesn't wait", p->pid);
	context->is_waiting = false;
	waiting--;
}

void BPF_STRUCT_OPS(custody_set_weight, struct task_struct *p, u32 weight)
{
	struct task_ctx *context = context_of(p);

	if (context)
		context->slice = weight * 100000ull;
}

void BPF_STRUCT_OPS(custody_update_idle, s32 cpu, bool idle)
{
	if (idle && waiting > 0)
		scx_bpf_kick_cpu(cpu, SCX_KICK_IDLE);
}

SCX_OPS_DEFINE(custody_ops,
	       .enqueue = (void *)custody_enqueue,
	       .dequeue = (void *)custody_dequeue,
	       LINE_OPS,
	       .set_weight = (void *)custody_set_weight,
	       .update_idle = (void *)custody_update_idle,
	       .flags = SCX_OPS_KEEP_BUILTIN_IDLE,
	       .name = "custody");

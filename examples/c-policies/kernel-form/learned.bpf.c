/*
 * A task that used up its slice waits in the second queue, one that didn't in the first, which goes before. What is
 * known of a task is a byte by its pid, under a lock.
 */
#include <scx/common.bpf.h>

char _license[] SEC("license") = "GPL";

struct known {
	u64 changes;
	u8 queues[64];
};

private(KNOWN) struct bpf_spin_lock lock;
private(KNOWN) struct known known;

void BPF_STRUCT_OPS(learned_enqueue, struct task_struct *p, u64 enq_flags)
{
	u8 *queue = MEMBER_VPTR(known, .queues[p->pid & 63]);

	if (queue)
		scx_bpf_dsq_insert(p, *queue, 2000000, enq_flags);
}

void BPF_STRUCT_OPS(learned_dispatch, s32 cpu, struct task_struct *prev)
{
	if (!scx_bpf_dsq_move_to_local(0))
		scx_bpf_dsq_move_to_local(1);
}

void BPF_STRUCT_OPS(learned_stopping, struct task_struct *p, bool runnable)
{
	u8 *queue = MEMBER_VPTR(known, .queues[p->pid & 63]);

	if (!queue)
		return;
	bpf_rcu_read_lock();
	bpf_spin_lock(&lock);
	__sync_fetch_and_sub(&known.changes, 1);
	*queue = p->scx.slice == 0;
	bpf_spin_unlock(&lock);
	bpf_rcu_read_unlock();
}

s32 BPF_STRUCT_OPS_SLEEPABLE(learned_init)
{
	struct known nothing;
	s32 error = scx_bpf_create_dsq(0, -1);

	memset(&nothing, 0, sizeof(nothing));
	memcpy(&known, &nothing, sizeof(known));
	return error ? error : scx_bpf_create_dsq(1, -1);
}

SCX_OPS_DEFINE(learned_ops,
	       .enqueue = (void *)learned_enqueue,
	       .dispatch = (void *)learned_dispatch,
	       .stopping = (void *)learned_stopping,
	       .init = (void *)learned_init,
	       .name = "learned");

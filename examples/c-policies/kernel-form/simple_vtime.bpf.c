/*
 * Tasks by virtual time: each has one, which grows by what it ran, the slower the more it weighs, and the least
 * runs next. With --set slice_ns=N slices have N nanoseconds.
 */
#include <scx/common.bpf.h>
#include "line.bpf.h"

char _license[] SEC("license") = "GPL";

const volatile u64 slice_ns = SCX_SLICE_DFL;

static u64 newest;	/* the greatest virtual time at which a task began to run */

UEI_DEFINE(uei);

s32 BPF_STRUCT_OPS(vtime_select_cpu, struct task_struct *p, s32 prev_cpu, u64 wake_flags)
{
	bool is_idle = false;
	s32 cpu = scx_bpf_select_cpu_dfl(p, prev_cpu, wake_flags, &is_idle);

	if (is_idle)
		scx_bpf_dsq_insert(p, SCX_DSQ_LOCAL, slice_ns, 0);
	return cpu;
}

void BPF_STRUCT_OPS(vtime_enqueue, struct task_struct *p, u64 enq_flags)
{
	u64 vtime = p->scx.dsq_vtime;

	if (time_before(vtime, newest - slice_ns))
		vtime = newest - slice_ns;
	scx_bpf_dsq_insert_vtime(p, LINE, slice_ns, vtime, enq_flags);
}

void BPF_STRUCT_OPS(vtime_running, struct task_struct *p)
{
	if (time_before(newest, p->scx.dsq_vtime))
		newest = p->scx.dsq_vtime;
}

void BPF_STRUCT_OPS(vtime_stopping, struct task_struct *p, bool runnable)
{
	p->scx.dsq_vtime += (slice_ns - p->scx.slice) * 100 / p->scx.weight;
}

void BPF_STRUCT_OPS(vtime_enable, struct task_struct *p)
{
	p->scx.dsq_vtime = newest;
}

void BPF_STRUCT_OPS(vtime_exit, struct scx_exit_info *ei)
{
	UEI_RECORD(uei, ei);
}

SCX_OPS_DEFINE(vtime_ops,
	       .select_cpu = (void *)vtime_select_cpu,
	       .enqueue = (void *)vtime_enqueue,
	       LINE_OPS,
	       .running = (void *)vtime_running,
	       .stopping = (void *)vtime_stopping,
	       .enable = (void *)vtime_enable,
	       .exit = (void *)vtime_exit,
	       .name = "simple_vtime");

/* Callbacks that aren't here, some that nothing here would call, and functions that are none. */
#include <scx/common.bpf.h>

u64 idle_cpus;

void BPF_STRUCT_OPS(callbacks_tick, struct task_struct *p)	/* refused by plain rules: tick isn't here: by plain rules give shorter slices; Linux rules have it */
{
	p->scx.slice = 0;
}

void BPF_STRUCT_OPS(callbacks_runnable, struct task_struct *p, u64 enq_flags)	/* refused by plain rules: runnable isn't here: by plain rules do it in enqueue */
{
	p->scx.dsq_vtime = 0;
}

void BPF_STRUCT_OPS(callbacks_dequeue, struct task_struct *p, u64 deq_flags)	/* refused by plain rules: dequeue isn't here: by plain rules the host takes */
{
	p->scx.dsq_vtime = 0;
}

void BPF_STRUCT_OPS(callbacks_set_weight, struct task_struct *p, u32 weight)	/* refused by plain rules: set_weight isn't here: by plain rules read p->scx.weight */
{
	p->scx.dsq_vtime = weight;
}

void BPF_STRUCT_OPS(callbacks_update_idle, s32 cpu, bool idle)	/* refused by plain rules: update_idle isn't here: by plain rules ask in select_cpu */
{
	if (idle)
		idle_cpus++;
}

void BPF_STRUCT_OPS(callbacks_quiescent, struct task_struct *p, u64 deq_flags)	/* warned by plain rules: quiescent is left out: it does nothing */
{
}

void BPF_STRUCT_OPS(callbacks_exit_task, struct task_struct *p, struct scx_exit_task_args *args)	/* warned: exit_task is left out: tasks stay */
{
}

void BPF_STRUCT_OPS(callbacks_disable, struct task_struct *p)	/* warned: disable is left out: tasks stay */ /* warned: disable isn't verified: p->prio isn't here */
{
	p->scx.slice = p->prio;
}

void BPF_STRUCT_OPS(callbacks_cgroup_exit, struct cgroup *cgrp)	/* warned: cgroup_exit is left out: groups stay */ /* warned: cgroup_exit isn't verified: it has a cgroup */
{
}

bool BPF_STRUCT_OPS(callbacks_yield, struct task_struct *from, struct task_struct *to)	/* warned: yield is left out: tasks here don't yield */
{
	return to->pid > 3;	/* refused: yield refused 10 NullNotTested */ /* reason: r2 may be 0 here: it is an argument; test it first */
}

void BPF_STRUCT_OPS(callbacks_running, struct task_struct *p)	/* warned: 'callbacks_running' is no callback of the policy */
{
}

SEC("syscall") int prepare(void *context)	/* warned: 'prepare' is in the section syscall, and left out: nothing */
{
	idle_cpus = 1;
	return 0;
}

SEC("tp_btf/sched_switch") int follow(void *context)	/* refused: 'follow' is in the section tp_btf/sched_switch, which nothing */
{
	idle_cpus = 0;
	return 0;
}

SEC("tp_btf/sched_switch") int look(void *context)	/* warned: 'look' is in the section tp_btf/sched_switch, and left out: it does nothing */
{
	return 0;
}

SCX_OPS_DEFINE(callbacks_ops,
	       .tick = (void *)callbacks_tick,
	       .runnable = (void *)callbacks_runnable,
	       .dequeue = (void *)callbacks_dequeue,
	       .set_weight = (void *)callbacks_set_weight,
	       .update_idle = (void *)callbacks_update_idle,
	       .quiescent = (void *)callbacks_quiescent,
	       .exit_task = (void *)callbacks_exit_task,
	       .disable = (void *)callbacks_disable,
	       .cgroup_exit = (void *)callbacks_cgroup_exit,
	       .yield = (void *)callbacks_yield,
	       .name = "callbacks");

/* Fields of a task: those that are here, those that are a number, and others. */
#include <scx/common.bpf.h>

u64 *kept, sum;

void BPF_STRUCT_OPS(fields_enqueue, struct task_struct *p, u64 enq_flags)
{
	u64 queue = SCX_DSQ_LOCAL;

	if (p->flags & PF_KTHREAD)	/* warned: p->flags is 0 */
		queue = SCX_DSQ_GLOBAL;
	if (!bpf_strncmp(p->comm, 4, "make"))	/* warned: tasks have no names here: p->comm is compared as an empty text */
		queue = SCX_DSQ_GLOBAL;
	if (p->flags & PF_IDLE)	/* refused: enqueue: PF_IDLE isn't here: an idle CPU has no task here */
		queue = SCX_DSQ_GLOBAL;
	if (p->nr_cpus_allowed == 1)	/* refused: enqueue: p->nr_cpus_allowed isn't here: say how many there are */
		queue = SCX_DSQ_GLOBAL;
	if (p->comm[0] == 'k')	/* refused: enqueue: p->comm isn't here: tasks have no names */
		queue = SCX_DSQ_GLOBAL;
	scx_bpf_dsq_insert(p, queue, p->scx.weight * 1000, enq_flags);	/* warned by plain rules: p->scx.weight is the task's part */
}

void BPF_STRUCT_OPS(fields_running, struct task_struct *p)
{
	sum += 16384;	/* a number like any other, though a field of a task stands as far from its beginning */
	kept = (u64 *)&p->scx.slice;	/* refused: running: the address of p->scx.slice: read the field where it is used */
}

SCX_OPS_DEFINE(fields_ops, .enqueue = (void *)fields_enqueue, .running = (void *)fields_running, .name = "fields");

/*
 * Two timers, each with a function of its own: one ends the slice of whoever runs on CPU 0, the other does so once, and
 * sets the first one's function anew. By Linux rules alone.
 * Runs as c-policies/kernel-form/alarm.toml.
 */
#include <scx/common.bpf.h>

char _license[] SEC("license") = "GPL";

#define LINE 0
#define MS 1000000ull

struct alarm {
	u64 rung;
	struct bpf_timer timer;
};

struct {
	__uint(type, BPF_MAP_TYPE_ARRAY);
	__uint(max_entries, 2);
	__type(key, u32);
	__type(value, struct alarm);
} alarms SEC(".maps");

static int slowly(void *map, int *key, struct alarm *alarm)
{
	alarm->rung++;
	scx_bpf_kick_cpu(0, SCX_KICK_PREEMPT);
	bpf_timer_start(&alarm->timer, 9 * MS, BPF_F_TIMER_CPU_PIN);
	return 0;
}

static int often(void *map, int *key, struct alarm *alarm)
{
	alarm->rung++;
	scx_bpf_kick_cpu(0, SCX_KICK_PREEMPT);
	bpf_timer_start(&alarm->timer, scx_bpf_now() + 3 * MS, BPF_F_TIMER_ABS);
	return 0;
}

static int once(void *map, int *key, struct alarm *alarm)
{
	struct alarm *other;
	u32 first = 0;

	alarm->rung++;
	other = bpf_map_lookup_elem(map, &first);
	if (!other || *key != 1)
		return 0;
	bpf_timer_cancel(&other->timer);
	bpf_timer_set_callback(&other->timer, slowly);
	bpf_timer_start(&other->timer, MS, 0);
	return 0;
}

static bool is_made(u32 number, u64 ms)
{
	struct alarm *alarm = bpf_map_lookup_elem(&alarms, &number);

	if (!alarm || bpf_timer_init(&alarm->timer, &alarms, CLOCK_MONOTONIC))
		return false;
	if (number)
		bpf_timer_set_callback(&alarm->timer, once);
	else
		bpf_timer_set_callback(&alarm->timer, often);
	return bpf_timer_start(&alarm->timer, ms * MS, 0) == 0;
}

s32 BPF_STRUCT_OPS_SLEEPABLE(alarm_init)
{
	if (!is_made(0, 3) || !is_made(1, 100))
		return -EINVAL;
	return scx_bpf_create_dsq(LINE, -1);
}

void BPF_STRUCT_OPS(alarm_enqueue, struct task_struct *p, u64 enq_flags)
{
	scx_bpf_dsq_insert(p, LINE, SCX_SLICE_INF, enq_flags);
	scx_bpf_kick_cpu(0, SCX_KICK_IDLE);
}

void BPF_STRUCT_OPS(alarm_dispatch, s32 cpu, struct task_struct *prev)
{
	scx_bpf_dsq_move_to_local(LINE);
}

SCX_OPS_DEFINE(alarm_ops,
	       .init = (void *)alarm_init,
	       .enqueue = (void *)alarm_enqueue,
	       .dispatch = (void *)alarm_dispatch,
	       .name = "alarm");

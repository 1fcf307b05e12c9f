/* Timers: by plain rules none, and by Linux rules sixteen. */
#include <scx/common.bpf.h>

struct with_timer {
	struct bpf_timer timer;
};

struct {
	__uint(type, BPF_MAP_TYPE_ARRAY);
	__uint(max_entries, 17);
	__type(key, u32);
	__type(value, struct with_timer);
} timers SEC(".maps");	/* refused by Linux rules: timers: timers are in values of array maps, and a policy has 16 of them at most */

static int fired(void *map, int *key, struct bpf_timer *timer)
{
	return 0;
}

s32 BPF_STRUCT_OPS_SLEEPABLE(timer_init)
{
	struct bpf_timer *timer;
	u32 key = 0;

	timer = bpf_map_lookup_elem(&timers, &key);
	if (!timer)
		return -ESRCH;
	bpf_timer_init(timer, &timers, CLOCK_MONOTONIC);	/* refused by plain rules: init: bpf_timer_init isn't here: by plain rules do it in a callback */
	bpf_timer_set_callback(timer, fired);	/* refused: init: the address of 'fired' */ /* refused by plain rules: init: bpf_timer_set_callback isn't here */
	return bpf_timer_start(timer, 1000000, 0);	/* refused by plain rules: init: bpf_timer_start isn't here */
}

SCX_OPS_DEFINE(timer_ops, .init = (void *)timer_init, .name = "timer");

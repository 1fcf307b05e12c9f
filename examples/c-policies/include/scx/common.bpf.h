/*
 * What a sched_ext policy in C uses of the kernel, under the kernel's names, for the host. build puts this folder
 * before all others, so a policy says #include <scx/common.bpf.h> here as there. docs/KERNEL.md says what each
 * name becomes, and what isn't here.
 *
 * What build has to know of the code is left to it in three ways: a kernel function that isn't declared here as an
 * INSTEAD is an unresolved symbol with its name; a field of a task is where no map's value has a byte; and a
 * NOTE is an instruction that no compiler writes.
 */
#ifndef SCX_COMMON_BPF_H
#define SCX_COMMON_BPF_H

typedef unsigned char u8;
typedef unsigned short u16;
typedef unsigned int u32;
typedef unsigned long long u64;
typedef signed char s8;
typedef short s16;
typedef int s32;
typedef long long s64;
typedef u8 __u8;
typedef u16 __u16;
typedef u32 __u32;
typedef u64 __u64;
typedef s32 __s32;
typedef s64 __s64;
typedef s32 pid_t;
typedef unsigned long size_t;
typedef _Bool bool;

#define true 1
#define false 0
#define NULL ((void *)0)

#define SEC(name) __attribute__((section(name), used))
#define __always_inline inline __attribute__((always_inline))
#define __noinline
#define __weak
#define __hidden
#define __ksym
#define __kptr
#define __arena
#define __maybe_unused __attribute__((unused))
#define likely(condition) __builtin_expect(!!(condition), 1)
#define unlikely(condition) __builtin_expect(!!(condition), 0)
#define offsetof(type, member) __builtin_offsetof(type, member)
#define container_of(pointer, type, member) ((type *)((char *)(pointer) - offsetof(type, member)))
#define private(name) static __attribute__((section(".data." #name), aligned(8)))
#define __contains(name, node)
#define ARRAY_SIZE(array) (sizeof(array) / sizeof((array)[0]))
#define barrier() asm volatile("" ::: "memory")
#define READ_ONCE(variable) (*(const volatile __typeof__(variable) *)&(variable))
#define WRITE_ONCE(variable, value) (*(volatile __typeof__(variable) *)&(variable) = (value))
#define memset(to, byte, size) __builtin_memset(to, byte, size)
#define memcpy(to, from, size) __builtin_memcpy(to, from, size)

/* Takes the place of a function of the kernel. It has no lines of its own: its code has those of the caller. */
#define INSTEAD static inline __attribute__((always_inline, nodebug, unused))

/* A jump to the next instruction, with a number in a field that jumps don't use. build takes it out and says what the number means. */
#define NOTE(number) asm volatile(".byte 5, 0, 0, 0; .long %0" : : "i"(number))
#define NOTE_PLAIN_ADD 1
#define NOTE_NO_LOCK 2
#define NOTE_NO_KICK 3
#define NOTE_NOT_CLAIMED 4
#define NOTE_TASK_STORAGE 5
#define NOTE_ERROR 6
#define NOTE_NO_PRINT 7
#define NOTE_MASK 8
#define NOTE_RANDOM 9
#define NOTE_ROUNDS 10
#define NOTE_RING 11
#define NOTE_SLOTS 12
#define NOTE_EXIT 13
#define NOTE_LOCAL 15
#define NOTE_NO_WAIT 16
#define NOTE_NO_NAMES 17

/* A number or pointer of which clang knows nothing. So it tests this one and no copy of it. */
#define FORGOTTEN(value) \
	({ \
		__typeof__(value) value_ = (value); \
		asm volatile("" : "+r"(value_)); \
		value_; \
	})

/* Maps, in the section .maps. */
enum bpf_map_type {
	BPF_MAP_TYPE_HASH = 1,
	BPF_MAP_TYPE_ARRAY = 2,
	BPF_MAP_TYPE_PERCPU_HASH = 5,
	BPF_MAP_TYPE_PERCPU_ARRAY = 6,
	BPF_MAP_TYPE_LRU_HASH = 9,
	BPF_MAP_TYPE_ARRAY_OF_MAPS = 12,
	BPF_MAP_TYPE_HASH_OF_MAPS = 13,
	BPF_MAP_TYPE_QUEUE = 22,
	BPF_MAP_TYPE_STACK = 23,
	BPF_MAP_TYPE_RINGBUF = 27,
	BPF_MAP_TYPE_TASK_STORAGE = 29,
	BPF_MAP_TYPE_USER_RINGBUF = 31,
	BPF_MAP_TYPE_CGRP_STORAGE = 32,
	BPF_MAP_TYPE_ARENA = 33,
};
#define BPF_F_NO_PREALLOC 1
#define BPF_F_MMAPABLE 1024
#define BPF_ANY 0
#define BPF_NOEXIST 1
#define BPF_EXIST 2
#define BPF_LOCAL_STORAGE_GET_F_CREATE 1

#define __uint(name, number) int (*name)[number]
#define __ulong(name, number) enum { name##_of_map = number } name
#define __type(name, of) __typeof__(of) *name
#define __array(name, of) __typeof__(of) *name[]

/* Numbers of errors. */
#define EPERM 1
#define ENOENT 2
#define ESRCH 3
#define EIO 5
#define E2BIG 7
#define EAGAIN 11
#define ENOMEM 12
#define EBUSY 16
#define EEXIST 17
#define EINVAL 22
#define ENOSPC 28
#define EDEADLK 35

struct kernfs_node {
	u64 id;
};
struct cgroup {
	struct kernfs_node *kn;
	s32 level;
};
struct bpf_rb_node {
	u64 numbers[4];
};
struct bpf_rb_root {
	u64 numbers[2];
};
struct bpf_list_node {
	u64 numbers[3];
};
struct bpf_list_head {
	u64 numbers[2];
};
/* What a kernel has for other things than schedulers: build refuses one of these. */
struct tcp_congestion_ops {
	void *ssthresh;
	void *cong_avoid;
	void *undo_cwnd;
	char name[16];
};
struct sock;
struct cpumask;
struct bpf_cpumask;
struct rq;
struct bpf_iter_scx_dsq {
	u64 numbers[6];
};
struct scx_dump_ctx;
struct scx_cpu_acquire_args;
struct scx_cpu_release_args;
struct scx_exit_task_args;
struct scx_exit_info {
	int kind;
	s64 exit_code;
	const char *reason;
	char *msg;
	char *dump;
};
struct user_exit_info;
struct bpf_spin_lock {
	u32 number;
};
/* A timer is an element of an array map. build writes its number before the policy begins. */
struct bpf_timer {
	u64 host_number;	/* counted from 1 */
	u64 host_function;	/* 0 before bpf_timer_init, 1 before bpf_timer_set_callback */
};
struct scx_cgroup_init_args {
	u32 weight;
	u64 bw_period_us;
	u64 bw_quota_us;
	u64 bw_burst_us;
};
struct scx_init_task_args {
	bool fork;
	struct cgroup *cgroup;
};

/*
 * A task. The offsets of its fields are build's affair: it knows them by their names, refuses those
 * that aren't here with the line, and writes the host's number for the others. All are volatile, since a load or
 * store takes a whole one.
 */
struct sched_ext_entity {
	volatile u64 slice;
	volatile u64 dsq_vtime;
	const volatile u32 weight;
	volatile u32 flags;
	volatile s32 sticky_cpu;
	volatile s32 holding_cpu;
	volatile bool disallow;
};
struct sched_entity {
	const volatile u64 sum_exec_runtime;
};
struct thread_info {
	const volatile u32 cpu;
};
struct task_struct {
	u8 below_fields[16384];
	const volatile pid_t pid;
	const volatile pid_t tgid;
	struct sched_ext_entity scx;
	struct sched_entity se;
	struct thread_info thread_info;
	const volatile u32 group;	/* of the host alone: the number of the task's group in the workload */
	const volatile u32 flags;
	const volatile s32 nr_cpus_allowed;
	const volatile s32 static_prio;
	const volatile s32 prio;
	const volatile u32 policy;
	const volatile u32 migration_disabled;
	const struct cpumask *volatile cpus_ptr;
	struct task_struct *volatile real_parent;
	struct task_struct *volatile parent;
	void *volatile mm;
	volatile char comm[16];
};
/* A CPU that is idle has no task here. */
extern u32 PF_IDLE(void);
#define PF_IDLE PF_IDLE()
#define PF_EXITING 0x4
#define PF_KTHREAD 0x200000
#define CLOCK_MONOTONIC 1
#define CLOCK_BOOTTIME 7
#define BPF_F_TIMER_ABS 1
#define BPF_F_TIMER_CPU_PIN 2
#define BPF_MAX_LOOPS (8 * 1024 * 1024)
#define NR_CPUS 1024
#define SCX_CPUPERF_ONE 1024

/* Queues, slices and flags, with the kernel's numbers. */
#define SCX_DSQ_FLAG_BUILTIN (1ull << 63)
#define SCX_DSQ_FLAG_LOCAL_ON (1ull << 62)
#define SCX_DSQ_INVALID SCX_DSQ_FLAG_BUILTIN
#define SCX_DSQ_GLOBAL (SCX_DSQ_FLAG_BUILTIN | 1)
#define SCX_DSQ_LOCAL (SCX_DSQ_FLAG_BUILTIN | 2)
#define SCX_DSQ_LOCAL_ON (SCX_DSQ_FLAG_BUILTIN | SCX_DSQ_FLAG_LOCAL_ON)
#define SCX_DSQ_LOCAL_CPU_MASK 0xffffffffull
#define SCX_SLICE_DFL 20000000ull
#define SCX_SLICE_INF (~0ull)
#define SCX_ENQ_WAKEUP 1ull
#define SCX_ENQ_CPU_SELECTED (1ull << 10)
#define SCX_ENQ_REENQ (1ull << 40)
#define SCX_ENQ_LAST (1ull << 41)
#define SCX_WAKE_FORK 4
#define SCX_WAKE_TTWU 8
#define SCX_WAKE_SYNC 16
#define SCX_DEQ_SLEEP 1ull
#define SCX_DEQ_CORE_SCHED_EXEC (1ull << 32)
#define SCX_DEQ_SCHED_CHANGE (1ull << 33)
#define SCX_EXIT_NONE 0
#define SCX_ECODE_ACT_RESTART (1ll << 48)
#define SCX_KICK_IDLE 1ull
#define SCX_KICK_PREEMPT 2ull
#define SCX_KICK_WAIT 4ull
#define SCX_PICK_IDLE_CORE 1ull
#define SCX_OPS_KEEP_BUILTIN_IDLE 1ull
#define SCX_OPS_ENQ_LAST 2ull
#define SCX_OPS_ENQ_EXITING 4ull
#define SCX_OPS_SWITCH_PARTIAL 8ull
#define SCX_OPS_ENQ_MIGRATION_DISABLED 16ull
#define SCX_OPS_ALLOW_QUEUED_WAKEUP 32ull
#define SCX_OPS_BUILTIN_IDLE_PER_NODE 64ull
#define SCX_OPS_HAS_CGROUP_WEIGHT 65536ull

/* Flags of an insert that only Linux rules have. HEAD is the host's own number: that of a kernel changes by version. */
#ifdef HOST_LINUX
#define SCX_ENQ_PREEMPT (1ull << 32)
#define SCX_ENQ_HEAD (1ull << 48)
#else
extern u64 SCX_ENQ_HEAD(void);
extern u64 SCX_ENQ_PREEMPT(void);
#define SCX_ENQ_HEAD SCX_ENQ_HEAD()
#define SCX_ENQ_PREEMPT SCX_ENQ_PREEMPT()
#endif

/* What a policy is: build reads it from the section .struct_ops.link. */
struct sched_ext_ops {
	void *select_cpu;
	void *enqueue;
	void *dequeue;
	void *dispatch;
	void *tick;
	void *runnable;
	void *running;
	void *stopping;
	void *quiescent;
	void *yield;
	void *core_sched_before;
	void *set_weight;
	void *set_cpumask;
	void *update_idle;
	void *cpu_acquire;
	void *cpu_release;
	void *init_task;
	void *exit_task;
	void *enable;
	void *disable;
	void *dump;
	void *dump_cpu;
	void *dump_task;
	void *cgroup_init;
	void *cgroup_exit;
	void *cgroup_prep_move;
	void *cgroup_move;
	void *cgroup_cancel_move;
	void *cgroup_set_weight;
	void *cgroup_set_bandwidth;
	void *cgroup_set_idle;
	void *cpu_online;
	void *cpu_offline;
	void *init;
	void *exit;
	u32 dispatch_max_batch;
	u64 flags;
	u32 timeout_ms;
	u32 exit_dump_len;
	u64 hotplug_seq;
	char name[128];
};
#define BPF_PROG(name, args...) name(args)
#define BPF_STRUCT_OPS(name, args...) SEC("struct_ops/" #name) name(args)
#define BPF_STRUCT_OPS_SLEEPABLE(name, args...) SEC("struct_ops.s/" #name) name(args)
#define SCX_OPS_DEFINE(name, members...) \
	SEC(".struct_ops.link") struct sched_ext_ops name = { members }

/* What tells user space why a policy ended is nothing here: the trace says it. */
#define UEI_DEFINE(name) struct user_exit_info
#define UEI_RECORD(name, exit_info) ((void)(exit_info))
#define UEI_GROUP_DEFINE(name) struct user_exit_info

/* The host's helpers, at their numbers. */
static void *(*const host_map_lookup_elem)(void *map, const void *key) = (void *)1;
static u64 (*const bpf_ktime_get_ns)(void) = (void *)5;
static u64 (*const scx_bpf_now)(void) = (void *)5;
static s64 (*const host_create_dsq)(u64 queue) = (void *)1001;
static s64 (*const host_dsq_insert)(struct task_struct *p, u64 queue, u64 slice, u64 flags) = (void *)1002;
static s64 (*const host_dsq_insert_vtime)(struct task_struct *p, u64 queue, u64 slice, u64 vtime, u64 flags) = (void *)1003;
static s64 (*const host_dsq_move_to_local)(u64 queue) = (void *)1004;
static u64 (*const host_select_cpu_dfl)(struct task_struct *p) = (void *)1005;
static s64 (*const host_cpu_idle)(u64 cpu) = (void *)1006;
static struct task_struct *(*const host_task_by_pid)(u64 pid) = (void *)1007;
static s64 (*const host_dsq_nr_queued)(u64 queue) = (void *)1008;
/* By Linux rules. */
static s64 (*const host_map_update_elem)(void *map, const void *key, const void *value, u64 flags) = (void *)2;
static s64 (*const host_map_delete_elem)(void *map, const void *key) = (void *)3;
static s64 (*const host_map_push_elem)(void *map, const void *value, u64 flags) = (void *)87;
static s64 (*const host_map_pop_elem)(void *map, void *value) = (void *)88;
static s64 (*const host_map_peek_elem)(void *map, void *value) = (void *)89;
static void *(*const host_map_lookup_percpu_elem)(void *map, const void *key, u64 cpu) = (void *)195;
static u64 (*const host_get_prandom_u32)(void) = (void *)7;
static u64 (*const host_get_smp_processor_id)(void) = (void *)8;
static s64 (*const host_kick_cpu)(u64 cpu, u64 flags) = (void *)1009;
static struct task_struct *(*const host_cpu_curr)(u64 cpu) = (void *)1011;
static struct task_struct *(*const host_dsq_peek)(u64 queue) = (void *)1012;
static u64 (*const host_task_running)(const struct task_struct *p) = (void *)1013;
static s64 (*const host_pick_idle)(u64 mask, u64 flags) = (void *)1015;
static s64 (*const host_claim_idle)(u64 cpu) = (void *)1016;
static s64 (*const host_timer_start)(u64 timer, u64 ns) = (void *)1017;
static s64 (*const host_timer_cancel)(u64 timer) = (void *)1018;

INSTEAD void *bpf_map_lookup_elem(void *map, const void *key)
{
	return FORGOTTEN(host_map_lookup_elem(map, key));
}

/* A map that a map of maps gave is a void pointer, and build refuses that map. */
struct host_any_map {
	int (*type)[BPF_MAP_TYPE_QUEUE];
	int (*max_entries)[1];
};
#define HOST_MAP(map) ((__typeof__(_Generic((map), void *: (struct host_any_map *)NULL, default: (map))))(map))
#define HOST_ENTRIES(map) (sizeof(*HOST_MAP(map)->max_entries) / sizeof(int))
#define HOST_MAP_IS(map, kind) (sizeof(*HOST_MAP(map)->type) / sizeof(int) == BPF_MAP_TYPE_##kind)

/* An array's elements are all there from the start, so none is new. Bytes that nothing wrote may be copied. */
#define HOST_REPLACE(map, key, value, flags) \
	({ \
		__typeof__(*(value)) *element_ = bpf_map_lookup_elem(map, key); \
		if (element_ && !((flags) & BPF_NOEXIST)) \
			*element_ = *(value); \
		!element_ ? -7l : (flags) & BPF_NOEXIST ? -17l : 0l; \
	})
#ifdef HOST_LINUX
#define bpf_map_update_elem(map, key, value, flags) \
	(HOST_MAP_IS(map, HASH) ? host_map_update_elem(map, key, value, flags) : HOST_REPLACE(map, key, value, flags))

INSTEAD long bpf_map_delete_elem(void *map, const void *key)
{
	return host_map_delete_elem(map, key);
}

INSTEAD void *bpf_map_lookup_percpu_elem(void *map, const void *key, u32 cpu)
{
	return FORGOTTEN(host_map_lookup_percpu_elem(map, key, cpu));
}
#else
#define bpf_map_update_elem(map, key, value, flags) HOST_REPLACE(map, key, value, flags)
extern long bpf_map_delete_elem(void *map, const void *key);
extern void *bpf_map_lookup_percpu_elem(void *map, const void *key, u32 cpu);
#endif

#define bpf_task_storage_get(map, p, value, flags) \
	({ \
		u32 key_ = (p)->pid; \
		NOTE(NOTE_TASK_STORAGE); \
		(void)(flags); \
		bpf_map_lookup_elem(map, &key_); \
	})

INSTEAD s32 scx_bpf_create_dsq(u64 dsq_id, s32 node)
{
	return host_create_dsq(dsq_id);
}

INSTEAD bool scx_bpf_dsq_insert(struct task_struct *p, u64 dsq_id, u64 slice, u64 enq_flags)
{
	return host_dsq_insert(p, dsq_id, slice, enq_flags) == 0;
}

INSTEAD bool scx_bpf_dsq_insert_vtime(struct task_struct *p, u64 dsq_id, u64 slice, u64 vtime, u64 enq_flags)
{
	return host_dsq_insert_vtime(p, dsq_id, slice, vtime, enq_flags) == 0;
}

INSTEAD bool host_moved_to_local(u64 dsq_id)
{
	return host_dsq_move_to_local(dsq_id) == 1;
}

/* With or without flags, which mean nothing here. */
#define scx_bpf_dsq_move_to_local(dsq_id, flags...) host_moved_to_local(dsq_id)

/* The names of 6.12. */
#define scx_bpf_dispatch scx_bpf_dsq_insert
#define scx_bpf_dispatch_vtime scx_bpf_dsq_insert_vtime
#define scx_bpf_consume(dsq_id) host_moved_to_local(dsq_id)

/*
 * The default choice, and whether it is idle. By Linux rules it is claimed, and isn't idle where it was claimed before,
 * also by the same callback, for which host_cpu_idle shows it as idle.
 */
INSTEAD s32 host_choice(struct task_struct *p, bool *is_idle)
{
#ifdef HOST_LINUX
	u64 cpu = p->thread_info.cpu, last = cpu;

	*is_idle = host_claim_idle(last) == 1;
	if (!*is_idle) {
		cpu = host_select_cpu_dfl(p);
		*is_idle = cpu != last;
	}
#else
	u64 cpu = host_select_cpu_dfl(p);

	*is_idle = host_cpu_idle(cpu) != 0;
#endif
	return cpu;
}

INSTEAD s32 scx_bpf_select_cpu_dfl(struct task_struct *p, s32 prev_cpu, u64 wake_flags, bool *is_idle)
{
	return host_choice(p, is_idle);
}

#ifdef HOST_LINUX
INSTEAD bool scx_bpf_test_and_clear_cpu_idle(s32 cpu)
{
	return host_claim_idle((u32)cpu) == 1;
}

INSTEAD u32 bpf_get_smp_processor_id(void)
{
	return host_get_smp_processor_id();
}

INSTEAD struct task_struct *scx_bpf_cpu_curr(s32 cpu)
{
	return FORGOTTEN(host_cpu_curr((u32)cpu));
}

INSTEAD struct task_struct *scx_bpf_dsq_peek(u64 dsq_id)
{
	return FORGOTTEN(host_dsq_peek(dsq_id));
}

INSTEAD bool scx_bpf_task_running(const struct task_struct *p)
{
	return host_task_running(p) != 0;
}
#else
INSTEAD bool scx_bpf_test_and_clear_cpu_idle(s32 cpu)
{
	NOTE(NOTE_NOT_CLAIMED);
	return host_cpu_idle((u32)cpu) != 0;
}
extern u32 bpf_get_smp_processor_id(void);
extern struct task_struct *scx_bpf_cpu_curr(s32 cpu);
extern struct task_struct *scx_bpf_dsq_peek(u64 dsq_id);
extern bool scx_bpf_task_running(const struct task_struct *p);
#endif
#define __COMPAT_scx_bpf_dsq_peek scx_bpf_dsq_peek

/* The host counts queues of the policy, and not what waits on a CPU. */
INSTEAD s32 scx_bpf_dsq_nr_queued(u64 dsq_id)
{
	bool is_local = dsq_id == SCX_DSQ_LOCAL || (dsq_id & SCX_DSQ_LOCAL_ON) == SCX_DSQ_LOCAL_ON;

	if (__builtin_constant_p(is_local) && is_local) {
		NOTE(NOTE_LOCAL);
		return 0;
	}
	return host_dsq_nr_queued(dsq_id);
}

INSTEAD struct task_struct *bpf_task_from_pid(s32 pid)
{
	return FORGOTTEN(host_task_by_pid((u32)pid));
}

INSTEAD void bpf_task_release(struct task_struct *p)
{
}

INSTEAD s32 scx_bpf_task_cpu(const struct task_struct *p)
{
	return p->thread_info.cpu;
}

INSTEAD bool scx_bpf_task_set_slice(struct task_struct *p, u64 slice)
{
	p->scx.slice = slice;
	return true;
}

INSTEAD bool scx_bpf_task_set_dsq_vtime(struct task_struct *p, u64 vtime)
{
	p->scx.dsq_vtime = vtime;
	return true;
}

#ifdef HOST_LINUX
/*
 * What is kicked looks as the event ends, which takes no time, so there is nothing to wait for. Flags that aren't constant
 * are looked at by the helper.
 */
INSTEAD void scx_bpf_kick_cpu(s32 cpu, u64 flags)
{
	if (__builtin_constant_p(flags) && flags & SCX_KICK_WAIT) {
		NOTE(NOTE_NO_WAIT);
		flags &= ~SCX_KICK_WAIT;
	}
	host_kick_cpu((u32)cpu, flags);
}
#else
/* By plain rules an idle CPU looks for a task each millisecond, so no policy has to wake it. */
extern void scx_bpf_kick_cpu_with_flags(s32 cpu, u64 flags);
INSTEAD void scx_bpf_kick_cpu(s32 cpu, u64 flags)
{
	if (flags & ~SCX_KICK_IDLE)
		scx_bpf_kick_cpu_with_flags(cpu, flags);
	else
		NOTE(NOTE_NO_KICK);
}
#endif

/* A timer runs on the CPU of the callback that started it, so a pinned one is like any other. */
#ifdef HOST_LINUX
INSTEAD long bpf_timer_init(struct bpf_timer *timer, void *map, u64 clock)
{
	if (timer->host_function)
		return -EBUSY;
	timer->host_function = 1;
	return 0;
}

/* build makes a number of the address. */
INSTEAD long bpf_timer_set_callback(struct bpf_timer *timer, void *callback)
{
	if (!timer->host_function)
		return -EINVAL;
	timer->host_function = (u64)callback;
	return 0;
}

INSTEAD bool host_timer_is_ready(struct bpf_timer *timer)
{
	return timer->host_number && timer->host_function > 1;
}

INSTEAD long bpf_timer_start(struct bpf_timer *timer, u64 nsecs, u64 flags)
{
	u64 now = flags & BPF_F_TIMER_ABS ? scx_bpf_now() : 0;

	if (flags & ~(BPF_F_TIMER_ABS | BPF_F_TIMER_CPU_PIN) || !host_timer_is_ready(timer))
		return -EINVAL;
	return host_timer_start(timer->host_number - 1, nsecs > now ? nsecs - now : 0);
}

INSTEAD long bpf_timer_cancel(struct bpf_timer *timer)
{
	return host_timer_is_ready(timer) ? host_timer_cancel(timer->host_number - 1) : -EINVAL;
}
#else
extern long bpf_timer_init(struct bpf_timer *timer, void *map, u64 flags);
extern long bpf_timer_set_callback(struct bpf_timer *timer, void *callback);
extern long bpf_timer_start(struct bpf_timer *timer, u64 nsecs, u64 flags);
extern long bpf_timer_cancel(struct bpf_timer *timer);
#endif

/* A callback is one step here, and no other runs beside it. */
INSTEAD void bpf_spin_lock(struct bpf_spin_lock *lock)
{
	NOTE(NOTE_NO_LOCK);
}

INSTEAD void bpf_spin_unlock(struct bpf_spin_lock *lock)
{
}

INSTEAD void bpf_rcu_read_lock(void)
{
}

INSTEAD void bpf_rcu_read_unlock(void)
{
}

#define __sync_fetch_and_add(pointer, number) \
	({ \
		__typeof__(*(pointer)) before_ = *(pointer); \
		NOTE(NOTE_PLAIN_ADD); \
		*(pointer) = before_ + (number); \
		before_; \
	})

#define __sync_fetch_and_sub(pointer, number) __sync_fetch_and_add(pointer, -(number))

/* The other atomic functions: what is there is `before_`, and `after` takes its place. */
#define HOST_PLAIN(pointer, after) \
	({ \
		__typeof__(*(pointer)) before_ = *(pointer); \
		NOTE(NOTE_PLAIN_ADD); \
		*(pointer) = (after); \
		before_; \
	})
#define __sync_fetch_and_or(pointer, number) HOST_PLAIN(pointer, before_ | (number))
#define __sync_fetch_and_and(pointer, number) HOST_PLAIN(pointer, before_ & (number))
#define __sync_fetch_and_xor(pointer, number) HOST_PLAIN(pointer, before_ ^ (number))
#define __sync_add_and_fetch(pointer, number) (__sync_fetch_and_add(pointer, number) + (number))
#define __sync_sub_and_fetch(pointer, number) (__sync_fetch_and_sub(pointer, number) - (number))
#define __sync_lock_test_and_set(pointer, number) HOST_PLAIN(pointer, number)
#define __sync_val_compare_and_swap(pointer, old, new) HOST_PLAIN(pointer, before_ == (old) ? (new) : before_)
#define __sync_bool_compare_and_swap(pointer, old, new) \
	({ \
		__typeof__(*(pointer)) old_ = (old); \
		__sync_val_compare_and_swap(pointer, old_, new) == old_; \
	})

/* Their newer names, for any order of memory. */
#define __atomic_load_n(pointer, order) (*(pointer))
#define __atomic_store_n(pointer, number, order) ((void)(*(pointer) = (number)))
#define __atomic_exchange_n(pointer, number, order) HOST_PLAIN(pointer, number)
#define __atomic_fetch_add(pointer, number, order) __sync_fetch_and_add(pointer, number)
#define __atomic_fetch_sub(pointer, number, order) __sync_fetch_and_sub(pointer, number)
#define __atomic_fetch_or(pointer, number, order) __sync_fetch_and_or(pointer, number)
#define __atomic_fetch_and(pointer, number, order) __sync_fetch_and_and(pointer, number)
#define __atomic_fetch_xor(pointer, number, order) __sync_fetch_and_xor(pointer, number)
#define __atomic_add_fetch(pointer, number, order) __sync_add_and_fetch(pointer, number)
#define __atomic_sub_fetch(pointer, number, order) __sync_sub_and_fetch(pointer, number)
#define __atomic_compare_exchange_n(pointer, expected, number, weak, order, failed) \
	({ \
		__typeof__(*(pointer)) wanted_ = *(expected); \
		*(expected) = __sync_val_compare_and_swap(pointer, wanted_, number); \
		*(expected) == wanted_; \
	})

/* A number that follows from the one before it, so each run has the same ones. */
#ifdef HOST_LINUX
INSTEAD u32 bpf_get_prandom_u32(void)
{
	return host_get_prandom_u32();
}
#else
static u64 host_random = 0x9e3779b97f4a7c15ull;
INSTEAD u32 bpf_get_prandom_u32(void)
{
	u64 next = host_random;

	NOTE(NOTE_RANDOM);
	next ^= next << 13;
	next ^= next >> 7;
	next ^= next << 17;
	host_random = next;
	return next >> 32;
}
#endif

#ifdef HOST_LINUX
INSTEAD long bpf_map_push_elem(void *map, const void *value, u64 flags)
{
	return host_map_push_elem(map, value, flags);
}

INSTEAD long bpf_map_pop_elem(void *map, void *value)
{
	return host_map_pop_elem(map, value);
}

INSTEAD long bpf_map_peek_elem(void *map, void *value)
{
	return host_map_peek_elem(map, value);
}
#else
/*
 * A map that is a queue or a stack is an array map with an element more. Element 0 counts what was taken and what was
 * put; the others are a ring. The last of a stack is taken by one step back of what was put.
 */
#define bpf_map_push_elem(map, value, flags) \
	({ \
		u32 at_ = 0; \
		long answer_ = -E2BIG; \
		u32 *counts_ = bpf_map_lookup_elem(map, &at_); \
		NOTE(NOTE_RING); \
		if (counts_ && counts_[1] - counts_[0] < HOST_ENTRIES(map)) { \
			__typeof__(value) element_; \
			at_ = 1 + counts_[1] % HOST_ENTRIES(map); \
			element_ = bpf_map_lookup_elem(map, &at_); \
			if (element_) { \
				*element_ = *(value); \
				counts_[1]++; \
				answer_ = 0; \
			} \
		} \
		answer_; \
	})
#define HOST_FRONT(map, value, taken) \
	({ \
		u32 at_ = 0; \
		long answer_ = -ENOENT; \
		u32 *counts_ = bpf_map_lookup_elem(map, &at_); \
		NOTE(NOTE_RING); \
		if (counts_ && counts_[1] != counts_[0]) { \
			__typeof__(value) element_; \
			at_ = 1 + (HOST_MAP_IS(map, STACK) ? counts_[1] - 1 : counts_[0]) % HOST_ENTRIES(map); \
			element_ = bpf_map_lookup_elem(map, &at_); \
			if (element_) { \
				*(value) = *element_; \
				counts_[HOST_MAP_IS(map, STACK)] += HOST_MAP_IS(map, STACK) ? -(taken) : (taken); \
				answer_ = 0; \
			} \
		} \
		answer_; \
	})
#define bpf_map_pop_elem(map, value) HOST_FRONT(map, value, 1)
#define bpf_map_peek_elem(map, value) HOST_FRONT(map, value, 0)
#endif

/* An array that user space makes as long as there are CPUs: here as long as there are at most. */
#define RESIZABLE_ARRAY(section, array) array[64]

/* Nothing keeps a task on a CPU here. */
INSTEAD bool is_migration_disabled(const struct task_struct *p)
{
	return false;
}

INSTEAD u64 scale_by_task_weight(const struct task_struct *p, u64 value)
{
	return value * p->scx.weight / 100;
}

INSTEAD u64 scale_by_task_weight_inverse(const struct task_struct *p, u64 value)
{
	return value * 100 / p->scx.weight;
}

/* How many CPUs there are: build --set cpus=N says it. */
#ifdef HOST_CPUS
INSTEAD u32 scx_bpf_nr_cpu_ids(void)
{
	return HOST_CPUS;
}
#else
extern u32 scx_bpf_nr_cpu_ids(void);
#endif

/*
 * Masks of CPUs are numbers, and two of them mean all CPUs and those that are idle. By Linux rules any other
 * has a bit for each CPU, as p->cpus_ptr has for those on which the task may run. By plain rules each task may run on
 * all of them, and build loads HOST_ALL as p->cpus_ptr. Which CPUs are idle is asked when a mask is looked at, and not
 * claimed.
 */
#ifdef HOST_LINUX
#ifdef HOST_CPUS
#define HOST_ALL ((const struct cpumask *)(~0ull >> (64 - HOST_CPUS)))
#else
#define HOST_ALL ((const struct cpumask *)~0ull)
#endif
#define HOST_IDLE ((const struct cpumask *)0)
#else
#define HOST_ALL ((const struct cpumask *)1)
#define HOST_IDLE ((const struct cpumask *)2)
#endif
#define cast_mask(mask) ((const struct cpumask *)(mask))
INSTEAD const struct cpumask *scx_bpf_get_idle_cpumask(void)
{
	return HOST_IDLE;
}

INSTEAD const struct cpumask *scx_bpf_get_idle_smtmask(void)
{
	return HOST_IDLE;
}

INSTEAD const struct cpumask *scx_bpf_get_online_cpumask(void)
{
	return HOST_ALL;
}

INSTEAD const struct cpumask *scx_bpf_get_possible_cpumask(void)
{
	return HOST_ALL;
}

INSTEAD void scx_bpf_put_cpumask(const struct cpumask *mask)
{
}

INSTEAD void scx_bpf_put_idle_cpumask(const struct cpumask *mask)
{
}

#ifdef HOST_LINUX
/* The bits of a mask; a CPU that isn't idle is claimed by nobody, so those of HOST_IDLE are all. */
INSTEAD u64 host_bits(const struct cpumask *mask)
{
	return mask == HOST_IDLE ? ~0ull : (u64)mask;
}

/* The lowest bit of a number that isn't 0. */
INSTEAD u32 host_lowest(u64 bits)
{
	return __builtin_popcountll((bits & -bits) - 1);
}

/* The CPU is claimed: that on which the task was last, if it is idle, else the lowest idle one. */
INSTEAD s32 scx_bpf_select_cpu_and(struct task_struct *p, s32 prev_cpu, u64 wake_flags, const struct cpumask *allowed, u64 flags)
{
	u64 bits = host_bits(allowed) & (u64)p->cpus_ptr, last = p->thread_info.cpu;

	if (bits >> (last & 63) & 1 && host_claim_idle(last) == 1)
		return last;
	return host_pick_idle(bits, 0);
}

/* The CPU is claimed. */
INSTEAD s32 scx_bpf_pick_idle_cpu(const struct cpumask *allowed, u64 flags)
{
	return host_pick_idle(host_bits(allowed), flags & SCX_PICK_IDLE_CORE);
}

INSTEAD s32 scx_bpf_pick_any_cpu(const struct cpumask *allowed, u64 flags)
{
	s32 cpu = scx_bpf_pick_idle_cpu(allowed, flags);

	return cpu >= 0 ? cpu : host_lowest(host_bits(allowed));
}

INSTEAD bool bpf_cpumask_test_cpu(u32 cpu, const struct cpumask *mask)
{
	if (cpu > 63)
		return false;
#ifdef HOST_CPUS
	if (cpu >= HOST_CPUS)
		return false;
#endif
	return mask == HOST_IDLE ? host_cpu_idle(cpu) != 0 : (u64)mask >> cpu & 1;
}

INSTEAD bool bpf_cpumask_subset(const struct cpumask *inner, const struct cpumask *outer)
{
	return !((u64)inner & ~(u64)outer);
}

INSTEAD bool bpf_cpumask_intersects(const struct cpumask *one, const struct cpumask *other)
{
	return (u64)one & (u64)other;
}

INSTEAD bool bpf_cpumask_equal(const struct cpumask *one, const struct cpumask *other)
{
	return one == other;
}
#else
INSTEAD s32 scx_bpf_select_cpu_and(struct task_struct *p, s32 prev_cpu, u64 wake_flags, const struct cpumask *allowed, u64 flags)
{
	bool is_idle = false;
	s32 cpu = host_choice(p, &is_idle);

	NOTE(NOTE_MASK);
	return is_idle ? cpu : -EBUSY;
}
#endif

#ifdef HOST_CPUS
#ifndef HOST_LINUX
INSTEAD bool bpf_cpumask_test_cpu(u32 cpu, const struct cpumask *mask)
{
	NOTE(NOTE_MASK);
	if (cpu >= HOST_CPUS)
		return false;
	return mask == HOST_IDLE ? host_cpu_idle(cpu) != 0 : true;
}
#endif

/* The lowest idle CPU, which isn't claimed. */
INSTEAD s32 host_first_idle(void)
{
#ifndef HOST_LINUX
	NOTE(NOTE_MASK);
#endif
	_Pragma("clang loop unroll(full)") for (u32 cpu = 0; cpu < HOST_CPUS; cpu++)
		if (host_cpu_idle(cpu))
			return cpu;
	return -EBUSY;
}

#ifndef HOST_LINUX
INSTEAD s32 scx_bpf_pick_idle_cpu(const struct cpumask *allowed, u64 flags)
{
	return host_first_idle();
}

INSTEAD s32 scx_bpf_pick_any_cpu(const struct cpumask *allowed, u64 flags)
{
	s32 cpu = scx_bpf_pick_idle_cpu(allowed, flags);

	return cpu >= 0 ? cpu : 0;
}
#endif

INSTEAD u32 bpf_cpumask_first(const struct cpumask *mask)
{
#ifdef HOST_LINUX
	s32 cpu = mask == HOST_IDLE ? host_first_idle() : (s32)host_lowest((u64)mask);
#else
	s32 cpu = mask == HOST_IDLE ? host_first_idle() : 0;
#endif

	return cpu >= 0 ? cpu : HOST_CPUS;
}

INSTEAD bool bpf_cpumask_empty(const struct cpumask *mask)
{
	return mask == HOST_IDLE && host_first_idle() < 0;
}

INSTEAD u32 bpf_cpumask_weight(const struct cpumask *mask)
{
	u32 count = 0;

	_Pragma("clang loop unroll(full)") for (u32 cpu = 0; cpu < HOST_CPUS; cpu++)
		count += bpf_cpumask_test_cpu(cpu, mask);
	return count;
}
#else
#ifndef HOST_LINUX
extern bool bpf_cpumask_test_cpu(u32 cpu, const struct cpumask *mask);
extern s32 scx_bpf_pick_idle_cpu(const struct cpumask *allowed, u64 flags);
extern s32 scx_bpf_pick_any_cpu(const struct cpumask *allowed, u64 flags);
#endif
extern u32 bpf_cpumask_first(const struct cpumask *mask);
extern bool bpf_cpumask_empty(const struct cpumask *mask);
extern u32 bpf_cpumask_weight(const struct cpumask *mask);
#endif

/* One node has all CPUs. */
#define scx_bpf_cpu_node(cpu) ((void)(cpu), 0)
#define scx_bpf_nr_node_ids() 1u
#define scx_bpf_get_idle_cpumask_node(node) scx_bpf_get_idle_cpumask()
#define scx_bpf_get_idle_smtmask_node(node) scx_bpf_get_idle_smtmask()
#define scx_bpf_pick_idle_cpu_node(mask, node, flags) scx_bpf_pick_idle_cpu(mask, flags)
#define scx_bpf_pick_any_cpu_node(mask, node, flags) scx_bpf_pick_any_cpu(mask, flags)
#define __COMPAT_scx_bpf_cpu_node scx_bpf_cpu_node
#define __COMPAT_scx_bpf_nr_node_ids scx_bpf_nr_node_ids
#define __COMPAT_scx_bpf_get_idle_cpumask_node scx_bpf_get_idle_cpumask_node
#define __COMPAT_scx_bpf_get_idle_smtmask_node scx_bpf_get_idle_smtmask_node
#define __COMPAT_scx_bpf_pick_idle_cpu_node scx_bpf_pick_idle_cpu_node
#define __COMPAT_scx_bpf_pick_any_cpu_node scx_bpf_pick_any_cpu_node

/* dispatch inserts at once, so its buffer has always the same room. */
INSTEAD u32 scx_bpf_dispatch_nr_slots(void)
{
	NOTE(NOTE_SLOTS);
	return 32;
}

/* Tasks have no names, so p->comm, which alone is volatile, is compared as an empty text. */
extern int host_strncmp(const char *text, u32 size, const char *other) asm("bpf_strncmp");
#define HOST_IS(text, type) __builtin_types_compatible_p(__typeof__(&(text)[0]), type)
#define HOST_IS_NAME(text) (HOST_IS(text, volatile char *) || HOST_IS(text, const volatile char *))
#define bpf_strncmp(text, size, other) \
	({ \
		int order_ = -(u8)(other)[0]; \
		if (HOST_IS_NAME(text)) \
			NOTE(NOTE_NO_NAMES); \
		else \
			order_ = host_strncmp((const char *)(text), size, other); \
		order_; \
	})

/* What a kernel may have or not isn't here. */
#define bpf_ksym_exists(name) 0
#define bpf_core_field_exists(field) 0
#define bpf_core_type_exists(type) 0
#define BPF_CORE_READ(source, member) ((source)->member)

/* The values are looked at by the compiler alone, so that their variables are used. */
#define LOOKED_AT(values...) \
	_Pragma("clang diagnostic push") _Pragma("clang diagnostic ignored \"-Wunused-value\"") \
	_Pragma("clang diagnostic ignored \"-Wsizeof-array-decay\"") \
	(void)sizeof((0, ##values)); \
	_Pragma("clang diagnostic pop")

/* The values are loaded, so that a pointer among them is tested as where they are printed. */
#define LOADED(values...) \
	_Pragma("clang diagnostic push") _Pragma("clang diagnostic ignored \"-Wunused-value\"") \
	(void)(0, ##values); \
	_Pragma("clang diagnostic pop")

/*
 * By Linux rules the address of the message becomes its number, and an error is an exit with the code -1. By plain rules
 * it becomes the number of a queue that is never there.
 */
#ifdef HOST_LINUX
extern void host_exit(s64 code, const char *message) asm("scx_bpf_exit");
#define scx_bpf_exit(code, message, values...) \
	({ \
		LOOKED_AT(values) \
		host_exit(code, message); \
	})
#define scx_bpf_error(message, values...) scx_bpf_exit(-1, message, ##values)
#define host_error(message) host_exit(-1, message)
#else
extern void host_error(const char *message) asm("scx_bpf_error");
#define scx_bpf_error(message, values...) \
	({ \
		LOOKED_AT(values) \
		NOTE(NOTE_ERROR); \
		host_error(message); \
	})
#define scx_bpf_exit(code, message, values...) ({ LOOKED_AT(values) (void)(code); NOTE(NOTE_EXIT); host_error(message); })
#endif

/*
 * Loops, which clang writes out: as many rounds as constant bounds say, where these are at most 512, else at most
 * HOST_ROUNDS. One round more is an error of the policy.
 */
#ifndef HOST_ROUNDS
#define HOST_ROUNDS 8
#endif
#define HOST_TEXT_(number) #number
#define HOST_TEXT(number) HOST_TEXT_(number)
#define HOST_MOST(rounds) (__builtin_constant_p(rounds) && (rounds) <= 512 ? (rounds) : HOST_ROUNDS)
#define HOST_NO_MORE() \
	({ \
		NOTE(NOTE_ROUNDS); \
		host_error("a loop of more than " HOST_TEXT(HOST_ROUNDS) " rounds; --loops gives it more"); \
		0; \
	})
#define bpf_for(number, from, end) \
	_Pragma("clang loop unroll(full)") \
	for (s64 round_ = ((number) = (from), 0); (number) < (end) && (round_ < HOST_MOST((end) - (from)) || HOST_NO_MORE()); \
	     round_++, (number)++)
#define bpf_repeat(rounds) \
	_Pragma("clang loop unroll(full)") \
	for (s64 round_ = 0; round_ < (rounds) && (round_ < HOST_MOST(rounds) || HOST_NO_MORE()); round_++)

/* Virtual time, and the clock, as they go round. */
#define time_after(a, b) ((s64)((b) - (a)) < 0)
#define time_before(a, b) time_after(b, a)
#define time_after_eq(a, b) ((s64)((a) - (b)) >= 0)
#define time_before_eq(a, b) time_after_eq(b, a)
#define time_delta(after, before) (time_after(after, before) ? (after) - (before) : 0)

/*
 * A pointer to an element of an array of a known length, or NULL. Clang knows nothing of the index before the test, nor
 * that it is the same after it, so it adds the tested one, and after the test. A length that is a variable is tested
 * first, and then that of the array, which the host knows.
 */
#define ARRAY_ELEM_PTR(array, index, length) \
	({ \
		u64 index_ = FORGOTTEN((u64)(index)); \
		__typeof__(&(array)[0]) element_ = NULL; \
		bool is_inside_ = __builtin_constant_p(length) || index_ < (length); \
		if (!__builtin_constant_p(length)) \
			asm volatile("" : "+r"(index_)); \
		if (is_inside_ && index_ < (__builtin_constant_p(length) ? (length) : ARRAY_SIZE(array))) { \
			asm volatile("" : "+r"(index_)); \
			element_ = &(array)[index_]; \
		} \
		element_; \
	})

/* A pointer to a member of what base is, or NULL where it isn't inside: MEMBER_VPTR(rings, [at].pids[next]). */
#define MEMBER_VPTR(base, member) \
	({ \
		u64 offset_ = FORGOTTEN((u64)&((base)member) - (u64)&(base)) & -(u64)_Alignof(__typeof__((base)member)); \
		__typeof__(&((base)member)) member_ = NULL; \
		if (offset_ <= sizeof(base) - sizeof((base)member)) { \
			asm volatile("" : "+r"(offset_)); \
			member_ = (void *)((char *)&(base) + offset_); \
		} \
		member_; \
	})

/* Functions of the kernel that aren't here. build refuses a call with its line, and says what to write. */
extern long bpf_task_storage_delete(void *map, struct task_struct *p);
extern void *bpf_cgrp_storage_get(void *map, struct cgroup *cgrp, void *value, u64 flags);
extern long bpf_loop(u32 rounds, void *callback, void *context, u64 flags);
extern struct task_struct *bpf_get_current_task_btf(void);
extern void *bpf_kptr_xchg(void *to, void *pointer);
extern struct task_struct *bpf_task_acquire(struct task_struct *p);
extern void *bpf_obj_new_impl(void);
extern void bpf_obj_drop_impl(void *object);
#define bpf_obj_new(type) ((type *)bpf_obj_new_impl())
#define bpf_obj_drop(object) bpf_obj_drop_impl(object)
extern int bpf_rbtree_add(struct bpf_rb_root *root, struct bpf_rb_node *node, void *less);
extern struct bpf_rb_node *bpf_rbtree_first(struct bpf_rb_root *root);
extern struct bpf_rb_node *bpf_rbtree_remove(struct bpf_rb_root *root, struct bpf_rb_node *node);
extern int bpf_list_push_front(struct bpf_list_head *head, struct bpf_list_node *node);
extern int bpf_list_push_back(struct bpf_list_head *head, struct bpf_list_node *node);
extern struct bpf_list_node *bpf_list_pop_front(struct bpf_list_head *head);
extern struct bpf_list_node *bpf_list_pop_back(struct bpf_list_head *head);
extern struct cgroup *bpf_cgroup_from_id(u64 id);
extern struct cgroup *bpf_cgroup_ancestor(struct cgroup *cgrp, int level);
extern void bpf_cgroup_release(struct cgroup *cgrp);
extern struct cgroup *scx_bpf_task_cgroup(struct task_struct *p);
extern void scx_bpf_destroy_dsq(u64 dsq_id);
extern void scx_bpf_dispatch_cancel(void);
extern bool scx_bpf_dsq_move(struct bpf_iter_scx_dsq *iterator, struct task_struct *p, u64 dsq_id, u64 enq_flags);
extern bool scx_bpf_dsq_move_vtime(struct bpf_iter_scx_dsq *iterator, struct task_struct *p, u64 dsq_id, u64 enq_flags);
extern void scx_bpf_dsq_move_set_slice(struct bpf_iter_scx_dsq *iterator, u64 slice);
extern void scx_bpf_dsq_move_set_vtime(struct bpf_iter_scx_dsq *iterator, u64 vtime);
extern int bpf_iter_scx_dsq_new(struct bpf_iter_scx_dsq *iterator, u64 dsq_id, u64 flags);
extern struct task_struct *bpf_iter_scx_dsq_next(struct bpf_iter_scx_dsq *iterator);
extern void bpf_iter_scx_dsq_destroy(struct bpf_iter_scx_dsq *iterator);
extern void bpf_cpumask_set_cpu(u32 cpu, struct bpf_cpumask *mask);
extern void bpf_cpumask_clear_cpu(u32 cpu, struct bpf_cpumask *mask);
extern struct bpf_cpumask *bpf_cpumask_create(void);
extern void bpf_cpumask_release(struct bpf_cpumask *mask);
extern struct rq *scx_bpf_cpu_rq(s32 cpu);
extern u32 scx_bpf_cpuperf_cap(s32 cpu);
extern u32 scx_bpf_cpuperf_cur(s32 cpu);
extern void scx_bpf_cpuperf_set(s32 cpu, u32 perf);
extern u32 scx_bpf_reenqueue_local(void);
extern void *host_for_each(void) asm("bpf_for_each");
#define scx_bpf_dump(message, values...) ({ LOADED(values) NOTE(NOTE_NO_PRINT); })
#define bpf_printk(message, values...) ({ LOADED(values) NOTE(NOTE_NO_PRINT); })
#define bpf_for_each(kind, element, values...) for ((element) = host_for_each(); (element); (element) = NULL)

#endif

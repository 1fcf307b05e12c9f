/*
 * What a policy in C uses of the host. docs/C_POLICIES.md says how to write and build one,
 * docs/POLICIES.md when callbacks are called and what helpers do.
 */
#ifndef SCX_H
#define SCX_H

typedef unsigned char u8;
typedef unsigned short u16;
typedef unsigned int u32;
typedef unsigned long long u64;
typedef int s32;
typedef long long s64;

/*
 * A callback is in a section that has its name:
 *
 *   SEC("init")       u64 NAME(void)
 *   SEC("enable")     void NAME(struct task *task)
 *   SEC("select_cpu") u64 NAME(struct task *task, u64 prev_cpu, u64 flags)
 *   SEC("enqueue")    void NAME(struct task *task, u64 flags)
 *   SEC("dispatch")   void NAME(u64 cpu, struct task *prev)    prev may be 0
 *   SEC("running")    void NAME(struct task *task)
 *   SEC("stopping")   void NAME(struct task *task, u64 runnable)
 *
 * By Linux rules also:
 *
 *   SEC("tick")        void NAME(struct task *task)
 *   SEC("dequeue")     void NAME(struct task *task, u64 flags)
 *   SEC("runnable")    void NAME(struct task *task, u64 flags)
 *   SEC("quiescent")   void NAME(struct task *task, u64 flags)
 *   SEC("update_idle") void NAME(u64 cpu, u64 idle)
 *   SEC("set_weight")  void NAME(struct task *task, u64 weight)
 *   SEC("timer")       void NAME(u64 timer)
 *
 * NAME is free, but for the section's own name.
 */
#define SEC(name) __attribute__((section(name), used))

/* A function that a callback calls is put in its place: programs call helpers alone. */
#define INLINE static inline __attribute__((always_inline))

/* A task. Fields are volatile, since a load or store takes a whole one. */
struct task {
	const volatile u32 pid;
	const volatile u32 weight;
	volatile u64 slice;		/* what is left of it, in nanoseconds */
	volatile u64 dsq_vtime;
	const volatile u32 prev_cpu;
	const volatile u32 group;
	const volatile u64 run_ns;
	const volatile u64 cpus;	/* on which it may run, a bit for each; by Linux rules alone */
};

/* Queues beside the policy's own, whose numbers are below 2^63. */
#define SCX_DSQ_GLOBAL (1ull << 63 | 1)
#define SCX_DSQ_LOCAL (1ull << 63 | 2)
#define SCX_DSQ_LOCAL_ON (3ull << 62)	/* SCX_DSQ_LOCAL_ON | cpu */

#define SCX_SLICE_DFL 20000000ull	/* 20 ms, in nanoseconds */
#define SCX_SLICE_INF (~0ull)
#define SCX_ENQ_WAKEUP 1ull		/* in flags of enqueue: the task has just woken */

/* By Linux rules alone, for which build --rules linux makes a policy. */
#define SCX_ENQ_PREEMPT (1ull << 32)	/* in flags of an insert: the task that runs there loses its slice */
#define SCX_ENQ_HEAD (1ull << 48)	/* in flags of an insert: at the front */
#define SCX_KICK_IDLE 1ull		/* in flags of a kick: only if the CPU is idle */
#define SCX_KICK_PREEMPT 2ull		/* in flags of a kick: the task that runs there loses its slice */

/* The helpers, at their numbers. */
static void *(*const map_lookup_elem)(u64 map, const void *key) = (void *)1;
static u64 (*const ktime_get_ns)(void) = (void *)5;
static s64 (*const create_dsq)(u64 queue) = (void *)1001;
static s64 (*const dsq_insert)(struct task *task, u64 queue, u64 slice, u64 flags) = (void *)1002;
static s64 (*const dsq_insert_vtime)(struct task *task, u64 queue, u64 slice, u64 vtime, u64 flags) = (void *)1003;
static s64 (*const dsq_move_to_local)(u64 queue) = (void *)1004;
static u64 (*const select_cpu_dfl)(struct task *task) = (void *)1005;
static s64 (*const cpu_idle)(u64 cpu) = (void *)1006;
static struct task *(*const task_by_pid)(u64 pid) = (void *)1007;
static s64 (*const dsq_nr_queued)(u64 queue) = (void *)1008;
/* By Linux rules alone. */
static s64 (*const map_update_elem)(u64 map, const void *key, const void *value, u64 flags) = (void *)2;
static s64 (*const map_delete_elem)(u64 map, const void *key) = (void *)3;
static u64 (*const get_prandom_u32)(void) = (void *)7;
static u64 (*const get_smp_processor_id)(void) = (void *)8;
static s64 (*const map_push_elem)(u64 map, const void *value, u64 flags) = (void *)87;
static s64 (*const map_pop_elem)(u64 map, void *room) = (void *)88;
static s64 (*const map_peek_elem)(u64 map, void *room) = (void *)89;
static void *(*const map_lookup_percpu_elem)(u64 map, const u32 *key, u64 cpu) = (void *)195;
static s64 (*const kick_cpu)(u64 cpu, u64 flags) = (void *)1009;
static s64 (*const exit_policy)(s64 code, u64 message) = (void *)1010;
static struct task *(*const cpu_curr)(u64 cpu) = (void *)1011;
static struct task *(*const dsq_peek)(u64 queue) = (void *)1012;
static u64 (*const task_running)(struct task *task) = (void *)1013;
static u64 (*const task_cpu)(struct task *task) = (void *)1014;
static s64 (*const pick_idle)(u64 mask, u64 flags) = (void *)1015;
static s64 (*const claim_idle)(u64 cpu) = (void *)1016;
static s64 (*const timer_start)(u64 timer, u64 ns) = (void *)1017;
static s64 (*const timer_cancel)(u64 timer) = (void *)1018;
static s64 (*const may_run)(struct task *task, u64 cpu) = (void *)1019;

/* Map NUMBER of the policy, counted from 0, with this number of values of that type. */
#define DEFINE_MAP(number, entries, type) MAP_OF_KIND(number, entries, type, 0, 0)

/* By Linux rules: such a map of another kind. A key of a hash has 4 or 8 bytes. */
#define DEFINE_HASH(number, entries, key, type) MAP_OF_KIND(number, entries, type, 1, sizeof(key))
#define DEFINE_QUEUE(number, entries, type) MAP_OF_KIND(number, entries, type, 2, 0)
#define DEFINE_STACK(number, entries, type) MAP_OF_KIND(number, entries, type, 3, 0)
#define DEFINE_PERCPU(number, entries, type) MAP_OF_KIND(number, entries, type, 4, 0)

#define MAP_OF_KIND(number, entries, type, kind, key_size) \
	SEC("maps") static const u32 map_##number[5] = { number, entries, sizeof(type), kind, key_size }

/* The milliseconds that a task may wait; 30000 if nothing is said. */
#define DEFINE_TIMEOUT(ms) \
	SEC("timeout_ms") static const u32 policy_timeout = ms

/* By Linux rules: the number of the policy's timers, which are counted from 0. */
#define DEFINE_TIMERS(count) \
	SEC("timers") static const u32 policy_timers = count

/* By Linux rules: the host knows which CPUs are idle though there is update_idle. */
#define DEFINE_KEEP_IDLE() \
	SEC("keep_idle") static const u32 policy_keep_idle = 1

/*
 * A reference to a map. The instruction is written in bytes, so no loader has to put the number in,
 * and no clang has to know its name.
 */
#define MAP(number) \
	({ \
		register u64 map_ asm("r1"); \
		asm volatile(".byte 0x18, 0x51, 0, 0; .long %1; .quad 0" : "=r"(map_) : "i"(number)); \
		map_; \
	})

/* The pointer that a helper answers, or 0. The empty asm keeps clang from testing a copy for 0. */
#define ELEMENT(answer) \
	({ \
		void *element_ = (answer); \
		asm volatile("" : "+r"(element_)); \
		element_; \
	})

/* A pointer to the element of a map at an index, or 0. */
#define LOOKUP(number, index) \
	({ \
		u32 key_ = (index); \
		ELEMENT(map_lookup_elem(MAP(number), &key_)); \
	})

/* A pointer to the element of a hash with a key, whose address is given, or 0. */
#define LOOKUP_KEY(number, key) ELEMENT(map_lookup_elem(MAP(number), key))

/* A pointer to the element at an index in the copy of a CPU, or 0. */
#define LOOKUP_CPU(number, index, cpu) \
	({ \
		u32 key_ = (index); \
		ELEMENT(map_lookup_percpu_elem(MAP(number), &key_, cpu)); \
	})

/* A number of which clang knows nothing, so that a mask or a test of it is done, in 64 bits, on the register that is used. */
#define INDEX(number) \
	({ \
		u64 index_ = (number); \
		asm volatile("" : "+r"(index_)); \
		index_; \
	})

#endif

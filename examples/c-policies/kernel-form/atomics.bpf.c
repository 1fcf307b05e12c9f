/*
 * Atomic functions: the policy fails in init where one answers or leaves something else than in C.
 * Runs as fifo.toml.
 */
#include <scx/common.bpf.h>

char _license[] SEC("license") = "GPL";

#define LINE 0
#define ANY __ATOMIC_RELAXED

static u64 number = 12;

/* How many of them are wrong. */
static u32 faults(void)
{
	u64 expected = 9;
	u32 wrong = 0;

	wrong += __sync_fetch_and_add(&number, 3) != 12;	/* 15 */
	wrong += __sync_sub_and_fetch(&number, 5) != 10;
	wrong += __sync_val_compare_and_swap(&number, 10, 6) != 10;	/* 6 */
	wrong += __sync_bool_compare_and_swap(&number, 10, 7);
	wrong += __sync_lock_test_and_set(&number, 8) != 6;	/* 8 */
	wrong += __atomic_fetch_or(&number, 5, ANY) != 8;	/* 13 */
	wrong += __atomic_fetch_and(&number, 6, ANY) != 13;	/* 4 */
	wrong += __atomic_fetch_xor(&number, 7, ANY) != 4;	/* 3 */
	wrong += __atomic_add_fetch(&number, 2, ANY) != 5;
	wrong += __atomic_exchange_n(&number, 1, ANY) != 5;	/* 1 */
	wrong += __atomic_compare_exchange_n(&number, &expected, 2, 0, ANY, ANY) || expected != 1;
	wrong += !__atomic_compare_exchange_n(&number, &expected, 2, 0, ANY, ANY);	/* 2 */
	__atomic_store_n(&number, __atomic_load_n(&number, ANY) + 1, ANY);	/* 3 */
	return wrong + (number != 3);
}

void BPF_STRUCT_OPS(atomics_enqueue, struct task_struct *p, u64 enq_flags)
{
	scx_bpf_dsq_insert(p, LINE, SCX_SLICE_DFL, enq_flags);
}

void BPF_STRUCT_OPS(atomics_dispatch, s32 cpu, struct task_struct *prev)
{
	scx_bpf_dsq_move_to_local(LINE);
}

s32 BPF_STRUCT_OPS_SLEEPABLE(atomics_init)
{
	return faults() ? -EINVAL : scx_bpf_create_dsq(LINE, -1);
}

SCX_OPS_DEFINE(atomics_ops,
	       .enqueue = (void *)atomics_enqueue,
	       .dispatch = (void *)atomics_dispatch,
	       .init = (void *)atomics_init,
	       .name = "atomics");

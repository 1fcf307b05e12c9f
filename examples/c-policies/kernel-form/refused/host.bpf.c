/* What only the verifier refuses: a pointer that may be 0. The file is written, so that explain can show it. */
#include <scx/common.bpf.h>

struct {
	__uint(type, BPF_MAP_TYPE_ARRAY);
	__uint(max_entries, 4);
	__type(key, u32);
	__type(value, u64);
} counts SEC(".maps");

void BPF_STRUCT_OPS(host_running, struct task_struct *p)
{
	u32 key = 3;
	u64 *count = bpf_map_lookup_elem(&counts, &key);

	*count += 1;	/* refused: running refused 10 NullNotTested */ /* reason: r0 may be 0 here: it comes from call 1 at 6 */
}

SCX_OPS_DEFINE(host_ops, .running = (void *)host_running, .name = "host");

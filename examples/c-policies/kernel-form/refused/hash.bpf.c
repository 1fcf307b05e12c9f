/* A hash map that forgets by itself, and by plain rules the removal of an element. */
#include <scx/common.bpf.h>

char _license[] SEC("license") = "GPL";

struct {
	__uint(type, BPF_MAP_TYPE_LRU_HASH);
	__uint(max_entries, 64);
	__type(key, u32);
	__type(value, u64);
} seen SEC(".maps");	/* refused: seen: a map of type LRU_HASH isn't here: a hash, by Linux rules */

void BPF_STRUCT_OPS(hash_stopping, struct task_struct *p, bool runnable)
{
	u32 key = p->pid;

	if (!runnable)
		bpf_map_delete_elem(&seen, &key);	/* refused by plain rules: stopping: bpf_map_delete_elem isn't here: by plain rules write zeros */
}

SCX_OPS_DEFINE(hash_ops, .stopping = (void *)hash_stopping, .name = "hash");

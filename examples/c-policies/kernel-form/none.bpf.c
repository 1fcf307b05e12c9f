/* No callbacks: tasks wait in the queue of all CPUs, in order of arrival, for 1 ms at most. */
#include <scx/common.bpf.h>

char _license[] SEC("license") = "GPL";

SCX_OPS_DEFINE(none_ops,
	       .timeout_ms = 1,
	       .name = "none");

/* What a kernel has for other things than schedulers. */
#include <scx/common.bpf.h>

SEC("struct_ops/ssthresh") u32 BPF_PROG(other_ssthresh, struct sock *sk)
{
	scx_bpf_kick_cpu(0, 0);
	return 2;
}

SEC(".struct_ops") struct tcp_congestion_ops congestion = {	/* refused: congestion is no policy of sched_ext, but a tcp_congestion_ops */
	.ssthresh = (void *)other_ssthresh,
	.name = "other",
};

/* A flag that wants a callback. */
#include <scx/common.bpf.h>

SCX_OPS_DEFINE(last_ops, .flags = SCX_OPS_ENQ_LAST, .name = "enq_last");	/* refused: flags: SCX_OPS_ENQ_LAST wants enqueue */ /* warned: SCX_OPS_ENQ_LAST means nothing here */

/* Memory that a policy and user space share. */
#include <scx/common.bpf.h>
#include <scx/bpf_arena_common.bpf.h>	/* refused everywhere: arenas aren't here: keep it in an array map */

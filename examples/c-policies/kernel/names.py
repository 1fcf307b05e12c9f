"""What of the kernel's names is here, what is left out, and what to write for what isn't here."""
import difflib
import os
import re
from functools import lru_cache

FOLDER = os.path.dirname(os.path.dirname(os.path.realpath(__file__)))

CALLBACKS = {"init": 0, "enable": 1, "select_cpu": 3, "enqueue": 2, "dispatch": 2, "running": 1, "stopping": 2,
             "tick": 1, "dequeue": 2, "runnable": 2, "quiescent": 2, "update_idle": 2, "set_weight": 2, "timer": 1}
# Callbacks that plain rules don't have.
OF_LINUX = ("tick", "dequeue", "runnable", "quiescent", "update_idle", "set_weight", "timer")
KICK, WITHOUT_KICKS = 1009, ("init", "enable")	# nothing runs yet in these callbacks
TIMERS = 16	# the most of a policy

# Callbacks that no run here would call, and why.
LEFT_OUT = {
    "exit": "the trace says why a policy ended",
    "dump": "the trace says what the policy did",
    "dump_cpu": "the trace says what the policy did",
    "dump_task": "the trace says what the policy did",
    "exit_task": "tasks stay to the end of the workload",
    "disable": "tasks stay to the end of the workload",
    "set_cpumask": "each task may run on all CPUs",
    "cgroup_exit": "groups stay to the end of the workload",
    "cgroup_prep_move": "a task stays in its group",
    "cgroup_move": "a task stays in its group",
    "cgroup_cancel_move": "a task stays in its group",
    "cpu_acquire": "no other scheduler takes a CPU",
    "cpu_release": "no other scheduler takes a CPU",
    "cpu_online": "CPUs stay",
    "cpu_offline": "CPUs stay",
    "yield": "tasks here don't yield",
    "core_sched_before": "CPUs here have no siblings",
    "cgroup_set_bandwidth": "the host keeps to cpu_max by itself",
    "cgroup_set_idle": "groups here are never idle ones",
}

# The arguments of callbacks that are left out, by which they are verified: a task, a task that may be NULL, a number,
# or a struct. Callbacks with a cgroup aren't in it: the host has no such object.
ARGUMENTS = {
    "exit": ["struct"],
    "dump": ["struct"],
    "dump_cpu": ["struct", "number", "number"],
    "dump_task": ["struct", "task"],
    "exit_task": ["task", "struct"],
    "disable": ["task"],
    "set_cpumask": ["task", "number"],
    "cpu_acquire": ["number", "struct"],
    "cpu_release": ["number", "struct"],
    "cpu_online": ["number"],
    "cpu_offline": ["number"],
    "yield": ["task", "task or NULL"],
    "core_sched_before": ["task", "task"],
}

# Of these, in a kernel, some may make queues.
SLEEPING = ("exit", "cpu_online", "cpu_offline")

# What to write instead of a callback that isn't here.
NO_CALLBACK = {
    "dequeue": "by plain rules the host takes a task that sleeps from its queue; Linux rules have it",
    "tick": "by plain rules give shorter slices; Linux rules have it",
    "runnable": "by plain rules do it in enqueue, whose flags are 1 after a wake; Linux rules have it",
    "quiescent": "by plain rules do it in stopping, where runnable is 0; Linux rules have it",
    "set_weight": "by plain rules read p->scx.weight where it is used; Linux rules have it",
    "update_idle": "by plain rules ask in select_cpu or enqueue, by scx_bpf_select_cpu_dfl; Linux rules have it",
    "cgroup_init": "an array map by p->group, the number of the task's group in the workload",
    "cgroup_set_weight": "read p->scx.weight where it is used: it follows the weights of the groups",
}

# Flags of a policy, by their bits.
FLAGS = ["SCX_OPS_KEEP_BUILTIN_IDLE", "SCX_OPS_ENQ_LAST", "SCX_OPS_ENQ_EXITING", "SCX_OPS_SWITCH_PARTIAL",
         "SCX_OPS_ENQ_MIGRATION_DISABLED", "SCX_OPS_ALLOW_QUEUED_WAKEUP", "SCX_OPS_BUILTIN_IDLE_PER_NODE"]
FLAGS += [f"flag {bit}" for bit in range(7, 16)] + ["SCX_OPS_HAS_CGROUP_WEIGHT"]
FLAGS_OF_NO_MEANING = {
    "SCX_OPS_KEEP_BUILTIN_IDLE": "the host always knows which CPUs are idle",
    "SCX_OPS_ENQ_LAST": "a task that no other one replaces goes on by itself, and enqueue isn't called for it",
    "SCX_OPS_ENQ_EXITING": "tasks stay to the end of the workload",
    "SCX_OPS_SWITCH_PARTIAL": "all tasks of a workload are under the policy",
    "SCX_OPS_ENQ_MIGRATION_DISABLED": "each task may run on all CPUs",
    "SCX_OPS_ALLOW_QUEUED_WAKEUP": "a wake is one step",
    "SCX_OPS_BUILTIN_IDLE_PER_NODE": "all CPUs are alike",
    "SCX_OPS_HAS_CGROUP_WEIGHT": "p->scx.weight follows the weights of the groups",
}

# By Linux rules, in place of what tables say of the same names.
BY_LINUX = {
    "cgroup_set_weight": "weights of groups reach no policy; p->scx.weight is that of the task",
    "SCX_OPS_HAS_CGROUP_WEIGHT": "weights of groups reach no policy",
    "prio": "p->scx.weight is the weight of the task",
    "static_prio": "p->scx.weight is the weight of the task",
}


def said(table, name, rules):
    """What a table says of a name by these rules, or None."""
    return BY_LINUX.get(name, table.get(name)) if rules == "linux" else table.get(name)


# The kernel's functions that stay calls, with the host's number.
HELPERS = {"scx_bpf_error": 1008, "scx_bpf_exit": 1010}

NOTES = {
    1: "an atomic function is a load, arithmetic and a store, since no other callback runs beside this one",
    2: "bpf_spin_lock is nothing, since no other callback runs beside this one",
    3: "scx_bpf_kick_cpu is nothing, since an idle CPU looks for a task each millisecond",
    4: "scx_bpf_test_and_clear_cpu_idle asks and claims nothing: the CPU is idle for the next who asks, too",
    5: "task storage is an array by pid: it is there for each task from the start, as zeros",
    7: "printk and dump are left out: scxsim run writes what the policy does",
    8: "the mask of a task has all CPUs, and an idle one isn't claimed: it is idle for the next who asks, too",
    9: "bpf_get_prandom_u32 counts in a variable, so each run has the same numbers",
    10: "a loop whose bounds aren't constant has at most {rounds} rounds, past which the policy is ejected; --loops N says another number",
    11: "a map that is a queue or a stack is a ring in an array map",
    12: "scx_bpf_dispatch_nr_slots is 32: dispatch inserts at once, as many tasks as it likes",
    13: "by plain rules scx_bpf_exit ends the policy as scx_bpf_error does, by a fault; Linux rules keep its code",
    15: "scx_bpf_dsq_nr_queued of a CPU's own queue is 0: the host counts queues of the policy alone",
    16: "SCX_KICK_WAIT is nothing: what is kicked looks as the event ends, which takes no time",
    17: "tasks have no names here: p->comm is compared as an empty text",
}
NOTE_ERROR = 6
ROUNDS = 8	# of a loop whose bounds aren't constant

NOT_HERE = [
    ("bpf_map_delete_elem", "by plain rules write zeros into the element; Linux rules have it"),
    ("bpf_map_lookup_percpu_elem", "by plain rules use a map of type ARRAY, with an index for each CPU; Linux rules have it"),
    ("bpf_task_storage_delete", "write zeros into the element"),
    ("bpf_cgrp_storage_get", "an array map by p->group, the number of the task's group in the workload"),
    ("bpf_timer_.*", "by plain rules do it in a callback, by scx_bpf_now(); Linux rules have timers"),
    ("bpf_loop", "bpf_for or bpf_repeat"),
    ("bpf_for_each|bpf_iter_scx_dsq_.*", "queues can't be looked through; use queues of their own, or one by virtual time"),
    ("bpf_get_current_task.*", "the task that the callback is given"),
    ("bpf_kptr_xchg", "keep pids, and ask bpf_task_from_pid"),
    ("bpf_task_acquire", "keep pids, and ask bpf_task_from_pid"),
    ("bpf_obj_(new|drop).*|bpf_(rbtree|list|refcount)_.*", "a queue by virtual time keeps the order"),
    ("scx_bpf_task_cgroup|bpf_cgroup_.*", "p->group, the number of the task's group in the workload"),
    ("scx_bpf_destroy_dsq", "queues stay"),
    ("scx_bpf_dispatch_cancel", "dispatch inserts at once, as many tasks as it likes"),
    ("scx_bpf_dsq_move.*|scx_bpf_dispatch(_vtime)?_from_dsq.*", "use scx_bpf_dsq_move_to_local, or hold tasks in enqueue and insert them in dispatch"),
    ("scx_bpf_dsq_peek", "by plain rules ask scx_bpf_dsq_nr_queued; Linux rules have it"),
    ("scx_bpf_pick_.*|bpf_cpumask_(test_cpu|first|empty|weight)", "say how many there are, as build --set cpus=4"),
    ("bpf_cpumask.*", "masks can be read alone; by plain rules each task may run on all CPUs"),
    ("scx_bpf_task_running", "by plain rules keep it in a variable, which running and stopping write; Linux rules have it"),
    ("scx_bpf_cpu_curr", "by plain rules keep the pid in an array, which running and stopping write; Linux rules have it"),
    ("scx_bpf_cpu_rq", "the current task is scx_bpf_cpu_curr by Linux rules; else keep the pid in an array, which running writes"),
    ("scx_bpf_cpuperf_.*", "CPUs are all as fast"),
    ("scx_bpf_kick_cpu_with_flags", "by plain rules nothing stops a task before its slice ends: take --rules linux, or give shorter slices"),
    ("scx_bpf_nr_cpu_ids", "say how many there are, as build --set cpus=4"),
    ("scx_bpf_reenqueue_local", "tasks stay in the queue of a CPU"),
    ("bpf_strncmp", "tasks have no names here; p->pid is the number in the workload"),
    ("PF_IDLE", "an idle CPU has no task here, and scx_bpf_cpu_curr is NULL for it"),
    ("SCX_ENQ_(HEAD|PREEMPT)", "by plain rules inserts go to the end of a queue, and nothing stops a task before its slice ends; take --rules linux"),
]


@lru_cache(None)
def in_file(path):
    """The names in a file."""
    with open(path, errors="replace") as file:
        return sorted(set(re.findall(r"\b[A-Za-z_]\w{3,}\b", file.read())))


def of_header(header):
    """The names in a header of this project."""
    paths = [os.path.join(folder, header) for folder in (FOLDER, os.path.join(FOLDER, "include"))]
    return next((in_file(path) for path in paths if os.path.exists(path)), [])


def is_slip(name, other):
    """True if one letter is missing, added or another, or two letters have changed places."""
    start = len(os.path.commonprefix([name, other]))
    end = len(os.path.commonprefix([name[start:][::-1], other[start:][::-1]]))
    left, right = name[start:len(name) - end], other[start:len(other) - end]
    return left != right and (len(left) < 2 > len(right) or len(left) == 2 and left == right[::-1])


def likely(name, known, otherwise="the host has nothing like it"):
    """What may be meant by a name that isn't known."""
    close = difflib.get_close_matches(name, known, 1, 0.8)
    return f"did you mean {close[0]}?" if close else otherwise


def advice_for(name, more=()):
    """What to write in place of a name of the kernel that isn't here; it may be a slip for a name of the source, too."""
    known = [one for one in [*of_header("scx/common.bpf.h"), *more] if one != name]
    here = [one for one in known if not any(re.fullmatch(form, one) for form, _ in NOT_HERE)]
    slips = [one for one in known if is_slip(name, one)]
    advice = next((advice for form, advice in NOT_HERE if re.fullmatch(form, name)), None)
    return advice if advice and not slips else likely(name, slips or here)


SHOWN = {"scx_bpf_kick_cpu_with_flags": "scx_bpf_kick_cpu with these flags"}

# Fields of a task, at the host's offsets. Notes are of plain rules.
FIELDS = {"pid": 0, "scx.weight": 4, "scx.slice": 8, "scx.dsq_vtime": 16, "thread_info.cpu": 24, "group": 28, "se.sum_exec_runtime": 32}
FIRST_FIELD = 16384
MEMBERS = ["pid", "scx", "weight", "slice", "dsq_vtime", "se", "sum_exec_runtime", "group", "flags"]
FIELDS_BY_LINUX = {"cpus_ptr": 40}
CONSTANTS = {
    "flags": (0, "a workload has no kernel threads, and its tasks stay to the end"),
    "migration_disabled": (0, "tasks may always leave their CPU"),
    "cpus_ptr": (1, "each task may run on all CPUs"),
}


def offset_of(field, rules):
    """Where the host has a field of a task, or None."""
    return FIELDS_BY_LINUX.get(field, FIELDS.get(field)) if rules == "linux" else FIELDS.get(field)


def constant(field, rules):
    """The number in the place of a field that the host hasn't, and why, or None."""
    return CONSTANTS.get(field) if offset_of(field, rules) is None else None


FIELD_NOTES = {
    "scx.weight": "the task's part of the CPU time, 10000 for all of it; in a kernel 100 is that of any task",
}
NO_FIELD = {
    "nr_cpus_allowed": "say how many there are, as build --set cpus=4",
    "comm": "tasks have no names here; p->pid is the number in the workload",
    "tgid": "each task is a process of its own; p->pid is its number in the workload",
    "real_parent": "tasks have no parents",
    "parent": "tasks have no parents",
    "mm": "tasks have no memory",
    "policy": "all tasks are under the policy",
    "prio": "weights are those of groups: p->scx.weight",
    "static_prio": "weights are those of groups: p->scx.weight",
    "scx.disallow": "all tasks are under the policy",
}

MAP_KINDS = {1: "HASH", 2: "ARRAY", 5: "PERCPU_HASH", 6: "PERCPU_ARRAY", 9: "LRU_HASH", 12: "ARRAY_OF_MAPS", 13: "HASH_OF_MAPS",
             22: "QUEUE", 23: "STACK", 27: "RINGBUF", 29: "TASK_STORAGE", 31: "USER_RINGBUF", 32: "CGRP_STORAGE", 33: "ARENA"}
NO_MAP = {
    "HASH": "an array map by pid, or by another number that is small; Linux rules have hashes",
    "PERCPU_HASH": "a hash, by Linux rules; else an array map by pid, or by another number that is small",
    "LRU_HASH": "a hash, by Linux rules; else an array map by pid, or by another number that is small",
    "RINGBUF": "leave it out; nothing in user space reads it",
    "USER_RINGBUF": "leave it out; nothing in user space writes it",
    "CGRP_STORAGE": "an array map by p->group",
    "ARENA": "an array map",
}
TASKS = 1024	# the most of a workload

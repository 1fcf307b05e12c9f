"""The host: callbacks with their arguments, fields of a task, built-in queues, and numbers to try."""
CALLBACKS = ["init", "enable", "select_cpu", "enqueue", "dispatch", "running", "stopping"]
LINUX_CALLBACKS = ["tick", "dequeue", "runnable", "quiescent", "update_idle", "set_weight", "timer"]
# in which a CPU may be kicked
RUNNING_CALLBACKS = CALLBACKS[2:] + [each for each in LINUX_CALLBACKS if each != "set_weight"]
GLOBAL, LOCAL, LOCAL_ON = 2**63 + 1, 2**63 + 2, 2**63 + 2**62

NUMBER, TASK, MAYBE = "number", "task", "task or null"
GIVEN = {"plain": {}, "init": {}, "enable": {1: TASK}, "running": {1: TASK},
         "select_cpu": {1: TASK, 2: NUMBER, 3: NUMBER},
         "enqueue": {1: TASK, 2: NUMBER}, "stopping": {1: TASK, 2: NUMBER}, "dispatch": {1: NUMBER, 2: MAYBE},
         "tick": {1: TASK}, "dequeue": {1: TASK, 2: NUMBER}, "runnable": {1: TASK, 2: NUMBER},
         "quiescent": {1: TASK, 2: NUMBER}, "update_idle": {1: NUMBER, 2: NUMBER}, "set_weight": {1: TASK, 2: NUMBER},
         "timer": {1: NUMBER}}
ANSWERING = ["plain", "init", "select_cpu"]
WITH_TASK = ["enable", "select_cpu", "enqueue", "running", "stopping", "tick", "dequeue", "runnable", "quiescent",
             "set_weight"]
INSERTING = ["select_cpu", "enqueue", "dispatch"]
FIELDS = [(0, 32), (4, 32), (8, 64), (16, 64), (24, 32), (28, 32), (32, 64)]
PID, WEIGHT, SLICE, VTIME, PREVIOUS, GROUP, RUN = FIELDS
IMMEDIATES = [0, 1, -1, 2, 3, 7, 8, 63, 64, 100, 255, 4096, 65535, 10**6, 2 * 10**7, 2**31 - 1, -(2**31)]
NUMBERS = IMMEDIATES + [2**31, 2**32 - 1, 2**32, 2**63, 2**64 - 1, 2**63 - 1, -(2**63), 10**9]

"""Workloads that can be run. A caller may set SHAPES, QUOTAS, and LINUX with LINUX_NOISE."""


class Plan:
    """What a policy knows of its workload."""

    def __init__(self, values):
        self.processors, self.ms, self.tasks = values["cpus"], values["ms"], values["task"]


SHAPES = [  # weight; the most processors, tasks, groups and milliseconds
    (28, (2, 6, 3, 60)), (28, (8, 24, 6, 200)), (14, (16, 80, 20, 400)), (6, (64, 300, 60, 400)),
    (3, (64, 1024, 256, 300)),
    (6, (2, 5, 3, 10000)), (5, (64, 40, 5, 500)), (3, (4, 30, 8, 3000)), (4, (1, 1, 1, 20)),
]


QUOTAS = False  # whether groups have quotas
LINUX = False  # whether policies go by Linux rules, and tasks have weights and may be bound to CPUs
LINUX_NOISE = []  # what their programs do besides, as NOISE has it


def some_quota(random):
    """Mostly a few milliseconds of a short period; at times more than a processor gives, a word, or no period."""
    period = random.choice([1, 2, 3, 5, 10, 20, 50, 100, 1000, random.randrange(1, 1001)])
    quota = random.choice([1, 1, 2, period, 2 * period, 1000000, random.randrange(1, period + 1)])
    text = random.choice(["max", f"{quota}000", f"{quota}000", f"00{quota}000"])
    return text if random.random() < 0.1 else f"{text} {period}000"


def some_groups(random, most):
    """Groups in at most three levels."""
    groups, level = [], {}
    for number in range(random.randrange(1, most + 1)):
        group = {"name": f"{random.choice(['g', 'web', 'batch', 'x_'])}{number}"}
        if random.random() < 0.6:
            group["weight"] = random.choice([1, 10, 50, 100, 200, 300, 10000, random.randrange(1, 10001)])
        above = [each["name"] for each in groups if level[each["name"]] < 3]
        if above and random.random() < 0.4:
            group["parent"] = random.choice(above)
        if QUOTAS and random.random() < 0.5:
            group["cpu_max"] = some_quota(random)
        level[group["name"]] = 1 + level.get(group.get("parent"), 0)
        groups.append(group)
    return groups


def leaves_of(groups):
    parents = {group.get("parent") for group in groups}
    return [group["name"] for group in groups if group["name"] not in parents]


def some_cpus(random, processors):
    """A list of CPUs: mostly some of those that are there, at times all of them, or one twice."""
    parts = []
    for _ in range(random.choice([1, 1, 1, 2, 3])):
        first = random.randrange(processors)
        last = random.randrange(first, processors)
        parts.append(random.choice([f"{first}", f"{first:02}", f"{first}-{last}", f"{first}-{last}"]))
    return ",".join(parts)


def some_tasks(random, count, leaves, ms):
    manner, tasks = random.choice(["busy", "sleepy", "mixed", "late"]), []
    for number in range(count):
        task = {"name": f"{random.choice(['t', 'task', 'job_'])}{number}", "group": random.choice(leaves)}
        if manner == "late" or random.random() < 0.2:
            task["start"] = random.choice([0, 1, random.randrange(ms + 2), random.randrange(ms // 2 + 1)])
        if manner == "sleepy" or manner == "mixed" and random.random() < 0.5:
            task["run"] = random.choice([1, 2, 3, 5, 20, random.randrange(1, 30)])
            task["sleep"] = random.choice([0, 1, 2, 5, 10, random.randrange(50)])
        if LINUX and random.random() < 0.5:
            task["weight"] = random.choice([1, 50, 100, 300, 10000, random.randrange(1, 10001)])
        tasks.append(task)
    return tasks


def bind(random, values):
    """Binds some of the tasks, and gives the workload a seed."""
    if random.random() < 0.5:
        share = random.choice([0.1, 0.5, 1])
        for task in values["task"]:
            if random.random() < share:
                task["cpus"] = some_cpus(random, values["cpus"])
    if random.random() < 0.5:
        values["seed"] = random.choice([0, 1, 2**32, 2**63 - 1, random.randrange(2**63)])


def some_changes(random, groups, ms):
    count = random.choice([0, 0, 1, 3, 10, 10, 40])
    if random.random() < 0.01:
        count = 1024
    return [{"at": random.choice([0, random.randrange(ms + 2), random.randrange(ms + 2)]),
             "group": random.choice(groups)["name"],
             "weight": random.choice([1, 100, 10000, random.randrange(1, 10001)])} for _ in range(count)]


def some_workload(random, shape=None):
    shape = shape or random.choices([each for _, each in SHAPES], [weight for weight, _ in SHAPES])[0]
    processors, tasks, groups, ms = shape
    ms = random.randrange(max(1, ms // 4), ms + 1)
    values = {"cpus": random.choice([processors, random.randrange(1, processors + 1)]), "ms": ms}
    values["group"] = some_groups(random, groups)
    count = random.choice([tasks, random.randrange(1, tasks + 1), random.randrange(1, tasks + 1)])
    values["task"] = some_tasks(random, count, leaves_of(values["group"]), ms)
    if LINUX:
        bind(random, values)
    values["change"] = some_changes(random, values["group"], ms)
    for change in values["change"]:
        if LINUX and random.random() < 0.5:
            del change["group"]
            change["task"] = random.choice(values["task"])["name"]
    if not values["change"] and random.random() < 0.9:
        del values["change"]
    return values

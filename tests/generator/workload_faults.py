"""Faults of workload files. Each function changes the values of a workload."""
from .file_faults import BAD_NAMES, NO_INTEGERS, NO_TEXTS, some_of


def in_workload(random, values, key):
    return some_of(random, values, key, {"at": 0, "group": "g0", "weight": 1})


def unknown_in_workload(random, values):
    for _ in range(random.choice([1, 1, 2])):
        where = random.choice(["", "group", "task", "change"])
        if where:
            name = random.choice(["x", "cpu", "weigth", "Name", "prio"])
            in_workload(random, values, where)[name] = random.choice([1, "x", {}])
        else:
            values[random.choice(["cpu", "groups", "name", "tick"])] = random.choice([1, "x", []])


def missing_in_workload(random, values):
    where = random.randrange(6)
    if where == 0:
        values.pop(random.choice(["cpus", "ms", "group", "task"]), None)
    elif where == 1:
        values[random.choice(["group", "task"])] = []
    elif where == 2:
        in_workload(random, values, "group").pop("name", None)
    elif where == 3:
        in_workload(random, values, "task").pop(random.choice(["name", "group"]), None)
    else:
        in_workload(random, values, "change").pop(random.choice(["at", "group", "weight"]), None)


def wrong_type_in_workload(random, values):
    where = random.randrange(6)
    if where == 0:
        values[random.choice(["cpus", "ms"])] = random.choice(NO_INTEGERS)
    elif where == 1:
        wrong = [3, "x", True, {"name": "g"}, [1], [[]], [{"name": "g0"}, 2]]
        values[random.choice(["group", "task", "change"])] = random.choice(wrong)
    elif where == 2:
        in_workload(random, values, "group")[random.choice(["name", "parent"])] = random.choice(NO_TEXTS)
    elif where == 3:
        in_workload(random, values, "group")["weight"] = random.choice(NO_INTEGERS)
    elif where == 4:
        key, wrong = random.choice([("name", NO_TEXTS), ("group", NO_TEXTS), ("start", NO_INTEGERS),
                                    ("run", NO_INTEGERS), ("sleep", NO_INTEGERS)])
        in_workload(random, values, "task")[key] = random.choice(wrong)
    else:
        key, wrong = random.choice([("at", NO_INTEGERS), ("group", NO_TEXTS), ("weight", NO_INTEGERS)])
        in_workload(random, values, "change")[key] = random.choice(wrong)


def out_of_range_in_workload(random, values):
    where = random.randrange(5)
    if where == 0:
        values["cpus"] = random.choice([0, 65, -1, 2**32, 2**63 - 1])
    elif where == 1:
        values["ms"] = random.choice([0, 1000001, -5, 2**40])
    elif where == 2:
        in_workload(random, values, "group")["weight"] = random.choice([0, 10001, -100, 2**33])
    elif where == 3:
        name = random.choice(["start", "run", "sleep"])
        in_workload(random, values, "task")[name] = random.choice([-1, 1000001, 2**32])
    else:
        key, wrong = random.choice([("at", [-1, 1000001]), ("weight", [0, 10001, -1])])
        in_workload(random, values, "change")[key] = random.choice(wrong)


def bad_name_in_workload(random, values):
    in_workload(random, values, random.choice(["group", "task"]))["name"] = random.choice(BAD_NAMES)


def twice_in_workload(random, values):
    key = random.choice(["group", "task"])
    in_workload(random, values, key)
    values[key].append(dict(random.choice([each for each in values[key] if isinstance(each, dict)] or [{}])))


def too_many_in_workload(random, values):
    choice = random.randrange(3)
    if choice == 0:
        values["group"] = [{"name": f"g{number}"} for number in range(257)]
    elif choice == 1:
        values["task"] = [{"name": f"t{number}", "group": "g0"} for number in range(1025)]
    else:
        values["change"] = [{"at": 0, "group": "g0", "weight": 1} for _ in range(1025)]


def no_such_group(random, values):
    choice, nobody = random.randrange(5), random.choice(["nobody", "", "G", "g999"])
    if choice == 0:
        in_workload(random, values, "group")["parent"] = nobody
    elif choice == 1:
        in_workload(random, values, "task")["group"] = nobody
    elif choice == 2:
        in_workload(random, values, "change")["group"] = nobody
    elif choice == 3:
        group = in_workload(random, values, "group")
        group["parent"] = group.get("name", "g0")
    else:
        values["group"] = [{"name": "a", "parent": "b"}, {"name": "b", "parent": "a"}]


def too_deep(random, values):
    depth = random.randrange(4, 8)
    names = [f"d{number}" for number in range(depth)]
    values["group"] = [{"name": name} | ({"parent": names[at - 1]} if at else {}) for at, name in enumerate(names)]


def not_a_leaf(random, values):
    values["group"] = [{"name": "top"}, {"name": "below", "parent": "top"}]
    values["task"] = [{"name": "t0", "group": random.choice(["top", "below"])}, {"name": "t1", "group": "top"}]
    if random.random() < 0.5:
        values["group"].reverse()


WORKLOAD_FAULTS = {"unknown": unknown_in_workload, "missing": missing_in_workload,
                   "wrong type": wrong_type_in_workload,
                   "out of range": out_of_range_in_workload, "too many": too_many_in_workload,
                   "bad name": bad_name_in_workload,
                   "twice": twice_in_workload, "no such group": no_such_group, "too deep": too_deep,
                   "not a leaf": not_a_leaf}

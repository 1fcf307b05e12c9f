"""Wrong values of policy files and of workload files."""
from .texts import Raw

NO_INTEGERS = [5.0, "5", True, Raw("2026-11-24"), Raw("07:32:00"), [], [1], Raw("nan"), Raw("inf"), {"x": 1}]
NO_TEXTS = [5, 1.5, False, [], ["a"], Raw("1979-05-27T07:32:00Z"), {"x": 1}]
BAD_NAMES = ["Two", "", "1a", "abcdefghijklmnopq", "a-b", "a b", "_a", "é", "name.x", "a\nb"]


def some_of(random, values, key, element):
    """A table of an array; the array is made anew where it is none, or empty."""
    if not isinstance(values.get(key), list) or not values[key]:
        values[key] = [element]
    found = random.choice(values[key])
    return found if isinstance(found, dict) else {}

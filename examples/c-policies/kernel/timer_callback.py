"""The one callback `timer`, which goes on as the function of the timer that it is given by its number."""
from . import slots
from .callback import Callback
from .timers import FIRST_FUNCTION, FUNCTION, lookup


class OfTimers(Callback):
    """The callback `timer`: for each map the lookup of the value, and then each function that may be set."""

    def __init__(self, policy):
        super().__init__(policy, "timer", policy.timer_functions, False)
        self.value_key = self.cell()

    def all_lists(self):
        lists = []
        for shape in self.policy.timers:
            lists += self.lists_of_map(shape, len(lists))
        return [*lists, [slots.Instruction(slots.EXIT)]]

    def lists_of_map(self, shape, start):
        """The lists for timers of one map; those of others are passed over."""
        branches, at = [], start + 1
        for number, function in enumerate(self.policy.timer_functions, FIRST_FUNCTION):
            body = self.lists(self.policy.read_function(function))
            following = at + 1 + len(body)
            branches += [self.branch(shape, number, following), *slots.moved(body, at + 1)]
            at = following
        return [self.head(shape, at + 1), *branches, [slots.Instruction(slots.EXIT)]]

    def head(self, shape, following):
        past = slots.Instruction(0x35, 1, 0, 0, shape.first + shape.count, target=following)
        key = [slots.add_number(1, -shape.first), slots.Instruction(0x63, 10, 1, -self.value_key)]
        return slots.noted("by build: looks up the timer's value", [past, *key, *lookup(self.policy, shape, self.value_key), slots.move(3, 0)])

    def branch(self, shape, number, following):
        """Goes on as a function with the arguments map, key and value where the timer has it, else after that function."""
        other = slots.Instruction(0x55, 1, 0, 0, number, target=following)
        arguments = [slots.wide_number(1, self.policy.number_of_map(shape.symbol), 5), slots.move(2, 10), slots.add_number(2, -self.value_key)]
        said = f"by build: the function of the timer is {self.policy.timer_functions[number - FIRST_FUNCTION].name}, or another"
        return slots.noted(said, [slots.load(1, 3, shape.offset + FUNCTION), other, *arguments])

"""What was seen of tasks, by a kernel or by scxsim: when they woke, how long they ran, and when they slept."""

from collections.abc import Container
from dataclasses import dataclass, field


@dataclass(slots=True)
class Burst:
    """From a wake to the next sleep, in milliseconds; `slept` is None where that didn't come."""

    woke: float
    ran: float = 0
    slept: float | None = None


@dataclass
class Recording:
    """The bursts of each task, in the order in which they were seen first, and the millisecond at which it ends;
    `losses` are lines that say what of it isn't here."""

    cpus: int
    end: float
    bursts: dict[str, list[Burst]]
    losses: list[str] = field(default_factory=list)

    def ran(self, task: str) -> float:
        return sum(burst.ran for burst in self.bursts[task])

    def without(self, names: Container[str]) -> "Recording":
        """The same without some tasks."""
        kept = {name: bursts for name, bursts in self.bursts.items() if name not in names}
        return Recording(self.cpus, self.end, kept, self.losses)

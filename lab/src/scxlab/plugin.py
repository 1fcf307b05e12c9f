"""The plugin of pytest that collects files of checks: those that end with `.check.toml`, and those that are named."""

from collections.abc import Iterator
from pathlib import Path
from typing import Any

import pytest

from scxlab.checks import Check, Failed, read_checks
from scxlab.errors import LabError


def pytest_collect_file(file_path: Path, parent: pytest.Collector) -> "CheckFile | None":
    """Collects a file of checks."""
    named = parent.session.isinitpath(file_path)
    if file_path.name.endswith(".check.toml") or named and file_path.suffix == ".toml":
        file: CheckFile = CheckFile.from_parent(parent, path=file_path)
        return file
    return None


class CheckFile(pytest.File):
    """A file of checks."""

    def collect(self) -> Iterator["CheckItem"]:
        try:
            checks = read_checks(self.path)
        except LabError as error:
            raise self.CollectError(str(error)) from error
        for check in checks:
            yield CheckItem.from_parent(self, name=check.name, check=check)


class CheckItem(pytest.Item):
    """A line for one policy and one workload."""

    def __init__(self, *, check: Check, **more: Any) -> None:
        super().__init__(**more)
        self.check = check

    def runtest(self) -> None:
        self.check.run()

    def repr_failure(self, excinfo: pytest.ExceptionInfo[BaseException], style: Any = None) -> Any:
        if isinstance(excinfo.value, (Failed, LabError)):
            return str(excinfo.value)
        return super().repr_failure(excinfo)

    def reportinfo(self) -> tuple[Path, None, str]:
        return self.path, None, self.name

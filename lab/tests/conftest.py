"""Where the tests find the program and the examples: $SCXSIM, or else the committed program."""

import os
from pathlib import Path

import pytest
from hypothesis import settings
from scxlab.clusters import client_of

TOP = Path(__file__).resolve().parent.parent.parent
os.environ.setdefault("SCXSIM", str(TOP / "bin/scxsim"))

# A machine that has other work may take long for one example.
settings.register_profile("lab", deadline=None, max_examples=40)
settings.load_profile("lab")


def pytest_collection_modifyitems(items):
    """Puts tests with workers last, since workers take time even while they do nothing, and after these the test that ends
    one of them."""
    items.sort(key=lambda item: [name in item.fixturenames for name in ("two_workers", "mortal_workers")])


@pytest.fixture(scope="session")
def policies():
    return TOP / "examples/policies"


@pytest.fixture(scope="session")
def workloads():
    return TOP / "examples/workloads"


@pytest.fixture(scope="session")
def two_workers():
    with client_of(local=2) as client:
        yield client


@pytest.fixture
def mortal_workers(two_workers):
    """The two workers, one of which the test may end."""
    return two_workers

"""Where the program is, and programs that are scripts and write fixed lines."""

import os
import shutil
import subprocess
import sys
from pathlib import Path

import pandas
import pytest
from scxlab.account import account_of
from scxlab.checks import Failed, in_force
from scxlab.command import main
from scxlab.errors import LabError
from scxlab.figures import figure_of, rows_of, state_of, values_of
from scxlab.program import Program, find_program, program_of
from scxlab.runs import Run

SOURCES = Path(__file__).resolve().parent.parent / "src"
STATS = """kind,name,figure,value
task,a,run_ms,2
task,b,run_ms,0
cpu,0,busy_ms,2
group,g,share_percent,100.00
group,g,due_percent,100.00
task,a,bursts,2
task,a,mean_burst_ms,1.50
task,a,slowdown,1.50
task,b,bursts,0
cpu,0,idle_while_waiting_ms,1
policy,mine,idle_while_waiting_ms,1
"""
STALLED = "policy,mine,ended,stall a\npolicy,mine,ejected_at_ms,12\n"
IN_FORCE = "policy,,ended,in force\n"
WHY = """policy ejected at 12 ms: a had waited too long (stall)
each task ran

the last lines of the trace up to there, of a
0 wake a

b waited 2 ms, from 0 to 2
  processor 0: a ran 2 ms

a waited 12 ms, from 0 to 12
  processor 0: b ran 12 ms
"""


def program(tmp_path, stats):
    """A program that writes these lines, and keeps the words that it was called with."""
    path = tmp_path / "scxsim"
    path.write_text(f"""#!{sys.executable}
import sys
print(*sys.argv[1:2], file=open({str(tmp_path / 'calls')!r}, "a"))
sys.stdout.write({{"stats-csv": {stats!r}, "why": {WHY!r}}}[sys.argv[1]])
""")
    path.chmod(0o755)
    return Program(str(path))


def calls(tmp_path):
    return (tmp_path / "calls").read_text().split()


def test_one_call_says_all(tmp_path):
    one = Run(program(tmp_path, STATS + STALLED), "p", "w")
    assert one.state == "ejected stall a at 12"
    assert one.tasks.slowdown["a"] == 1.5 and pandas.isna(one.tasks.slowdown["b"])
    assert values_of(one.stats)["idle_while_waiting_ms", "policy"] == 1
    assert calls(tmp_path) == ["stats-csv"]


def test_what_is_of_the_policy_has_one_name():
    assert ("policy", "policy", "ejected_at_ms", 12.0) in rows_of(STATS + STALLED)
    assert state_of(STATS + IN_FORCE) == "in force"


def test_an_account_is_of_the_run_and_of_the_figure(tmp_path):
    one = Run(program(tmp_path, STATS + STALLED), "p", "w")
    begin = ["policy ejected at 12 ms: a had waited too long (stall)", "each task ran"]
    of_a = ["a waited 12 ms, from 0 to 12", "  processor 0: b ran 12 ms"]
    assert account_of(one) == begin
    assert account_of(one, figure_of("longest_wait_ms(a)")) == begin + of_a
    assert account_of(one, figure_of("busy_ms(0)")) == begin
    with pytest.raises(Failed, match="^the policy was ejected stall a at 12 ms\npolicy ejected at 12 ms: a had waited"):
        in_force(one)


def test_the_state_is_that_of_the_report(policies, workloads):
    for policy, workload in [("short_slices", "sleeper"), ("central", "sleeper")]:
        one = Run(find_program(os.environ["SCXSIM"]), policies / f"{policy}.toml", workloads / f"{workload}.toml")
        assert one.program.call("report", one.policy, one.workload).splitlines()[-1] == f"policy {one.state}"


@pytest.fixture
def installed(tmp_path, monkeypatch):
    """A copy of the package outside of a repository, and a folder on PATH; answers how that copy finds the program."""
    shutil.copytree(SOURCES / "scxlab", tmp_path / "packages/scxlab")
    (tmp_path / "bin").mkdir()
    monkeypatch.delenv("SCXSIM")

    def find():
        words = [sys.executable, "-c", "from scxlab import find_program; print(find_program().path)"]
        env = os.environ | {"PYTHONPATH": str(tmp_path / "packages"), "PATH": str(tmp_path / "bin")}
        return subprocess.run(words, capture_output=True, text=True, env=env, cwd=tmp_path)

    return find


@pytest.mark.slow
def test_an_installed_package_finds_the_program_on_path(installed, tmp_path):
    assert "LabError: the program scxsim isn't found: install it, or say where" in installed().stderr
    program(tmp_path, STATS)
    (tmp_path / "scxsim").rename(tmp_path / "bin/scxsim")
    assert installed().stdout == f"{tmp_path}/bin/scxsim\n"


def test_the_program_of_a_repository_is_that_of_its_sources(tmp_path):
    (tmp_path / "bin").mkdir()
    (tmp_path / "bin/hash").write_text("#!/bin/sh\necho one\n")
    (tmp_path / "bin/hash").chmod(0o755)
    (tmp_path / "bin/sources").write_text("one\n")
    assert program_of(tmp_path).path == f"{tmp_path}/bin/scxsim"
    (tmp_path / "bin/sources").write_text("two\n")
    with pytest.raises(LabError, match="were changed: call ./scxsim once, which proves and builds them"):
        program_of(tmp_path)
    (tmp_path / ".scxsim/one").mkdir(parents=True)
    (tmp_path / ".scxsim/one/scxsim").touch()
    assert program_of(tmp_path).path == f"{tmp_path}/.scxsim/one/scxsim"


def test_what_a_program_says_of_an_error_is_named(tmp_path):
    script = tmp_path / "scxsim"
    script.write_text("#!/bin/sh\necho out of memory >&2\nexit 2\n")
    with pytest.raises(LabError, match="scxsim can't be started: Permission denied"):
        Program(str(script)).call("run", "p", "w")
    script.chmod(0o755)
    with pytest.raises(LabError, match="scxsim run p w: out of memory"):
        Program(str(script)).call("run", "p", "w")
    with pytest.raises(LabError, match="scxsim run p w: status 2"):
        Program(str(script)).end_of_trace("p", "w")


def test_a_program_that_is_not_there_is_named(tmp_path, capsys):
    assert main(["--program", str(tmp_path), "compare", __file__, "--workload", __file__]) == 1
    assert capsys.readouterr().err == f"scxlab: {tmp_path} is no program\n"

"""The command scxlab: arguments, files and texts around what `scxlab` does in Python."""

import argparse
import os
import sys
from collections.abc import Sequence
from contextlib import closing
from pathlib import Path
from typing import TYPE_CHECKING

from scxlab.clusters import Workers
from scxlab.errors import LabError
from scxlab.program import find_program

if TYPE_CHECKING:
    import pandas

INTERRUPTED = 130


def compare_command(words: argparse.Namespace) -> int:
    """Prints which policy is best, and writes the table and the page."""
    from scxlab.comparison import compare
    from scxlab.reports import text_of
    from scxlab.sources import sources_of

    program = find_program(words.program)
    found = compare(sources_of(words.policies, "policy"), sources_of(words.workload, "workload"), program,
                    range(1, words.seeds + 1), workers_of(words))
    print(text_of(found), end="")
    if words.csv:
        found.judged().to_csv(words.csv, index=False)
    if words.html:
        from scxlab.page import page

        Path(words.html).write_text(page(found, program))
    return 1 if found.refused else 0


def sweep_command(words: argparse.Namespace) -> int:
    """Does the runs that are due, and prints the table of all."""
    from scxlab.experiment import read_experiment
    from scxlab.progress import progress
    from scxlab.store import Store
    from scxlab.sweeps import plan, sweep, table

    experiment, program = read_experiment(words.experiment), find_program(words.program)
    path = Path(words.results or Path(words.experiment).with_suffix(".sqlite"))
    with closing(Store(path)) as store:
        planned = plan(experiment, program, store)
        try:
            with progress("sweep", len(planned.due)) as tell:
                outcome = sweep(planned, program, store, workers_of(words), tell)
        except KeyboardInterrupt:
            print(f"scxlab: interrupted; what was done is kept in {path}", file=sys.stderr)
            return INTERRUPTED
        rows = table(planned, store)
    if words.csv:
        rows.to_csv(words.csv, index=False)
    print(f"{experiment.size} points, {outcome.due} runs were due, {outcome.done} done; results in {path}")
    print_rows(rows)
    if words.plot:
        plot_rows(rows, words.plot, path.with_suffix(".svg"))
    return tell_faults(rows, outcome.faults)


def print_rows(rows: "pandas.DataFrame") -> None:
    """Prints the points of a sweep; with a parameter `seed` their means and spread over it."""
    from scxlab.intervals import spread

    shown = spread(rows) if "seed" in rows else rows.drop(columns="key")
    print(shown.to_string(max_rows=20, float_format="{:.2f}".format))


def plot_rows(rows: "pandas.DataFrame", columns: Sequence[str], path: Path) -> None:
    """Draws a chart of a sweep, and says where it is."""
    from scxlab.charts import plot

    path.write_text(plot(rows, *columns))
    print(f"chart in {path}")


def tell_faults(rows: "pandas.DataFrame", faults: list[str]) -> int:
    """Names what was refused and what failed, once each, and answers the status."""
    refused = rows[rows.state.str.startswith("refused")]
    for told, group in refused.groupby("state"):
        print(f"scxlab: {told} ({len(group)} points)", file=sys.stderr)
    for told in dict.fromkeys(faults):
        print(f"scxlab: {faults.count(told)} batches failed: {told}; call the sweep again to do them", file=sys.stderr)
    return 1 if len(refused) or faults else 0


def search_command(words: argparse.Namespace) -> int:
    """Writes the worst workload that a search finds."""
    from scxlab.progress import progress
    from scxlab.searches import goal_of, report, search
    from scxlab.sources import source_of

    goal, program = goal_of(words.goal), find_program(words.program)
    with progress("search", words.runs) as tell:
        found = search(program, source_of(words.policy, "policy"), source_of(words.template, "template"), goal,
                       words.runs, words.seed, workers_of(words), tell)
    deliver(report(found), words.output)
    return 0


def expand_command(words: argparse.Namespace) -> int:
    """Writes the file that a template describes."""
    from scxlab.sources import source_of
    from scxlab.templates import expanded_text

    template = source_of(Path(words.template), "template")
    text = expanded_text(template.text, words.template, dict(words.values), words.seed)
    if words.output:
        Path(words.output).write_text(text)
    else:
        print(text, end="")
    return 0


def fit_command(words: argparse.Namespace) -> int:
    """Writes the workload of a recording."""
    from scxlab.fitting import fit

    deliver(fit(words.recording, words.groups, words.unit, words.tasks, words.events), words.output)
    return 0


def deliver(text: str, path: str | None) -> None:
    """Writes a workload to a file and tells what its comments say; without a file all goes to standard output."""
    if not path:
        print(text, end="")
        return
    Path(path).write_text(text)
    print("".join(line[2:] + "\n" for line in text.splitlines() if line.startswith("#")), end="")


def check_command(words: argparse.Namespace) -> int:
    """Runs files of checks by pytest."""
    import pytest

    if words.program:
        os.environ["SCXSIM"] = words.program
    quiet = ["-W", "ignore::pytest.PytestAssertRewriteWarning"]
    return int(pytest.main(["-p", "scxlab.plugin", *quiet, *words.options, *words.files]))


def workers_of(words: argparse.Namespace) -> Workers:
    """The workers that the options name."""
    return Workers(words.local, words.scheduler)


def at_least_one(text: str) -> int:
    """Reads a number of 1 or more."""
    number = int(text)
    if number < 1:
        raise argparse.ArgumentTypeError("has to be 1 or more")
    return number


def named_value(text: str) -> tuple[str, str]:
    """Reads the name of a parameter and its value."""
    name, sign, value = text.partition("=")
    if not name or not sign:
        raise argparse.ArgumentTypeError("has to be NAME=VALUE")
    return name, value


def parser() -> argparse.ArgumentParser:
    """The arguments of all commands."""
    top = argparse.ArgumentParser(prog="scxlab", description="Experiments with scheduling policies under scxsim.")
    top.add_argument("--program", help="the program scxsim, if it isn't that of this repository or on PATH")
    commands = top.add_subparsers(required=True, metavar="COMMAND")
    for add in (add_compare, add_sweep, add_search, add_expand, add_fit, add_check):
        add(commands)
    return top


def add_workers(one: argparse.ArgumentParser) -> None:
    """Adds the options that name workers."""
    where = one.add_mutually_exclusive_group()
    where.add_argument("--local", type=at_least_one, metavar="N", help="use N processes of this machine")
    where.add_argument("--scheduler", metavar="ADDRESS", help="use the workers of a running dask cluster")


def add_compare(commands: "argparse._SubParsersAction[argparse.ArgumentParser]") -> None:
    one = commands.add_parser("compare", help="run workloads under several policies, and say which is best")
    one.add_argument("policies", nargs="+", metavar="POLICY", help="a policy file")
    one.add_argument("--workload", nargs="+", required=True, metavar="W", help="a workload file")
    one.add_argument("--seeds", type=at_least_one, default=0, metavar="N",
                     help="draw the ranges of workloads by the seeds 1 to N")
    one.add_argument("--csv", metavar="F", help="write the table to this file")
    one.add_argument("--html", metavar="F", help="write a page with tables, charts and pictures to this file")
    add_workers(one)
    one.set_defaults(do=compare_command)


def add_sweep(commands: "argparse._SubParsersAction[argparse.ArgumentParser]") -> None:
    one = commands.add_parser("sweep", help="run all points of an experiment that weren't run yet")
    one.add_argument("experiment", metavar="EXPERIMENT", help="a TOML file, as in docs/LAB.md")
    add_workers(one)
    one.add_argument("--results", metavar="F", help="the SQLite file of results; default: the experiment's name")
    one.add_argument("--csv", metavar="F", help="write the table to this file")
    one.add_argument("--plot", nargs=3, metavar=("X", "Y", "BY"),
                     help="draw the mean of column Y by column X, a line for each BY; the chart is beside the results")
    one.set_defaults(do=sweep_command)


def add_search(commands: "argparse._SubParsersAction[argparse.ArgumentParser]") -> None:
    one = commands.add_parser("search", help="look for the workload of a template under which a policy is worst")
    one.add_argument("policy", metavar="POLICY", help="a policy file")
    one.add_argument("template", metavar="TEMPLATE", help="a workload in which numbers may be ranges [least, greatest]")
    one.add_argument("--goal", required=True, metavar="G", help="max or min, and a metric: 'max longest_wait_ms(a)'")
    one.add_argument("--runs", type=at_least_one, default=1000, metavar="N",
                     help="look at N workloads, then shrink; default: 1000")
    one.add_argument("--seed", type=int, default=0, metavar="N", help="the same seed finds the same; default: 0")
    add_workers(one)
    one.add_argument("--output", metavar="F", help="write the workload to this file")
    one.set_defaults(do=search_command)


def add_expand(commands: "argparse._SubParsersAction[argparse.ArgumentParser]") -> None:
    one = commands.add_parser("expand", help="write the file that a template describes")
    one.add_argument("template", metavar="TEMPLATE", help="a workload with `count`, ranges or {NAME}, as in docs/LAB.md")
    one.add_argument("values", nargs="*", type=named_value, metavar="NAME=VALUE", help="the value of a parameter")
    one.add_argument("--seed", type=int, metavar="N", help="draw the ranges by this seed, not by that of the template")
    one.add_argument("--output", metavar="F", help="write it to this file")
    one.set_defaults(do=expand_command)


def add_fit(commands: "argparse._SubParsersAction[argparse.ArgumentParser]") -> None:
    one = commands.add_parser("fit", help="make a workload of a recording, and say what was lost")
    one.add_argument("recording", metavar="RECORDING", help="what `scxsim timeline` or `perf sched script` wrote")
    one.add_argument("--groups", metavar="W", help="take groups and changes of weights from this workload file")
    one.add_argument("--unit", type=at_least_one, default=1000, metavar="N",
                     help="N microseconds of perf's recording become a millisecond; default: 1000")
    one.add_argument("--tasks", nargs="+", default=["*"], metavar="NAME",
                     help="take these tasks alone; a * is any letters")
    one.add_argument("--output", metavar="F", help="write the workload to this file")
    one.add_argument("--events", action="store_true", help="write a file of events, as `scxsim replay` reads it")
    one.set_defaults(do=fit_command)


def add_check(commands: "argparse._SubParsersAction[argparse.ArgumentParser]") -> None:
    one = commands.add_parser("check", help="test whether policies do what files of checks say, by pytest")
    one.add_argument("files", nargs="+", metavar="FILE", help="a TOML file of policies, workloads and what must hold")
    one.add_argument("--options", nargs=argparse.REMAINDER, default=[], metavar="O", help="arguments for pytest")
    one.set_defaults(do=check_command)


def main(arguments: Sequence[str] | None = None) -> int:
    """Answers the status: 0 done, 1 something was refused, 2 wrong arguments, 130 interrupted."""
    words = parser().parse_args(arguments)
    try:
        status = int(words.do(words))
        sys.stdout.flush()
        return status
    except LabError as error:
        print(f"scxlab: {error}", file=sys.stderr)
    except KeyboardInterrupt:
        print("scxlab: interrupted", file=sys.stderr)
        return INTERRUPTED
    except BrokenPipeError:
        os.dup2(os.open(os.devnull, os.O_WRONLY), sys.stdout.fileno())
    except OSError as error:
        print(f"scxlab: {told_of(error)}", file=sys.stderr)
    return 1


def told_of(error: OSError) -> str:
    """An error of a file as one line; those of pandas have no file's name apart."""
    return f"{error.filename}: {error.strerror}" if error.filename else str(error)

"""Comparisons of runs that can be counted by hand."""

import re
from html.parser import HTMLParser
from math import isnan

import pandas
import pytest
import scxlab
from scxlab.command import main
from scxlab.comparison import Judgement, Measure, Sample
from scxlab.comparison import compare as compare_sources
from scxlab.errors import LabError
from scxlab.page import page
from scxlab.program import find_program
from scxlab.reports import text_of
from scxlab.sources import sources_of
from scxlab.intervals import interval

REFUSED = '[code]\ninit = """\nr0 = r5\nexit\n"""\n'


def compare(policies, workloads, **more):
    return compare_sources(sources_of(policies, "policy"), sources_of(workloads, "workload"), find_program(), **more)


@pytest.fixture
def comparison(policies, workloads):
    return compare([policies / "fifo.toml", policies / "short_slices.toml"], workloads / "two_tasks.toml")


def value(comparison, figure, name, policy):
    table = comparison.judged().set_index(["figure", "name", "policy"])
    return tuple(table.loc[(figure, name, policy)][["value", "ratio", "best"]])


def test_two_tasks_on_one_processor_for_four_milliseconds(comparison):
    # FIFO with 20 ms: a runs all 4, b waits for 4. Slices of 2 ms: a 0, b 1 and 2, a 3; b waits 1 and then 1 (docs/FILES.md).
    assert value(comparison, "longest_wait_ms", "b", "fifo") == (4, 4, False)
    assert value(comparison, "longest_wait_ms", "b", "short_slices") == (1, 1, True)
    assert value(comparison, "longest_wait_ms", "a", "fifo")[::2] == (0, True)
    assert value(comparison, "longest_wait_ms", "a", "short_slices")[::2] == (2, False)
    assert value(comparison, "changes", "0", "fifo")[::2] == (0, True)
    assert value(comparison, "changes", "0", "short_slices")[::2] == (2, False)


def test_shares_are_beside_what_is_due(policies, workloads):
    # Of three_to_one.toml 75 and 25 are due; FIFO gives each of the four tasks a quarter.
    found = compare([policies / "simple.toml", policies / "simple_vtime.toml"], workloads / "three_to_one.toml")
    assert value(found, "share_percent", "web", "simple") == (50, pytest.approx(2 / 3), False)
    assert value(found, "share_percent", "batch", "simple") == (50, 2, False)
    assert value(found, "share_percent", "web", "simple_vtime") == (75, 1, True)
    assert list(found.judged()[found.judged().figure == "share_percent"].due) == [75, 75, 25, 25]


def test_a_processor_that_is_idle_while_tasks_wait(policies, workloads):
    # Under sticky a and c share processor 0 of uneven.toml, and b runs on processor 1 for 2 of 6 ms. Round robin
    # has a line for all.
    found = compare([policies / "sticky.toml", policies / "round_robin.toml"], workloads / "uneven.toml")
    assert value(found, "idle_while_waiting_ms", "1", "sticky")[0] == 4
    assert value(found, "idle_while_waiting_ms", "1", "round_robin")[0] == 0


def judged(values, best, lawful):
    """The ratios and the best of values by policy, one or several each."""
    samples = {policy: Sample(list(each), []) for policy, each in values.items()}
    judgement = Judgement(Measure("task", "waits", "waits", best, 1), samples, set(lawful))
    return {policy: judgement.ratio(sample) for policy, sample in samples.items()}, judgement.best


def test_the_best_is_marked_and_the_others_are_ratios_to_it():
    values = {"x": [6.0], "y": [4.0], "z": [4.0]}
    assert judged(values, "less", "xyz") == ({"x": 1.5, "y": 1.0, "z": 1.0}, {"y", "z"})
    assert judged(values, "more", "xyz")[1] == {"x"}
    assert judged({"x": [1.0], "y": [1.0]}, "less", "xy")[1] == set()


def test_an_ejected_policy_is_never_the_best():
    assert judged({"x": [1.0], "y": [4.0]}, "less", "y") == ({"x": 0.25, "y": 1.0}, {"y"})
    assert judged({"x": [1.0], "y": [4.0]}, "less", "")[1] == set()


def test_a_ratio_needs_two_values_that_are_large_enough():
    ratios, best = judged({"x": [13.9], "y": [0.01]}, "less", "xy")
    assert isnan(ratios["x"]) and isnan(ratios["y"]) and best == {"y"}


def test_policies_whose_intervals_overlap_are_not_told_apart():
    # The 97.5 % quantile of t with 2 degrees of freedom is 4.3027; of 1, 2, 3 the interval is 4.3027 / sqrt(3) = 2.48.
    assert interval([1, 2, 3]) == pytest.approx(2.4841, abs=1e-4)
    assert judged({"x": [1, 2, 3], "y": [5, 6, 7], "z": [11, 12, 13]}, "less", "xyz")[1] == {"x", "y"}
    assert judged({"x": [1, 2, 3], "y": [8, 9, 10]}, "less", "xy")[1] == {"x"}


def test_a_summary_counts_the_best(policies, workloads):
    table = scxlab.compare([policies / "simple.toml", policies / "simple_vtime.toml"],
                           workloads / "three_to_one.toml", by="run")
    found = scxlab.summary(table)
    # Shares of 50 and 50 where 75 and 25 are due, against shares as due; waits of 60 and of 140 ms.
    assert list(found.share_off_percent) == [25, 0] and list(found.longest_wait_ms) == [60, 140]
    assert list(found.best) == [1, 1] and list(found.state) == ["in force", "in force"]
    assert list(found.index) == [("three_to_one", "simple"), ("three_to_one", "simple_vtime")]


def test_the_text_says_first_which_policy_is_best(comparison):
    lines = text_of(comparison).splitlines()
    assert lines[0].split() == ["share", "off,", "%", "mean", "wait,", "ms", "longest", "wait,", "ms", "slowdown",
                                "changes", "idle,", "ms", "best"]
    # FIFO: a waits 0, b 4. Slices of 2 ms: a waits 0 and 2, b 1 and 1.
    assert lines[2].split() == ["two_tasks", "fifo", "0", "2", "4", "-", "0*", "0", "1", "of", "6"]
    assert lines[3].split() == ["short_slices", "0", "1*", "2*", "-", "2", "0", "2", "of", "6"]
    assert lines[5] == "best of 6: short_slices 2, fifo 1"


def test_seeds_draw_the_ranges_of_a_workload(policies, tmp_path):
    load = 'cpus = 1\nms = 40\n[[group]]\nname = "g"\n[[task]]\nname = "a"\ngroup = "g"\nrun = [3, 9]\nsleep = 9\n'
    (tmp_path / "w.toml").write_text(load)
    found = compare(policies / "fifo.toml", tmp_path / "w.toml", seeds=[1, 2, 3])
    assert [one.seed for one in found.runs] == [1, 2, 3]
    runs = {int(re.search("run = ([0-9]+)", one.job.workload)[1]) for one in found.runs}
    assert len(runs) > 1 and runs <= set(range(3, 10))
    # Alone, a task never waits.
    assert list(scxlab.summary(found.table()).mean_wait_ms) == [0]
    with pytest.raises(LabError, match="seeds: no workload has a range"):
        compare(policies / "fifo.toml", load.replace("[3, 9]", "3"), seeds=[1, 2])


def test_a_refused_policy_is_told_and_the_others_stay(policies, workloads, tmp_path, capsys):
    bad = tmp_path / "bad.toml"
    bad.write_text(REFUSED)
    table = tmp_path / "table.csv"
    words = ["compare", str(policies / "fifo.toml"), str(bad), "--workload", str(workloads / "two_tasks.toml")]
    assert main([*words, "--csv", str(table)]) == 1
    written = capsys.readouterr().out
    assert "refused: policy bad, workload two_tasks: verify init 5 UnusableRegister at 0\n" in written
    assert set(pandas.read_csv(table).policy) == {"fifo"}


def test_a_missing_file_and_a_policy_given_twice_are_named(policies, workloads, capsys):
    assert main(["compare", "nowhere.toml", "--workload", str(workloads / "two_tasks.toml")]) == 1
    assert capsys.readouterr().err == "scxlab: nowhere.toml is no file\n"
    with pytest.raises(LabError, match="twice"):
        compare([policies / "fifo.toml"] * 2, workloads / "two_tasks.toml")


def test_a_folder_that_is_not_there_is_named(policies, workloads, capsys):
    words = ["compare", str(policies / "fifo.toml"), "--workload", str(workloads / "two_tasks.toml")]
    assert main([*words, "--csv", "/nowhere/table.csv"]) == 1
    assert capsys.readouterr().err == "scxlab: Cannot save file into a non-existent directory: '/nowhere'\n"
    assert main([*words, "--html", "/nowhere/page.html"]) == 1
    assert capsys.readouterr().err == "scxlab: /nowhere/page.html: No such file or directory\n"


class Images(HTMLParser):
    """Counts pictures, and sees whether each other thing that is opened is closed."""

    def __init__(self):
        super().__init__()
        self.images, self.open = [], []

    def handle_starttag(self, tag, attrs):
        if tag == "img":
            self.images.append(dict(attrs)["alt"])
        elif tag != "meta":
            self.open.append(tag)

    def handle_endtag(self, tag):
        assert self.open.pop() == tag


def test_the_page_has_contents_tables_charts_and_a_picture_of_each_run(comparison):
    seen, text = Images(), page(comparison, find_program())
    seen.feed(text)
    assert seen.open == []
    assert [alt for alt in seen.images if alt in ("fifo", "short_slices")] == ["fifo", "short_slices"]
    assert len(seen.images) == 4
    assert text == page(comparison, find_program())
    links, anchors = set(re.findall('href="#([^"]+)"', text)), set(re.findall(' id="([^"]+)"', text))
    assert links == anchors == {"best", "workload-1"}
    assert "prefers-color-scheme: dark" in text and 'name="viewport"' in text


def test_a_comparison_without_a_run_has_a_page(policies, workloads, tmp_path):
    bad = tmp_path / "bad.toml"
    bad.write_text(REFUSED)
    found = compare(bad, workloads / "two_tasks.toml")
    assert text_of(found) == "refused: policy bad, workload two_tasks: verify init 5 UnusableRegister at 0\n"
    assert "UnusableRegister" in page(found, find_program())

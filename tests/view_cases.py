"""The smallest cases of what a page of `scxsim view` once got wrong, each tried in a browser. tests/view runs them."""

import re
from itertools import pairwise

from view_pages import AXIS, NOWHERE, PARKED, TOP, stretches_of, workload_text

COURSE = TOP / "examples/course"
FAIR, STRICT, BUSY = COURSE / "fair.toml", COURSE / "strict.toml", COURSE / "workloads/busy.toml"
QUEUES = "\n".join(f"r1 = {number}\ncall 1001" for number in range(16))
# A policy with 16 queues, one for each group; the first one with a task runs.
SIXTEEN = f'''name = "sixteen"
[code]
init = """
{QUEUES}
exit
"""
enqueue = """
r4 = r2
r2 = *(u32 *)(r1 + 28)
r3 = 2000000
call 1002
exit
"""
dispatch = """
''' + "".join(f"r1 = {number}\ncall 1004\nif r0 != 0 goto out\n" for number in range(16)) + '''out:
exit
"""
'''


def luminance(colour):
    parts = [int(colour[at:at + 2], 16) / 255 for at in (1, 3, 5)]
    red, green, blue = [part / 12.92 if part <= 0.04045 else ((part + 0.055) / 1.055) ** 2.4 for part in parts]
    return 0.2126 * red + 0.7152 * green + 0.0722 * blue


def contrast(one, other):
    """The contrast of two colours, as WCAG 2 defines it."""
    dark, light = sorted((luminance(one), luminance(other)))
    return (light + 0.05) / (dark + 0.05)


def selection(window, maker):
    """The other tasks are faint while one is chosen, in the rows of CPUs and of tasks."""
    window.open(maker.page("selection", STRICT, BUSY))
    runs = window.tell("[...run.cpuFrom].map((from, i) => [from, run.cpuLength[i], run.cpuTask[i]])")
    fills = window.tell("run.tasks.map((_, task) => '#' + palette.names.tasks[task % 6].slice(1))")
    row = window.row("cpu")
    chosen = runs[1][2]
    before = colours_of(window, runs, row)
    window.same("colours before", before, [fills[task] for _, _, task in runs])
    window.click(runs[1][0] + 1, row)
    after = colours_of(window, runs, row)
    window.same("the chosen task's", {colour for colour, (_, _, task) in zip(after, runs) if task == chosen}, {fills[chosen]})
    others = {colour for colour, (_, _, task) in zip(after, runs) if task != chosen}
    window.expect("others are faint", all(contrast(colour, "#ffffff") < 1.5 for colour in others))
    window.browser.press("Escape")
    window.same("Escape chooses none", window.tell("view.chosen"), None)
    window.same("colours again", colours_of(window, runs, row), before)


def colours_of(window, runs, row):
    """The colours of bars in a row, near their left ends, where no letter is."""
    top = window.tell("34 + view.rows[arguments[0]].y - view.scroll + view.rows[arguments[0]].high / 2", row)
    scale = chart_width(window) / window.length()
    return [window.pixel(156 + (since - window.sight()[0]) * scale + 3, top) for since, _, _ in runs]


def chart_width(window):
    return window.tell("document.getElementById('canvas').clientWidth") - 156


def cursor(window, maker):
    """A line at the mouse's time, with its words at the axis; none once the mouse has left."""
    window.open(maker.page("cursor", STRICT, BUSY))
    window.hover(50.5, window.row("cpu"))
    at_axis = [(words, colour) for words, _, y, _, colour in window.written() if y < AXIS]
    window.expect("its moment", ("50 ms", "#ffffff") in at_axis)
    window.browser.mouse("mouseMoved", 5, 5)
    window.same("none", window.tell("view.cursor"), None)


def tips(window, maker):
    """Idle CPUs, strips and queues have tips."""
    window.open(maker.page("tips", COURSE / "per_cpu.toml", COURSE / "workloads/two_processors.toml"))
    window.hover(30.5, window.row("cpu", 1))
    window.expect("an idle CPU: " + window.text("tip"), window.text("tip").startswith("CPU 1 idlewaiting meanwhile: "))
    window.open(maker.page("strips", STRICT, BUSY))
    window.hover(100.5, window.row("group", 1))
    window.expect("a strip: " + window.text("tip"), "share 0.0%, due 50.0%" in window.text("tip"))
    window.hover(60.5, window.row("track", 1))
    window.expect("a queue: " + window.text("tip"), "queue 11 task at 60 ms" in window.text("tip"))


def keys(window, maker):
    """Keys act after opening, and Escape leads back to the chart."""
    window.open(maker.page("keys", STRICT, BUSY))
    window.same("no focus yet", window.focus(), "")
    whole = window.length()
    window.browser.press("+")
    window.expect("+ zooms", window.length() < whole)
    since = window.sight()[0]
    window.browser.press("Right")
    window.expect("right pans", window.sight()[0] > since)
    window.browser.press("-", "0")
    window.same("0 shows all", window.length(), whole)
    window.browser.press("/")
    window.same("/ searches", window.focus(), "search")
    window.browser.press("+", "0", "r")
    typed = window.tell("document.getElementById('search').value")
    window.same("keys are text there", [typed, window.length()], ["+0r", whole])
    window.browser.press("Escape")
    window.same("Escape leads back from there", window.focus(), "canvas")
    window.browser.run("document.getElementById('worst').click(); document.getElementById('chosen').focus()")
    window.browser.press("Escape")
    window.same("and from the selection", window.focus(), "canvas")


def left_text(window, maker):
    """Text that was left in the search field jumps nowhere on a later click."""
    groups, tasks = [{"name": "g"}, {"name": "h"}], [{"name": f"t{task}", "group": "gh"[task % 2]} for task in range(100)]
    workload = maker.workload("many", workload_text(2, 200, groups, tasks))
    window.open(maker.page("left_text", FAIR, workload))
    window.browser.press("/", "7", "0")
    before = window.tell("view.scroll")
    window.click(20, window.row("cpu"))
    window.same("a click in the chart", window.tell("view.scroll"), before)
    window.browser.press("n")
    window.expect("n goes there", window.tell("view.scroll") > before)


def range_figures(window, maker):
    """The figures of a dragged range are those of `stats-csv`: of a run that ends there, and of the difference of two."""
    window.open(maker.page("range", STRICT, BUSY))
    text = BUSY.read_text()
    ending = lambda until: maker.workload(f"to_{until}", text.replace("ms = 120", f"ms = {until}"))
    parts = {until: maker.stats(STRICT, ending(until)) for until in (40, 77)}
    tasks = [task["name"] for task in window.tell("run.tasks")]
    window.drag(0.2, 76.8)
    window.same("the range", window.tell("view.range"), [0, 77])
    window.figures()
    of = lambda until, kind, name, figure: float(parts[until][kind, name, figure])
    window.same("run times and longest waits", [[int(line[1]), int(line[3])] for line in window.table("tasks")],
                [[of(77, "task", name, "run_ms"), of(77, "task", name, "longest_wait_ms")] for name in tasks])
    window.same("shares and what is due", [line[1:] for line in window.table("groups")],
                [[f"{of(77, 'group', name, figure):.1f}%" for figure in ("share_percent", "due_percent")]
                 for name in ("urgent", "usual")])
    window.browser.press("Escape")
    window.same("Escape leaves it", window.tell("view.range"), None)
    window.drag(40.2, 76.8, modifiers=8)
    window.same("a range with Shift", window.tell("view.range"), [40, 77])
    window.figures()
    window.same("run times of a difference", [int(line[1]) for line in window.table("tasks")],
                [of(77, "task", name, "run_ms") - of(40, "task", name, "run_ms") for name in tasks])
    figures = ("busy_ms", "idle_ms", "idle_while_waiting_ms")
    window.same("CPUs of a difference", [[int(value) for value in line[1:]] for line in window.table("cpus")],
                [[of(77, "cpu", "0", figure) - of(40, "cpu", "0", figure) for figure in figures]])
    who_ran(window, tasks, {name: of(77, "task", name, "run_ms") - of(40, "task", name, "run_ms") for name in tasks}, 37)


def who_ran(window, tasks, wanted, length):
    """The table of who ran, by task and by group."""
    lines = lambda: {line[0]: int(line[1]) for line in window.table("chosen")}
    window.same("by task", lines(), {name: ms for name, ms in wanted.items() if ms})
    window.browser.run("document.querySelectorAll('#chosen button')[1].click()")
    window.same("by group", lines(), {"urgent": length})
    pressed = window.tell("[...document.querySelectorAll('#chosen p button')].map((one) => one.getAttribute('aria-pressed'))")
    window.same("which is chosen", pressed, ["false", "true"])
    window.browser.run("document.querySelectorAll('#chosen button')[0].click()")


def in_sight(window, maker):
    """Without a range, the figures are of what is in sight."""
    window.open(maker.page("in_sight", STRICT, BUSY))
    window.show(10, 50)
    window.figures()
    window.same("of it", window.text("span"), "In sight: 10 ms to 50 ms")
    window.same("run times", sum(int(line[1]) for line in window.table("tasks")), 40)
    window.same("busy", [line[1] for line in window.table("cpus")], ["40"])


def sorting(window, maker):
    """Heads sort their tables; the tables of CPUs and the keys come before that of tasks."""
    window.open(maker.page("sorting", STRICT, BUSY))
    press = "document.querySelectorAll('#tasks th button')[arguments[0]].click()"
    state = "[...document.querySelectorAll('#tasks th')].map((head) => head.getAttribute('aria-sort'))"
    window.same("none at first", window.tell(state), ["none"] * 4)
    for column, order, is_down in ((1, "descending", True), (1, "ascending", False), (3, "descending", True)):
        window.browser.run(press, column)
        values = [int(line[column]) for line in window.table("tasks")]
        window.same("sorted", values, sorted(values, reverse=is_down))
        window.same("which way", window.tell(state)[column], order)
    window.browser.run(press, 0)
    window.same("names", [line[0] for line in window.table("tasks")], ["backup", "game", "sound", "video"])
    window.same("order", window.tell("[...document.querySelectorAll('aside h2')].map((head) => head.textContent)")[-4:],
                ["Groups", "CPUs", "Keys", "Tasks"])


def search(window, maker):
    """Finds tasks, groups and CPUs, whatever the case, and says which match of how many it is."""
    workload = maker.workload("names", workload_text(2, 100, [{"name": "web"}, {"name": "db"}], [
        {"name": "web_1", "group": "web"}, {"name": "web_2", "group": "web"}, {"name": "store", "group": "db"}]))
    window.open(maker.page("search", FAIR, workload))
    where = "[view.rows[view.row].kind, view.rows[view.row].number]"
    window.browser.press("/", *"wEB")
    window.same("the number", window.text("found"), "3 found")
    found = []
    for _ in range(4):
        window.browser.press("Enter")
        found.append([window.text("found"), window.tell(where)])
    first = ["1 of 3", ["group", 0]]
    window.same("next", found, [first, ["2 of 3", ["task", 0]], ["3 of 3", ["task", 1]], first])
    window.browser.click("previous")
    window.same("previous", [window.text("found"), window.tell(where)], ["3 of 3", ["task", 1]])
    state = "document.getElementById('search').getAttribute('aria-invalid')"
    window.same("a good one", window.tell(state), "false")
    window.browser.press("/", *"cpu 1", "Enter")
    window.same("a CPU", [window.text("found"), window.tell(where)], ["1 of 1", ["cpu", 1]])
    window.browser.press("/", *"cpu 9", "Enter")
    window.same("none", [window.text("found"), window.tell(state), window.tell(where)], ["none found", "true", ["cpu", 1]])


def links(window, maker):
    """The page's link says what is in sight and who is chosen, and a page that is opened with it shows that."""
    path = maker.page("links", STRICT, BUSY)
    window.open(path)
    window.show(20, 60)
    window.click(50.5, window.row("task", 1))
    window.figures()
    link = window.tell("location.hash")
    window.same("the link", link, "#20-60,backup")
    window.open(path, link)
    chosen = window.tell("view.chosen && run.tasks[view.chosen.task].name")
    window.same("what it shows", [*window.sight(), chosen], [20, 60, "backup"])
    window.open(path, "#500-600,backup")
    window.expect("one that isn't in the page", "isn't in this page" in window.text("live") and window.sight() == [0, 120])
    window.open(maker.page("links_part", STRICT, BUSY, 20, 70), "#30-50,sound")
    window.figures()
    window.same("in a part", [*window.sight(), window.text("span")], [10, 30, "In sight: 30 ms to 50 ms"])


def overview(window, maker):
    """The strip of the whole run shows where the window is, and moves it."""
    window.open(maker.page("overview", STRICT, BUSY))
    window.show(0, 30)
    box = window.tell("""(() => { const { left, top, width } = document.getElementById('sight').getBoundingClientRect(),
        scroller = document.getElementById('scroller').getBoundingClientRect();
        return [left - scroller.left - 156, top, width, scroller.width - 156]; })()""")
    window.expect("where it is", abs(box[0]) < 2 and abs(box[2] - box[3] / 4) < 2)
    x, y = 156 + box[3] * 0.5, box[1] + 10
    window.browser.mouse("mousePressed", x, y, button="left", clickCount=1)
    window.browser.mouse("mouseReleased", x, y, button="left", clickCount=1)
    window.expect("a click moves it", abs(window.sight()[0] - 45) < 1)
    window.browser.mouse("mousePressed", x, y, button="left", clickCount=1)
    window.browser.mouse("mouseMoved", x + box[3] / 4, y, button="left", buttons=1)
    window.browser.mouse("mouseReleased", x + box[3] / 4, y, button="left", clickCount=1)
    window.expect("a drag moves it", abs(window.sight()[0] - 75) < 1)


def queue_tracks(window, maker):
    """A queue's track is the number of tasks that wait in it, counted from the stretches."""
    path = maker.page("tracks", STRICT, BUSY)
    window.open(path)
    waits = [(since, since + length, queue) for since, length, _, cpu, _, queue in stretches_of(path)
             if cpu == NOWHERE and queue != PARKED]
    for number, queue in enumerate(sorted({queue for _, _, queue in waits})):
        wanted = [sum(since <= ms < until and queue == other for since, until, other in waits) for ms in range(120)]
        sums = window.tell("[...run.tracks[arguments[0]].sums]", number)
        window.same("its length", [after - before for before, after in pairwise(sums)], wanted)
        window.same("its most", window.tell("run.tracks[arguments[0]].most", number), max(wanted))


def crowd(count):
    """A workload of tasks of two groups for one CPU, each with a rhythm of its own."""
    return workload_text(1, 3000, [{"name": "g"}, {"name": "h", "weight": 500}], [
        {"name": f"t{task}", "group": "gh"[task % 2], "run": 1 + task * 7 % 5, "sleep": 50 + task * 53 % 351}
        for task in range(count)])


def frames(window, maker):
    """All waits have frames that last a twentieth of the run and four times as long as the others on average."""
    path = maker.page("frames", FAIR, maker.workload("frames", crowd(100)))
    window.open(path)
    waits = waits_of(stretches_of(path))
    total, number = sum(length for _, _, length in waits), len(waits)
    wanted = sorted([task, since, length] for task, since, length in waits
                    if length * 20 >= 3000 and number > 4 and length >= 4 * (total - length) / (number - 1))
    window.expect("more than twenty", len(wanted) > 20)
    found = window.tell("[...run.framed.values()].flat().map(({ task, from, length }) => [task, from, length])")
    window.same("waits with frames", sorted(found), wanted)
    window.expect("in the legend", any("a twentieth of the run and four times" in words for words in window.legend()))


def waits_of(stretches):
    """The waits by the clock: task, since and length. Those that go on in another queue are one; a stretch says if there was
    one without a tick before it."""
    waits, last = [], {}
    for since, length, task, cpu, why, queue in stretches:
        if why & 8:
            waits.append((task, [since, since - 1, 1, since]))
        if cpu != NOWHERE or queue == PARKED:
            last.pop(task, None)
            continue
        clock, until = since - (why >> 6 & 1), since + length
        if task in last and last[task][3] == since and not why & 48:
            wait = last[task]
        else:
            wait = last[task] = [since, clock, 0, 0]
            waits.append((task, wait))
        wait[2], wait[3] = until - (why >> 7) - wait[1], until
    return [(task, since, length) for task, (since, _, length, _) in waits]


def patterns(window, maker):
    """Each of 16 queues has a pattern of its own, and the legend names all of them."""
    policy = maker.workload("sixteen", SIXTEEN)
    groups = [{"name": f"g{number}"} for number in range(16)]
    tasks = [{"name": f"t{number}", "group": f"g{number}", "run": 1 + number % 6, "sleep": 1 + number * 7 % 30}
             for number in range(16)]
    window.open(maker.page("patterns", policy, maker.workload("groups", workload_text(2, 300, groups, tasks))))
    window.same("in the legend", [words for words in window.legend() if words.startswith("waits in queue")],
                [f"waits in queue {number}" for number in range(16)])
    swatches = window.tell("""[...document.querySelectorAll('#legend li')]
        .filter((item) => item.textContent.startsWith('waits in queue')).map((item) => item.firstChild.toDataURL())""")
    window.same("all differ", len(set(swatches)), 16)


def quotas(window, maker):
    """A group isn't red for what its quota keeps from it; labels of changes don't overlap; what is due has exact steps, is no
    more than the quota in a period, and else that of the group beside it, as `stats-csv` has it; a line says what the quota
    allows."""
    text = workload_text(2, 2000, [{"name": "web"}, {"name": "batch", "cpu_max": "20000 100000"}],
                         [{"name": f"{name}{number}", "group": name} for name in ("web", "batch") for number in (1, 2)])
    for at, weight in ((500, 1000), (1000, 50), (1010, 60)):
        text += f'[[change]]\nat = {at}\ngroup = "web"\nweight = {weight}\n'
    workload = maker.workload("quotas", text)
    window.open(maker.page("quotas", FAIR, workload))
    written = window.written()
    window.expect("its words aren't red", all(colour == "#6a7178" for words, _, _, _, colour in written if "quota" in words))
    window.expect("and say quota", any("quota" in words for words, *_ in written))
    window.expect("in the legend", any("quota used up" in words and "lack" in words for words in window.legend()))
    labels = sorted((y, x, x + wide) for words, x, y, wide, _ in written if words.startswith("weight"))
    window.same("two labels of three changes", len(labels), 2)
    window.expect("apart", all(one[0] != other[0] or one[2] < other[1] for one, other in pairwise(labels)))
    row = window.row("group", 0)
    for time, due in ((495.5, "93.2%"), (505.5, "90.9%"), (995.5, "90.9%"), (1500.5, "89.5%")):
        window.hover(time, row)
        window.expect(f"due at {time}: " + window.text("tip"), f"due {due}" in window.text("tip"))
    row = window.row("group", 1)
    window.hover(1500.5, row)
    window.expect("its quota: " + window.text("tip"), "quota 20 ms in 100 ms" in window.text("tip"))
    # Five periods with the quota, five with a share by weight of 100 / 1100, and ten with the quota.
    due = window.tell("run.groups[1].due * run.sums.busy[run.sums.cells]")
    window.expect(f"due in all: {due}", abs(due - (15 * 20 + 5 * 200 / 11)) < 1)
    said, shares = maker.stats(FAIR, workload), window.tell("run.groups.map(({ name, due }) => [name, 100 * due])")
    window.expect(f"as stats-csv has it: {shares}", all(abs(float(said["group", name, "due_percent"]) - due) < 0.05
                                                        for name, due in shares))
    x, y = 156 + 0.75 * chart_width(window), window.tell("34 + view.rows[arguments[0]].y - view.scroll", row)
    tall = window.tell("view.rows[arguments[0]].high", row)
    seen = {window.pixel(x + right, y + below) for right in (2, 5, 8) for below in range(int(tall))}
    window.expect(f"a line: {seen}", window.tell("palette.names.parked") in seen)
    window.expect("and words for it", "what a group's quota allows" in window.legend())


# By Linux rules all tasks wait in queue 0, and each CPU takes the first that may run there.
ONE_QUEUE = '''name = "one_queue"
rules = "linux"
tick_ms = 1
[code]
init = "r1 = 0\\ncall 1001\\nexit"
enqueue = "r2 = 0\\nr3 = 2000000\\nr4 = 0\\ncall 1002\\nexit"
dispatch = "r1 = 0\\ncall 1004\\nexit"
'''


def bound(window, maker):
    """A task that is bound to some CPUs says so, and while it alone waits another CPU isn't hatched."""
    policy, tasks = maker.workload("one_queue", ONE_QUEUE), [{"name": name, "group": "g", "cpus": "0"} for name in "ab"]
    tasks.append({"name": "c", "group": "g", "cpus": "0-1,3", "start": 20, "run": 5, "sleep": 1000})
    window.open(maker.page("bound", policy, maker.workload("bound", workload_text(4, 60, [{"name": "g"}], tasks))))
    window.same("their CPUs", window.tell("run.tasks.map(({ cpus }) => cpus)"), [[0], [0], [0, 1, 3]])
    window.same("no CPU is idle while one may run there", window.tell("run.idle.slice(1)"), [0, 0, 0])
    window.hover(40.5, window.row("cpu", 1))
    window.expect("it says why: " + window.text("tip"), "no task waited that may run herebound to other CPUs: " in window.text("tip"))
    window.hover(40.5, window.row("task", 0))
    window.expect("a stretch: " + window.text("tip"), window.text("tip").endswith("may run on CPU 0 alone"))
    window.expect("below its name", {"CPU 0 alone", "CPUs 0 to 1 and 3"} <= {words for words, *_ in window.written()})
    window.expect("in the legend", not any("idle while" in words for words in window.legend()))
    window.same("of all CPUs", window.tell("run.lost.someWaited[60]"), 0)


# All tasks are inserted into the queue of CPU 1.
CPU_1_ALONE = '''[code]
select_cpu = "r0 = 1\\nexit"
enqueue = "r4 = r2\\nr2 = 9223372036854775810 ll\\nr3 = 20000000\\ncall 1002\\nexit"
'''


def area(window, maker):
    """More than 16 CPUs are an area at first: those that ran, by group, then those that were idle while a task waited."""
    groups = [{"name": "one"}, {"name": "two"}, {"name": "none"}]
    tasks = [{"name": f"t{task}", "group": "one" if task < 10 else "two"} for task in range(30)]
    window.open(maker.page("area", FAIR, maker.workload("area", workload_text(40, 100, groups, tasks))))
    first, second, paper = window.tell("[palette.names.tasks[0], palette.names.tasks[1], palette.names.paper]")
    window.same("ten CPUs, twenty, and ten that were idle", area_at(window, 0.5, 40), [first] * 10 + [second] * 20 + [paper] * 10)
    window.hover(50.5, 0)
    window.expect("a tip: " + window.text("tip"), window.text("tip").startswith("30 of 40 CPUs ran at 50 mstwo on 20, one on 10"))
    window.expect("in the legend", any(words.startswith("all CPUs as an area: those that ran, by group") for words in window.legend()))
    window.open(maker.page("area_lost", maker.workload("cpu_1", CPU_1_ALONE), maker.workload("lost", workload_text(20, 100, groups, tasks))))
    window.same("the time that was lost", window.tell("run.lost.someWaited[100]"), window.tell("run.idle.reduce((sum, ms) => sum + ms)"))
    window.same("one CPU that ran", area_at(window, 0.5, 20)[0], first)
    wrong = window.tell("palette.names.wrong")
    window.expect("hatched up to the top", all(wrong in area_lines(window, 0.5, top, top + 0.1) for top in (0, 0.3, 0.6, 0.8)))


def area_at(window, share, cpus):
    """The colours of an area at that share of the chart's width, a quarter up in each CPU's height, from the lowest on."""
    tops = [1 - (cpu + 0.25) / cpus for cpu in range(cpus)]
    return [area_lines(window, share, top, top)[0] for top in tops]


def area_lines(window, share, top, bottom):
    """The colours of an area's pixels at that share of the width, from one share of its height to another."""
    y, high = window.tell("[34 + view.rows[0].y - view.scroll + 3, view.rows[0].high - 9]")
    x = 156 + share * chart_width(window)
    return [window.pixel(x, y + line) for line in range(int(top * high), max(int(top * high) + 1, int(bottom * high)))]


def changes_of_events(window, maker):
    """What is due goes by the changes of weights of a file of events, as by those of a workload."""
    groups, tasks = [{"name": "a"}, {"name": "b"}], [{"name": "x", "group": "a"}, {"name": "y", "group": "b"}]
    lines = "0 wake x\\n0 wake y\\n100 weight a 300\\n180 weight b 200\\n"
    events = f'events = "{lines}"\n' + workload_text(1, 200, groups, tasks)
    window.open(maker.page("changes", FAIR, maker.workload("changes", events)))
    window.same("its changes", window.tell("run.changes"), [[100, 0, 300], [180, 1, 200]])
    window.same("what is due", window.tell("run.groups.map(({ due }) => due.toFixed(3))"), ["0.610", "0.390"])
    window.open(maker.page("changes_part", FAIR, maker.workload("changes", events), 50, 150))
    window.same("in a part", window.tell("run.changes"), [[50, 0, 300]])


MOVES_TWO = """[code]
init = "r1 = 0\\ncall 1001\\nexit"
enqueue = "r4 = r2\\nr2 = 0\\nr3 = 2000000\\ncall 1002\\nexit"
dispatch = "r1 = 0\\ncall 1004\\nr1 = 0\\ncall 1004\\nexit"
"""


def last_wait(window, maker):
    """A wait that begins with the run's last tick has no length, and counts; so does one that goes on in another queue then."""
    for policy, ms, names in [(FAIR, 20, "ab"), (maker.workload("moves_two", MOVES_TWO), 2, "abc")]:
        tasks = [{"name": name, "group": "g"} for name in names]
        workload = maker.workload("last", workload_text(1, ms, [{"name": "g"}], tasks))
        window.open(maker.page("last_wait", policy, workload))
        stats = maker.stats(policy, workload)
        window.same("as stats-csv has it", window.tell("[...run.longest]"),
                    [int(stats["task", name, "longest_wait_ms"]) for name in names])
        window.figures()
        window.same("in the table", [int(line[3]) for line in window.table("tasks")], window.tell("[...run.longest]"))


def idle_by_quota(window, maker):
    """A CPU that is idle while tasks are parked has a hatching and words of its own."""
    text = workload_text(1, 400, [{"name": "g", "cpu_max": "20000 100000"}, {"name": "h"}],
                         [{"name": "capped", "group": "g"}, {"name": "late", "group": "h", "start": 399}])
    path = maker.page("idle_by_quota", FAIR, maker.workload("idle_by_quota", text))
    window.open(path)
    busy, waits, parked = set(), set(), set()
    for since, length, _, cpu, _, queue in stretches_of(path):
        (busy if cpu != NOWHERE else parked if queue == PARKED else waits).update(range(since, since + length))
    window.same("the time", window.tell("run.idleByQuota"), len(parked - busy - waits))
    row = window.row("cpu")
    y = window.tell("34 + view.rows[arguments[0]].y - view.scroll + view.rows[arguments[0]].high / 2", row)
    seen = {window.pixel(156 + (60 + part / 10) / 400 * chart_width(window), y) for part in range(100)}
    window.same("its colours", seen, {"#ffffff", window.tell("palette.names.parked")})
    window.hover(60.5, row)
    window.same("its tip", window.text("tip"), "CPU 0 idleno task waitedparked, as a quota was used up: capped")
    window.expect("in the legend", "idle while a quota is used up" in window.legend())


def aligned(window, maker):
    """The numbers of a long table are at the height of the names."""
    window.open(maker.page("aligned", FAIR, maker.workload("aligned", crowd(70))))
    heights = """[...document.querySelector('#tasks tbody tr').cells].map((cell) => {
        const range = document.createRange();
        range.selectNodeContents(cell);
        const { top, bottom } = range.getBoundingClientRect();
        return (top + bottom) / 2;
    })"""
    window.browser.run("document.getElementById('tasks').scrollIntoView()")
    window.browser.settle()
    heights = window.tell(heights)
    window.expect(f"heights {heights}", max(heights) - min(heights) <= 1)


def wakes(window, maker):
    """A row with room for all its wakes shows them, however short the stretches are."""
    task = {"name": "short", "group": "g", "run": 1, "sleep": 900}
    path = maker.page("wakes", FAIR, maker.workload("wakes", workload_text(1, 5000, [{"name": "g"}], [task])))
    window.open(path)
    bottom, wide = window.tell("34 + view.rows.at(-1).y - view.scroll + view.rows.at(-1).high"), chart_width(window)
    times = [since for since, _, _, _, why, _ in stretches_of(path) if why & 48 == 16]
    window.expect("there are some", len(times) > 3)
    window.same("all are there", {window.pixel(156 + time / 5000 * wide, bottom - 5) for time in times[1:]}, {"#1b1f24"})


def nothing_ran(window, maker):
    """A run and a part in which nothing ran say so, and a legend has no height of 0 %."""
    groups = [{"name": "g"}, {"name": "h"}]
    workload = maker.workload("late", workload_text(2, 100, groups, [{"name": "late", "group": "g", "start": 500}]))
    window.open(maker.page("empty", FAIR, workload))
    window.same("a run", window.text("nothing"), "No task ran or waited in this run.")
    window.expect("that is seen", window.tell("document.getElementById('nothing').offsetHeight") > 0)
    workload = maker.workload("later", workload_text(2, 100, groups, [{"name": "late", "group": "g", "start": 50}]))
    window.open(maker.page("empty_part", FAIR, workload, 10, 30))
    window.same("a part", window.text("nothing"), "No task ran or waited in this part.")
    window.expect("no height of 0 %", not any("height 0%" in words for words in window.legend()))
    window.open(maker.page("full", STRICT, BUSY))
    window.expect("a run in which some ran doesn't", window.tell("document.getElementById('nothing').hidden"))


def cut_waits(window, maker):
    """A wait that goes on out of the part says `at least`, also in the list."""
    window.open(maker.page("cut", STRICT, BUSY, 20, 70))
    words = window.tell("[...document.querySelectorAll('#waits button')].map((one) => one.textContent)")
    window.expect("in the list: " + words[0], words[0].startswith("at least 50 ms backup"))
    # Video was stopped at the end of millisecond 13, so its first wait of the part began with the part.
    window.open(maker.page("begun", STRICT, BUSY, 14, 40))
    first = window.tell("['from', 'clock', 'isCut'].map((key) => run.waits[key][run.waitStart[2]])")
    window.same("one that began with the part", first, [0, 0, 0])
    times = window.tell("run.tasks.map((_, task) => { const { ran, waited } = scxsim.figures(task); return ran + waited; })")
    window.expect(f"no task ran and waited for longer than the part: {times}", all(0 < ms <= 26 for ms in times))


def folding(window, maker):
    """With one task more than have rows, only one group folds, and its longest wait keeps a frame."""
    window.open(maker.page("folding", FAIR, maker.workload("folding", crowd(129))))
    window.same("folded groups", window.tell("view.rows.filter((row) => row.kind === 'group' && row.folded).length"), 1)
    window.browser.run("scxsim.view.rows.filter((row) => row.kind === 'group' && !row.folded).forEach(scxsim.fold)")
    window.same("rows of tasks", window.tell("view.rows.filter((row) => row.kind === 'task').length"), 0)
    window.expect("a frame in a folded group", any(re.match(r"t\d+ waited \d+ ms", words) for words, *_ in window.written()))
    window.browser.run("scxsim.fold(scxsim.view.rows.find((row) => row.kind === 'group'))")
    window.expect("a fold is told", window.text("live").endswith("folded"))


def hex_of(colour):
    """A colour of the page's palette, whose lowest byte is red."""
    return f"#{colour & 255:02x}{colour >> 8 & 255:02x}{colour >> 16 & 255:02x}"


def colours(window, maker):
    """Outlines of all colours have a contrast of 3 with the paper, and the least shades one of 1.5, in light and in dark."""
    path = maker.page("colours", STRICT, BUSY)
    for is_dark in (True, False):
        window.browser.resize(window.wide, window.high, is_dark)
        window.open(path)
        paper = window.tell("palette.names.paper")
        edges = [hex_of(colour) for colour in window.tell("palette.edges")]
        kinds = "palette.severalShades, palette.waitShades, palette.parkedShades, palette.wrongShades"
        least = [hex_of(colour) for colour in window.tell(f"[...palette.tasks, {kinds}].map((shades) => shades[1])")]
        window.expect(f"outlines {edges}", all(contrast(edge, paper) >= 3 for edge in edges))
        window.expect(f"least shades {least}", all(contrast(shade, paper) >= 1.5 for shade in least))
        since, top = window.tell("[run.cpuFrom[run.cpuTask.indexOf(3)], 34 + view.rows.find((row) => row.kind === 'cpu').y]")
        window.same("a bar's outline", window.pixel(156 + since * chart_width(window) / window.length(), top + 10), edges[3])


def phone(window, maker):
    """On a phone the header has one line, the chart begins early, and names that are too long have an ellipsis."""
    tasks = [{"name": f"nginx_worker_{number}", "group": "g"} for number in range(3)]
    window.browser.resize(400, 800, False)
    window.open(maker.page("phone", FAIR, maker.workload("long_names", workload_text(1, 60, [{"name": "g"}], tasks))))
    window.expect("one line", window.tell("document.querySelector('header').offsetHeight") < 40)
    window.expect("the chart's begin", window.tell("document.getElementById('canvas').getBoundingClientRect().top") < 0.2 * 800)
    names = [(words, x + wide) for words, x, _, wide, _ in window.written() if "…" in words]
    window.same("three names", len(names), 3)
    window.expect("that end in the names' room", all(end <= 96 for _, end in names))
    window.same("that differ", len({words for words, _ in names}), 3)
    window.expect("no sideways scrolling", window.tell("document.documentElement.scrollWidth <= innerWidth"))
    window.browser.resize(window.wide, window.high, False)


def loading(window, maker):
    """A page that takes a while to read says so meanwhile."""
    tasks = [{"name": f"t{task}", "group": "g", "run": 2 + task % 7, "sleep": 20 + task % 80} for task in range(600)]
    path = maker.page("loading", FAIR, maker.workload("loading", workload_text(64, 24_000, [{"name": "g"}], tasks)))
    window.expect("it is large", path.stat().st_size > 4_200_000)
    watch = """const look = () => { const sign = document.getElementById('loading');
        if (sign && sign.offsetHeight > 0) window.signSeen = sign.textContent;
        if (!window.scxsim) requestAnimationFrame(look); };
        requestAnimationFrame(look);"""
    made = window.browser.protocol("Page.addScriptToEvaluateOnNewDocument", {"source": watch})
    window.open(path)
    window.same("the sign", window.tell("window.signSeen"), "Reading the run …")
    window.same("it is gone then", window.tell("document.getElementById('loading')"), None)
    window.browser.protocol("Page.removeScriptToEvaluateOnNewDocument", made)


CASES = [selection, cursor, tips, keys, left_text, range_figures, in_sight, sorting, search, links, overview, queue_tracks,
         frames, patterns, quotas, bound, area, changes_of_events, last_wait, idle_by_quota, aligned, wakes, nothing_ran, cut_waits, folding, colours, phone, loading]

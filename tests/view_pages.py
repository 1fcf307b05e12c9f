"""Pages for tests/view: how they are made, and a window in which one is tried."""

import base64
import json
import re
import struct
import subprocess
import sys
from importlib.machinery import SourceFileLoader
from pathlib import Path


TOP = Path(__file__).resolve().parent.parent
STRETCH = struct.Struct("<IIHBBHxx")
NOWHERE, PARKED = 255, 19
AXIS = 34
CANVAS = "const box = document.getElementById('canvas').getBoundingClientRect();"
# All words that a page writes into its chart: words, left, middle, width and colour.
WRITTEN = """const old = CanvasRenderingContext2D.prototype.fillText, found = [];
CanvasRenderingContext2D.prototype.fillText = function (words, x, y) {
  found.push([words, x, y, this.measureText(words).width, this.fillStyle]);
  old.call(this, words, x, y);
};
scxsim.draw();
CanvasRenderingContext2D.prototype.fillText = old;
return found;"""


class Maker:
    """Makes pages with a program. With `is_of_web` it puts the texts of web/ in the place of the program's."""

    def __init__(self, program, folder, is_of_web):
        self.program, self.folder = program, Path(folder)
        self.texts = SourceFileLoader("page", str(TOP / "tools/page")).load_module().texts() if is_of_web else None

    def page(self, name, policy, workload, *window):
        path, command = self.folder / f"{name}.html", "view-part" if window else "view"
        words = [self.program, command, policy, workload, *map(str, window)]
        text = subprocess.run(words, capture_output=True, text=True, check=True).stdout
        if self.texts:
            begin, end = text.index('<script id="head"'), text.rindex("<script>")
            text = f"{self.texts[0]}{text[begin:end]}{self.texts[1]}\n"
        path.write_text(text)
        return path

    def workload(self, name, text):
        path = self.folder / f"{name}.toml"
        path.write_text(text)
        return path

    def stats(self, policy, workload):
        """The figures of `stats-csv`: the value by kind, name and figure."""
        words = [self.program, "stats-csv", policy, workload]
        lines = subprocess.run(words, capture_output=True, text=True, check=True).stdout.splitlines()[1:]
        return {tuple(line.split(",")[:3]): line.split(",")[3] for line in lines}


def workload_text(cpus, ms, groups, tasks):
    """A workload: groups and tasks are lists of their fields."""
    lines = [f"cpus = {cpus}", f"ms = {ms}"]
    for kind, all_fields in (("group", groups), ("task", tasks)):
        for fields in all_fields:
            lines.append(f"[[{kind}]]")
            lines += [f"{key} = {json.dumps(value)}" for key, value in fields.items()]
    return "\n".join(lines) + "\n"


def long_workload(groups=16, tasks=1024, cpus=64, ms=45_000):
    """Many tasks that run and sleep, each in its own rhythm."""
    return workload_text(cpus, ms, [{"name": f"g{group}", "weight": 100 + 100 * (group % 4)} for group in range(groups)],
                         [{"name": f"t{task}", "group": f"g{task % groups}", "run": 2 + task % 7, "sleep": 20 + task % 80}
                          for task in range(tasks)])


def stretches_of(path):
    """The stretches in a page: since, length, task, CPU, why and queue."""
    data = re.search(r'<script id="stretches"[^>]*>(.*?)</script>', path.read_text(), re.DOTALL)[1]
    return list(STRETCH.iter_unpack(base64.b64decode(data, validate=False)))


class Window:
    """A page in a window of a browser, and the list of all that isn't as it should be."""

    def __init__(self, browser, wide=1600, high=900, is_dark=False):
        self.browser, self.wide, self.high, self.is_dark = browser, wide, high, is_dark
        self.good, self.bad, self.case = 0, [], ""
        self.browser.resize(wide, high, is_dark)

    def open(self, path, link=""):
        self.browser.open(path, link)
        self.browser.settle()

    def tell(self, words, *arguments):
        return self.browser.run("const { run, view, palette } = scxsim; return " + words, *arguments)

    def expect(self, what, holds):
        if holds:
            self.good += 1
        else:
            self.bad.append((f"{self.case}: " if self.case else "") + what)

    def same(self, what, found, wanted):
        self.expect(f"{what}: {str(found)[:200]}, not {str(wanted)[:200]}", found == wanted)

    def sight(self):
        return self.tell("[view.from, view.until]")

    def length(self):
        return self.sight()[1] - self.sight()[0]

    def text(self, name):
        return self.tell("document.getElementById(arguments[0]).textContent", name)

    def focus(self):
        return self.tell("document.activeElement.id")

    def show(self, since, until):
        self.browser.run("scxsim.show(arguments[0], arguments[1])", since, until)
        self.browser.settle()

    def whole(self):
        self.browser.run("scxsim.show(0, scxsim.run.duration)")
        self.browser.settle()

    def figures(self):
        """Has the tables follow now, which the page does a moment later."""
        self.browser.run("scxsim.settle()")
        self.browser.settle()

    def table(self, name):
        return self.tell("""[...document.querySelectorAll('#' + arguments[0] + ' tbody tr')]
            .map((line) => [...line.children].map((cell) => cell.textContent))""", name)

    def row(self, kind, number=0):
        return self.tell("view.rows.findIndex((row) => row.kind === arguments[0] && row.number === arguments[1])", kind, number)

    def place(self, share, row):
        """The place in the window of a share of the chart's width, in the middle of a row."""
        return self.browser.run(CANVAS + """const { view } = scxsim, row = view.rows[arguments[1]];
            const left = view.wide ? 156 : 96, top = box.top + 34 + row.y - view.scroll + row.high / 2;
            return [box.left + left + arguments[0] * (box.width - left), top];""", share, row)

    def place_of(self, time, row):
        since, until = self.sight()
        return self.place((time - since) / (until - since), row)

    def hover(self, time, row):
        self.browser.mouse("mouseMoved", *self.place_of(time, row))

    def click(self, time, row):
        self.press_at(*self.place_of(time, row))

    def press_at(self, x, y):
        self.browser.mouse("mousePressed", x, y, button="left", clickCount=1)
        self.browser.mouse("mouseReleased", x, y, button="left", clickCount=1)

    def drag(self, since, until, modifiers=0):
        """Drags over the axis, or with Shift (8) in the first row, from one time to another."""
        (x0, y), (x1, _) = self.place_of(since, 0), self.place_of(until, 0)
        y = y if modifiers else self.browser.run(CANVAS + "return box.top + 10")
        self.browser.mouse("mousePressed", x0, y, button="left", clickCount=1, modifiers=modifiers)
        for x in ((x0 + x1) / 2, x1):
            self.browser.mouse("mouseMoved", x, y, button="left", buttons=1, modifiers=modifiers)
        self.browser.mouse("mouseReleased", x1, y, button="left", clickCount=1, modifiers=modifiers)

    def pixel(self, x, y):
        """The colour of a pixel of the chart, as #rrggbb."""
        red, green, blue = self.browser.run("""return [...document.getElementById('canvas').getContext('2d')
            .getImageData(arguments[0], arguments[1], 1, 1).data].slice(0, 3)""", round(x), round(y))
        return f"#{red:02x}{green:02x}{blue:02x}"

    def written(self):
        return self.browser.run(WRITTEN)

    def legend(self):
        return self.tell("[...document.querySelectorAll('#legend li')].map((item) => item.textContent)")

    def finish(self, name):
        """Looks at the console, and returns the number of faults, which it prints."""
        console = self.browser.console()
        self.expect("nothing on the console: " + "; ".join(console)[:200], not console)
        print(f"{name}: {self.good} good" + "".join(f"\n    not so: {words}" for words in self.bad), flush=True)
        return len(self.bad)

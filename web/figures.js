// Says what is at a place, and fills the tables.
function stretchAt(row, time) {
  if (row.kind === "cpu") {
    const i = firstAfter(run.cpuFrom, run.cpuLength, run.cpuStart[row.number], run.cpuStart[row.number + 1], time);
    if (i < run.cpuStart[row.number + 1] && run.cpuFrom[i] <= time) return taskStretch(run.cpuTask[i], run.cpuFrom[i], row);
  }
  if (row.kind === "task") return taskStretch(row.number, time, row);
  return null;
}

function taskStretch(task, time, row) {
  const last = run.taskStart[task + 1], i = firstAfter(run.from, run.length, run.taskStart[task], last, time);
  if (i >= last || run.from[i] > time) return null;
  return { index: i, task, kind: row.kind, number: row.number, from: run.from[i], until: run.from[i] + run.length[i] };
}

function describe({ index, task, from, until }) {
  if (run.cpu[index] === SEVERAL) return describePiece(index, task, from, until);
  const ran = run.cpu[index] !== NOWHERE, queue = run.queue[index], why = run.why[index];
  const began = BEGAN[why >> 4 & 3] + (hasWaitBefore(run, index) ? ", and waited 1 ms" : "");
  const what = ran ? "ran on CPU " + run.cpu[index] : queue === PARKED ? "was parked" : "waited";
  const [begin, end] = ran ? [from, until] : [clockFrom(run, index), clockUntil(run, index)];
  const when = "from " + momentText(begin) + " to " + momentText(end) + ", " + timeText(end - begin);
  const where = queue === NO_QUEUE ? "" : (ran ? "it came from " : "in ") + queueName(run, queue);
  const lines = [run.tasks[task].name + " " + what, when + (began && "; " + began), "then " + (ran ? WHY_RUN : WHY_WAIT)[why & 7], where];
  return [...lines.filter(Boolean), ...boundWords(run.tasks[task])];
}

function describePiece(index, task, from, until) {
  const parked = parkedIn(run, index), words = "ran " + timeText(ranIn(run, index)) + ", waited " + timeText(waitedIn(run, index));
  return [run.tasks[task].name + ", several stretches", "from " + momentText(from) + " to " + momentText(until),
    words + (parked > 0 ? ", was parked " + timeText(parked) : ""), ...boundWords(run.tasks[task])];
}

// The CPUs on which a task may run, if it may not run on all.
const boundWords = (task) => task.cpus ? ["may run on " + cpusText(task.cpus)] : [];

// CPUs in words: CPU 0 alone, or CPUs 0 to 3 and 8.
function cpusText(cpus) {
  if (cpus.length === 1) return "CPU " + cpus[0] + " alone";
  const ranges = [];
  for (const cpu of cpus) {
    if (ranges.at(-1)?.[1] === cpu - 1) ranges.at(-1)[1] = cpu;
    else ranges.push([cpu, cpu]);
  }
  const words = ranges.map(([first, last]) => first === last ? first : first + " to " + last), end = words.pop();
  return "CPUs " + (words.length > 0 ? words.join(", ") + " and " : "") + end;
}

// The stretch of a row at that time, or the next one.
function stretchNear(row, time) {
  const start = run.taskStart[row.number], end = run.taskStart[row.number + 1];
  if (row.kind !== "task" || start === end) return null;
  return taskStretch(row.number, Math.max(time, run.from[Math.min(end - 1, firstAfter(run.from, run.length, start, end, time))]), row);
}

// A place where no task ran or waited, in words: a CPU, a queue, or a group's share around that moment.
function describePlace(row, time) {
  const at = Math.floor(time);
  if (row.kind === "cpu") return ["CPU " + row.number + " idle", ...waitingWords(at, row)];
  if (row.kind === "section" && row.folded && row.key === "cpus") return run.isMerged ? null : describeAllCpus(at);
  if (row.kind === "track") {
    const track = run.tracks[row.number], length = lengthOfTrack(track, at, Math.min(run.duration, at + 1));
    return [track.name, (track.cell > 1 ? length.toFixed(1) + " tasks on average" : tasksText(length)) + " at " + momentText(at)];
  }
  if (row.kind !== "group" || run.groups.length === 1) return null;
  const [from, until] = shareWindow(time), { share, due, isCapped } = shareIn(row.number, from, until);
  const words = "share " + percent(share) + ", due " + percent(due) + (isCapped ? "; its quota was used up" : "");
  return [run.groups[row.number].name, words, ...quotaWords(run.groups[row.number]),
    "from " + momentText(Math.round(from)) + " to " + momentText(Math.round(until)), "weight " + weightAt(row.number, time)];
}

const tasksText = (count) => count + (count === 1 ? " task" : " tasks");
const weightAt = (g, time) => run.changes.filter(([at, group]) => group === g && at <= time).at(-1)?.[2] ?? run.groups[g].weight;

const quotaWords = ({ quota, period }) => quota === undefined ? [] : ["quota " + quota + " ms in " + period + " ms"];

// The tasks that waited at that moment and may run on the row's CPU, or if there were none, those that were parked, and those
// that waited for other CPUs.
function waitingWords(time, row) {
  const kinds = run.tasks.map((_, task) => { const at = taskStretch(task, time, row); return at && kindOf(at.index); });
  const isHere = (task) => row.kind !== "cpu" || mayRunOn(task, row.number);
  const named = (kind, here) => run.tasks.filter((task, number) => kinds[number] === kind && isHere(task) === here).map(({ name }) => name);
  const [waiting, parked, elsewhere] = [named(1, true), named(2, true), named(1, false)];
  if (waiting.length > 0) return ["waiting meanwhile: " + firstNames(waiting)];
  const lines = [elsewhere.length > 0 ? "no task waited that may run here" : "no task waited"];
  if (elsewhere.length > 0) lines.push("bound to other CPUs: " + firstNames(elsewhere));
  return parked.length > 0 ? [...lines, "parked, as a quota was used up: " + firstNames(parked)] : lines;
}

const firstNames = (names) => names.slice(0, 6).join(", ") + (names.length > 6 ? " and " + (names.length - 6) + " more" : "");

// The CPUs that ran at that moment, in all and by group.
function describeAllCpus(time) {
  const busy = new Map(), count = (group) => { busy.set(group, (busy.get(group) ?? 0) + 1); };
  for (let cpu = 0; cpu < run.processors; cpu++)
    eachRun(run, cpu, time, Math.min(run.duration, time + 1), (task) => count(run.tasks[task].group));
  const all = [...busy.values()].reduce((sum, cpus) => sum + cpus, 0);
  const groups = [...busy].sort((one, other) => other[1] - one[1]).map(([group, cpus]) => run.groups[group].name + " on " + cpus);
  return [all + " of " + run.processors + " CPUs ran at " + momentText(time), ...(groups.length > 1 ? [firstNames(groups)] : []),
    ...(all < run.processors ? waitingWords(time, {}) : [])];
}

function choose(stretch) {
  view.chosen = stretch;
  redraw();
  settleLater();
  if (stretch) tellMeanwhile(stretch, describe(stretch));
  else tellNothing();
}

function tellNothing() {
  if (view.range) return tellRange();
  element("chosen").replaceChildren();
  node("p", "Click a wait, or drag over the axis, to see who ran meanwhile.", element("chosen"), { class: "faint" });
}

function node(name, words, parent, attributes = {}) {
  const made = document.createElement(name);
  made.textContent = words;
  for (const [key, value] of Object.entries(attributes)) made.setAttribute(key, value);
  parent?.append(made);
  return made;
}

// The ends of a whole wait, also where it went on in another queue, and its length by the clock.
function wholeWait({ index, task }) {
  const isOwn = (i) => i >= run.taskStart[task] && i < run.taskStart[task + 1], waits = (i) => isOwn(i) && kindOf(i) === kindOf(index);
  let first = index, last = index;
  while (waits(first - 1) && goesOn(run, first - 1)) first--;
  while (waits(last + 1) && goesOn(run, last)) last++;
  return [run.from[first], run.from[last] + run.length[last], clockUntil(run, last) - clockFrom(run, first)];
}

function tellMeanwhile(stretch, lines) {
  const box = element("chosen");
  tell(lines.join(", "));
  box.replaceChildren();
  node("h2", lines[0], box);
  for (const line of lines.slice(1)) node("p", line, box);
  if (run.cpu[stretch.index] !== NOWHERE) return;
  const [from, until, waited] = wholeWait(stretch);
  tellWhoRan("Who ran meanwhile", from, until, box);
  const more = until - from > waited ? "more" : "less";
  const why = until - from === waited ? "" : " Run times go by ticks, so each CPU's are a millisecond " + more + " than the wait.";
  node("p", "All CPUs together: " + (until - from) * run.processors + " ms." + why, box, { class: "faint" });
}

// A dragged range: who ran in it.
function tellRange() {
  const [from, until] = view.range, box = element("chosen");
  box.replaceChildren();
  node("h2", "Range of " + timeText(until - from), box);
  tellWhoRan("Who ran", from, until, box);
}

let isByGroup = false;

// A table of run times in a window, by task or by group, and the idle time.
function tellWhoRan(title, from, until, box) {
  node("h3", title + ", from " + momentText(from) + " to " + momentText(until), box);
  const table = node("table", ""), choice = node("p", "", box);
  for (const [words, value] of [["by task", false], ["by group", true]]) {
    const button = node("button", words, choice, { type: "button", "aria-pressed": isByGroup === value });
    button.onclick = () => {
      isByGroup = value;
      [...choice.children].forEach((one) => one.setAttribute("aria-pressed", one === button));
      fillWhoRan(table, from, until);
    };
  }
  box.append(table);
  fillWhoRan(table, from, until);
}

function fillWhoRan(table, from, until) {
  const all = (until - from) * run.processors, found = whoRan(run, from, until);
  const lines = isByGroup ? byGroup(found) : found.map(({ task, ran }) => [run.tasks[task].name, ran]), shown = lines.slice(0, 12);
  const idle = all - found.reduce((sum, { ran }) => sum + ran, 0), rest = lines.slice(12).reduce((sum, [, ran]) => sum + ran, 0);
  if (lines.length > 12) shown.push([lines.length - 12 + " more", rest]);
  if (idle > 0) shown.push(["idle", idle]);
  fillTable(table, [isByGroup ? "group" : "task", "ms", "part"], shown.map(([name, ran]) => [name, ran, percent(ran / all)]));
}

function byGroup(found) {
  const sums = new Map();
  for (const { task, ran } of found) sums.set(run.tasks[task].group, (sums.get(run.tasks[task].group) ?? 0) + ran);
  return [...sums].map(([group, ran]) => [run.groups[group].name, ran]).sort((one, other) => other[1] - one[1]);
}

// Of each table its heads, lines, their order, and what a button of a line does.
const tables = new WeakMap(), PIECE = 32, collator = new Intl.Collator("en", { numeric: true });
const sizeOf = (value) => typeof value === "string" && /^[\d.]+%$/.test(value) ? parseFloat(value) : value;
const isNumber = (value) => typeof sizeOf(value) === "number";
const classOf = (value) => isNumber(value) ? "number" : "";
const compare = (one, other) => isNumber(one) && isNumber(other) ? sizeOf(one) - sizeOf(other) : collator.compare(one, other);

// A table, whose heads sort it; where `press` is given, the first cell of each line is a button for it. A long table is in
// pieces, which are laid out, and filled again, only while they are in sight.
function fillTable(table, heads, lines, press) {
  const { column, sign } = tables.get(table) ?? { column: -1, sign: 1 };
  const shown = column < 0 ? lines : [...lines].sort((one, other) => sign * compare(one[column], other[column]));
  tables.set(table, { heads, lines, press, column, sign, shown });
  fillHeads(table);
  const count = Math.max(1, Math.ceil(lines.length / PIECE)), pieces = table.tBodies;
  while (pieces.length > count) pieces[count].remove();
  while (pieces.length < count) watcher.observe(node("tbody", "", table));
  table.className = count > 1 ? "long" : "";
  for (const piece of pieces) if (count === 1 || piece.rows.length === 0 || inSight.has(piece)) fillPiece(piece);
}

function fillHeads(table) {
  const { heads, lines, column, sign } = tables.get(table), top = table.tHead?.rows[0] ?? node("tr", "", node("thead", "", table));
  heads.forEach((name, number) => {
    const head = top.cells[number] ?? addHead(table, top), order = sign > 0 ? "ascending" : "descending";
    head.setAttribute("aria-sort", number === column ? order : "none");
    head.className = classOf(lines[0]?.[number]);
    setText(head.firstChild, name);
  });
}

function addHead(table, top) {
  const head = node("th", "", top, { scope: "col" });
  node("button", "", head, { type: "button" }).onclick = () => sortBy(table, head.cellIndex);
  return head;
}

// Sorts a table by a column, numbers from the largest on; a second time the other way.
function sortBy(table, number) {
  const { heads, lines, press, column, sign } = tables.get(table), first = isNumber(lines[0]?.[number]) ? -1 : 1;
  Object.assign(tables.get(table), { column: number, sign: column === number ? -sign : first });
  fillTable(table, heads, lines, press);
}

const inSight = new Set(), watcher = new IntersectionObserver((entries) => {
  for (const { target, isIntersecting } of entries) {
    if (isIntersecting && target.isConnected) fillPiece(target);
    if (isIntersecting) inSight.add(target); else inSight.delete(target);
  }
});

function fillPiece(piece) {
  const table = piece.parentNode, { shown, press } = tables.get(table), first = PIECE * [...table.tBodies].indexOf(piece);
  const rows = [...piece.rows], lines = shown.slice(first, first + PIECE);
  for (const row of rows.slice(lines.length)) row.remove();
  lines.forEach((line, number) => fillLine(rows[number] ?? node("tr", "", piece), line, press));
}

function fillLine(row, line, press) {
  const cells = row.children;
  line.forEach((value, column) => {
    const cell = cells[column] ?? addCell(row, column === 0 && press), look = classOf(value);
    if (cell.className !== look) cell.className = look;
    setText(cell.firstElementChild ?? cell, value);
  });
}

function addCell(row, press) {
  const cell = node("td", "", row);
  if (press) node("button", "", cell, { type: "button" }).onclick = () => press(cell.textContent);
  return cell;
}

function setText(element, words) {
  if (element.textContent !== String(words)) element.textContent = words;
}

// The figures of the range, or else of what is in sight.
function fillFigures() {
  const [from, until] = view.range ?? [Math.floor(view.from), Math.ceil(view.until)], window = [from, until, view.range !== null].join();
  if (view.figures === window) return;
  view.figures = window;
  const { groups, tasks, cpus } = figuresOf(run, from, until), isAll = from === 0 && until === run.duration;
  element("span").textContent = (view.range ? "Range: " : isAll ? "All: " : "In sight: ") + momentText(from) + " to " + momentText(until);
  element("all").hidden = !view.range;
  fillTable(element("groups"), ["group", "share", "due"], groups.map(({ share, due, isCapped }, g) =>
    [run.groups[g].name + (isCapped ? " (quota used up)" : ""), percent(share), percent(due)]));
  fillTable(element("cpus"), ["CPU", "busy ms", "idle ms", "of it a task waited"], cpus.map(({ busy, idle, waits }, cpu) =>
    [String(cpu), busy, idle, waits]));
  const columns = run.isMerged ? 3 : 4, heads = ["task", "ran ms", "waited ms", "longest"].slice(0, columns);
  fillTable(element("tasks"), heads, tasks.map(({ ran, waited, longest }, task) =>
    [run.tasks[task].name, ran, waited, longest].slice(0, columns)), (name) => findTask(name));
}

function fillWaits() {
  for (const wait of run.worst.slice(0, 5)) {
    const words = lengthOfWait(wait) + " " + run.tasks[wait.task].name + ", from " + momentText(wait.clock);
    const button = node("button", words, node("li", "", element("waits")), { type: "button", class: wait.alarming ? "wrong" : "" });
    button.onclick = () => jump(wait);
  }
  const none = run.isMerged ? "No stretch of waiting is longer than " + timeText(run.together) + "." : "No task waited.";
  if (run.worst.length === 0) node("p", none, element("waits").parentNode, { class: "faint" });
}

function setRange(range) {
  view.range = range;
  if (range) tellRange();
  else if (view.chosen) tellMeanwhile(view.chosen, describe(view.chosen));
  else tellNothing();
  settleLater();
  redraw();
}

function jump(wait) {
  goTo("task", wait.task, wait.from, wait.until);
  choose(taskStretch(wait.task, wait.from, { kind: "task", number: wait.task }));
}
const nextWorst = () => jump(run.worst[view.next++ % run.worst.length]);

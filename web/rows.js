// The rows of the chart, and their names.
const MOST_TASK_ROWS = 128, MOST_CPU_ROWS = 32;

function makeRows() {
  const rows = [], many = run.tasks.length > 64, thin = run.processors > MOST_CPUS, strip = run.groups.length > 1;
  const add = (row) => rows.push(row), addGroup = (g, depth) => {
    const folded = view.folded.has(g);
    add({ kind: "group", number: g, depth, folded, high: folded ? 50 : strip ? 34 : 24 });
    if (folded) return;
    for (const child of run.groups[g].children) addGroup(child, depth + 1);
    for (const task of run.groups[g].tasks) add({ kind: "task", number: task, depth: depth + 1, high: many ? 18 : 28 });
  };
  const addSection = (key, name, high) => {
    const folded = view.folded.has(key);
    add({ kind: "section", key, name, folded, high: folded ? high : 24 });
    return !folded;
  };
  if (addSection("cpus", run.processors === 1 ? "CPU" : run.processors + " CPUs", run.processors > MOST_CPU_ROWS ? 104 : 56))
    for (let cpu = 0; cpu < run.idle.length; cpu++) add({ kind: "cpu", number: cpu, high: thin ? 9 : 28 });
  if (run.tracks.length > 0 && !run.isMerged && addSection("queues", "Queues", 24))
    run.tracks.forEach((_, number) => add({ kind: "track", number, high: 30 }));
  add({ kind: "section", name: view.wide ? "Groups and tasks" : "Tasks", high: 24 });
  run.groups.forEach((group, g) => { if (group.parent < 0) addGroup(g, 0); });
  placeRows(rows);
}

// Where there is room rows are up to twice as high.
function placeRows(rows) {
  const room = element("scroller").clientHeight - AXIS - 16, wanted = rows.reduce((sum, row) => sum + row.high, 0);
  const grow = clamp(room / wanted, 1, 1.8);
  let y = 0;
  for (const row of rows) {
    row.y = y;
    y += row.high = row.kind === "section" ? row.high : Math.floor(row.high * grow);
  }
  Object.assign(view, { rows, total: y, row: clamp(view.row, 0, rows.length - 1) });
  element("spacer").style.height = y + AXIS + 8 + "px";
}

// Folds the groups with the most tasks, until the others have few enough for rows of their own.
function foldLargest() {
  const size = (g) => run.groups[g].tasks.length, groups = [...run.groups.keys()].sort((one, other) => size(other) - size(one));
  let tasks = run.tasks.length;
  for (const g of groups) {
    if (tasks <= MOST_TASK_ROWS) return;
    view.folded.add(g);
    tasks -= size(g);
  }
}

const rowOf = (kind, number) => view.rows.findIndex((row) => row.kind === kind && row.number === number);
const nameOf = (kind, number) => kind === "cpu" ? "CPU " + number : run[kind + "s"][number].name;

// A row in words, as it is told to those who don't see it.
function rowTitle(row) {
  const name = row.name ?? (row.kind === "cpu" || row.kind === "track" ? "" : row.kind + " ") + nameOf(row.kind, row.number);
  const state = row.folded === undefined || row.kind === "section" && !row.key ? [] : [row.folded ? "folded" : "unfolded"];
  return [name, ...boundWordsOf(row), ...state].join(", ");
}

const boundWordsOf = (row) => row.kind === "task" ? boundWords(run.tasks[row.number]) : [];

function drawRow(row, index) {
  const y = Math.round((AXIS + row.y - view.scroll) * ratio), tall = Math.round(row.high * ratio);
  const pad = Math.round((row.high > 12 ? 3 : 1) * ratio);
  if (index === view.row && document.activeElement === element("canvas")) fill(0, pixelsWide, y, y + tall, palette.band);
  if (row.kind === "section") {
    fill(0, pixelsWide, y + tall - 1, y + tall, palette.line);
    if (row.folded && row.key === "cpus") drawAllProcessors(y + pad, tall - 3 * pad);
  }
  else if (row.kind === "cpu") drawProcessor(row.number, y + pad, tall - 2 * pad);
  else if (row.kind === "track") drawTrack(run.tracks[row.number], y + pad, tall - 2 * pad);
  else if (row.kind === "task") drawTask(row.number, y + pad, tall - 2 * pad);
  else {
    const strip = row.folded ? Math.round(tall * 0.58) : tall - 2 * pad;
    if (run.groups.length > 1) drawShare(row.number, y + pad, strip);
    if (row.folded) drawGroupSum(row.number, y + strip + 2 * pad, tall - strip - 3 * pad);
  }
}

function box(x, y, wide, high, colour) {
  context.fillStyle = colour;
  context.fillRect(x, y, wide, high);
}

function frame(x, y, wide, high, colour) {
  Object.assign(context, { strokeStyle: colour, lineWidth: 2 });
  context.strokeRect(x, y, wide, high);
}

// Words in the chart, at the middle of a line. If they don't fit, the middle of them is left out.
function write(words, x, y, colour, size = 12, weight = 400, room = undefined) {
  const font = weight + " " + size + "px system-ui, sans-serif";
  context.font = font;
  context.fillStyle = colour;
  context.fillText(room === undefined ? words : fitting(words, room, font), x, y);
}

const fitted = new Map();

function fitting(words, room, font) {
  const key = font + Math.floor(room) + words, fits = (text) => context.measureText(text).width <= room;
  if (fitted.size > 5000) fitted.clear();
  if (!fitted.has(key)) fitted.set(key, fits(words) ? words : shortened(words, fits));
  return fitted.get(key);
}

// The longest text that fits, with the last letters of the words, as names often differ there.
function shortened(words, fits) {
  const letters = [...words], end = letters.slice(-Math.min(3, letters.length >> 2)).join("");
  let count = letters.length - 4;
  while (count > 1 && !fits(letters.slice(0, count).join("") + "…" + end)) count--;
  return letters.slice(0, Math.max(1, count)).join("") + "…" + end;
}

const foldMark = (row) => row.folded ? "▸ " : "▾ ";
const indent = (row) => 6 + 10 * row.depth;

// The words beside a row, by its kind.
const NAMES = {
  section(row, y) {
    const { ink, faint, wrongInk } = palette.names, all = run.duration * run.processors;
    write((row.key ? foldMark(row) : "") + row.name, 6, y + 13, ink, 12, 600, left() - 10);
    if (!row.folded || row.key !== "cpus") return;
    const idle = run.idle.reduce((sum, one) => sum + one, 0) / all;
    write("busy " + percent(run.ranBefore[run.count] / all), 18, y + 29, faint, 11, 400, left() - 22);
    if (idle > 0) write("idle, a task waits " + percent(idle), 18, y + 44, wrongInk, 11, 400, left() - 22);
  },
  cpu({ number, high }, y) {
    const { ink, wrongInk } = palette.names, idle = run.idle[number], told = high >= 28 && idle > 0, isThin = high < 12;
    if (!isThin || number % 4 === 0) write("CPU " + number, 12, y + high / 2 - (told ? 6 : 0), ink, isThin ? 10 : 12);
    if (told) write((view.wide ? "idle, a task waits: " : "idle: ") + timeText(idle), 12, y + high / 2 + 8, wrongInk, 11, 400, left() - 16);
  },
  track({ number, high }, y) {
    const { ink, faint } = palette.names, { name, most } = run.tracks[number];
    write(name, 12, y + high / 2 - 6, ink, 12, 400, left() - 16);
    write("at most " + +most.toFixed(1), 12, y + high / 2 + 7, faint, 11, 400, left() - 16);
  },
  group(row, y) {
    const group = run.groups[row.number], { ink, faint, wrongInk } = palette.names, x = indent(row), room = left() - 10 - x;
    write(foldMark(row) + group.name, x, y + 11, ink, 12, 600, room);
    const isShort = group.due - group.share > 0.05 && !group.isCapped;
    const words = view.wide ? percent(group.share) + " of " + percent(group.due) + (group.isCapped ? ", quota" : " due")
      : Math.round(100 * group.share) + "% of " + Math.round(100 * group.due) + "%";
    if (run.groups.length > 1) write(words, x, y + 25, isShort ? wrongInk : faint, 11, 400, room);
    if (row.folded) write(group.all + (group.all === 1 ? " task" : " tasks"), x, y + 40, faint, 11, 400, room);
  },
  task(row, y) {
    const { number, high } = row, size = Math.min(16, high - 4), colour = colourOf(number), x = indent(row);
    const name = letters(number), wide = Math.max(size, 8 * name.length + 6), next = x + wide + 5;
    box(x, y + (high - size) / 2, wide, size, hexOf(palette.edges[colour]));
    box(x + 1, y + (high - size) / 2 + 1, wide - 2, size - 2, palette.names.tasks[colour]);
    write(name, x + 4, y + high / 2, palette.taskInk[colour], 10, 600);
    const { ink, faint } = palette.names, { name: words, cpus } = run.tasks[number], told = high >= 28 && cpus, room = left() - 10 - next;
    write(words, next, y + high / 2 - (told ? 6 : 0), isFaint(number) ? faint : ink, 12, 400, room);
    if (told) write(cpusText(cpus), next, y + high / 2 + 8, faint, 11, 400, room);
  },
};

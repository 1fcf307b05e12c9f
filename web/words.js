// Draws the words, lines and frames of the chart.
function draw() {
  const bottom = view.scroll + pixelsHigh / ratio - AXIS, sight = [];
  view.rows.forEach((row, index) => { if (row.y + row.high > view.scroll && row.y < bottom) sight.push([index, row]); });
  pixels.fill(palette.paper);
  view.labels = [];
  view.windows = null;
  const ejected = plotLeft() + Math.max(0, Math.round(toPixel(run.ended.at ?? Infinity)));
  fill(ejected, pixelsWide, 0, pixelsHigh, mixed(palette.paper, palette.wrong, 0.07));
  for (const [index, row] of sight) drawRow(row, index);
  context.putImageData(image, 0, 0);
  drawWords(left(), pixelsWide / ratio, pixelsHigh / ratio, sight);
}

function inside(x, y, wide, high, act) {
  context.save();
  context.beginPath();
  context.rect(x, y, wide, high);
  context.clip();
  act();
  context.restore();
}

function drawWords(offset, wide, high, sight) {
  context.setTransform(ratio, 0, 0, ratio, 0, 0);
  context.textBaseline = "middle";
  inside(offset, AXIS, wide - offset, high, () => {
    context.textAlign = "center";
    for (const [x, y, words, colour] of view.labels) write(words, x / ratio, y / ratio, colour, 11, 600);
    context.textAlign = "left";
    for (const [, row] of sight) drawFrames(row, offset);
    for (const [, row] of sight) if (row.kind === "group") drawChanges(row, offset);
    drawChosen(offset);
    drawRange(offset, high);
  });
  inside(0, AXIS, offset - 2, high, () => { for (const [, row] of sight) NAMES[row.kind](row, AXIS + row.y - view.scroll); });
  drawAxis(offset, wide);
  drawRangeAtAxis(offset, wide);
  drawCursor(offset, wide, high);
  drawEjection(offset, wide, high);
}

const roundStep = (least) => [1, 2, 5, 10].map((step) => step * 10 ** Math.floor(Math.log10(least))).find((step) => step >= least);
const percent = (share) => (100 * share).toFixed(1) + "%";
const timeText = (ms) => ms >= 10000 ? +(ms / 1000).toFixed(3) + " s" : +ms.toFixed(3) + " ms";
const momentText = (time) => timeText(run.begin + time);

// A moment at the axis, by the milliseconds from one to the next.
function tickText(time, step) {
  const moment = run.begin + time, digits = Math.max(0, 3 - Math.floor(Math.log10(step)));
  return run.begin + view.until > 5000 && step >= 10 ? +(moment / 1000).toFixed(digits) + " s" : moment + " ms";
}

function drawAxis(offset, wide) {
  const { line, faint, ink } = palette.names, step = Math.max(1, roundStep((view.until - view.from) / (wide - offset) * 80));
  box(0, 0, wide, AXIS, palette.names.paper);
  const struck = isEjectionShown() ? ejectionAt(offset) : -1;  // the line of an ejection crosses the numbers there
  for (let time = Math.ceil((run.begin + view.from) / step) * step - run.begin; time <= view.until; time += step) {
    const x = Math.round(offset + toPixel(time) / ratio), words = tickText(time, step), end = x + 3 + 7 * words.length;
    box(x, AXIS - 7, 1, 7, faint);
    if (end < wide + 3 && !(x + 2 < struck && struck < end + 2)) write(words, x + 3, AXIS - 12, faint, 11);
  }
  box(0, AXIS - 1, wide, 1, line);
  write("Time", 6, AXIS - 12, ink, 11, 600);
}

function endedWords() {
  const { how, at, task, code } = run.ended;
  if (at === undefined) return "in force to the end";
  const why = { stall: () => "stall of " + run.tasks[task].name, fault: () => "fault " + code + " (" + FAULTS[code] + ")",
    exit: () => "exit " + code };
  return "ejected at " + momentText(at) + ": " + why[how]();
}

const ejectionAt = (offset) => Math.round(offset + toPixel(run.ended.at ?? -1) / ratio);

function drawEjection(offset, wide, high) {
  const x = ejectionAt(offset);
  if (!isEjectionShown() || x < offset || x > wide) return;
  const words = endedWords(), room = 7 * words.length + 6, at = Math.max(0, x + room > wide ? x - room : x);
  box(x - 1, 0, 2, high, palette.names.wrong);
  box(at, 0, room, 16, palette.names.wrongInk);
  write(words, at + 5, 8.5, palette.dark ? "#101418" : "#ffffff", 11, 600);
}

const lengthOfWait = (wait) => (wait.isCut ? "at least " : "") + timeText(wait.length);

// The long waits of a task have frames, and the longest one of a folded group.
function drawFrames(row, offset) {
  if (row.kind === "task") for (const wait of run.framed.get(row.number) ?? []) drawLongWait(wait, row, offset);
  const wait = row.kind === "group" && row.folded && run.framedOfGroup.get(row.number);
  if (wait) drawLongWait(wait, row, offset, run.tasks[wait.task].name + " ");
}

function drawLongWait(wait, row, offset, name = "") {
  const { from, until } = wait;
  if (until <= view.from || from >= view.until) return;
  const x0 = Math.max(offset - 4, offset + toPixel(from) / ratio), x1 = offset + toPixel(until) / ratio;
  const { wrong, wrongInk, paper } = palette.names;
  const y = AXIS + row.y - view.scroll, top = name ? y + row.high * 0.84 : y + 3 + (row.high - 6) * 0.6;
  const words = name + "waited " + lengthOfWait(wait) + (run.begin + until === run.ms ? ", to the end" : "");
  frame(x0 + 0.5, top - 0.5, x1 - x0 - 1, y + row.high - 2.5 - top, wrong);
  const x = Math.max(x0, offset) + 4, at = name ? top - 9 : y + 3 + (row.high - 6) * 0.3;
  if (x1 - x < 7 * words.length || row.high < 18) return;
  if (name) box(x - 2, at - 7, 6.4 * words.length + 4, 14, paper);
  write(words, x, row.high < 24 ? y + 5 : at, wrongInk, row.high < 24 ? 9 : 11, 600);
}

// The changes of a group's weight. Where two are so close that their words would overlap, the first has words.
function drawChanges(row, offset) {
  let end = -Infinity;
  for (const [at, g, weight] of run.changes) {
    const x = offset + toPixel(at) / ratio, y = AXIS + row.y - view.scroll, words = "weight " + weight;
    if (g !== row.number || at < 0) continue;
    box(x, y + 2, 1, 28, palette.names.ink);
    if (x < end) continue;
    context.font = "400 10px system-ui, sans-serif";
    const room = context.measureText(words).width;
    box(x + 1, y + 2, room + 4, 12, palette.names.paper);
    write(words, x + 3, y + 8, palette.names.ink, 10);
    end = x + 8 + room;
  }
}

function drawChosen(offset) {
  const chosen = view.chosen, row = chosen && view.rows[rowOf(chosen.kind, chosen.number)];
  if (!row) return;
  const x0 = offset + toPixel(chosen.from) / ratio, x1 = Math.max(x0 + 3, offset + toPixel(chosen.until) / ratio);
  frame(x0, AXIS + row.y - view.scroll + 1, x1 - x0, row.high - 2, palette.names.ink);
}

// A dragged range: its ground and its ends.
function drawRange(offset, high) {
  if (!view.range) return;
  const [x0, x1] = view.range.map((time) => offset + toPixel(time) / ratio), { link } = palette.names;
  context.globalAlpha = 0.16;
  box(x0, AXIS, x1 - x0, high, link);
  context.globalAlpha = 1;
  for (const x of [x0, x1]) box(x - 1, AXIS, 2, high, link);
}

function drawRangeAtAxis(offset, wide) {
  if (!view.range) return;
  const [from, until] = view.range, [x0, x1] = view.range.map((time) => clamp(offset + toPixel(time) / ratio, offset, wide));
  box(x0, AXIS - 4, x1 - x0, 4, palette.names.link);
  drawTag(timeText(until - from), (x0 + x1) / 2, offset, wide, palette.names.link);
}

// The moment of the mouse: a line through all rows, and its words at the axis.
function drawCursor(offset, wide, high) {
  if (view.cursor === null || view.cursor < view.from || view.cursor > view.until) return;
  const x = Math.round(offset + toPixel(view.cursor) / ratio);
  box(x, AXIS - 1, 1, high, palette.names.faint);
  drawTag(momentText(Math.floor(view.cursor)), x, offset, wide, palette.names.ink);
}

function drawTag(words, middle, offset, wide, colour) {
  context.font = "600 11px system-ui, sans-serif";
  const room = context.measureText(words).width + 8, x = clamp(middle - room / 2, offset, wide - room);
  box(x, AXIS - 20, room, 16, colour);
  write(words, x + 4, AXIS - 12, palette.names.paper, 11, 600);
}

let waiting = false;
function redraw() {
  if (!waiting) requestAnimationFrame(() => { waiting = false; draw(); });
  waiting = true;
}

function resize() {
  const canvas = element("canvas"), { clientWidth, clientHeight, scrollTop } = element("scroller");
  fitted.clear();
  ratio = clamp(window.devicePixelRatio || 1, 1, 2);
  view.wide = clientWidth >= 620;
  [pixelsWide, pixelsHigh] = [Math.max(200, Math.round(clientWidth * ratio)), Math.max(120, Math.round(clientHeight * ratio))];
  Object.assign(canvas, { width: pixelsWide, height: pixelsHigh });
  Object.assign(canvas.style, { width: pixelsWide / ratio + "px", height: pixelsHigh / ratio + "px" });
  context = canvas.getContext("2d", { alpha: false, willReadFrequently: true });
  image = context.createImageData(pixelsWide, pixelsHigh);
  pixels = new Uint32Array(image.data.buffer);
  [high, low] = [makeBand(), makeBand()];
  makeRows();
  view.scroll = scrollTop;
  drawOverview();
  placeSight();
  redraw();
}

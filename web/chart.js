// Draws rows of the chart, pixel by pixel.
const view = { from: 0, until: 1, scroll: 0, rows: [], folded: new Set(), row: 0, next: 0, labels: [],
  chosen: null, cursor: null, range: null };
let run, palette, context, image, pixels, pixelsWide, pixelsHigh, ratio, high, low;
const AXIS = 34;
const left = () => view.wide ? 156 : 96;
const plotLeft = () => Math.round(left() * ratio);
const plotWidth = () => pixelsWide - plotLeft();
const perPixel = () => (view.until - view.from) / plotWidth();
const toPixel = (time) => (time - view.from) / (view.until - view.from) * plotWidth();
const letters = (number) => (number >= 26 ? letters(Math.floor(number / 26) - 1) : "") + String.fromCharCode(65 + number % 26);
const kindOf = (i) => run.cpu[i] === SEVERAL ? 3 : run.cpu[i] !== NOWHERE ? 0 : run.queue[i] === PARKED ? 2 : 1;
const isByTask = () => run.tasks.length <= 6 || run.groups.filter((group) => group.tasks.length).length === 1;
const isFaint = (task) => view.chosen !== null && view.chosen.task !== task;
const colourOf = (task) => (run.isByTask ? task : run.groups[run.tasks[task].group].leaf) % 6;

function fill(x0, x1, y0, y1, colour) {
  const low = Math.max(0, y0), high = Math.min(pixelsHigh, y1), start = Math.max(0, x0), end = Math.min(pixelsWide, x1);
  if (end > start) for (let y = low; y < high; y++) pixels.fill(colour, y * pixelsWide + start, y * pixelsWide + end);
}

function makeBand() {
  const grain = Math.max(1, Math.round(ratio)), columns = Uint8Array.from({ length: pixelsWide }, (_, x) => Math.floor(x / grain) % TILE);
  const [paper, edge, ink] = [0, 1, 2].map(() => new Uint32Array(pixelsWide));
  return { grain, columns, paper, edge, ink, tile: new Uint8Array(pixelsWide), tiled: new Uint16Array(pixelsWide) };
}

// A band of a row is made once, as one line of pixels, with a pattern's tile and ink where it has one. Its first and last
// line have outlines.
function clearBands() {
  for (const band of [high, low]) {
    band.hasTiles = band.hasEdges = false;
    for (const pixels of [band.paper, band.edge, band.tile]) pixels.fill(0);
  }
}

function putBand(band, y, high) {
  const { paper, edge } = band, low = Math.max(0, y), end = Math.min(pixelsHigh, y + high), wide = pixelsWide;
  if (low >= end) return;
  for (let x = 0; x < wide; x++) if (paper[x] !== 0) pixels[low * wide + x] = paper[x];
  for (let at = low + 1; at < end; at++) pixels.copyWithin(at * wide, low * wide, (low + 1) * wide);
  if (band.hasTiles) putTiles(band, low, end);
  if (!band.hasEdges) return;
  for (const at of [y, y + high - 1]) {
    if (at < low || at >= end) continue;
    for (let x = 0; x < wide; x++) if (edge[x] !== 0) pixels[at * wide + x] = edge[x];
  }
}

function putTiles({ tile, ink, grain, columns, tiled }, low, end) {
  let count = 0;
  for (let x = 0; x < pixelsWide; x++) if (tile[x] !== 0) tiled[count++] = x;
  for (let at = low; at < end; at++) {
    const start = at * pixelsWide, line = Math.floor(at / grain) % TILE * TILE;
    for (let k = 0; k < count; k++) {
      const x = tiled[k];
      if (TILES[tile[x]][line + columns[x]] !== 0) pixels[start + x] = ink[x];
    }
  }
}

// The upper part of a row is for runs, the lower one for waits.
const runPart = (tall) => Math.round(tall * 0.6);

function putBands(y, tall) {
  putBand(high, y, runPart(tall));
  putBand(low, y + runPart(tall), tall - runPart(tall));
}

function hatch(band, x, share, shades) {
  band.hasTiles = true;
  band.tile[x] = WRONG_TILE;
  band.ink[x] = shades[clamp(Math.round(share * SHADES), 6, SHADES)];
}

function shade(band, x, shades, share) {
  if (share > 0) band.paper[x] = shades[clamp(Math.round(share * SHADES), 1, SHADES)];
}

// Hatches an idle time, from x0 to x1, for the part of it in which a task waited, and where none did, in which one was parked.
function drawIdle(waits, since, x0, x1, offset) {
  const hatchFor = (timeUntil, shades) => hatchIdle((time) => timeUntil(waits, time), shades, since, x0, x1, offset);
  if (run.idleByQuota > 0) hatchFor(quotaUntil, palette.parkedShades);
  hatchFor(waitedUntil, palette.wrongShades);
}

function hatchIdle(timeUntil, shades, since, x0, x1, offset) {
  const step = perPixel();
  for (let x = x0, before = timeUntil(Math.max(since, view.from + x0 * step)); x < x1; x++) {
    const until = timeUntil(Math.min(run.duration, view.from + (x + 1) * step));
    if (until - before > 0.001 * step) hatch(high, offset + x, (until - before) / step, shades);
    before = until;
  }
}

// Hatches a column of which a CPU was idle for such a part, as drawIdle does.
function hatchColumn(waits, x, from, until, part) {
  const step = perPixel(), waited = waitedUntil(waits, until) - waitedUntil(waits, from);
  const parked = run.idleByQuota > 0 ? quotaUntil(waits, until) - quotaUntil(waits, from) : 0;
  if (waited > 0) hatch(high, x, Math.min(part, waited / step), palette.wrongShades);
  else if (parked > 0) hatch(high, x, Math.min(part, parked / step), palette.parkedShades);
}

function drawProcessor(cpu, y, tall) {
  const { cpuFrom, cpuLength, cpuTask, cpuBefore } = run, last = run.cpuStart[cpu + 1];
  const offset = plotLeft(), width = plotWidth(), step = perPixel();
  clearBands();
  let i = firstAfter(cpuFrom, cpuLength, run.cpuStart[cpu], last, view.from), x = 0;
  while (x < width) {
    const start = i < last ? (cpuFrom[i] - view.from) / step : width;
    const end = i < last ? (cpuFrom[i] + cpuLength[i] - view.from) / step : width;
    if (start >= x + 1) {
      const until = Math.min(width, Math.floor(start));
      drawIdle(run.waitsOn[cpu], i > run.cpuStart[cpu] ? cpuFrom[i - 1] + cpuLength[i - 1] : 0, x, until, offset);
      x = until;
    } else if (end - start >= 2) {
      const to = Math.min(width, Math.max(x + 1, Math.round(end)));
      drawBar(offset + Math.max(x, Math.round(start)), offset + to, y, tall, cpuTask[i]);
      x = to; i++;
    } else {
      const begin = view.from + x * step, time = Math.min(run.duration, begin + step), next = nextAfter(cpuFrom, cpuLength, i, last, time);
      const after = cpuBefore[next] + (next < last ? Math.max(0, time - cpuFrom[next]) : 0);
      const share = (after - cpuBefore[i] - Math.max(0, begin - cpuFrom[i])) / step;
      shade(high, offset + x, ownShades(i, next, last), share);
      if (share < 0.9) hatchColumn(run.waitsOn[cpu], offset + x, begin, time, 1 - share);
      x++; i = next;
    }
  }
  putBand(high, y, tall);
}

// The shades of a cell: those of the chosen task if it ran there, of the one that ran for longest if there are few, else
// those of several.
function ownShades(i, next, last) {
  if (view.chosen) return chosenShades(i, next, last);
  if (next - i > 2) return palette.severalShades;
  let best = i;
  for (let k = i; k <= next && k < last; k++) if (run.cpuLength[k] > run.cpuLength[best]) best = k;
  return palette.tasks[colourOf(run.cpuTask[best])];
}

function chosenShades(i, next, last) {
  const { task } = view.chosen;
  for (let k = i; k <= next && k < last; k++) if (run.cpuTask[k] === task) return palette.tasks[colourOf(task)];
  return palette.faintShades;
}

function drawBar(x0, x1, y, tall, task) {
  const colour = colourOf(task), gap = x1 - x0 >= 4 ? high.grain : 0, words = letters(task), faint = isFaint(task), end = x1 - gap;
  const ink = faint ? palette.faintFills[colour] : palette.edges[colour];
  high.paper.fill(ink, x0, end);
  high.edge.fill(ink, x0, end);
  high.hasEdges = true;
  if (end - x0 > 2 * high.grain) high.paper.fill((faint ? palette.faintFills : palette.fills)[colour], x0 + high.grain, end - high.grain);
  if (tall < 11 * ratio || (words.length * 8 + 6) * ratio > x1 - x0) return;
  view.labels.push([(x0 + end) / 2, y + tall / 2, words, faint ? palette.names.faint : palette.taskInk[colour]]);
}

// A task's row: high where it runs, low where it waits, nothing where it sleeps.
function drawTask(task, y, tall) {
  const { from, length, cpu, queue } = run, last = run.taskStart[task + 1], runTall = runPart(tall);
  const offset = plotLeft(), width = plotWidth(), step = perPixel();
  const shades = (isFaint(task) ? palette.faintTasks : palette.tasks)[colourOf(task)];
  clearBands();
  const first = firstAfter(from, length, run.taskStart[task], last, view.from);
  let i = first, x = 0;
  while (x < width && i < last) {
    const start = (from[i] - view.from) / step, end = (from[i] + length[i] - view.from) / step;
    if (start >= x + 1) { x = Math.min(width, Math.floor(start)); continue; }
    if (end - start >= 2) {
      const x0 = offset + Math.max(x, Math.round(start)), x1 = offset + Math.min(width, Math.max(x + 1, Math.round(end)));
      if (cpu[i] === SEVERAL) drawPiece(x0, x1, shades, i);
      else if (cpu[i] !== NOWHERE) drawBar(x0, x1, y, runTall, task);
      else drawWait(x0, x1, queue[i]);
      x = x1 - offset; i++;
    } else {
      const time = Math.min(run.duration, view.from + (x + 1) * step), next = nextAfter(from, length, i, last, time);
      const begin = Math.max(0, view.from + x * step - from[i]), rest = next < last ? Math.max(0, time - from[next]) : 0;
      taskCell(offset + x, shades, { i, next, last, begin, rest, step });
      x++; i = next;
    }
  }
  putBands(y, tall);
  drawWakes(run.wakesBefore[first], run.wakesBefore[i], y + tall);
}

// Draws the wakes of a row, if there is room for all of them.
function drawWakes(first, last, y) {
  if ((last - first) * 12 * ratio > plotWidth()) return;
  for (let k = first; k < last; k++) if (run.wakeTimes[k] >= view.from) drawWake(plotLeft() + Math.round(toPixel(run.wakeTimes[k])), y);
}

function taskCell(x, shades, { i, next, last, begin, rest, step }) {
  const { length } = run, then = (before) => next < last ? partOf(length, before, next, rest) : 0;
  const part = (before) => (before[next] - before[i] - partOf(length, before, i, begin) + then(before)) / step;
  shadeTimes(x, shades, part);
}

function shadeTimes(x, shades, part) {
  shade(high, x, shades, part(run.ranBefore));
  shade(low, x, palette.waitShades, part(run.waitedBefore));
  shade(low, x, palette.parkedShades, part(run.parkedBefore));
}

// A piece has the same shades all over.
function drawPiece(x0, x1, shades, i) {
  for (let x = x0; x < x1; x++) shadeTimes(x, shades, (before) => partOf(run.length, before, i, 1));
}

function drawWait(x0, x1, queue) {
  const parked = queue === PARKED;
  low.hasTiles = true;
  low.paper.fill(parked ? palette.parkedPaper : palette.waitPaper, x0, x1);
  low.tile.fill(tileOf(queue), x0, x1);
  low.ink.fill(parked ? palette.parked : palette.wait, x0, x1);
}

function drawWake(x, y) {
  const size = Math.round(6 * ratio);
  for (let k = 0; k < size; k++) fill(x - (k >> 1), x + (k >> 1) + 1, y - size + k + 2, y - size + k + 3, palette.ink);
}

// The window around a moment over which shares are taken: not over a change of weights.
function shareWindow(middle, next = run.changes.findIndex(([at]) => at > middle)) {
  const after = run.changes[next]?.[0] ?? Infinity, before = (next < 0 ? run.changes.at(-1) : run.changes[next - 1])?.[0] ?? 0;
  return [Math.max(0, before, middle - view.window / 2), Math.min(run.duration, after, middle + view.window / 2)];
}

// The windows of all pixels, as places in the sums, and the time of CPUs in them.
function makeWindows() {
  const width = plotWidth(), { sums, changes } = run, [first, last] = [0, 1].map(() => new Uint32Array(width));
  const [firstPart, lastPart, busy] = [0, 1, 2].map(() => new Float64Array(width)), windows = { first, firstPart, last, lastPart, busy };
  for (let x = 0, next = 0; x < width; x++) {
    const middle = view.from + (x + 0.5) * perPixel();
    while (next < changes.length && changes[next][0] <= middle) next++;
    const [low, high] = shareWindow(middle, next < changes.length ? next : -1), from = low / sums.cell, until = high / sums.cell;
    first[x] = Math.min(from, sums.cells - 1);
    last[x] = Math.min(until, sums.cells - 1);
    firstPart[x] = Math.min(from, sums.cells) - first[x];
    lastPart[x] = Math.min(until, sums.cells) - last[x];
    busy[x] = inWindow(windows, x, sums.busy, 0);
  }
  return windows;
}

function inWindow({ first, firstPart, last, lastPart }, x, values, start) {
  const low = start + first[x], high = start + last[x];
  return values[high] + lastPart[x] * (values[high + 1] - values[high]) - (values[low] + firstPart[x] * (values[low + 1] - values[low]));
}

// The share of a group in a window, what was due to it, and whether its quota was used up.
function shareIn(g, from, until, busy = within(run.sums, run.sums.busy, 0, from, until) || 1) {
  const { sums } = run, start = g * sums.row;
  return { share: within(sums, sums.ran, start, from, until) / busy, due: within(sums, sums.due, start, from, until) / busy,
    isCapped: within(sums, sums.parked, start, from, until) > 0 };
}

// A group's strip: its share of all that ran, filled; what is due to it, a line; what it lacks, hatched, in another colour
// if its quota was used up.
function drawShare(g, y, tall) {
  const { sums } = run, windows = view.windows ??= makeWindows(), start = g * sums.row, end = y + tall;
  const offset = plotLeft(), width = plotWidth(), thick = high.grain, colour = colourOf(run.groups[g].first);
  for (let x = 0, before = -1; x < width; x++) {
    const busy = windows.busy[x];
    if (busy <= 0) { before = -1; continue; }
    const share = inWindow(windows, x, sums.ran, start) / busy, due = inWindow(windows, x, sums.due, start) / busy;
    const top = end - Math.round(Math.min(1, share / view.top) * tall);
    const line = end - thick - Math.round(Math.min(1, due / view.top) * (tall - thick));
    const isShort = (due - share) / view.top > 0.03, isCapped = isShort && inWindow(windows, x, sums.parked, start) > 0;
    const lack = isShort ? palette[isCapped ? "parkedShades" : "wrongShades"][26] : 0;
    drawShareColumn(offset + x, end, top, line, before < 0 ? line : before, lack, colour);
    before = line;
    drawCap(run.groups[g], x, busy, end, tall);
  }
  fill(offset, offset + width, end, end + thick, palette.line);
}

// What a group's quota allows on average, a dashed line, where that is less than the strip's top.
function drawCap({ quota, period }, x, busy, end, tall) {
  if (quota === undefined) return;
  const { first, firstPart, last, lastPart } = view.windows, thick = high.grain;
  const time = (last[x] + lastPart[x] - first[x] - firstPart[x]) * run.sums.cell, cap = quota / period * time / busy / view.top;
  const y = end - thick - Math.round(cap * (tall - thick)), at = plotLeft() + x;
  if (cap < 1 && x % (8 * thick) < 5 * thick) fill(at, at + 1, y, y + thick, palette.parked);
}

function drawShareColumn(x, end, top, line, before, lack, colour) {
  const thick = high.grain, tile = TILES[WRONG_TILE], first = Math.min(before, line), last = Math.max(before, line) + thick;
  for (let at = Math.max(0, Math.min(top, first)); at < Math.min(pixelsHigh, end); at++) {
    const place = at * pixelsWide + x;
    if (at >= first && at < last) pixels[place] = palette.ink;
    else if (at >= top) pixels[place] = at < top + thick ? palette.edges[colour] : palette.tints[colour];
    else if (lack && at > line && tile[Math.floor(at / thick) % TILE * TILE + high.columns[x]]) pixels[place] = lack;
  }
}

// All CPUs, where they are folded, as an area: those that ran, one upon the other by group, and hatched above them those that
// were idle while a task waited that may run there, or while a quota was used up. The others were idle.
function drawAllProcessors(y, tall) {
  const { sums, groups, lost } = run, leaves = [...groups.keys()].filter((g) => groups[g].tasks.length > 0);
  const layers = leaves.map((g) => layerOf((time) => gridUntil(sums, sums.ran, g * sums.row, time), ...coloursOfGroup(g, leaves)));
  layers.push(layerOf((time) => waitedUntil(lost, time), palette.wrong, palette.wrong, true));
  if (run.idleByQuota > 0) layers.push(layerOf((time) => quotaUntil(lost, time), palette.parked, palette.parked, true));
  for (let x = 0; x < plotWidth(); x++) drawLayers(layers, x, y, tall);
}

const layerOf = (until, colour, edge, isHatched = false) => ({ until, colour, edge, isHatched, before: until(view.from) });

function coloursOfGroup(g, leaves) {
  const colour = colourOf(run.groups[g].tasks[0]);
  return leaves.length > 1 ? [palette.fills[colour], palette.edges[colour]] : [palette.several, palette.several];
}

// A pixel of an area: each layer is as high as the time that it adds. One with a pattern is seen wherever it has some.
function drawLayers(layers, x, y, tall) {
  const step = perPixel(), time = Math.min(run.duration, view.from + (x + 1) * step), scale = tall / step / run.processors;
  let sum = 0, bottom = y + tall;
  for (const layer of layers) {
    const now = layer.until(time), added = now - layer.before;
    sum += added;
    layer.before = now;
    let top = Math.max(y, y + tall - Math.round(sum * scale));
    if (layer.isHatched && added > 0.001 * step) top = Math.max(y, Math.min(top, bottom - high.grain));
    if (top < bottom) drawLayer(layer, plotLeft() + x, top, bottom);
    bottom = Math.min(bottom, top);
  }
}

function drawLayer({ colour, edge, isHatched }, x, top, bottom) {
  const tile = TILES[WRONG_TILE], { grain, columns } = high, hasEdge = bottom - top >= 3 * grain;
  for (let at = Math.max(0, top); at < Math.min(pixelsHigh, bottom); at++) {
    if (isHatched && !tile[Math.floor(at / grain) % TILE * TILE + columns[x]]) continue;
    pixels[at * pixelsWide + x] = hasEdge && at < top + grain ? edge : colour;
  }
}

// A folded group: the part of the time that its tasks could use in which they ran, and of its tasks' time in which they waited.
function drawGroupSum(g, y, tall) {
  const { sums } = run, start = g * sums.row, offset = plotLeft(), width = plotWidth(), step = perPixel();
  const { all, first } = run.groups[g], most = Math.min(all, run.processors), shades = palette.tasks[colourOf(first)];
  let ran = gridUntil(sums, sums.ran, start, view.from), waited = gridUntil(sums, sums.waited, start, view.from);
  clearBands();
  for (let x = 0; x < width; x++) {
    const time = Math.min(run.duration, view.from + (x + 1) * step);
    const ranNow = gridUntil(sums, sums.ran, start, time), waitedNow = gridUntil(sums, sums.waited, start, time);
    shade(high, offset + x, shades, (ranNow - ran) / step / most);
    shade(low, offset + x, palette.waitShades, (waitedNow - waited) / step / all);
    ran = ranNow; waited = waitedNow;
  }
  putBands(y, tall);
}

// A queue's track: the number of tasks in it, on average over a pixel; its full height is the most that it had.
function drawTrack(track, y, tall) {
  const offset = plotLeft(), width = plotWidth(), step = perPixel();
  for (let x = 0; x < width; x++) {
    const from = view.from + x * step, length = lengthOfTrack(track, from, Math.min(run.duration, from + step)) / step;
    if (length <= 0) continue;
    const top = y + tall - Math.max(high.grain, Math.round(Math.min(1, length / track.most) * tall));
    fill(offset + x, offset + x + 1, top, y + tall, palette.waitPaper);
    fill(offset + x, offset + x + 1, top, top + high.grain, palette.wait);
  }
  fill(offset, offset + width, y + tall, y + tall + high.grain, palette.line);
}

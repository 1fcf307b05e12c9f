// Mouse, touch and keys.
function place(event) {
  const box = element("canvas").getBoundingClientRect(), x = event.clientX - box.left, y = event.clientY - box.top;
  const share = (x - left()) / (box.width - left()), at = y - AXIS + view.scroll;
  const index = y < AXIS ? -1 : view.rows.findIndex((row) => at >= row.y && at < row.y + row.high);
  return { x, y, share, time: view.from + share * (view.until - view.from), index };
}

function hover(event) {
  const { share, time, index } = place(event), row = view.rows[index];
  view.cursor = share >= 0 ? time : null;
  redraw();
  showTip(event, linesAt(row, share, time));
}

// What is told of a place: a stretch, else the row, and of a name that may be cut the whole name.
function linesAt(row, share, time) {
  if (!row) return null;
  if (share < 0) return row.kind === "section" ? null : [nameOf(row.kind, row.number), ...boundWordsOf(row)];
  const stretch = stretchAt(row, time);
  return stretch ? describe(stretch) : describePlace(row, time);
}

function showTip(event, lines) {
  const tip = element("tip");
  tip.hidden = !lines;
  if (!lines) return;
  tip.replaceChildren();
  lines.forEach((line, number) => node(number ? "div" : "b", line, tip));
  const room = document.documentElement.clientWidth - tip.offsetWidth - 8;
  tip.style.left = clamp(event.clientX + 14, 4, Math.max(4, room)) + "px";
  tip.style.top = (event.clientY + 20 + tip.offsetHeight > innerHeight ? event.clientY - tip.offsetHeight - 12 : event.clientY + 16) + "px";
}

function press({ share, time, index }) {
  if (index < 0) return;
  const row = view.rows[view.row = index];
  if (share < 0 || row.kind === "group") fold(row);
  else choose(stretchAt(row, time));
}

// A drag pans; one that begins at the axis, or with Shift, is a range. Two fingers zoom.
function listenToPointers() {
  const canvas = element("canvas"), fingers = new Map();
  let moved = 0, start = null;
  canvas.addEventListener("pointerdown", (event) => {
    const { y, share, time } = place(event);
    fingers.set(event.pointerId, event);
    moved = 0;
    start = (y < AXIS || event.shiftKey) && share >= 0 ? time : null;
    canvas.setPointerCapture(event.pointerId);
    canvas.focus({ preventScroll: true });
  });
  canvas.addEventListener("pointermove", (event) => {
    const before = fingers.get(event.pointerId);
    if (!before) return hover(event);
    leave();
    moved += Math.abs(event.clientX - before.clientX) + Math.abs(event.clientY - before.clientY);
    if (fingers.size === 2) pinch(fingers, event);
    else if (moved > 3 && start !== null) dragRange(start, place(event).time);
    else if (moved > 3) drag(before, event);
    fingers.set(event.pointerId, event);
  });
  const end = (event) => {
    if (!fingers.delete(event.pointerId) || event.type !== "pointerup" || moved > 3) return;
    if (start !== null) setRange(null); else press(place(event));
  };
  for (const name of ["pointerup", "pointercancel"]) canvas.addEventListener(name, end);
  canvas.addEventListener("pointerleave", leave);
  canvas.addEventListener("wheel", turnWheel, { passive: false });
}

function leave() {
  element("tip").hidden = true;
  view.cursor = null;
  redraw();
}

function drag(before, event) {
  pan((before.clientX - event.clientX) / (element("canvas").clientWidth - left()));
  element("scroller").scrollTop += before.clientY - event.clientY;
}

// A range has whole milliseconds, and at least one.
function dragRange(start, time) {
  const from = clamp(Math.floor(Math.min(start, time)), 0, run.duration - 1);
  setRange([from, clamp(Math.ceil(Math.max(start, time)), from + 1, run.duration)]);
}

function turnWheel(event) {
  const { share } = place(event);
  if (share < 0) return;
  event.preventDefault();
  if (event.shiftKey || Math.abs(event.deltaX) > Math.abs(event.deltaY)) pan((event.deltaX || event.deltaY) / 1000);
  else zoom(Math.exp(clamp(event.deltaY / 400, -1, 1)), share);
}

function pinch(fingers, event) {
  const [other] = [...fingers.values()].filter((one) => one.pointerId !== event.pointerId), before = fingers.get(event.pointerId);
  const was = Math.abs(before.clientX - other.clientX), now = Math.abs(event.clientX - other.clientX);
  if (was > 10 && now > 10) zoom(was / now, place({ clientX: (event.clientX + other.clientX) / 2, clientY: event.clientY }).share);
}

// Up and down choose a row, comma and period the previous and next stretch, Enter shows it. Those of ANYWHERE act wherever
// the focus is, except in the search field; the others in the chart, and before the focus is anywhere.
const ANYWHERE = {
  "+": () => zoom(0.6), "=": () => zoom(0.6), "-": () => zoom(1 / 0.6), 0: () => show(0, run.duration),
  ",": () => step(-1), ".": () => step(1), "/": () => { element("search").focus(); element("search").select(); }, n: () => findNext(1),
  p: () => findNext(-1), r: () => dragRange(Math.ceil(view.from), Math.floor(view.until)),
};
const KEYS = {
  ArrowLeft: () => pan(-0.15), ArrowRight: () => pan(0.15), ArrowUp: () => moveRow(-1), ArrowDown: () => moveRow(1),
  PageUp: () => moveRow(-12), PageDown: () => moveRow(12), Home: () => showFrom(0), End: () => showFrom(run.duration), Enter: enter,
};

function pressKey(event) {
  const isInField = event.target === element("search"), isInChart = [element("canvas"), document.body].includes(event.target);
  const keys = { ...isInField ? {} : ANYWHERE, ...isInChart ? KEYS : {}, Escape: () => goBack(isInChart) }, act = keys[event.key];
  if (!act || event.ctrlKey || event.metaKey || event.altKey) return;
  event.preventDefault();
  act();
}

// Back to the chart, then to no choice, then to no range.
function goBack(isInChart) {
  if (!isInChart) element("canvas").focus({ preventScroll: true });
  else if (view.chosen) choose(null);
  else setRange(null);
}

function enter() {
  const row = view.rows[view.row];
  if (row.kind === "group" || row.key) fold(row);
  else if (!view.chosen) step(1);
  else element("chosen").focus();
}

function moveRow(by) {
  view.row = clamp(view.row + by, 0, view.rows.length - 1);
  scrollTo(view.rows[view.row]);
  tell(rowTitle(view.rows[view.row]));
  redraw();
}

function step(by) {
  const row = view.rows[view.row], task = row.kind === "task";
  if (!task && row.kind !== "cpu") return;
  const [from, length, start] = task ? [run.from, run.length, run.taskStart] : [run.cpuFrom, run.cpuLength, run.cpuStart];
  const first = start[row.number], last = start[row.number + 1];
  const now = view.chosen?.kind === row.kind && view.chosen.number === row.number ? view.chosen : null;
  let i = firstAfter(from, length, first, last, now ? now.from : view.from) + (now ? by : 0);
  if (first === last) return;
  i = clamp(i, first, last - 1);
  choose(stretchAt(row, from[i]));
  const until = from[i] + length[i];
  if (from[i] < view.from || until > view.until) showFrom((from[i] + until - view.until + view.from) / 2);
}

function listen() {
  listenToPointers();
  listenToOverview();
  listenToSearch();
  document.addEventListener("keydown", pressKey);
  addEventListener("hashchange", followLink);
  for (const name of ["focus", "blur"]) element("canvas").addEventListener(name, redraw);
  element("scroller").addEventListener("scroll", () => { view.scroll = element("scroller").scrollTop; redraw(); });
  const ejection = () => show(run.ended.at - 20, run.ended.at + 20);
  const acts = { closer: ANYWHERE["+"], wider: ANYWHERE["-"], whole: ANYWHERE[0], worst: nextWorst, ejection, all: () => setRange(null) };
  for (const [id, act] of Object.entries(acts)) element(id).onclick = act;
  new ResizeObserver(resize).observe(element("scroller"));
  const dark = matchMedia("(prefers-color-scheme: dark)");
  dark.addEventListener("change", () => { palette = makePalette(dark.matches); makeLegend(); drawOverview(); redraw(); });
}

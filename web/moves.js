// Moves what is in sight.
function show(from, until) {
  const length = clamp(until - from, Math.min(run.duration, 4), run.duration);
  view.from = clamp(from + (until - from - length) / 2, 0, run.duration - length);
  view.until = view.from + length;
  element("whole").disabled = view.from === 0 && view.until === run.duration;
  placeSight();
  settleLater();
  redraw();
}

// The moment at that share of the width keeps its place.
function zoom(factor, share = 0.5) {
  const length = view.until - view.from, next = clamp(length * factor, Math.min(run.duration, 4), run.duration);
  const from = view.from + share * (length - next);
  show(from, from + next);
}

function showFrom(from) {
  const length = view.until - view.from, at = clamp(from, 0, run.duration - length);
  show(at, at + length);
}
const pan = (share) => showFrom(view.from + share * (view.until - view.from));

function scrollTo(row) {
  const box = element("scroller"), room = box.clientHeight - AXIS;
  if (row.y < box.scrollTop || row.y + row.high > box.scrollTop + room) box.scrollTop = row.y - room / 2;
  view.scroll = box.scrollTop;
}

// Goes to the row of a task, a group or a CPU, and to a window.
function goTo(kind, number, from, until) {
  if (kind === "cpu") view.folded.delete("cpus");
  const above = kind === "task" ? run.tasks[number].group : kind === "group" ? run.groups[number].parent : -1;
  for (let g = above; g >= 0; g = run.groups[g].parent) view.folded.delete(g);
  makeRows();
  view.row = rowOf(kind, number);
  scrollTo(view.rows[view.row]);
  const room = Math.max(8, (until - from) * 0.6);
  if (from !== undefined) show(from - room, until + room);
  redraw();
}

function fold(row) {
  const key = row.kind === "group" ? row.number : row.key;
  if (key === undefined || key === "cpus" && run.isMerged) return;
  if (!view.folded.delete(key)) view.folded.add(key);
  makeRows();
  tell(rowTitle(view.rows[view.row]));
  redraw();
}

const tell = (words) => { element("live").textContent = words; };

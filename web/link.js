// A link to what is in sight: #from-until,task
let settling = 0;

// Figures and link follow once the window hasn't moved for a moment.
function settleLater() {
  clearTimeout(settling);
  settling = setTimeout(settle, 150);
}

function settle() {
  clearTimeout(settling);
  fillFigures();
  const link = linkOf();
  if (location.hash !== link) history.replaceState(null, "", link);
}

function linkOf() {
  const [from, until] = [view.from, view.until].map((time) => Math.round(run.begin + time));
  return "#" + from + "-" + until + (view.chosen ? "," + encodeURIComponent(run.tasks[view.chosen.task].name) : "");
}

// Follows the page's link, if it has one: shows its window, and chooses its task's stretch in the middle of it.
function followLink() {
  const found = /^#(\d+)-(\d+)(?:,(.+))?$/.exec(location.hash), [from, until] = (found ?? []).slice(1, 3).map((time) => time - run.begin);
  if (location.hash === "" || found && location.hash === linkOf()) return;
  if (!found || from < 0 || until <= from || until > run.duration) return tell("The link's window isn't in this page: " + location.hash);
  const name = found[3] && nameInLink(found[3]), task = run.tasks.findIndex((task) => task.name === name);
  view.chosen = null;
  if (task >= 0) goTo("task", task);
  else if (name) tell("The link's task isn't in this page: " + name);
  show(from, until);
  if (task >= 0) choose(stretchNear(view.rows[view.row], (from + until) / 2));
}

function nameInLink(text) {
  try { return decodeURIComponent(text); } catch { return text; }
}

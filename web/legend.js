// The title and the legend.
// A swatch of 30 by 14 pixels, whose lines from low to end have a pattern.
function paintTile(brush, tile, ink, paper, low = 0, end = 14) {
  paintBoxes(brush, [[paper, 0, low, 30, end - low], [ink, 0, 0, 0, 0]]);
  for (let y = low; y < end; y++) for (let x = 0; x < 30; x++) if (tile[y * TILE + x % TILE]) brush.fillRect(x, y, 1, 1);
}

const paintBoxes = (brush, boxes) => boxes.forEach(([fillStyle, ...box]) => Object.assign(brush, { fillStyle }).fillRect(...box));

// The triangle of a wake, a line a box.
const WAKE = Array.from({ length: 10 }, (_, y) => [15 - (y >> 1), 2 + y, 2 * (y >> 1) + 1, 1]);
const WAIT_WORDS = { [HELD]: "held by the policy", [GLOBAL]: "waits in the global queue", [BUILTIN]: "waits for the built-in scheduler" };

// The words of the legend, each with what paints its swatch. All queues are in it in which a task waited.
function legendItems() {
  const { names } = palette, items = [], all = run.tracks.map(({ queue }) => queue);
  const add = (words, tile, kind) => items.push([words, (brush) => paintTile(brush, TILES[tile], names[kind], names[kind + "Paper"])]);
  items.push([run.isByTask ? "runs (letter and colour: its task)" : "runs (letter: its task; colour: its group)",
    (brush) => paintBoxes(brush, [0, 1].flatMap(barBoxes))]);
  if (run.processors > MOST_CPUS || run.isMerged) addArea(items);
  for (const queue of all) if (queue < LOCAL) add(WAIT_WORDS[queue] ?? "waits in " + queueName(run, queue), tileOf(queue), "wait");
  if (all.some(isLocal)) add("waits in a CPU's own queue", tileOf(LOCAL), "wait");
  if (run.parkedBefore[run.count] > 0) add("parked: quota used up", tileOf(PARKED), "parked");
  if (run.idle.some((ms) => ms > 0)) add("idle while a task waits" + (run.tasks.some(({ cpus }) => cpus) ? " that may run there" : ""), WRONG_TILE, "wrong");
  if (run.idleByQuota > 0) add("idle while a quota is used up", WRONG_TILE, "parked");
  const paint = (words, boxes) => items.push([words, (brush) => paintBoxes(brush, boxes)]);
  if (run.framed.size > 0) paint(frameWords(), [[names.wrong, 0, 1, 30, 12], [names.waitPaper, 2, 3, 26, 8]]);
  if (run.wakeTimes.length > 0) paint("wakes, in rows with room for all of them", WAKE.map((box) => [names.ink, ...box]));
  if (run.groups.length > 1) addShares(items);
  items.push(["less than a pixel: the fuller its colour, the more of it ran", ({ canvas }) => {
    canvas.style.background = `linear-gradient(90deg, transparent, ${names.several})`;
  }]);
  return items;
}

function addArea(items) {
  const isOne = run.groups.filter((group) => group.tasks.length).length === 1, { names } = palette;
  const boxes = isOne ? [[names.several, 0, 5, 30, 9]] : [[names.tasks[0], 0, 9, 30, 5], [names.tasks[1], 0, 5, 30, 4]];
  const rest = run.isMerged ? "; the rest: idle" : "; hatched: idle while a task waits; the rest: idle";
  items.push(["all CPUs as an area: those that ran" + (isOne ? "" : ", by group") + rest, (brush) => {
    paintBoxes(brush, boxes);
    if (!run.isMerged) paintTile(brush, TILES[WRONG_TILE], names.wrong, names.paper, 2, 5);
  }]);
}

const barBoxes = (k) => [[hexOf(palette.edges[k]), 16 * k, 0, 14, 14], [palette.names.tasks[k], 16 * k + 1, 1, 12, 12]];

function addShares(items) {
  const { names } = palette, lack = (kind) => (brush) => {
    paintBoxes(brush, [[names.tasks[3], 0, 8, 30, 6], [names.ink, 0, 3, 30, 1]]);
    paintTile(brush, TILES[WRONG_TILE], names[kind], names.paper, 4, 8);
  };
  items.push([shareWords(), lack("wrong")]);
  if (run.groups.some(({ quota }) => quota !== undefined)) items.push(["what a group's quota allows",
    (brush) => paintBoxes(brush, [0, 8, 16, 24].map((x) => [names.parked, x, 6, 5, 1]))]);
  if (run.groups.some(({ isCapped }) => isCapped)) items.push(["a group's lack with its quota used up", lack("parked")]);
}

const frameWords = () => "a wait of at least a twentieth of " + (run.begin > 0 || run.duration < run.ms ? "the part" : "the run") +
  " and four times the others' mean, or of a stall";
const shareWords = () => "a group's share; line: what is due; hatched: what it lacks (over " +
  timeText(Math.round(view.window)) + ", full height " + Math.round(100 * view.top) + "%)";

function makeLegend() {
  element("legend").replaceChildren();
  for (const [words, paint] of legendItems()) {
    const item = node("li", "", element("legend")), swatch = node("canvas", "", item, { width: 30, height: 14, "aria-hidden": "true" });
    node("span", words, item);
    paint(swatch.getContext("2d"));
  }
}

// The length of the run, or the part of it that is shown.
const lengthWords = () => run.begin === 0 && run.duration >= run.ms ? timeText(run.duration) :
  momentText(0) + " to " + momentText(run.duration) + " of " + timeText(run.ms);
const isEjectionShown = () => run.ended.at >= 0 && run.ended.at <= run.duration;

function fillTitle() {
  element("title").textContent = document.title = run.policy + " on " + run.workload;
  element("ended").textContent = endedWords();
  element("ended").className = run.ended.at === undefined ? "fine" : "wrong";
  const count = (number, one, many = one + "s") => number.toLocaleString("en") + " " + (number === 1 ? one : many);
  element("facts").textContent = [count(run.processors, "CPU"), count(run.tasks.length, "task"), lengthWords(),
    ...(run.isMerged ? [] : [count(run.count, "stretch", "stretches")])].join(" · ");
  if (run.isMerged) tellMerged();
  element("ejection").hidden = !isEjectionShown();
  element("facts").title = element("facts").textContent;
  element("worst").disabled = run.worst.length === 0;
  element("nothing").hidden = run.ranBefore[run.count] > 0;
  const where = run.begin > 0 || run.duration < run.ms ? "in this part" : "in this run";
  element("nothing").textContent = run.count > 0 ? "No task ran " + where + "." : "No task ran or waited " + where + ".";
}

// What a page of pieces doesn't have.
function tellMerged() {
  element("merged").textContent = "Stretches that together last at most " + timeText(run.together) + " are drawn as one, " +
    "without their CPUs and queues. What waited and is due is estimated. scxsim view-part has all of a part.";
  element("merged").hidden = false;
  element("cpus").parentNode.hidden = true;
}

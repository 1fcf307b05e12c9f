// Finds tasks, groups and CPUs by a part of their names.
const search = { words: "", found: [], at: -1 };

// The matches of some words, whatever the case: first whole names, then others.
function matchesOf(words) {
  const wanted = words.toLowerCase(), all = [...run.tasks.map(({ name }, number) => ({ kind: "task", number, name })),
    ...run.groups.map(({ name }, number) => ({ kind: "group", number, name })),
    ...run.idle.map((_, number) => ({ kind: "cpu", number, name: "CPU " + number }))];
  const found = wanted === "" ? [] : all.filter(({ name }) => name.toLowerCase().includes(wanted));
  const isWhole = ({ name }) => name.toLowerCase() === wanted;
  return [...found.filter(isWhole), ...found.filter((one) => !isWhole(one))];
}

// Takes the words of the field, and says the number of matches.
function countMatches() {
  const words = element("search").value.trim();
  if (words !== search.words) Object.assign(search, { words, found: matchesOf(words), at: -1 });
  const { found, at } = search, count = found.length, none = count === 0;
  const told = none ? "none found" : at < 0 ? count + " found" : at + 1 + " of " + count;
  element("found").textContent = words === "" ? "" : told;
  element("search").setAttribute("aria-invalid", words !== "" && none);
  for (const id of ["previous", "next"]) element(id).disabled = none;
}

// Goes to the next match, or to the previous one.
function findNext(by) {
  countMatches();
  const { found, at } = search, count = found.length;
  if (count === 0) return;
  search.at = at < 0 ? (by > 0 ? 0 : count - 1) : (at + by + count) % count;
  countMatches();
  const { kind, number } = found[search.at];
  goTo(kind, number);
  tell(rowTitle(view.rows[view.row]) + ", " + element("found").textContent);
}

function findTask(name) {
  goTo("task", run.tasks.findIndex((task) => task.name === name));
  element("canvas").focus({ preventScroll: true });
}

function fillNames() {
  for (const { name } of [...run.tasks, ...run.groups]) node("option", "", element("names"), { value: name });
}

function listenToSearch() {
  const field = element("search");
  field.addEventListener("keydown", (event) => { if (event.key === "Enter") findNext(event.shiftKey ? -1 : 1); });
  field.addEventListener("input", (event) => {
    countMatches();
    if (event.inputType === "insertReplacementText") findNext(1);
  });
  element("previous").onclick = () => findNext(-1);
  element("next").onclick = () => findNext(1);
}

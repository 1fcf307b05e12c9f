// Sums up to each moment: run, waited and parked time, of tasks, CPUs and groups, and all waits.
// Sums up to each stretch, and up to each run of a CPU.
function sumStretches(run) {
  const { count, from } = run, wakes = [];
  for (const before of ["ranBefore", "waitedBefore", "parkedBefore", "wakesBefore"]) run[before] = new Uint32Array(count + 1);
  for (let i = 0; i < count; i++) {
    run.ranBefore[i + 1] = run.ranBefore[i] + ranIn(run, i);
    run.parkedBefore[i + 1] = run.parkedBefore[i] + parkedIn(run, i);
    run.waitedBefore[i + 1] = run.waitedBefore[i] + waitedIn(run, i);
    if (isWake(run, i) && !run.isMerged) wakes.push(from[i]);
    run.wakesBefore[i + 1] = wakes.length;
  }
  run.wakeTimes = Uint32Array.from(wakes);
  if (run.isMerged) sumPieces(run);
  sumRuns(run);
  sumGroups(run);
  sumQueues(run);
  listWaits(run);
  findWaits(run);
}

// The time for which tasks waited in pieces, before each stretch.
function sumPieces(run) {
  run.mergedBefore = new Uint32Array(run.count + 1);
  for (let i = 0; i < run.count; i++) run.mergedBefore[i + 1] = run.mergedBefore[i] + (run.cpu[i] === SEVERAL ? run.pieceWaited[i] : 0);
}

// Of each CPU the time before each run for which it was busy, and the part of it in which a task waited, and the whole time
// for which it was idle while one waited. Pieces don't say it.
function sumRuns(run) {
  if (run.isMerged) return sumNoRuns(run);
  const { cpuFrom, cpuLength, cpuStart, processors, duration } = run, runs = cpuFrom.length;
  Object.assign(run, countWaits(run, () => true));
  run.waitsOn = waitsOnCpus(run);
  for (const before of ["cpuBefore", "cpuWaitedBefore"]) run[before] = new Uint32Array(runs + 1);
  run.idleByQuota = 0;
  for (let cpu = 0; cpu < processors; cpu++) {
    const { cpuBefore, cpuWaitedBefore } = run, { someWaited, onlyParked } = run.waitsOn[cpu];
    run.idleByQuota += onlyParked[duration];
    for (let i = cpuStart[cpu]; i < cpuStart[cpu + 1]; i++) {
      const from = cpuFrom[i], until = from + cpuLength[i];
      cpuBefore[i + 1] = cpuBefore[i] + until - from;
      cpuWaitedBefore[i + 1] = cpuWaitedBefore[i] + someWaited[until] - someWaited[from];
      run.idleByQuota -= onlyParked[until] - onlyParked[from];
    }
  }
  run.idle = Array.from({ length: processors }, (_, cpu) => figuresOfCpu(run, cpu, 0, duration).waits);
  run.lost = lostTimes(run);
}

function sumNoRuns(run) {
  const [someWaited, onlyParked] = [0, 1].map(() => new Uint32Array(run.duration + 2));
  Object.assign(run, { waitsOn: [], idle: [], idleByQuota: 0, lost: { duration: run.duration, someWaited, onlyParked } });
  for (const before of ["cpuBefore", "cpuWaitedBefore"]) run[before] = new Uint32Array(1);
}

// For each millisecond the time before it for which CPUs, added up, were idle while a task waited that may run there, and while
// such tasks were parked and none waited.
function lostTimes(run) {
  const { duration, waitsOn } = run, [someWaited, onlyParked] = [0, 1].map(() => new Uint32Array(duration + 2));
  for (const waits of new Set(waitsOn)) {
    const idle = countIdle(run, (cpu) => waitsOn[cpu] === waits);
    for (let ms = 0, waited = 0, parked = 0; ms < duration; ms++) {
      someWaited[ms + 1] += waited += idle[ms] * (waits.someWaited[ms + 1] - waits.someWaited[ms]);
      onlyParked[ms + 1] += parked += idle[ms] * (waits.onlyParked[ms + 1] - waits.onlyParked[ms]);
    }
  }
  return { duration, someWaited, onlyParked };
}

// The number of CPUs that count and were idle, by millisecond.
function countIdle({ processors, duration, cpuFrom, cpuLength, cpuStart }, counts) {
  const idle = new Int32Array(duration + 1);
  for (let cpu = 0; cpu < processors; cpu++) {
    if (!counts(cpu)) continue;
    idle[0]++;
    for (let i = cpuStart[cpu]; i < cpuStart[cpu + 1]; i++) { idle[cpuFrom[i]]--; idle[cpuFrom[i] + cpuLength[i]]++; }
  }
  for (let ms = 1; ms <= duration; ms++) idle[ms] += idle[ms - 1];
  return idle;
}

const mayRunOn = ({ cpus }, cpu) => !cpus || cpus.includes(cpu);

// The waits that count for each CPU: those of tasks that may run there. CPUs on which the same tasks may run share them.
function waitsOnCpus(run) {
  const bound = run.tasks.filter(({ cpus }) => cpus), counted = new Map();
  return Array.from({ length: run.processors }, (_, cpu) => {
    const key = bound.map((task) => mayRunOn(task, cpu) ? 1 : 0).join("");
    if (!counted.has(key)) counted.set(key, bound.length > 0 ? countWaits(run, (task) => mayRunOn(task, cpu)) : run);
    return counted.get(key);
  });
}

// For each millisecond the time before it in which a task that counts waited, and in which none did but one was parked.
function countWaits({ duration, tasks, taskStart, from, length, cpu, queue }, counts) {
  const [waits, parks] = [0, 1].map(() => new Int32Array(duration + 2));
  tasks.forEach((task, number) => {
    if (!counts(task)) return;
    for (let i = taskStart[number]; i < taskStart[number + 1]; i++) {
      if (cpu[i] !== NOWHERE) continue;
      const change = queue[i] === PARKED ? parks : waits;
      change[from[i]]++; change[from[i] + length[i]]--;
    }
  });
  const [someWaited, onlyParked] = [0, 1].map(() => new Uint32Array(duration + 2));
  for (let ms = 0, waiting = 0, parked = 0; ms <= duration; ms++) {
    waiting += waits[ms]; parked += parks[ms];
    someWaited[ms + 1] = someWaited[ms] + (waiting > 0 && ms < duration ? 1 : 0);
    onlyParked[ms + 1] = onlyParked[ms] + (waiting === 0 && parked > 0 && ms < duration ? 1 : 0);
  }
  return { duration, someWaited, onlyParked };
}

// For each group the time that its tasks ran, waited and were parked before each cell, and what was due.
function sumGroups(run) {
  const { groups, tasks, duration } = run;
  let cell = 1;
  while (groups.length * (duration / cell) > 4e6) cell *= 2;
  const cells = Math.ceil(duration / cell), row = cells + 1, all = groups.length * row;
  const sums = { cell, cells, row, ran: new Uint32Array(all), waited: new Uint32Array(all), parked: new Uint32Array(all),
    due: new Float64Array(all), busy: new Uint32Array(row) };
  linkGroups(groups, tasks);
  for (let g = groups.length - 1; g >= 0; g--) {
    const slices = [sums.ran, sums.waited, sums.parked].map((sum) => sum.subarray(g * row, (g + 1) * row));
    if (groups[g].tasks.length) sumLeaf(run, groups[g], sums, slices);
    const above = groups[g].parent;
    [sums.ran, sums.waited, sums.parked].forEach((sum, kind) => {
      const target = above >= 0 ? sum.subarray(above * row, (above + 1) * row) : kind === 0 ? sums.busy : null;
      if (target) for (let k = 0; k < row; k++) target[k] += slices[kind][k];
    });
  }
  sumDue(run, sums);
  run.sums = sums;
}

// Each group's own tasks, its children, how many tasks lie in it, and its place among groups with tasks.
function linkGroups(groups, tasks) {
  for (const group of groups) Object.assign(group, { tasks: [], children: [], all: 0 });
  groups.forEach(({ parent }, g) => groups[parent]?.children.push(g));
  tasks.forEach(({ group }, number) => groups[group].tasks.push(number));
  for (const { group } of tasks) for (let g = group; g >= 0; g = groups[g].parent) groups[g].all++;
  groups.filter((group) => group.tasks.length).forEach((group, leaf) => { group.leaf = leaf; });
  for (const group of groups) {
    let leaf = group;
    while (leaf.children.length) leaf = groups[leaf.children[0]];
    group.first = leaf.tasks[0] ?? 0;
  }
}

function sumLeaf(run, group, { cell, row }, slices) {
  const Numbers = run.isMerged ? Float64Array : Int32Array;
  const kinds = slices.map(() => ({ offsets: new Numbers(row + 1), counts: new Numbers(row + 1) }));
  for (const task of group.tasks) {
    for (let i = run.taskStart[task]; i < run.taskStart[task + 1]; i++) {
      const kind = run.cpu[i] !== NOWHERE ? 0 : run.queue[i] === PARKED ? 2 : 1;
      if (run.cpu[i] === SEVERAL) addPiece(run, kinds, cell, i);
      else addInterval(kinds[kind], cell, run.from[i], run.from[i] + run.length[i]);
    }
  }
  slices.forEach((slice, kind) => {
    const { offsets, counts } = kinds[kind];
    for (let k = 0, sum = 0, count = 0; k < row; count += counts[k], k++) slice[k] = Math.round(sum += cell * count + offsets[k]);
  });
}

// The times of a piece are spread over it.
function addPiece(run, kinds, cell, i) {
  const from = run.from[i], length = run.length[i] || 1, times = [ranIn(run, i), waitedIn(run, i), parkedIn(run, i)];
  times.forEach((time, kind) => { if (time > 0) addInterval(kinds[kind], cell, from, from + length, time / length); });
}

// What is due to a group in a cell is its part by weight of what is due to its parent, or of all that ran. In a period of
// its quota no more than that is due to it, nor more than the groups within it can take, and the groups beside it share what
// it leaves.
function sumDue({ groups, changes, begin }, sums) {
  const { cell, cells, row, ran, waited, parked, due, busy } = sums, left = changes.slice();
  const weights = groups.map((group) => group.weight), room = groups.map(() => Infinity);
  const limited = [...groups.keys()].filter((g) => groups[g].quota !== undefined);
  const families = [[...groups.keys()].filter((g) => groups[g].parent < 0), ...groups.map(({ children }) => children)];
  const numbers = () => new Float64Array(groups.length);
  const claims = { weights: numbers(), rooms: numbers(), parts: numbers(), isOpen: new Uint8Array(groups.length) };
  for (let k = 0; k < cells; k++) {
    for (const g of limited) {
      const { quota, period } = groups[g];
      if (k === 0) room[g] = quota * (1 - begin % period / period);
      else if (beginsPeriod(groups[g], begin + k * cell, cell)) room[g] = quota;
    }
    while (left.length && left[0][0] <= k * cell) { const [, g, weight] = left.shift(); weights[g] = weight; }
    for (let g = groups.length - 1; g >= 0; g--) {
      const at = g * row + k, isActive = ran[at + 1] > ran[at] || waited[at + 1] > waited[at] || parked[at + 1] > parked[at];
      claims.weights[g] = isActive ? weights[g] : 0;
      claims.rooms[g] = limited.length > 0 ? roomOf(claims, families[g + 1], isActive ? room[g] : 0) : Infinity;
    }
    shareOut(claims, families[0], busy[k + 1] - busy[k]);
    for (let g = 0; g < groups.length; g++) {
      due[g * row + k] = claims.parts[g];
      room[g] -= claims.parts[g];
      shareOut(claims, families[g + 1], claims.parts[g]);
    }
  }
  groups.forEach((group, g) => {
    let sum = 0;
    for (let k = 0; k < row; k++) [due[g * row + k], sum] = [sum, sum + due[g * row + k]];
    group.share = ran[g * row + cells] / (busy[cells] || 1);
    group.due = sum / (busy[cells] || 1);
    group.isCapped = parked[g * row + cells] > 0;
  });
}

// The most that can be due to a group: no more than the groups within it can take.
function roomOf({ rooms }, within, own) {
  let sum = within.length > 0 ? 0 : Infinity;
  for (const g of within) sum += rooms[g];
  return Math.min(own, sum);
}

// Shares an amount out among groups: by weight, and to none more than it has room for. Those that are full leave the rest
// to the others.
function shareOut({ weights, rooms, parts, isOpen }, groups, amount) {
  let rest = amount, total = 0, isOver = false;
  for (const g of groups) {
    parts[g] = 0;
    isOpen[g] = weights[g] > 0 && rooms[g] > 0 ? 1 : 0;
    total += isOpen[g] * weights[g];
  }
  while (!isOver && total > 0) {
    const unit = rest / total;
    isOver = true;
    for (const g of groups) {
      if (!isOpen[g] || rooms[g] >= weights[g] * unit) continue;
      parts[g] = rooms[g];
      isOpen[g] = 0;
      rest -= rooms[g];
      total -= weights[g];
      isOver = false;
    }
  }
  for (const g of groups) if (isOpen[g]) parts[g] = weights[g] * rest / total;
}

const beginsPeriod = ({ period }, at, cell) => Math.floor(at / period) > Math.floor((at - cell) / period);

// The queues in which tasks waited: for each the sum of their waits before each cell. The CPUs' own queues are one.
function sumQueues(run) {
  const { duration, count, from, length, cpu, queue } = run, used = new Map();
  for (let i = 0; i < count; i++) if (length[i] > 0 && cpu[i] === NOWHERE && queue[i] !== PARKED) used.set(Math.min(queue[i], LOCAL), null);
  let cell = 1;
  while (used.size * (duration / cell) > 4e6) cell *= 2;
  const cells = Math.ceil(duration / cell), row = cells + 1;
  run.tracks = [...used.keys()].sort((one, other) => one - other).map((queue) => ({ queue, name: trackName(run, queue), cell, cells,
    sums: new Uint32Array(row), offsets: new Int32Array(row + 1), counts: new Int32Array(row + 1) }));
  for (const track of run.tracks) used.set(track.queue, track);
  for (let i = 0; i < count; i++) {
    if (length[i] > 0 && cpu[i] === NOWHERE && queue[i] !== PARKED) addInterval(used.get(Math.min(queue[i], LOCAL)), cell, from[i], from[i] + length[i]);
  }
  for (const track of run.tracks) sumTrack(track, row);
}

// Adds an interval, or that part of it, to differences from which the sums before each cell are made.
function addInterval({ offsets, counts }, cell, from, until, part = 1) {
  const first = Math.ceil(from / cell), last = Math.ceil(until / cell);
  offsets[first] += part * (first * cell - from); counts[first] += part;
  offsets[last] -= part * (last * cell - until); counts[last] -= part;
}

function sumTrack(track, row) {
  const { cell, sums, offsets, counts } = track;
  for (let k = 0, sum = 0, count = 0; k < row; count += counts[k], k++) sums[k] = sum += cell * count + offsets[k];
  track.most = 0;
  for (let k = 1; k < row; k++) track.most = Math.max(track.most, (sums[k] - sums[k - 1]) / cell);
  delete track.offsets;
  delete track.counts;
}

const trackName = (run, queue) => queue < LOCAL ? queueName(run, queue) : "CPUs' own queues";

const isWake = ({ why }, i) => (why[i] & 48) === 16;
// True if the next stretch of a task follows at once. A task that woke, was stopped or was let go in between begins anew.
const goesOn = ({ from, length, why }, i) => from[i] + length[i] === from[i + 1] && (why[i + 1] & 48) === 0;
// True if the task waited without a tick before a stretch.
const hasWaitBefore = ({ from, why }, i) => (why[i] & 8) !== 0 && from[i] > 0;
const isWait = ({ cpu, queue }, i) => cpu[i] === NOWHERE && queue[i] !== PARKED;
const clockFrom = ({ from, why }, i) => Math.max(0, from[i] - (why[i] >> 6 & 1));
const clockUntil = ({ from, length, why }, i) => from[i] + length[i] - (why[i] >> 7);

// Calls `act` with the first and last stretch of each wait of a task: of stretches of waiting one after another. A wait without
// a tick has none: there it is the stretch after it, and no last one.
function eachWait(run, task, act) {
  const end = run.taskStart[task + 1];
  for (let i = run.taskStart[task], first = -1; i < end; i++) {
    if (hasWaitBefore(run, i)) act(i, -1);
    if (!isWait(run, i)) continue;
    if (first < 0) first = i;
    if (i + 1 < end && isWait(run, i + 1) && goesOn(run, i)) continue;
    act(first, i);
    first = -1;
  }
}

// All waits, task by task: by ticks, when they began by the clock, by how many milliseconds they are less or more by the
// clock, and whether they go on out of what is shown.
function listWaits(run) {
  const most = run.why.reduce((sum, _, i) => sum + isWait(run, i) + hasWaitBefore(run, i), 0);
  const [from, length, clock] = [0, 1, 2].map(() => new Uint32Array(most));
  const [less, more, isCut] = [0, 1, 2].map(() => new Uint8Array(most)), waits = { from, length, clock, less, more, isCut };
  let count = 0;
  run.waitStart = new Uint32Array(run.tasks.length + 1);
  run.tasks.forEach((_, task) => {
    eachWait(run, task, (first, last) => {
      const hasStretch = last >= 0;
      from[count] = run.from[first];
      length[count] = hasStretch ? run.from[last] + run.length[last] - run.from[first] : 0;
      clock[count] = hasStretch ? clockFrom(run, first) : run.from[first] - 1;
      isCut[count] = hasStretch && isCutWait(run, task, first, last) ? 1 : 0;
      const later = hasStretch ? (run.why[first] >> 6 & 1) - (run.why[last] >> 7) : 1;
      less[count] = later < 0 ? 1 : 0;
      more[count++] = later > 0 && !(hasStretch && isLate(run, last)) ? 1 : 0;
    });
    run.waitStart[task + 1] = count;
  });
  run.waits = Object.fromEntries(Object.entries(waits).map(([key, values]) => [key, values.slice(0, count)]));
}

// True if a stretch goes on after what is shown.
const isLate = ({ why }, i) => (why[i] & 7) === 7;
const isCutWait = (run, task, first, last) => isLate(run, last) || goesOnInPiece(run, task, first, last) ||
  run.begin > 0 && run.from[first] === 0 && (run.why[first] & 48) === 0;

// True if a wait may be longer than its stretches, since others of it are in a piece.
function goesOnInPiece({ cpu, why, taskStart }, task, first, last) {
  const wentOn = (why[last] & 7) === 5 && last + 1 < taskStart[task + 1] && cpu[last + 1] === SEVERAL;
  return wentOn || (why[first] & 48) === 0 && first > taskStart[task] && cpu[first - 1] === SEVERAL;
}

// The milliseconds of a wait in a window: those by ticks. If it ends there, it is as long as by the clock, but longer only
// in a window that begins with the run.
function waitIn({ waits, begin }, k, from, until) {
  const end = waits.from[k] + waits.length[k], bar = Math.min(until, end) - Math.max(from, waits.from[k]);
  if (bar < 0 || end > until) return Math.max(0, bar);
  return Math.max(0, bar - waits.less[k] + (from === 0 && begin === 0 ? waits.more[k] : 0));
}

// Adds up all waits by the clock, keeps the longest ones, and finds those that have frames: at least a twentieth of what is
// shown, and four times as long as the others on average; and the one that ended in a stall.
function findWaits(run) {
  const worst = [], long = [], { tasks, duration, ended } = run;
  run.longest = new Uint32Array(tasks.length);
  run.waited = new Uint32Array(tasks.length);
  let total = 0, number = 0;
  const { waits, waitStart } = run, keep = (task, k) => {
    const from = waits.from[k], until = from + waits.length[k], clock = waits.clock[k], length = waitIn(run, k, 0, duration);
    total += length; number++;
    run.waited[task] += length;
    run.longest[task] = Math.max(run.longest[task], length);
    const isStall = task === ended.task && from < ended.at && until >= ended.at;
    const isAmong = length > (run.together ?? 0) && (worst.length < 20 || length > worst[19].length);
    if (!isStall && !isAmong && length * 20 < duration) return;
    const wait = { task, from, until, clock, length, isStall, isCut: waits.isCut[k] > 0 };
    if (isStall || length * 20 >= duration) long.push(wait);
    if (isAmong) worst.push(wait) && worst.sort((one, other) => other.length - one.length).splice(20);
  };
  for (let task = 0; task < tasks.length; task++) for (let k = waitStart[task]; k < waitStart[task + 1]; k++) keep(task, k);
  run.worst = worst;
  frameWaits(run, long.filter(({ length, isStall }) => isStall || number > 4 && length > 0 && length * (number + 3) >= 4 * total));
}

// The waits that have frames, by task and by group.
function frameWaits(run, waits) {
  run.framed = new Map();
  run.framedOfGroup = new Map();
  for (const wait of waits) {
    wait.alarming = true;
    run.framed.set(wait.task, [...run.framed.get(wait.task) ?? [], wait]);
    for (let g = run.tasks[wait.task].group; g >= 0; g = run.groups[g].parent) {
      if (!(run.framedOfGroup.get(g)?.length >= wait.length)) run.framedOfGroup.set(g, wait);
    }
  }
}

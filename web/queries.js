// Finds stretches and sums of a window.
// The first stretch of a sorted row that ends after that time.
function firstAfter(from, length, low, high, time) {
  while (low < high) {
    const middle = (low + high) >>> 1;
    if (from[middle] + length[middle] > time) high = middle; else low = middle + 1;
  }
  return low;
}

// As firstAfter, from a place near it: steps that double, then halves.
function nextAfter(from, length, low, high, time) {
  let step = 1, end = low;
  while (end < high && from[end] + length[end] <= time) { low = end + 1; end += step; step *= 2; }
  return firstAfter(from, length, low, Math.min(end, high), time);
}

function gridUntil(sums, values, start, time) {
  const place = Math.min(time / sums.cell, sums.cells), whole = Math.min(Math.floor(place), sums.cells - 1);
  return values[start + whole] + (place - whole) * (values[start + whole + 1] - values[start + whole]);
}
const waitedUntil = ({ someWaited, duration }, time) => gridUntil({ cell: 1, cells: duration }, someWaited, 0, time);
const quotaUntil = ({ onlyParked, duration }, time) => gridUntil({ cell: 1, cells: duration }, onlyParked, 0, time);

function queueName(run, queue) {
  if (queue < GLOBAL) return "queue " + (run.queues[queue] ?? queue);
  if (queue >= LOCAL && queue < LOCAL + 64) return "the queue of CPU " + (queue - LOCAL);
  return { [GLOBAL]: "the global queue", [HELD]: "held by the policy", [BUILTIN]: "the built-in scheduler's queue",
    [PARKED]: "parked: its group's quota is used up" }[queue] ?? "no queue";
}

const within = (sums, values, start, from, until) => gridUntil(sums, values, start, until) - gridUntil(sums, values, start, from);
const lengthOfTrack = (track, from, until) => within(track, track.sums, 0, from, until);

// Calls `act` with task and time of each run on a CPU in a window.
function eachRun(run, cpu, from, until, act) {
  const { cpuFrom, cpuLength, cpuStart } = run, last = cpuStart[cpu + 1];
  for (let i = firstAfter(cpuFrom, cpuLength, cpuStart[cpu], last, from); i < last && cpuFrom[i] < until; i++)
    act(run.cpuTask[i], Math.min(until, cpuFrom[i] + cpuLength[i]) - Math.max(from, cpuFrom[i]));
}

// The time that each task ran on all CPUs in a window, the longest first.
function whoRan(run, from, until) {
  const sums = new Map();
  if (run.isMerged) run.tasks.forEach((_, task) => addRan(sums, task, timeOf(run, run.ranBefore, task, from, until)));
  for (let cpu = 0; cpu < run.processors; cpu++) eachRun(run, cpu, from, until, (task, ran) => addRan(sums, task, ran));
  return [...sums].map(([task, ran]) => ({ task, ran })).sort((one, other) => other.ran - one.ran);
}

const addRan = (sums, task, ran) => { if (ran > 0) sums.set(task, (sums.get(task) ?? 0) + ran); };

// The figures of a window: run time, waited time and longest wait of each task, share and due of each group, and of each
// CPU the time that it was busy, idle, and idle while a task waited.
function figuresOf(run, from, until) {
  const { groups, sums } = run, ranOfGroup = new Float64Array(groups.length);
  const cpus = run.idle.map((_, cpu) => figuresOfCpu(run, cpu, from, until));
  const tasks = run.tasks.map(({ group }, task) => {
    const figures = figuresOfTask(run, task, from, until);
    for (let g = group; g >= 0; g = groups[g].parent) ranOfGroup[g] += figures.ran;
    return figures;
  });
  const busy = tasks.reduce((sum, { ran }) => sum + ran, 0) || 1;
  const ofGroups = groups.map((_, g) => ({ share: ranOfGroup[g] / busy, due: within(sums, sums.due, g * sums.row, from, until) / busy,
    isCapped: within(sums, sums.parked, g * sums.row, from, until) > 0 }));
  return { tasks, groups: ofGroups, cpus };
}

function figuresOfCpu(run, cpu, from, until) {
  const [busyBefore, waitedBefore] = busyUntil(run, cpu, from), [busyAfter, waitedAfter] = busyUntil(run, cpu, until);
  const { someWaited } = run.waitsOn[cpu], busy = busyAfter - busyBefore, waits = someWaited[until] - someWaited[from];
  return { busy, idle: until - from - busy, waits: waits - (waitedAfter - waitedBefore) };
}

// The time for which a CPU was busy up to a moment, and the part of it in which a task waited, from sums before each run.
function busyUntil({ waitsOn, cpuFrom, cpuLength, cpuStart, cpuBefore, cpuWaitedBefore }, cpu, time) {
  const { someWaited } = waitsOn[cpu];
  const last = cpuStart[cpu + 1], i = firstAfter(cpuFrom, cpuLength, cpuStart[cpu], last, time);
  const begun = i < last && cpuFrom[i] < time ? cpuFrom[i] : time;
  return [cpuBefore[i] + time - begun, cpuWaitedBefore[i] + someWaited[time] - someWaited[begun]];
}

function figuresOfTask(run, task, from, until) {
  const { waits, waitStart } = run, waited = run.isMerged ? timeOf(run, run.mergedBefore, task, from, until) : 0;
  const figures = { ran: timeOf(run, run.ranBefore, task, from, until), waited, longest: 0 };
  const end = waitStart[task + 1];
  for (let k = firstAfter(waits.from, waits.length, waitStart[task], end, from); k < end && waits.from[k] <= until; k++) {
    const length = waitIn(run, k, from, until);
    figures.waited += length;
    figures.longest = Math.max(figures.longest, length);
  }
  return figures;
}

// What a sum of times before each stretch says of a window. The times of a piece are spread over it.
const timeOf = (run, before, task, from, until) => Math.round(timeUntil(run, before, task, until) - timeUntil(run, before, task, from));

function timeUntil({ from, length, taskStart }, before, task, time) {
  const last = taskStart[task + 1], i = firstAfter(from, length, taskStart[task], last, time);
  return before[i] + (i < last ? partOf(length, before, i, Math.max(0, time - from[i])) : 0);
}

const partOf = (length, before, i, time) => (before[i + 1] - before[i]) * time / (length[i] || 1);

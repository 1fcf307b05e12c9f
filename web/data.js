"use strict";
// Reads the stretches of the page.
// A stretch is 16 bytes: from, length (u32 ms), task (u16), processor (u8), why (u8), queue (u16), 2 spare. The bits 64 and
// 128 of why say that it began, and that it ended, as a millisecond ended: at a clock that is one less. The bit 8 says that
// before it the task waited without a tick: for a millisecond by the clock, which has no stretch.
// Times are counted from the beginning of what is shown, which need not be that of the run: see momentText.
// Of a run that has too many, those that are together no longer than `together` are one piece: from, length and parked (u16),
// task, SEVERAL, 0, ran and waited (u16). CPUs and queues aren't known then.
const MOST_CPUS = 16;  // more fold at first
const NOWHERE = 255, SEVERAL = 254, GLOBAL = 16, HELD = 17, BUILTIN = 18, PARKED = 19, LOCAL = 20, NO_QUEUE = 65535;
const WHY_RUN = ["the run was over", "it was stopped: its slice was used up and another came", "it went to sleep",
  "its group had used its quota, and it was parked", "", "", "", "this part of the run was over"];
const WHY_WAIT = ["the run was over", "", "it went to sleep", "it was parked", "it ran", "it went to another queue",
  "its group had a new period", "this part of the run was over"];
const FAULTS = ["the callback can't go on", "no such queue", "the task can't be inserted here, or not a second time",
  "by virtual time and in order of arrival into one queue", "by virtual time into a queue of the machine", "no such CPU",
  "flags other than 0 and 1", "the queue can't be created"];
const BEGAN = ["", "it woke", "it was stopped", "it was let go"];
const element = (id) => document.getElementById(id);
const text = (id) => element(id).textContent;
const clamp = (value, least, most) => Math.max(least, Math.min(most, value));

function decode(base64) {
  if (Uint8Array.fromBase64) return Uint8Array.fromBase64(base64);
  const letters = atob(base64), bytes = new Uint8Array(letters.length);
  for (let at = 0; at < letters.length; at++) bytes[at] = letters.charCodeAt(at);
  return bytes;
}

// Within a row stretches don't overlap, so the order in which they end is that in which they begin, and one
// pass that counts and one that places make sorted rows of them.
function readRun() {
  const head = JSON.parse(text("head")), tail = JSON.parse(text("tail"));
  const bytes = decode(text("stretches").trim());
  element("stretches").remove();
  const words = new Uint32Array(bytes.buffer, bytes.byteOffset, bytes.length >> 2), count = words.length >> 2;
  const tasks = head.tasks.length, processors = head.processors;
  const run = { ...head, ...tail, count, begin: head.from, duration: head.to - head.from, isMerged: head.together !== undefined,
    taskStart: new Uint32Array(tasks + 1), cpuStart: new Uint32Array(processors + 1) };
  for (let i = 0; i < count; i++) {
    const word = words[4 * i + 2], cpu = word >>> 16 & 255;
    run.taskStart[(word & 65535) + 1]++;
    if (cpu !== NOWHERE && !run.isMerged) run.cpuStart[cpu + 1]++;
  }
  for (let i = 0; i < tasks; i++) run.taskStart[i + 1] += run.taskStart[i];
  for (let i = 0; i < processors; i++) run.cpuStart[i + 1] += run.cpuStart[i];
  if (run.ended.at !== undefined) run.ended.at -= run.begin;
  for (const change of run.changes) change[0] -= run.begin;
  run.changes.sort((one, other) => one[0] - other[0]);
  placeStretches(run, words);
  sumStretches(run);
  return run;
}

function placeStretches(run, words) {
  const { count, taskStart, cpuStart } = run, runs = cpuStart[run.processors];
  Object.assign(run, {
    from: new Uint32Array(count), length: new Uint32Array(count), queue: new Uint16Array(count),
    cpu: new Uint8Array(count), why: new Uint8Array(count),
    cpuFrom: new Uint32Array(runs), cpuLength: new Uint32Array(runs), cpuTask: new Uint16Array(runs),
    pieceWaited: new Uint16Array(run.isMerged ? count : 0), pieceParked: new Uint16Array(run.isMerged ? count : 0),
  });
  const nextTask = taskStart.slice(), nextCpu = cpuStart.slice();
  for (let i = 0; i < count; i++) {
    const word = words[4 * i + 2], task = word & 65535, cpu = word >>> 16 & 255, at = nextTask[task]++;
    run.from[at] = words[4 * i] - run.begin;
    run.length[at] = words[4 * i + 1];
    run.cpu[at] = cpu;
    run.why[at] = word >>> 24;
    run.queue[at] = words[4 * i + 3];
    if (cpu === SEVERAL) placePiece(run, at, words[4 * i + 1], words[4 * i + 3]);
    if (cpu !== NOWHERE && !run.isMerged) {
      const place = nextCpu[cpu]++;
      run.cpuFrom[place] = run.from[at];
      run.cpuLength[place] = words[4 * i + 1];
      run.cpuTask[place] = task;
    }
  }
}

// A piece has in place of the queue the time for which the task ran.
function placePiece(run, at, times, more) {
  run.length[at] = times & 65535;
  run.pieceParked[at] = times >>> 16;
  run.pieceWaited[at] = more >>> 16;
}

// For how long the task ran, waited and was parked in a stretch, or in those of a piece.
const ranIn = ({ cpu, queue, length }, i) => cpu[i] === SEVERAL ? queue[i] : cpu[i] === NOWHERE ? 0 : length[i];
const waitedIn = ({ cpu, queue, length, pieceWaited }, i) =>
  cpu[i] === SEVERAL ? pieceWaited[i] : cpu[i] === NOWHERE && queue[i] !== PARKED ? length[i] : 0;
const parkedIn = ({ cpu, queue, length, pieceParked }, i) =>
  cpu[i] === SEVERAL ? pieceParked[i] : cpu[i] === NOWHERE && queue[i] === PARKED ? length[i] : 0;

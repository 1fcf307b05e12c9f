// Colours and patterns.
// Okabe and Ito's colours; vermillion is kept for what is wrong, and words in it are darker on light paper. Letters on a
// task's colour are white or black.
const LIGHT = { paper: "#ffffff", ink: "#1b1f24", faint: "#6a7178", line: "#d9dde1", band: "#f3f5f7", link: "#005a8c", wrong: "#d55e00", wrongInk: "#b84a00", wrongPaper: "#ffffff",
  wait: "#7d858d", waitPaper: "#ccd2d8", parked: "#8a6d00", parkedPaper: "#f6e9b2", several: "#4d5a68",
  tasks: ["#0072b2", "#e69f00", "#009e73", "#56b4e9", "#cc79a7", "#f0e442"], inks: "wbbbbb" };
const DARK = { paper: "#14171b", ink: "#e8eaed", faint: "#9aa3ab", line: "#343a41", band: "#1c2025", link: "#79bdf0", wrong: "#ff7a1a", wrongInk: "#ff7a1a", wrongPaper: "#14171b",
  wait: "#98a2ac", waitPaper: "#454d56", parked: "#e6c84a", parkedPaper: "#4a4013", several: "#a3b1c0",
  tasks: ["#3d97d8", "#e69f00", "#1fb58a", "#8fd0f5", "#dd94bd", "#f0e442"], inks: "bbbbbb" };
const SHADES = 32, LEAST_CONTRAST = 1.5, EDGE_CONTRAST = 3;

function packed(hex) {
  const value = parseInt(hex.slice(1), 16);
  return (0xff000000 | (value & 255) << 16 | value & 0xff00 | value >> 16) >>> 0;
}

function mixed(one, other, share) {
  const part = (shift) => Math.round((one >>> shift & 255) * (1 - share) + (other >>> shift & 255) * share) << shift;
  return (0xff000000 | part(16) | part(8) | part(0)) >>> 0;
}

function luminance(colour) {
  const linear = (part) => part <= 0.04045 ? part / 12.92 : ((part + 0.055) / 1.055) ** 2.4;
  const [red, green, blue] = [0, 8, 16].map((shift) => linear((colour >>> shift & 255) / 255));
  return 0.2126 * red + 0.7152 * green + 0.0722 * blue;
}

function contrast(one, other) {
  const [dark, light] = [luminance(one), luminance(other)].sort((a, b) => a - b);
  return (light + 0.05) / (dark + 0.05);
}

// The first mixture of two colours, in hundredths, that has such a contrast with the paper.
function firstMixture(one, other, paper, least) {
  let share = 0;
  while (share < 1 && contrast(mixed(one, other, share), paper) < least) share += 0.01;
  return Math.min(1, share);
}

// A colour's outline on that paper: the colour, as dark as it must be there.
const edgeOf = (colour, ink, paper) => mixed(colour, ink, firstMixture(colour, ink, paper, EDGE_CONTRAST));

// A share has a shade of its own; the least one is still seen.
function shadesOf(colour, paper) {
  const least = firstMixture(paper, colour, paper, LEAST_CONTRAST);
  return Uint32Array.from({ length: SHADES + 1 }, (_, k) => k === 0 ? paper : mixed(paper, colour, least + (1 - least) * k / SHADES));
}

const hexOf = (colour) => "#" + [0, 8, 16].map((shift) => (colour >>> shift & 255).toString(16).padStart(2, "0")).join("");

// What is narrower than its outline has a shade of the outline's colour. A task that isn't the chosen one is faint.
function makePalette(dark) {
  const names = dark ? DARK : LIGHT, palette = { names, dark }, strength = dark ? 0.45 : 0.4;
  for (const [key, hex] of Object.entries(names)) if (hex[0] === "#") palette[key] = packed(hex);
  const { paper, ink } = palette;
  palette.fills = names.tasks.map(packed);
  palette.edges = palette.fills.map((colour) => edgeOf(colour, ink, paper));
  palette.tasks = palette.edges.map((edge) => shadesOf(edge, paper));
  palette.tints = palette.fills.map((colour) => mixed(paper, colour, strength));
  palette.faintFills = palette.fills.map((colour) => mixed(paper, colour, 0.25));
  palette.faintTasks = palette.faintFills.map((colour) => new Uint32Array(SHADES + 1).fill(colour));
  palette.taskInk = [...names.inks].map((letter) => letter === "w" ? "#ffffff" : "#101418");
  for (const key of ["several", "wait", "parked", "wrong"]) palette[key + "Shades"] = shadesOf(palette[key], paper);
  palette.faintShades = new Uint32Array(SHADES + 1).fill(mixed(paper, palette.several, 0.2));
  return palette;
}

// Patterns are tiles of 24 by 24: none, one for each of the 16 queues, then one for each other kind.
const TILE = 24, WRONG_TILE = 17;
const PATTERNS = [() => false,
  (x, y) => (x + y) % 6 < 2, (x, y) => x % 4 < 2 && y % 4 < 2, (x, y) => (x - y + 48) % 6 < 2, (x) => x % 4 < 1,
  (x, y) => y % 3 < 1, (x, y) => (x + y) % 8 < 1 || (x - y + 48) % 8 < 1, (x, y) => x % 8 < 5 && y % 4 < 2,
  (x, y) => x % 6 < 1 || y % 4 < 1, (x) => x % 8 < 4, (x, y) => (x + y) % 12 < 2,
  (x, y) => (x % 8 < 2 && y % 8 < 2) || ((x + 4) % 8 < 2 && (y + 4) % 8 < 2), (x, y) => (y + Math.abs(x % 12 - 6)) % 6 < 2,
  (x, y) => (x % 8 < 4) !== (y % 8 < 4), (x) => x % 12 < 1 || x % 12 === 3, (x, y) => (x + y) % 12 < 7, (x, y) => (x - y + 48) % 12 < 2,
  (x, y) => (x + y) % 6 < 2.5, (x, y) => (x + 2 * (y % 6 < 3 ? y % 3 : 3 - y % 3)) % 12 < 4, (x, y) => y % 4 < 2,
  (x, y) => y % 4 === 0 || (x + (y >> 2) % 2 * 6) % 12 === 0, () => true];
const TILES = PATTERNS.map((pattern) => Uint8Array.from({ length: TILE * TILE }, (_, at) =>
  pattern(at % TILE, Math.floor(at / TILE)) ? 1 : 0));
const isLocal = (queue) => queue >= LOCAL && queue !== NO_QUEUE;
const KIND_TILES = { [HELD]: 18, [BUILTIN]: 19, [PARKED]: 20 };
const tileOf = (queue) => queue < GLOBAL ? 1 + queue : isLocal(queue) ? 21 : KIND_TILES[queue] ?? 0;

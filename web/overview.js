// The strip of the whole run, with what is in sight.
const OVERVIEW = 34;

// Draws the part of all CPUs' time in which they ran, and above it where some were idle while a task waited.
function drawOverview() {
  const canvas = element("overview").firstElementChild, wide = Math.max(200, element("scroller").clientWidth);
  const { sums, duration, processors } = run;
  Object.assign(canvas, { width: wide, height: OVERVIEW });
  const brush = canvas.getContext("2d"), { several, wrong, ink } = palette.names, step = duration / (wide - left());
  for (let x = 0; x < wide - left(); x++) {
    const from = x * step, until = Math.min(duration, from + step), share = within(sums, sums.busy, 0, from, until) / step / processors;
    const lost = (waitedUntil(run.lost, until) - waitedUntil(run.lost, from)) / step, high = Math.round(share * (OVERVIEW - 6));
    paintBoxes(brush, [[several, left() + x, OVERVIEW - high, 1, high]]);
    if (lost > 0.01) paintBoxes(brush, [[wrong, left() + x, 0, 1, 4]]);
  }
  if (isEjectionShown()) paintBoxes(brush, [[wrong, left() + run.ended.at / step - 1, 0, 2, OVERVIEW]]);
  Object.assign(brush, { fillStyle: ink, font: "600 11px system-ui, sans-serif", textBaseline: "middle" });
  brush.fillText(run.begin > 0 || run.duration < run.ms ? "All of the part" : "Whole run", 6, OVERVIEW / 2);
}

const overviewWidth = () => element("scroller").clientWidth - left();

function placeSight() {
  const scale = overviewWidth() / run.duration, sight = element("sight").style;
  sight.left = left() + view.from * scale + "px";
  sight.width = (view.until - view.from) * scale + "px";
}

// The strip is dragged; a click out of the window moves the window there.
function listenToOverview() {
  const strip = element("overview"), start = () => strip.getBoundingClientRect().left + left();
  const timeOf = (event) => (event.clientX - start()) / overviewWidth() * run.duration;
  let grip = null;
  strip.addEventListener("pointerdown", (event) => {
    const time = timeOf(event), length = view.until - view.from;
    if (time < view.from || time > view.until) showFrom(time - length / 2);
    grip = time - view.from;
    strip.setPointerCapture(event.pointerId);
  });
  strip.addEventListener("pointermove", (event) => { if (grip !== null) showFrom(timeOf(event) - grip); });
  for (const name of ["pointerup", "pointercancel"]) strip.addEventListener(name, () => { grip = null; });
}

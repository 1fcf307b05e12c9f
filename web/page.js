// Starts the page.
const LARGE = 4e6;

function start() {
  run = readRun();
  run.isByTask = isByTask();
  view.until = run.duration;
  const mean = run.cpuFrom.length ? run.cpuBefore[run.cpuFrom.length] / run.cpuFrom.length : 1;
  view.window = Math.min(run.duration / 4, Math.max(10 * mean / Math.min(4, run.processors), run.duration / 150));
  if (run.processors > MOST_CPUS || run.isMerged) view.folded.add("cpus");
  if (run.processors > MOST_CPUS || run.tracks.length > 4 || run.tasks.length > 64) view.folded.add("queues");
  foldLargest();
  const most = Math.max(0, ...run.groups.map((group) => Math.max(group.share, group.due)));
  view.top = most > 0.5 || most === 0 ? 1 : Math.ceil(most * 15) / 10;
  palette = makePalette(matchMedia("(prefers-color-scheme: dark)").matches);
  fillTitle();
  fillWaits();
  fillNames();
  makeLegend();
  listen();
  element("loading").remove();
  resize();
  show(0, run.duration);
  fillFigures();
  followLink();
  const readBack = () => context.getImageData(0, 0, 1, 1).data[0];
  const figures = (task) => figuresOfTask(run, task, 0, run.duration);
  window.scxsim = { run, view, palette, draw, show, zoom, pan, goTo, fold, place, settle, readBack, figures };
}

// A large page says that it is read before it is read.
if (text("stretches").length > LARGE) requestAnimationFrame(() => setTimeout(start));
else start();

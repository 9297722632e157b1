// The window on the run: which part of which axis is seen, and how it is moved.
const UNITS = { start: 's after the start', second: 'second', utc: 'UTC', record: 'record' };
const view = { unit: run.ordered ? 'start' : 'record', low: 0, high: 1 };
const drawings = []; // what is drawn anew where the window moves
let frame = 0;

// A place on the axis: its record, or its seconds after the start. What stands at the run's end stands up to the axis's end.
function positionOf(place) {
  if (place === END) return wholeRun()[1];
  return view.unit === 'record' ? place.record : place.time / TICKS;
}

const shareOf = place => (positionOf(place) - view.low) / (view.high - view.low);

// The whole of the page. After the last record there is some room, since what stands there begins there.
function wholeRun() {
  if (view.unit === 'record') return [FIRST, Math.max(FIRST + 1, END.record)];
  const end = END.time / TICKS;
  return [0, end > 0 ? end * 1.02 : 1];
}

function draw() {
  for (const drawing of drawings) drawing();
}

function drawSoon() {
  cancelAnimationFrame(frame);
  frame = requestAnimationFrame(draw);
}

function moveTo(low, high) {
  const [first, last] = wholeRun();
  const least = Math.min(last - first, view.unit === 'record' ? 4 : 16 / TICKS);
  const size = Math.min(last - first, Math.max(least, high - low));
  const isWhole = size > (last - first) * 0.999999; // sums of fractions are a little off
  view.low = isWhole ? first : Math.max(first, Math.min(last - size, low));
  view.high = isWhole ? last : view.low + size;
  drawSoon();
}

const showAll = () => moveTo(...wholeRun());

function zoom(factor, centre = (view.low + view.high) / 2) {
  moveTo(centre - (centre - view.low) * factor, centre + (view.high - centre) * factor);
}

function pan(share) {
  const step = (view.high - view.low) * share;
  moveTo(view.low + step, view.high + step);
}

// Brings a place into the window, in its middle, unless it is seen already.
function bring(place) {
  const share = shareOf(place);
  if (share >= 0 && share <= 0.98) return;
  const half = (view.high - view.low) / 2;
  moveTo(positionOf(place) - half, positionOf(place) + half);
}

// Zooms to what lies between two places, with room on both sides.
function zoomTo(from, to) {
  const [low, high] = [positionOf(from), positionOf(to)];
  const room = (high - low) * 0.15 || (view.unit === 'record' ? 2 : 8 / TICKS);
  moveTo(low - room, high + room);
}

// Another axis shows the same part of the run as far as both have it, else all of it.
function changeUnit(unit) {
  const same = (unit === 'record') === (view.unit === 'record');
  view.unit = unit;
  if (!same) [view.low, view.high] = wholeRun();
  drawSoon();
}

// Keys that hold anywhere but where one types.
function moveByKey(event) {
  if (/^(INPUT|SELECT|TEXTAREA)$/.test(event.target.tagName) || event.ctrlKey || event.metaKey || event.altKey) return;
  const move = {
    '+': () => zoom(0.6), '=': () => zoom(0.6), '-': () => zoom(1 / 0.6), 0: showAll,
    ArrowLeft: () => pan(-0.25), ArrowRight: () => pan(0.25), Escape: closePanel,
  }[event.key];
  if (!move) return;
  move();
  event.preventDefault();
}

function zoomByWheel(event) {
  const track = event.target.closest('.track');
  if (!track || !(event.ctrlKey || event.shiftKey || track.closest('#axis'))) return;
  event.preventDefault();
  const box = track.getBoundingClientRect();
  const centre = view.low + (event.clientX - box.left) / box.width * (view.high - view.low);
  zoom((event.deltaY || event.deltaX) > 0 ? 1.25 : 0.8, centre);
}

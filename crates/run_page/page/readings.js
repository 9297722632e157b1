// A plot is read by the pointer, or by the arrows from value to value.

function readingText(plot, step) {
  const [low, high] = [step.low, step.high].map(value => valueText(plot.field, value));
  return step.changes > 1 ? `${low} to ${high}, ${step.changes} changes` : low;
}

// The line and the text of what is read now.
function readingOf(plot, width) {
  const step = plot.steps[plot.read];
  if (!step || shareOf(step.to) < 0 || shareOf(step.from) > 1) return [];
  const text = `${readingText(plot, step)} from ${sinceStart(step.from.time)} s`;
  const left = Math.max(0, shareOf(step.from)) * width;
  const cursor = make('div', 'cursor');
  cursor.style.left = left / width * 100 + '%';
  const reading = make('div', 'reading', text);
  const room = widthOf(text, 11) + 10;
  reading.style.left = (left + 4 + room > width ? Math.max(0, left - room - 4) : left + 4) / width * 100 + '%';
  return [cursor, reading];
}

function read(plot, index) {
  if (index === plot.read || !plot.steps[index]) return;
  plot.read = index;
  const step = plot.steps[index];
  plot.track.setAttribute('aria-valuenow', index + 1);
  plot.track.setAttribute('aria-valuemin', 1);
  plot.track.setAttribute('aria-valuemax', plot.steps.length);
  plot.track.setAttribute('aria-valuetext', `${readingText(plot, step)}, ${during(step)}`);
  drawPlot(plot);
}

function readAtPointer(plot, event) {
  if (pointers.size) return;
  const box = plot.track.getBoundingClientRect();
  const position = view.low + (event.clientX - box.left) / box.width * (view.high - view.low);
  read(plot, plot.steps.findLastIndex(step => positionOf(step.from) <= position));
}

function readByKey(plot, event) {
  const step = { ArrowLeft: -1, ArrowRight: 1 }[event.key];
  if (!step || event.target !== plot.track) return;
  event.preventDefault();
  event.stopPropagation();
  const first = plot.steps.findIndex(each => shareOf(each.from) >= 0);
  const next = plot.read === undefined ? first : plot.read + step;
  if (!plot.steps[next]) return;
  bring(plot.steps[next].from);
  read(plot, next);
}

function listenToPlot(plot) {
  plot.track.addEventListener('pointermove', event => readAtPointer(plot, event));
  plot.track.addEventListener('keydown', event => readByKey(plot, event));
}

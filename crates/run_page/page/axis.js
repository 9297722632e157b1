// The axis: as many numbers as there is room for.
const MINUTE = 60, HOUR = 3600, DAY = 86400;
const CLOCK_STEPS = [1, 2, 5, 10, 15, 30, MINUTE, 2 * MINUTE, 5 * MINUTE, 10 * MINUTE, 15 * MINUTE, 30 * MINUTE,
  HOUR, 2 * HOUR, 3 * HOUR, 6 * HOUR, 12 * HOUR, DAY];

// The least step that isn't below `least`: 1, 2 or 5 times a power of ten, or of UTC what clocks have.
function stepFrom(least) {
  if (view.unit === 'record') least = Math.max(1, least);
  if (view.unit === 'utc' && least > DAY) return DAY * Math.ceil(least / DAY);
  if (view.unit === 'utc' && least > 0.5) return CLOCK_STEPS.find(step => step >= least);
  const power = 10 ** Math.floor(Math.log10(least));
  return [1, 2, 5, 10].map(times => times * power).find(step => step >= least * 0.999);
}

// What the axis counts from: of what stands there, the part that isn't seconds after the start.
function originOf() {
  if (view.unit === 'second') return run.start / TICKS;
  if (view.unit === 'utc') return run.start / TICKS + Date.parse(run.epoch) / 1000;
  return 0;
}

function numberText(number, step) {
  const digits = Math.max(0, Math.min(5, -Math.floor(Math.log10(step) + 1e-9)));
  if (view.unit === 'utc') return clockText(number, step, digits);
  return (view.unit === 'start' ? '+' : '') + number.toFixed(view.unit === 'record' ? 0 : digits);
}

// UTC with as much of it as the step needs: the day alone, or the time with what changes.
function clockText(number, step, digits) {
  const whole = Math.floor(number + 1e-6);
  const instant = new Date(whole * 1000);
  if (Number.isNaN(instant.getTime())) return '';
  const [day, clock] = instant.toISOString().slice(0, 19).split('T');
  if (step >= DAY) return day;
  if (number % DAY === 0) return day.slice(5) + ' 00:00';
  if (step >= MINUTE) return clock.slice(0, 5);
  return clock + (digits ? (number - whole).toFixed(digits).slice(1) : '');
}

// The numbers that are seen by a step.
function numbersBy(step) {
  const origin = originOf();
  const [low, high] = [view.low + origin, view.high + origin];
  const numbers = [];
  for (let count = Math.ceil(low / step - 1e-9); count * step <= high; count += 1) {
    numbers.push({ share: (count * step - low) / (high - low), text: numberText(count * step, step) });
  }
  return numbers;
}

// The least step that leaves each number its room.
function numbersFor(width) {
  const size = view.high - view.low;
  let step = stepFrom(size / Math.max(1, width / 40));
  for (let tries = 0; tries < 20; tries += 1) {
    const numbers = numbersBy(step);
    if (numbers.every(({ text }) => widthOf(text, 11.5) + 16 <= step / size * width)) return numbers;
    step = stepFrom(step * 1.01);
  }
  return [];
}

function axisName() {
  if (view.unit === 'start') return `s after ${secondOf(0)}`;
  if (view.unit === 'utc') return `UTC, ${instantOf(Math.round(view.low * TICKS)).slice(0, 10)}`;
  return UNITS[view.unit];
}

function drawAxis(axis) {
  const width = axis.track.clientWidth;
  axis.track.replaceChildren(...numbersFor(width).map(({ share, text }) => {
    const fits = (1 - share) * width > widthOf(text, 11.5) + 5;
    const tick = make('div', 'tick', fits ? text : '');
    tick.style.left = share * 100 + '%';
    return tick;
  }));
  axis.name.textContent = axisName();
  axis.track.setAttribute('aria-valuenow', view.low);
  const ends = [view.low, view.high].map(end => (view.unit === 'record' ? Math.floor(end) : decimal(Math.round(end * TICKS))));
  axis.track.setAttribute('aria-valuetext', `from ${ends[0]} to ${ends[1]}${view.unit === 'record' ? '' : ' s after the start'}`);
}

function makeAxis() {
  const axis = makeRow('', false);
  axis.row.id = 'axis';
  axis.track.tabIndex = 0;
  axis.track.setAttribute('role', 'slider');
  axis.track.setAttribute('aria-label', 'Axis: arrows move, plus and minus zoom, 0 is the whole run');
  drawings.push(() => drawAxis(axis));
}

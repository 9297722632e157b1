// Lanes: a row for each rule with the spans of its result and state, and rows for the tables, the mode, and marks alone.
const LEAST = 4; // px: what is narrower is drawn together with its neighbours
const CELL_WORDS = { fail: 'FAIL', error: 'error', stale: 'stale', pass: 'pass', none: 'none', absent: '' };
const LETTERS = { fail: ['F'], error: ['E'], stale: ['S'] };
const lanes = [];
const markRows = {};

function makeRow(label, isButton) {
  const row = make('div', 'row');
  const name = makeBroken(isButton ? 'button' : 'div', 'name', label, isButton ? { type: 'button', 'aria-expanded': 'false' } : {});
  const track = make('div', 'track');
  row.append(name, track);
  byId('lanes').append(row);
  walkable(track);
  return { row, name, track };
}

// Several spans in a row as one: all their results and states.
function joined(one, other) {
  return {
    from: one.from, to: other.to, left: one.left, right: other.right, results: one.results | other.results, states: one.states | other.states,
    pause: one.pause === other.pause ? one.pause : '', changes: one.changes + other.changes, parts: one.parts.concat(other.parts),
  };
}

// The spans in the window, at their pixels; those that are too narrow to be seen are joined to columns.
function cellsOf(spans, width) {
  const cells = [];
  for (const span of spans) {
    const [from, to] = [shareOf(span.from), shareOf(span.to)];
    if (to < 0 || from > 1) continue;
    const cell = { ...span, left: Math.max(0, from) * width, right: Math.min(1, to) * width, parts: [span] };
    const last = cells.at(-1);
    const narrow = each => each.right - each.left < LEAST;
    if (last && narrow(last) && narrow(cell)) cells[cells.length - 1] = joined(last, cell);
    else cells.push(cell);
  }
  return cells;
}

// A cell's place in its track. A failure or a column of several is never too narrow to be seen.
function place(element, cell, width) {
  const least = cell.results & 32 || cell.changes > 1 ? LEAST : 1;
  const left = Math.min(cell.left, width - least);
  element.style.left = left / width * 100 + '%';
  element.style.width = Math.max(least, cell.right - left) / width * 100 + '%';
  element.classList.toggle('slim', cell.right - left < TARGET);
  element.place = cell.from.record;
}

// What a cell says, the longest first: its result, with the state where that isn't active; of what isn't sampled why.
function cellTexts(cell, worst, state) {
  const word = CELL_WORDS[worst];
  if (cell.pause) return [`${cell.pause}, was ${word}`, cell.pause, { 'LC disabled': 'LC off', 'off for good': 'off', disabled: 'D' }[cell.pause] ?? '–'];
  return [...(state === 'passive' && word ? [`${word}, passive`, `${word} P`] : []), word, ...(LETTERS[worst] ?? [])];
}

function openCell(lane, cell) {
  if (cell.parts.length > 1 || cell.changes > 1) zoomTo(cell.from, cell.to);
  showSpan(lane, cell);
}

function drawCell(lane, cell, width) {
  const [worst] = wordsOf(cell.results, RESULTS);
  const states = wordsOf(cell.states, STATES);
  const state = states.length > 1 ? 'mixed' : states[0] ?? '';
  const text = fitting(cellTexts(cell, worst, state), cell.right - cell.left - 6, 11, 700);
  const classes = `cell ${worst} ${state}${cell.changes > 1 ? ' many' : ''}${cell.results & 4 && worst !== 'pass' ? ' passes' : ''}${cell.pause ? ' paused' : ''}`;
  const element = makeButton(classes, text, spanName(lane.rule, cell), event => { if (!event.detail) openCell(lane, cell); });
  place(element, cell, width);
  return element;
}

function drawLane(lane) {
  const width = lane.track.clientWidth || 1;
  lane.track.drawn = cellsOf(lane.spans, width);
  const cells = lane.track.drawn.map(cell => drawCell(lane, cell, width));
  redraw(lane.track, [...hatches(['requests', 'events'], width), ...cells, ...marksOf(groupsOf(lane.marks, width), width)]);
  if (lane.plots) lane.plots.forEach(drawPlot);
}

// Lanes on the screen are drawn as soon as the window moves, the others when nothing else is to be done; on paper all at once.
let others = [];
let timer = 0;

const onScreen = new IntersectionObserver(entries => {
  for (const { target, isIntersecting } of entries) {
    target.lane.seen = isIntersecting;
    if (isIntersecting) drawLane(target.lane);
  }
}, { rootMargin: '400px' });

function drawLanes() {
  const all = document.body.classList.contains('printing');
  const shown = lanes.filter(lane => !lane.row.hidden);
  shown.filter(lane => lane.seen || all).forEach(drawLane);
  others = all ? [] : shown.filter(lane => !lane.seen);
  clearTimeout(timer);
  timer = setTimeout(drawOthers, 200);
}

function drawOthers() {
  others.splice(0, 8).forEach(drawLane);
  if (others.length) timer = setTimeout(drawOthers, 20);
}

function makeLane(rule, items) {
  const lane = { ...makeRow(nameOf(rule), true), rule, spans: spansOf(rule), items };
  // The event that goes with a request is the request's, and no mark of its own.
  const own = new Set(items.filter(item => item.request).map(item => item.request.event));
  lane.marks = items.filter(item => !own.has(item.packet));
  lane.failed = lane.spans.some(span => span.results & 32);
  lane.words = [nameOf(rule), ...rulesOf(rule).map(each => each.condition)].join(' ').toLowerCase();
  lane.track.classList.toggle('marked', lane.marks.length > 0 || stretches.some(({ kind }) => kind !== 'commands'));
  lane.row.lane = lane;
  lane.row.setAttribute('role', 'group');
  lane.row.setAttribute('aria-label', nameOf(rule));
  lane.name.addEventListener('click', () => openLane(lane, !lane.plots));
  tappable(lane.track, cells => openCell(lane, cells.reduce(joined)));
  onScreen.observe(lane.row);
  lanes.push(lane);
}

// A band: in each part of it one word, shorter where there is less room. A part is {from, to, texts, says, look}.
function makeBand(label, parts, open) {
  const band = makeRow(label, false);
  const show = cells => (open ? open(cells[0], band.row) : showAfter(band.row, label, ...cells.map(cell => makeBroken('p', '', cell.name))));
  tappable(band.track, show);
  drawings.push(() => {
    const width = band.track.clientWidth || 1;
    band.track.drawn = parts.filter(({ from, to }) => shareOf(to) >= 0 && shareOf(from) <= 1).map(part => {
      const [left, right] = [part.from, part.to].map(end => Math.max(0, Math.min(1, shareOf(end))) * width);
      return { ...part, left, right, name: `${label}: ${part.says}${open ? '' : ', ' + during(part)}` };
    });
    redraw(band.track, band.track.drawn.map(cell => {
      const text = fitting(cell.texts, cell.right - cell.left - 16, 11, 600);
      const element = makeButton(`cell band ${cell.look}`, '', cell.name, event => { if (!event.detail) show([cell]); });
      element.append(make('span', '', text));
      place(element, cell, width);
      return element;
    }));
  });
}

const MODES = {
  active: ['active', 'A'], passive: ['passive', 'P'], disabled: ['disabled', 'D'], absent: ['no Limit Checker', 'no LC', '–'], untold: ['not recorded any more', '?'],
};

function makeBands() {
  const how = { none: 'no tables', started: 'since the start', adopted: 'adopted in flight', untold: 'not recorded any more' };
  makeBand('tables in force', withEnds(run.tables).map(({ entry: [, , text, way], from, to }) => {
    const texts = way in { none: 0, untold: 0 } ? [how[way]] : text === null ? ['tables of no text', 'no text'] : [textName(text), `text ${text}`, `${text}`];
    const came = run.window?.records && from.record === FIRST ? 'in force where this part begins' : how[way];
    return { from, to, texts, says: came === texts[0] ? texts[0] : `${texts[0]}, ${came}`, look: 'tables' };
  }));
  makeBand('mode of the checker', withEnds(run.mode).map(({ entry: [, , mode], from, to }) => (
    { from, to, texts: MODES[mode], says: MODES[mode][0], look: `mode_${mode}` })));
  for (const stretch of stretches) {
    const count = `${stretch.count.toLocaleString('en')} ${stretch.kind}`;
    const texts = [`${count} left out`, count, `${stretch.count}`];
    makeBand('not on this page', [{ ...stretch, texts, says: leftOutWords(stretch), look: 'hatch' }], showStretch);
  }
}

// Commands, and the events that are about no rule, have a row of marks alone.
function makeMarks(key, label, items, kinds) {
  if (!items.length) return;
  const { row, track } = markRows[key] = makeRow(label, false);
  track.classList.add('marks_alone');
  drawings.push(() => {
    const width = track.clientWidth || 1;
    redraw(track, [...hatches(kinds, width), ...marksOf(lengthen(groupsOf(items, width), width, kinds), width)]);
  });
}

function makeLanes() {
  const byRule = new Map();
  for (const item of sent) {
    if (!byRule.has(item.rule)) byRule.set(item.rule, []);
    byRule.get(item.rule).push(item);
  }
  makeAxis();
  makeBands();
  makeMarks('commands', 'commands', commands, ['commands']);
  makeMarks('others', 'other events', byRule.get(null) ?? [], ['events']);
  run.lanes.forEach((list, rule) => makeLane(rule, byRule.get(rule) ?? []));
  // Those that failed come first.
  byId('lanes').append(...[...lanes].sort((one, other) => other.failed - one.failed).map(lane => lane.row));
  drawings.push(drawLanes);
}

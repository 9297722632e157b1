// What is found: which lanes are shown, and the table of all requests and events, drawn as far as it is needed.
const MORE = 100; // rows that are drawn at once
let found = []; // the rows that the filter lets through
let drawn = 0;

function matches(item, wanted) {
  if (wanted.kind && item.kind !== wanted.kind) return false;
  if (wanted.rule !== '' && item.rule !== Number(wanted.rule) && !item.request?.one_of.includes(Number(wanted.rule))) return false;
  const lane = item.rule === null ? undefined : lanes[item.rule];
  if (wanted.failed && lane && !lane.failed) return false;
  return !wanted.words || `${whatOf(item)} ${lane?.words ?? ''}`.toLowerCase().includes(wanted.words);
}

function laneMatches(lane, wanted, hit) {
  if (wanted.rule !== '' && lane.rule !== Number(wanted.rule)) return false;
  if (wanted.failed && !lane.failed) return false;
  if (wanted.kind && !hit.has(lane.rule)) return false;
  return !wanted.words || lane.words.includes(wanted.words) || hit.has(lane.rule);
}

function find() {
  const wanted = {
    words: byId('words').value.trim().toLowerCase(), rule: byId('rule').value, kind: byId('kind').value, failed: byId('failed').checked,
  };
  found = sent.filter(item => matches(item, wanted));
  const hit = new Set(found.map(item => item.rule));
  for (const lane of lanes) {
    lane.row.hidden = !laneMatches(lane, wanted, hit);
    if (lane.row.hidden) openLane(lane, false);
  }
  if (byId('panel').previousElementSibling?.hidden) closePanel();
  const shown = lanes.filter(lane => !lane.row.hidden).length;
  byId('shown').textContent = `${shown} of ${lanes.length} rules shown.`;
  byId('rows_shown').textContent = [`${found.length} of ${sent.length} requests and events`, ...stretches.map(leftOutWords)].join('; ');
  drawn = 0;
  byId('rows').replaceChildren();
  drawRows(MORE);
  drawSoon();
}

function makeTableRow(item) {
  const row = make('tr', item.packet === chosen ? 'chosen' : '', undefined, { role: 'row', 'data-packet': item.packet });
  const label = item.request ? whoOf(item.request) : item.rule === null ? 'show' : nameIn(textAt(item.at.record), item.rule);
  const link = makeBroken('button', item.rule === null && !item.request ? 'unprinted' : '', label, { type: 'button', 'aria-label': `${label}: packet ${item.packet} in the lanes` });
  link.addEventListener('click', () => showInLanes(item));
  const rule = make('td', 'rule');
  rule.append(link);
  row.append(make('td', 'number', item.packet), make('td', 'number', secondOf(item.at.time)), make('td', 'instant', instantOf(item.at.time)),
    make('td', 'number narrow', item.at.record), make('td', `whole kind ink_${item.kind}`, `${SHAPES[item.kind]} ${item.kind}`), rule, makeBroken('td', 'what', whatOf(item)));
  for (const cell of row.children) cell.setAttribute('role', 'cell');
  return row;
}

function drawRows(count) {
  const next = found.slice(drawn, drawn + count);
  byId('rows').append(...next.map(makeTableRow));
  drawn += next.length;
  byId('more').hidden = drawn >= found.length;
  byId('more').textContent = `${found.length - drawn} more`;
}

// Rows are drawn while the end of the table is near the screen.
const atTheEnd = new IntersectionObserver(entries => {
  if (!entries.at(-1).isIntersecting || drawn >= found.length) return;
  drawRows(MORE);
  atTheEnd.unobserve(byId('more'));
  atTheEnd.observe(byId('more'));
}, { rootMargin: '600px' });

// From a row to its place in the lanes, and back.
function showInLanes(item) {
  bring(item.at);
  const lane = lanes[item.rule];
  if (lane) {
    lane.row.hidden = false;
    openLane(lane, true);
  }
  showItem(item);
  const row = rowOf(item);
  row.scrollIntoView({ block: 'start' });
  (lane?.name ?? row.querySelector('[tabindex="0"]'))?.focus({ preventScroll: true });
}

function showRow(item) {
  const index = found.indexOf(item);
  if (index < 0) return;
  if (index >= drawn) drawRows(index + MORE - drawn);
  choose(item.packet);
  const row = byId('rows').querySelector(`[data-packet="${item.packet}"]`);
  row.scrollIntoView({ block: 'center' });
  row.querySelector('button').focus({ preventScroll: true });
}

function fillFilters() {
  byId('rule').append(make('option', '', 'all rules', { value: '' }));
  for (const lane of lanes) byId('rule').append(make('option', '', nameOf(lane.rule), { value: lane.rule }));
  byId('kind').append(make('option', '', 'all kinds', { value: '' }));
  for (const kind of ['request', ...LEVELS]) byId('kind').append(make('option', '', `${SHAPES[kind]} ${kind}`, { value: kind }));
  for (const id of ['words', 'rule', 'kind', 'failed']) byId(id).addEventListener('input', find);
  atTheEnd.observe(byId('more'));
}

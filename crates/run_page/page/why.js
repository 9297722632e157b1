// The panel below a lane: why a request was made, and what a span or a mark is.
let chosen = null; // the packet that is marked in the table
let closed = null; // what has the keys again after the panel is closed

// The panel opens below the row that it is about, which comes into view with it.
function showAfter(row, title, ...elements) {
  const panel = byId('panel');
  if (!panel.contains(document.activeElement)) closed = document.activeElement;
  const close = makeButton('close', '✕', 'close this', closePanel);
  close.tabIndex = 0;
  const head = make('div', 'opened');
  head.append(makeBroken('h3', '', title), close);
  panel.replaceChildren(head, ...elements);
  panel.hidden = false;
  row.after(panel);
  if (panel.getBoundingClientRect().bottom > innerHeight) row.scrollIntoView({ block: 'start' });
}

function closePanel() {
  const back = byId('panel').contains(document.activeElement);
  byId('panel').hidden = true;
  if (back && closed?.isConnected) closed.focus({ preventScroll: true });
}

const rowOf = item => (lanes[item.rule] ?? markRows[item.kind === 'command' ? 'commands' : 'others'])?.row ?? byId('axis');

function conditionOf(rule) {
  const line = make('p', '', 'fails when ');
  line.append(make('code', '', rule.condition));
  return line;
}

// The comparisons of one sample, each with the value that it met.
function partsTable(rule, [, time, parts], before) {
  const table = make('table');
  const head = make('tr');
  head.append(make('th', '', 'comparison'), make('th', 'number', 'value'), make('th', '', 'age'), make('th', '', 'holds'));
  table.append(head);
  parts.forEach(([value, record, since, verdict], index) => {
    const [field, operator, number] = rule.comparisons[index];
    const same = record !== null && before?.[2][index]?.[1] === record ? ', as before' : '';
    const age = record === null ? 'no packet taken' : `${decimal(time - since)} s, record\u00a0${record}${same}`;
    const holds = { true: '✔ true', false: '✘ false' }[verdict] ?? verdict;
    const row = make('tr', verdict === 'true' ? 'holding' : '');
    row.append(makeBroken('td', '', `${run.fields[field].name} ${operator}\u00a0${number}`),
      make('td', 'number', record === null ? '–' : valueText(field, value)), make('td', age.length < 18 ? 'whole' : '', age), make('td', 'holds', holds));
    table.append(row);
  });
  return table;
}

// Which of the samples in a row one of the list is: the first three and the last three are there.
function sampleHeading(request, index) {
  const shown = request.samples.length;
  const number = index < shown - Math.min(3, shown) ? index + 1 : request.counted - (shown - 1 - index);
  const which = request.counted === null ? '' : ` ${number} of ${request.counted}`;
  return `Failed sample${which}: ${near(placeOf(request.samples[index]))}${isOverSame(request, index) ? ', over the same packets as the one before it' : ''}`;
}

// Whether a sample met the same packets as the one before it.
function isOverSame({ samples }, index) {
  const records = sample => sample[2].map(part => part[1]).join();
  return index > 0 && records(samples[index]) === records(samples[index - 1]);
}

// Whether the event that goes with a request was sent, and why not.
function eventWords(request, level) {
  if (request.event !== null) return `, packet ${request.event}.`;
  return { type: ` was not sent: events of ${level} are off.`, filter: ' was not sent: held back by a filter.' }[request.held] ?? ' was not sent.';
}

// How often a rule failed before a request.
function failedIn({ counted: count }) {
  return count === null ? 'failed in several samples of this record, of which the number is not known' : count === 1 ? 'failed in 1 sample' : `failed in ${count} samples in a row`;
}

// The whole answer: rule, condition, and the failed samples with what each comparison met.
function whyOf(request) {
  const rule = ruleIn(request.text, request.rule);
  const article = make('article');
  const place = `Sequence ${request.sequence} was requested ${at(request)}, packet ${request.packet}, count ${request.count}.`;
  if (!rule) {
    const none = request.one_of.length ? `${whoOf(request).replace('one of', 'One of')} requested it: which one is not known.` : 'Which rule requested it is not known.';
    const who = request.rule === null ? none : `Rule ${request.rule} ${failedIn(request)}.`;
    const why = request.text === null ? 'The tables in force were of none of the texts, so its condition is not known.' : '';
    const event = request.rule === null ? '' : ` Its event${eventWords(request, 'its type')}`;
    article.append(makeBroken('p', '', place), make('p', '', `${who} ${why}${event}`));
    return article;
  }
  const needs = request.counted === rule.fails ? ', as many as it needs' : `; it needs ${rule.fails}`;
  article.append(makeBroken('p', '', place), makeBroken('p', '', `${rule.name} (rule ${request.rule}) ${failedIn(request)}${needs}. ${delayOf(request, rule)}`),
    conditionOf(rule), makeBroken('p', 'soft', `In ${textName(request.text)}. Its event, ${rule.level} ${rule.event} “${rule.says}”${eventWords(request, `type ${rule.level}`)}`));
  const samples = make('div', 'samples');
  samples.append(...request.samples.map((sample, index) => {
    const part = make('section');
    part.append(make('h4', '', sampleHeading(request, index)), partsTable(rule, sample, request.samples[index - 1]));
    return part;
  }));
  article.append(samples);
  if (!request.samples.length) {
    article.append(make('p', 'soft', 'The values of its samples are not on this page, which has those of many other requests.'), ...moreAbout(request, request));
  }
  return article;
}

// Marks what is looked at in the table.
function choose(packet) {
  chosen = packet;
  for (const row of byId('rows').querySelectorAll('.chosen')) row.classList.remove('chosen');
  byId('rows').querySelector(`[data-packet="${packet}"]`)?.classList.add('chosen');
}

function linkTo(text, click) {
  const link = makeButton('', text, text, click);
  link.tabIndex = 0;
  return link;
}

const rowLink = item => linkTo(`packet ${item.packet} in the table`, () => showRow(item));

function showItem(item) {
  if (item.packet) choose(item.packet);
  if (item.request) {
    const level = ruleIn(item.request.text, item.request.rule)?.level;
    showAfter(rowOf(item), `Why sequence ${item.request.sequence}?${level ? ` (${SHAPES[level]} ${level})` : ''}`, whyOf(item.request), rowLink(item));
    return;
  }
  const [title, links] = item.kind === 'command' ? ['command', []] : [`${item.kind} event`, [rowLink(item)]];
  showAfter(rowOf(item), title, makeBroken('p', '', itemName(item)), ...links);
}

// Several marks that are drawn as one: each has its own button, and all are zoomed to.
function showItems(items) {
  if (items.length === 1) { showItem(items[0]); return; }
  const links = items.slice(0, 200).map(item => linkTo(`${SHAPES[item.kind]} ${itemName(item, near)}`, () => showItem(item)));
  const rest = items.length > links.length ? [make('p', 'soft', `and ${items.length - links.length} more: zoom to see them`)] : [];
  showAfter(rowOf(items[0]), `${items.length} ${items[0].kind === 'command' ? 'commands' : 'requests and events'}`,
    linkTo('zoom to these', () => zoomTo(items[0].at, items.at(-1).at)), ...links, ...rest);
}

// A span, or each of those that are drawn as one.
function showSpan(lane, cell) {
  const text = textAt(cell.from.record);
  const inForce = ruleIn(text, lane.rule);
  const parts = cell.parts.slice(0, 200).map(part => makeBroken('p', '', spanName(lane.rule, part, near)));
  const rest = cell.parts.length > 200 ? [make('p', 'soft', `and ${cell.parts.length - 200} more: zoom to see them`)] : [];
  const reduced = cell.parts.some(part => part.changes > 1)
    ? [make('p', 'soft', 'A number of changes stands for changes that are not on this page one by one.'), ...moreAbout(cell.from, cell.to)] : [];
  const [nearer] = cell.parts.length > 1 ? [linkTo('zoom to these', () => zoomTo(cell.from, cell.to))] : [''];
  showAfter(lane.row, `${nameIn(text, lane.rule)}: ${cell.pause || resultWords(cell.results)[0]}`,
    ...(inForce ? [conditionOf(inForce)] : []), nearer, ...parts, ...rest, ...reduced);
}

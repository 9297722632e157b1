// What is asked first: which sequences were requested, by which rules, when and why, and whether it is over.
const SHOWN = 3; // rules that are shown at once
const ENDING = run.window ? 'the end of this part' : 'the end';

// The requests by the names of their rules, in the order of the first ones.
function requestsByRule() {
  const groups = new Map();
  for (const request of run.requests) {
    const name = whoOf(request);
    if (!groups.has(name)) groups.set(name, { name, rule: request.rule, requests: [] });
    groups.get(name).requests.push(request);
  }
  return [...groups.values()];
}

// Since when a result stands at the end. A rule that failed at a request and fails again has done something else in between.
function sinceWhen(spans, bits, request) {
  const first = spans.findLastIndex(span => span.results !== bits || span.changes > 1) + 1;
  if (!spans[first]) return '';
  const again = bits === 32 && isBefore(request, spans[first].from) ? ' again' : '';
  return first === 0 ? ' all the time' : `${again} since ${sinceStart(spans[first].from.time)} s`;
}

const isAgain = (spans, request) => sinceWhen(spans, 32, request).startsWith(' again');

// The last result of a rule that isn't in force any more, if the page says it.
function lastResult(spans, { name, rule }) {
  const last = spans.findLast(({ results }) => results !== 1);
  return last?.changes === 1 && nameIn(textAt(last.from.record), rule) === name ? `, last result ${resultWords(last.results)[0]}` : '';
}

// How a rule stands at the end: a kind, one word for its sign, and a sentence.
function standing(group) {
  const { name, rule } = group;
  if (rule === null) return ['unknown', '? not known', group.requests[0].one_of.length ? 'not known, since which of them requested it is not' : 'not known, since its rule is not known'];
  const spans = lanes[rule]?.spans ?? [];
  const span = spans.at(-1);
  const text = textAt(END.record);
  if (!span || span.results === 1 || nameIn(text, rule) !== name) {
    return text === undefined ? ['unknown', '? not known', 'not known, since the tables in force are not'] : ['unknown', '? not in force', `not in force at ${ENDING}${lastResult(spans, group)}`];
  }
  const [result] = wordsOf(span.results, RESULTS);
  const again = span.states === 2 ? '; passive: no more requests until it is set active' : '';
  if (span.pause) return ['unknown', '? not sampled', `not sampled at ${ENDING} (${span.pause}), last result ${result}`];
  if (result === 'fail') return ['still', '✖ still fails', `${isAgain(spans, group.requests[0]) ? 'failed' : 'fails'}${sinceWhen(spans, 32, group.requests[0])}${again}`];
  if (result === 'pass') return ['over', '✔ over', `passes${sinceWhen(spans, 4, group.requests[0])}${again}`];
  return ['unknown', `? ${result}`, `${resultWords(span.results)[0]} at ${ENDING}${again}`];
}

// The values of the fields in the last sample of a request.
function valuesOf(request, rule) {
  const sample = request.samples.at(-1);
  if (!sample) return [];
  const texts = sample[2].map(([value, record, , verdict], index) => {
    const [field, operator, number] = rule.comparisons[index];
    const true_one = verdict === 'true' && sample[2].length > 1 ? ` (✔ ${operator} ${number})` : '';
    return `${run.fields[field].name} = ${record === null ? 'no packet' : valueText(field, value)}${true_one}`;
  });
  return [...new Set(texts)];
}

const short = (text, most) => (text.length > most ? text.slice(0, most - 1) + '…' : text);

function term(name, ...content) {
  const box = make('div');
  const says = make('dd');
  says.append(...content);
  box.append(make('dt', '', name), says);
  return box;
}

function answerOf(group) {
  const { requests, name, ending: [kind, sign, sentence] } = group;
  const [first] = requests;
  const rule = ruleIn(first.text, first.rule);
  const item = make('li', kind);
  const sequences = [...new Set(requests.map(request => request.sequence))];
  const title = make('p', 'asked');
  const open = makeBroken('button', '', name, { type: 'button', 'aria-label': `${name}: show why in the lanes` });
  open.addEventListener('click', () => showInLanes(sent.find(each => each.request === first)));
  const led = `▼ sequence ${sequences.slice(0, 4).join(', ')}${sequences.length > 4 ? ', ..' : ''}`;
  title.append(open, ' ', make('b', 'ink_request', led), makeBroken('span', '', rule ? ` “${rule.says}” ` : ' '),
    ...(rule ? [make('b', `ink_${rule.level}`, `${SHAPES[rule.level]} ${rule.level}`), ' '] : []), make('b', 'ending', sign));
  const times = requests.length === 1 ? '' : `; ${counted(requests.length, 'time')}${run.requests_left_out ? ' at least' : ''}, last ${sinceStart(requests.at(-1).time)} s`;
  const list = make('dl');
  const why = rule ? valuesOf(first, rule).slice(0, 4).join(', ') : '';
  list.append(term('when', makeBroken('span', '', `${when(first)}${times}`)));
  if (rule) list.append(term('why', makeBroken('span', '', `${why}${why && '; '}fails when `), make('code', '', short(rule.condition, 110))));
  list.append(term('is it over', sentence));
  item.append(title, list);
  return item;
}

// The other rules that failed.
function quietFailures(groups) {
  const names = new Set(groups.map(group => group.name));
  const may = new Set(run.requests.flatMap(request => [request.rule, ...request.one_of]));
  const quiet = lanes.filter(lane => lane.spans.some(span => span.results & 32 && !span.pause) && !may.has(lane.rule)
    && !names.has(nameIn(textAt(END.record), lane.rule)) && !names.has(nameOf(lane.rule)));
  if (!quiet.length) return;
  // A request of which nothing is known may be of any rule.
  const isOpen = run.requests.some(request => request.rule === null && (!request.one_of.length || request.one_of.includes(null)));
  const line = make('p', '', `${groups.length ? 'Also failed' : 'Failed'}${isOpen ? '' : ', without a request on this page'}: `);
  for (const lane of quiet.slice(0, 4)) {
    const open = makeBroken('button', '', nameOf(lane.rule), { type: 'button' });
    open.addEventListener('click', () => {
      openLane(lane, true);
      lane.row.scrollIntoView({ block: 'start' });
    });
    line.append(open, ' ');
  }
  if (quiet.length > 4) line.append(`and ${counted(quiet.length - 4, 'other rule')}.`);
  byId('answers').append(line);
}

// Why there is no sample, as far as the page says it.
function whyNoSample() {
  if (run.mode.every(([, , mode]) => mode === 'absent')) return 'no Limit Checker ran';
  if (run.mode.every(([, , mode]) => mode === 'absent' || mode === 'disabled')) return 'the Limit Checker was disabled';
  if (run.tables.every(([, , , how]) => how === 'none')) return 'no tables were in force';
  if (!run.figures.ticks) return 'no tick came, and no request for a sample';
  if (!run.sampling.some(({ due }) => due)) return 'the schedule samples none of these rules';
  return 'no scheduler ran, or no rule was active or passive';
}

// Some names of rules, and how many others.
const namesOf = names => (names.length > 4 ? `${names.slice(0, 4).join(', ')} and ${names.length - 4} more` : listed(names));

// What was looked at: the samples, the rules that are stale at the end, and those that were never sampled.
function lookedAt() {
  if (!run.samples) return `Nothing was sampled: ${whyNoSample()}.`;
  const forced = new Set(run.tables.map(([, , text]) => text));
  const never = run.window ? lanes.filter(({ rule }) => !run.sampling[rule].sampled).map(({ rule }) => nameOf(rule))
    : run.account.rules.filter(({ text, sampled }) => forced.has(text) && !sampled).map(({ text, rule }) => nameIn(text, rule));
  const stale = lanes.filter(({ spans }) => spans.at(-1)?.results === 8).map(({ rule }) => nameIn(textAt(END.record), rule));
  const late = lanes.filter(({ spans }) => spans.at(-1)?.pause === 'no sample').map(({ rule }) => nameIn(textAt(END.record), rule));
  const parts = [[stale, `stale at ${ENDING}`], [late, `not sampled at ${ENDING}, though due`], [[...new Set(never)], 'never sampled']]
    .filter(([names]) => names.length).map(([names, what]) => ` ${names.length === lanes.length && names.length > 1 ? 'All rules are' : `${counted(names.length, 'rule')} ${names.length === 1 ? 'is' : 'are'}`} ${what}: ${namesOf(names)}.`);
  return `${counted(run.samples, 'sample')} of ${counted(lanes.length, 'rule')}.${parts.join('')}`;
}

function headline(groups) {
  if (!run.figures.records) return run.window ? 'This part has no record.' : 'There is no record.';
  if (!run.figures.requests) return run.samples ? `No sequence was requested. ${lookedAt()}` : lookedAt();
  const named = groups.filter(({ rule }) => rule !== null).length;
  const isLess = run.requests_left_out && named < lanes.length || named < groups.length;
  const who = named ? `${isLess ? 'at least ' : ''}${counted(named, 'rule')}` : 'rules that are not known';
  const still = groups.filter(({ ending }) => ending[0] === 'still').length;
  const open = groups.filter(({ ending }) => ending[0] === 'unknown').length;
  const over = groups.length - still - open;
  const parts = [[still, 'still fails', 'still fail'], [over, 'passes', 'pass'], [open, 'cannot be judged', 'cannot be judged']]
    .filter(([count]) => count).map(([count, one, more]) => `${count} ${count === 1 ? one : more}`);
  const which = groups.length === 1 ? `It ${parts[0].slice(2)} at ${ENDING}` : `At ${ENDING} ${listed(parts)}`;
  return `${counted(run.figures.requests, 'request')} by ${who}. ${which}.`;
}

// Writes the answers that are folded.
let showRest = () => {};

function tellAnswers() {
  const groups = requestsByRule();
  for (const group of groups) group.ending = standing(group);
  const order = ['still', 'unknown', 'over'];
  groups.sort((one, other) => order.indexOf(one.ending[0]) - order.indexOf(other.ending[0])); // in each the first one first
  byId('headline').textContent = headline(groups);
  if (run.figures.requests) byId('answers').append(make('p', run.samples ? 'soft' : 'cut', lookedAt()));
  const mode = run.mode.at(-1)?.[2];
  if (mode && mode !== 'active' && mode !== 'untold') {
    byId('answers').append(make('p', 'cut', mode === 'absent' ? `At ${ENDING} no Limit Checker runs.` : `At ${ENDING} the mode is ${mode}, so no rule requests.`));
  }
  const list = make('ol');
  list.append(...groups.slice(0, SHOWN).map(answerOf));
  byId('answers').append(list);
  if (groups.length > SHOWN) {
    const more = make('details');
    more.append(make('summary', '', `${counted(groups.length - SHOWN, 'more rule')} that requested`), make('ol'));
    showRest = () => {
      if (!more.lastChild.children.length) more.lastChild.append(...groups.slice(SHOWN).map(answerOf));
    };
    more.addEventListener('toggle', showRest);
    byId('answers').append(more);
  }
  quietFailures(groups);
}

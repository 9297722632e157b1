// The run, as DATA.md says it, and what is read of it in several places.
'use strict';
const run = JSON.parse(document.getElementById('run').textContent);
const TICKS = 65536; // a time is in parts of a second
const FIRST = (run.window?.records ?? 0) + 1; // the page's first record
const END = { record: FIRST + run.figures.records, time: run.end };

// Bits of results and states, the worst first.
const RESULTS = [[32, 'fail'], [16, 'error'], [8, 'stale'], [4, 'pass'], [2, 'none'], [1, 'absent']];
const STATES = [[1, 'active'], [2, 'passive'], [4, 'disabled'], [8, 'off']];
const RESULT_WORDS = { none: 'no result yet', absent: 'no such rule in force' };

// The kinds of marks, each with a shape of its own: the levels of events from the worst on.
const LEVELS = ['critical', 'error', 'info', 'debug'];
const SHAPES = { request: '▼', critical: '▲', error: '■', info: '●', debug: '○', command: '◆' };

const wordsOf = (bits, table) => table.filter(([bit]) => bits & bit).map(([, word]) => word);
const ruleIn = (text, number) => (text === null || text === undefined ? undefined : run.texts[text]?.rules[number]);
const rulesOf = number => run.texts.map(text => text.rules[number]).filter(rule => rule);
const placeOf = ([record, time]) => ({ record, time });

// A rule has the names that the texts give its number: mostly one.
function nameOf(number) {
  const names = [...new Set(rulesOf(number).map(rule => rule.name))];
  return names.length ? names.join(' / ') : `rule ${number}`;
}

// Who made a request: a rule, or one of several.
function whoOf({ rule, one_of, text }) {
  if (rule !== null) return nameIn(text, rule);
  if (!one_of.length) return 'unknown rule';
  return `one of ${one_of.map(each => (each === null ? 'others' : nameIn(text, each))).join(', ')}`;
}

// The name of a rule in the text that was in force, else all its names; of tables that are of no text its number.
const nameIn = (text, number) => ruleIn(text, number)?.name ?? (text === null ? `rule ${number} of tables of no text` : nameOf(number));

const textName = text => {
  const file = run.files.filter(each => each.role === 'rules')[text];
  return file ? `text ${text} (${file.name.split('/').at(-1)})` : `text ${text}`;
};

// A list of entries, each with where it ends: at the next one, and the last one at the run's end.
function withEnds(list, end = END) {
  return list.map((entry, index) => ({
    entry, from: placeOf(entry), to: index + 1 < list.length ? placeOf(list[index + 1]) : end,
  }));
}

// Where the Limit Checker is disabled: it samples no rule there.
const disabledParts = withEnds(run.mode).filter(({ entry }) => entry[2] === 'disabled');

// Where a sample of a rule was due and none came. An entry of several gaps has samples between them.
const gapsOf = rule => run.sampling[rule].gaps.map(([record, time, last, end, count]) => (
  { from: { record, time }, to: last >= END.record ? END : { record: last, time: end }, count }));

const isBefore = (one, other) => one.record < other.record || (one.record === other.record && one.time < other.time);
const isWithin = ({ from, to }, part) => !isBefore(from, part.from) && !isBefore(part.to, to);

// The parts of a span: those in which its rule isn't sampled, and the others. One entry of several changes stays whole.
function cut(span, parts) {
  const cuts = parts.flatMap(({ from, to }) => [from, to]).filter(place => span.changes === 1 && isBefore(span.from, place) && isBefore(place, span.to))
    .sort((one, other) => (isBefore(one, other) ? -1 : 1));
  return [span.from, ...cuts].map((from, index) => ({ ...span, from, to: cuts[index] ?? span.to }));
}

// Why a rule isn't sampled in a span, or nothing where it is.
function pauseOf(span, gaps) {
  const { results, states } = span;
  if (results === 1) return '';
  if (states && !(states & 3)) return states === 4 ? 'disabled' : states === 8 ? 'off for good' : 'not sampled';
  if (disabledParts.some(part => isWithin(span, part))) return 'LC disabled';
  const gap = gaps.find(part => isWithin(span, part));
  return gap ? gap.count > 1 ? 'hardly sampled' : 'no sample' : '';
}

function spansOf(rule) {
  const gaps = gapsOf(rule);
  return withEnds(run.lanes[rule]).map(({ entry, from, to }) => ({
    from, to, results: entry[2], states: entry[3], changes: entry.length > 4 ? entry[4] : 1,
  })).flatMap(span => cut(span, [...disabledParts, ...gaps])).map(span => ({ ...span, pause: pauseOf(span, gaps) }));
}

// What stands in a list from a record on: the last entry that doesn't begin after it.
const entryAt = (list, record) => list[list.findLastIndex(entry => entry[0] <= record)];

// The text in force after a record: null where it is none, undefined where the page doesn't say.
function textAt(record) {
  const entry = entryAt(run.tables, record);
  return entry?.[3] === 'untold' ? undefined : entry?.[2] ?? null;
}

// A number as a rule text writes it.
function numberOf(text) {
  return text.startsWith('-') ? -Number(text.slice(1)) : Number(text);
}

// Fields that some text compares with a number in hex are shown in hex.
const hexFields = new Set(run.texts.flatMap(text => text.rules).flatMap(rule => rule.comparisons)
  .filter(([, , number]) => /0x/.test(number)).map(([field]) => field));

function valueText(field, value) {
  if (value === null) return 'packet too short';
  if (!hexFields.has(field)) return String(value);
  return (value < 0 ? '-' : '') + '0x' + Math.abs(value).toString(16).toUpperCase();
}

// What the run sent, in one list: requests and events by their packets.
const sent = run.requests.map(request => ({ kind: 'request', request, packet: request.packet, rule: request.rule, at: request }))
  .concat(run.events.map(([packet, record, time, rule, sender, id, level, says]) => (
    { kind: level, packet, rule, sender, id, says, at: { record, time } })))
  .sort((one, other) => one.packet - other.packet);

// Ground commands and uplinked files and halves, by their records.
const commands = run.commands.map(([record, time, says]) => ({ kind: 'command', rule: null, says, at: { record, time } }));

const whatOf = item => (item.request
  ? `sequence ${item.request.sequence}, count ${item.request.count}` : `${item.sender} ${item.id}: ${item.says}`);

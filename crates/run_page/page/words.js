// Times and places in words.

// Seconds with at most five digits after the point, rounded down, as the listings have them.
function decimal(time) {
  const size = Math.abs(time);
  const part = String(Math.floor(size % TICKS * 100000 / TICKS)).padStart(5, '0').replace(/0+$/, '');
  return (time < 0 ? '-' : '') + Math.floor(size / TICKS) + (part ? '.' + part : '');
}

const secondOf = time => decimal(run.start + time);
const sinceStart = time => (time < 0 ? '' : '+') + decimal(time);
const counted = (count, word) => `${count.toLocaleString('en')} ${word}${count === 1 ? '' : 's'}`;
const listed = words => words.join(', ').replace(/, ([^,]*)$/, ' and $1');

// 1st, 2nd, 3rd, 4th, .. 11th, .. 21st
function ordinal(number) {
  const ending = Math.floor(number / 10) % 10 === 1 ? 'th' : ['th', 'st', 'nd', 'rd'][number % 10] ?? 'th';
  return number + ending;
}

// UTC of a time since the start, without leap seconds.
function instantOf(time) {
  if (run.epoch === null) return '';
  const ticks = run.start + time;
  const whole = new Date(Date.parse(run.epoch) + Math.floor(ticks / TICKS) * 1000);
  if (Number.isNaN(whole.getTime())) return '';
  const [, part] = decimal(ticks).split('.');
  return whole.toISOString().slice(0, 19) + (part ? '.' + part : '') + 'Z';
}

// A record with its time; `when` has the time alone.
function when(place) {
  const instant = instantOf(place.time);
  return `${sinceStart(place.time)} s (second ${secondOf(place.time)}${instant && ', ' + instant})`;
}

// The same without the second and the instant, where these stand above.
const near = place => `${sinceStart(place.time)} s, record ${place.record}`;

const at = place => when(place).replace(/\)$/, `, record ${place.record})`);

// How long a span lasts, from where to where.
function during({ from, to }, words = at) {
  if (to === END) return `from ${words(from)} to the end`;
  if (to.record === from.record) return `within record ${from.record}, ${words(from)}`;
  return `from ${words(from)} to ${words(to)}`;
}

function resultWords(bits) {
  return wordsOf(bits, RESULTS).map(word => RESULT_WORDS[word] ?? word);
}

const stateWords = bits => wordsOf(bits, STATES).map(word => (word === 'off' ? 'off for good' : word)).join(' and ');

// What a span, or several that are drawn as one, says to a person who can't see it.
function spanName(rule, span, words = at) {
  const [worst, ...others] = resultWords(span.results);
  const states = stateWords(span.states);
  const also = others.length ? `, also ${others.join(', ')}` : '';
  const changes = span.changes > 1 ? `, ${span.changes} changes` : '';
  const pause = span.pause === 'no sample' ? 'no sample came though it was due, last result ' : span.pause === 'hardly sampled' ? 'several times no sample came though it was due, last result ' : span.pause === 'LC disabled' ? 'not sampled while the Limit Checker is disabled, last result ' : span.pause ? 'not sampled, last result ' : '';
  return `${nameOf(rule)}: ${pause}${span.changes > 1 ? 'worst ' : ''}${worst}${also}${states && ', ' + states}${changes}, ${during(span, words)}`;
}

function itemName(item, words = at) {
  if (item.kind === 'command') return `command ${item.says}, ${words(item.at)}`;
  const what = item.request ? `request of sequence ${item.request.sequence}` : `${item.kind} event ${whatOf(item)}`;
  const rule = item.request ? ` of ${whoOf(item.request)}` : item.rule === null ? '' : ` of ${nameIn(textAt(item.at.record), item.rule)}`;
  return `${what}${rule}, ${words(item.at)}, packet ${item.packet}`;
}

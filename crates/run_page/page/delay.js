// Why a rule that had failed often enough requested no earlier.

// The sample of this number in a row, where the page has it: the first three and the last three are there.
function sampleOf(request, number) {
  const { samples } = request;
  const index = number <= Math.min(3, samples.length) ? number - 1 : samples.length - 1 - (request.counted - number);
  return index >= Math.max(0, samples.length - 3) || index < Math.min(3, samples.length) ? samples[index] : undefined;
}

// Rule's state and the mode after a record; undefined where the page doesn't say.
function stateAt(rule, record) {
  const span = entryAt(run.lanes[rule], record);
  const exact = span && (span.length === 4 || !(span[3] & (span[3] - 1)));
  return exact && span[3] ? wordsOf(span[3], STATES)[0] : undefined;
}

function modeAt(record) {
  const mode = entryAt(run.mode, record)?.[2];
  return mode === 'untold' ? undefined : mode;
}

// The first record after one from which on both the rule and the mode are active.
function releaseAfter(rule, record, until) {
  const changes = [...run.lanes[rule], ...run.mode].map(placeOf).filter(place => place.record > record && place.record <= until);
  return changes.sort((one, other) => one.record - other.record)
    .find(place => stateAt(rule, place.record) === 'active' && modeAt(place.record) === 'active');
}

// What ended it, in words: the command of that record. Where the page hasn't each change, it is the last command that may have done it.
function releaseWords(request, name, record) {
  const place = releaseAfter(request.rule, record, request.record - 1);
  const command = place && run.commands.find(([other]) => other === place.record);
  if (command) return ` The command “${command[2]}” ended that, ${near(place)}.`;
  const last = run.commands.findLast(([other, , says]) => other > record && other < request.record && [`state ${name} active`, 'mode active'].includes(says));
  if (last) return ` The last command “${last[2]}” before this request came ${near(placeOf(last))}.`;
  return place ? ` That ended ${near(place)}.` : ' What ended that is not on this page.';
}

// One sentence, and one on what ended it; none where the request came as early as it could.
function delayOf(request, rule) {
  const number = rule.fails;
  if (!(request.counted > number)) return '';
  const nth = `${ordinal(number)} failed sample in a row`;
  const unknown = `Why it did not request at the ${nth} is not on this page.`;
  const first = request.samples[0];
  const before = run.requests.findLast(other => other.packet < request.packet && other.rule === request.rule && other.text === request.text
    && first && other.record >= first[0]);
  if (before) {
    return `It had requested sequence ${before.sequence} in this row of failures already, ${near(before)}, and was passive after that.`
      + releaseWords(request, rule.name, before.record);
  }
  const sample = sampleOf(request, number);
  if (!sample || sample[0] <= FIRST) return unknown;
  // A request at this sample, which the page may have left out, makes the rule passive at this record, and not before.
  const last = sample[0] - 1;
  const passive = modeAt(last) === 'passive' ? 'the mode' : stateAt(request.rule, last) === 'passive' ? 'the rule' : '';
  if (!passive) return unknown;
  return `It did not request at the ${nth}, ${near(placeOf(sample))}, because ${passive} was passive then.`
    + releaseWords(request, rule.name, last);
}

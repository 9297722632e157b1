// What the page leaves out, with the command that makes a page of it.

// Every place of the page, by records: with these a record that isn't there is between two that are.
function knownPlaces() {
  const lists = [...run.lanes, ...run.fields.map(field => field.values), run.tables, run.mode, run.commands, run.events.map(event => event.slice(1)),
    run.requests.map(({ record, time }) => [record, time])];
  return lists.flat().map(placeOf).concat(END).sort((one, other) => one.record - other.record);
}

// The stretches that lack requests, events or commands: how many, of which records, and between which known places they are.
function leftOut() {
  const lists = ['requests', 'events', 'commands'].filter(kind => run[`${kind}_left_out`]);
  const known = lists.length ? knownPlaces() : [];
  return lists.map(kind => {
    const [count, first, last] = run[`${kind}_left_out`];
    return { kind, count, first, last, from: known.findLast(place => place.record <= first), to: known.find(place => place.record >= last) };
  });
}

const stretches = leftOut();
const leftOutWords = ({ kind, count, first, last }) => `${count.toLocaleString('en')} ${kind} of records ${first} to ${last} are not on this page`;

const quoted = name => (/^[\w./:@%+,-]+$/.test(name) ? name : `'${name.replaceAll("'", "'\\''")}'`);

// The command for a page of the records from one time to another, whole seconds around them.
function commandFor(from, to) {
  const names = role => run.files.filter(file => file.role === role).map(file => quoted(file.name));
  const [low, high] = [Math.floor((run.start + from.time) / TICKS), Math.floor((run.start + to.time) / TICKS) + 1];
  return ['flight_tools report', ...(run.epoch === null ? [] : ['--epoch', run.epoch]), '--from', low, '--until', high,
    '--schedule', ...names('schedule'), '--stream', ...names('stream'), '--out', 'PART.html', ...names('rules')].join(' ');
}

// Where more is to be read of what lies between two places, as elements.
function moreAbout(from, to) {
  if (!run.ordered) return [make('p', 'soft', 'Times go back in this stream, so no page of a part can be made.')];
  const line = make('p', '', 'This makes a page of this part: ');
  line.append(make('code', 'command_line', commandFor(from, to)));
  return [line];
}

function showStretch(stretch, row) {
  const [low, high] = ['low', 'high'].map(end => view[end] * TICKS);
  const inside = view.unit !== 'record' && stretch.from.time < high && stretch.to.time > low;
  const part = inside ? [{ time: Math.max(low, stretch.from.time) }, { time: Math.min(high, stretch.to.time) }] : [stretch.from, stretch.to];
  showAfter(row, `${stretch.kind} left out`, makeBroken('p', '', `${leftOutWords(stretch)}, between ${when(stretch.from)} and ${when(stretch.to)}. `
    + 'A page has the first and the last 300 requests, 300 commands and 500 events of its part: zoom in for a shorter one.'), ...moreAbout(...part));
}

// Hatched where something of these kinds lies that the page leaves out; what overlaps is hatched once.
function hatches(kinds, width) {
  const parts = [];
  for (const { kind, from, to } of stretches) {
    const last = parts.at(-1);
    if (!kinds.includes(kind)) continue;
    if (last && from.record <= last.to.record && last.from.record <= to.record) {
      Object.assign(last, { from: from.record < last.from.record ? from : last.from, to: to.record > last.to.record ? to : last.to });
    } else parts.push({ from, to });
  }
  return parts.filter(({ from, to }) => shareOf(to) >= 0 && shareOf(from) <= 1).map(({ from, to }) => {
    const [left, right] = [from, to].map(place => Math.max(0, Math.min(1, shareOf(place))));
    const hatch = make('span', 'hatch', undefined, { 'aria-hidden': 'true' });
    hatch.style.left = left * 100 + '%';
    hatch.style.width = Math.max(2, (right - left) * width) / width * 100 + '%';
    return hatch;
  });
}

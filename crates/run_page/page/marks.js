// Marks of requests, events and commands. Those whose labels would meet are one mark, which says how many it has.

// What a mark says, kind by kind: one request its sequence, one event its number, one command its first word, several how many they are.
function labelsOf(items) {
  return Object.keys(SHAPES).map(kind => [kind, items.filter(item => item.kind === kind)]).filter(([, own]) => own.length).map(([kind, own]) => {
    const [item] = own;
    const what = own.length > 1 ? `${own.length}×` : item.request?.sequence ?? item.id ?? item.says.split(' ')[0];
    return { kind, text: `${SHAPES[kind]} ${what}` };
  });
}

// A group with the pixels that its label takes, within the track.
function grouped(items, first, last, width) {
  const labels = labelsOf(items);
  const room = Math.max(TARGET, Math.ceil(widthOf(labels.map(({ text }) => text).join(' '), 12, 700)) + 8);
  const left = Math.max(0, Math.min(first - 6, width - room));
  return { items, first, last, labels, left, right: left + room };
}

function groupsOf(items, width) {
  const groups = [];
  for (const item of items) {
    const share = shareOf(item.at);
    if (share < 0 || share > 1) continue;
    let group = grouped([item], share * width, share * width, width);
    while (groups.length && groups.at(-1).right + 4 > group.left) {
      const before = groups.pop();
      group = grouped(before.items.concat(group.items), before.first, group.last, width);
    }
    groups.push(group);
  }
  return groups;
}

// What marks of one kind say in words, the longest first; of commands also the first word of each once.
function longTexts(items) {
  if (items[0].kind === 'request') return [items.map(({ request }) => `sequence ${request.sequence}`).join('; ')];
  if (items[0].kind !== 'command') return [items.map(({ id, says }) => `${id} ${says}`).join('; ')];
  const words = [...new Set(items.map(({ says }) => says.split(' ')[0]))].join(', ');
  return [items.map(({ says }) => says).join('; '), items.length === 1 ? words : `${items.length}× ${words}`];
}

// Marks of one kind say as much as fits before the next mark, and before what is left out of these kinds.
function lengthen(groups, width, kinds) {
  const hatched = stretches.filter(({ kind }) => kinds.includes(kind)).map(({ from }) => shareOf(from) * width);
  groups.forEach((group, index) => {
    if (group.labels.length > 1) return;
    const [{ kind }] = group.labels;
    const end = Math.min(groups[index + 1]?.left ?? width, ...hatched.filter(left => left >= group.last));
    const text = fitting(longTexts(group.items).map(words => `${SHAPES[kind]} ${words}`), end - group.left - 12, 12, 700);
    if (text) group.labels = [{ kind, text }];
  });
  return groups;
}

// A mark, and below it a line from the place of its first to that of its last.
function drawGroup(group, width) {
  const count = group.items.length;
  const name = count === 1 ? itemName(group.items[0])
    : `${count} marks: ${group.labels.map(({ text }) => text).join(' ')}, from ${at(group.items[0].at)} to ${at(group.items.at(-1).at)}`;
  const mark = makeButton(`mark ${group.labels[0].kind}`, '', name, () => showItems(group.items));
  group.labels.forEach(({ kind, text }, index) => mark.append(index ? ' ' : '', make('span', `ink_${kind}`, text)));
  mark.style.left = group.left / width * 100 + '%';
  mark.place = group.items[0].at.record + 0.5;
  const reach = make('span', `reach ink_${group.labels[0].kind}`, undefined, { 'aria-hidden': 'true' });
  reach.style.left = Math.min(group.first, width - 2) / width * 100 + '%';
  reach.style.width = (group.last - group.first) / width * 100 + '%';
  return [mark, reach];
}

const marksOf = (groups, width) => groups.flatMap(group => drawGroup(group, width));

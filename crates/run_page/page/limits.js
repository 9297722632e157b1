// On which side of its limits a field's value makes a condition true.
const COMPARE = {
  '<': (value, limit) => value < limit, '<=': (value, limit) => value <= limit, '!=': (value, limit) => value !== limit,
  '==': (value, limit) => value === limit, '>=': (value, limit) => value >= limit, '>': (value, limit) => value > limit,
};

// A rule's condition, of its prefix order, as a tree: comparisons, and words over parts.
function treeOf(rule) {
  let next = 0;
  const read = () => {
    const item = rule.tree[next];
    next += 1;
    if (typeof item === 'number') return { comparison: rule.comparisons[item] };
    return { word: item, parts: item === 'not' ? [read()] : [read(), read()] };
  };
  return read();
}

// The part of a condition that is about one field: what is about others is left out.
function partAbout(tree, field) {
  if (tree.comparison) return tree.comparison[0] === field ? tree : null;
  const parts = tree.parts.map(part => partAbout(part, field)).filter(part => part);
  if (parts.length === 0) return null;
  return parts.length === 1 && tree.word !== 'not' ? parts[0] : { word: tree.word, parts };
}

function holds(tree, value) {
  if (tree.comparison) return COMPARE[tree.comparison[1]](value, numberOf(tree.comparison[2]));
  const truths = tree.parts.map(part => holds(part, value));
  switch (tree.word) {
    case 'not': return !truths[0];
    case 'and': return truths[0] && truths[1];
    case 'or': return truths[0] || truths[1];
    default: return truths[0] !== truths[1];
  }
}

// The ranges of whole numbers for which the field's part of the condition is true, ends included.
function failingRanges(rule, field) {
  const part = partAbout(treeOf(rule), field);
  const limits = limitsOf(rule, field).map(([, number]) => numberOf(number));
  const cuts = [...new Set(limits.flatMap(limit => [limit, limit + 1]))].sort((one, other) => one - other);
  const ranges = [];
  [-Infinity, ...cuts].forEach((low, index) => {
    const high = index < cuts.length ? cuts[index] - 1 : Infinity;
    if (!holds(part, high === Infinity ? low : high)) return;
    const last = ranges.at(-1);
    if (last && last[1] === low - 1) last[1] = high;
    else ranges.push([low, high]);
  });
  return ranges;
}

// The limits that a rule compares a field with, each once: its operator and its number.
function limitsOf(rule, field) {
  const own = rule.comparisons.filter(([compared]) => compared === field).map(([, operator, number]) => `${operator} ${number}`);
  return [...new Set(own)].map(text => text.split(' '));
}

const fieldsOf = rule => [...new Set(rule.comparisons.map(([field]) => field))];

// Whether the shade is all of the condition: of several fields, or of xor, it is a part that others may turn.
const isAlone = rule => fieldsOf(rule).length === 1;

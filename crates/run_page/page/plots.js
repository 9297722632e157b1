// Plots of the fields that an opened lane's rules compare: values as steps, limits as lines, the failing side shaded.
const HEIGHT = 92, EDGE = 8; // px

// The parts of the run in which a text with this rule is in force, with what the rule says of the field there.
// Parts in a row that say the same are one.
function limitPartsOf(rule, field) {
  const parts = [];
  for (const { entry, from, to } of withEnds(run.tables)) {
    const inForce = ruleIn(entry[2], rule);
    if (!inForce || !fieldsOf(inForce).includes(field)) continue;
    const last = parts.at(-1);
    if (last && last.to === from && last.rule.condition === inForce.condition) last.to = to;
    else parts.push({ from, to, rule: inForce, limits: limitsOf(inForce, field), ranges: failingRanges(inForce, field) });
  }
  return parts;
}

// A field's entries with their ends. The last one lasts to the last packet.
function stepsOf(field) {
  const { values, last } = run.fields[field];
  const end = last ? { record: last[0], time: last[1] } : END;
  return withEnds(values, end).map(({ entry, from, to }) => ({
    from, to, low: entry[2], high: entry.length > 3 ? entry[3] : entry[2], changes: entry.length > 3 ? entry[4] : 1,
  }));
}

// The least and the greatest of the values in the window and of the limits, nearest first, as far as the values stay to be seen.
function boundsOf(plot) {
  const seen = each => shareOf(each.to) >= 0 && shareOf(each.from) <= 1;
  const values = plot.steps.filter(seen).flatMap(step => [step.low, step.high]).filter(value => value !== null);
  const limits = plot.parts.filter(seen).flatMap(part => part.limits.map(([, number]) => numberOf(number)));
  let low = values.reduce((one, other) => Math.min(one, other), values[0] ?? limits[0] ?? 0);
  let high = values.reduce((one, other) => Math.max(one, other), low);
  plot.values = values.length ? [low, high].map(value => valueText(plot.field, value)).join(' to ') : 'no value';
  const away = limit => Math.max(low - limit, limit - high, 0);
  const most = Math.max(1, high - low, Math.min(...limits.map(away))) * 8;
  for (const limit of limits) {
    if (Math.max(high, limit) - Math.min(low, limit) > most) continue;
    [low, high] = [Math.min(low, limit), Math.max(high, limit)];
  }
  const room = (high - low) * 0.08 || 1;
  return [low - room, high + room];
}

function makePlot(lane, field) {
  const { name, values, packets } = run.fields[field];
  const plot = { row: make('div', 'row plot'), track: make('div', 'track'), field, lane, parts: limitPartsOf(lane.rule, field) };
  plot.steps = stepsOf(field);
  plot.told = make('div');
  const label = makeBroken('div', 'name', name);
  label.append(plot.told, make('div', '', `${packets} packets`));
  if (plot.parts.some(part => !isAlone(part.rule))) label.append(make('div', '', 'shade: this field’s part only'));
  plot.row.append(label, plot.track);
  plot.track.tabIndex = 0;
  plot.track.setAttribute('role', 'slider');
  plot.track.setAttribute('aria-label', `${name}: ${values.length} values; arrows go from one to the next`);
  listenToPlot(plot);
  tappable(plot.track, near => showItems([...new Set(near.map(({ item }) => item))]));
  return plot;
}

const sharePixels = (place, width) => Math.max(-10, Math.min(width + 10, shareOf(place) * width));
const heightOf = (plot, value) => EDGE + (plot.high - value) / (plot.high - plot.low) * (HEIGHT - 2 * EDGE);

// The failing side and the limits, where a text with them is in force.
function limitShapes(plot, width) {
  return plot.parts.map(part => {
    const [left, right] = [part.from, part.to].map(place => sharePixels(place, width));
    const wide = Math.max(0, right - left);
    const shades = part.ranges.map(([low, high]) => {
      const top = Math.max(0, heightOf(plot, high + 0.5));
      const bottom = Math.min(HEIGHT, heightOf(plot, low - 0.5));
      if (bottom < 0 || top > HEIGHT) return '';
      return `<rect class="shade" x="${left}" y="${top}" width="${wide}" height="${Math.max(1, bottom - top)}"/>`;
    });
    const lines = part.limits.map(([, number]) => `<path class="limit" d="M${left} ${heightOf(plot, numberOf(number))}h${wide}"/>`);
    return shades.concat(lines).join('');
  }).join('');
}

// The values: a line of steps, and a box from the least to the greatest where many are one entry.
function valueShapes(plot, width) {
  let line = '', boxes = '', dots = '', before = null;
  for (const step of plot.steps) {
    const [left, right] = [step.from, step.to].map(place => sharePixels(place, width));
    if (right < 0 || left > width) continue;
    if (step.low === null) { before = null; continue; }
    const [top, bottom] = [heightOf(plot, step.high), heightOf(plot, step.low)];
    line += before === null ? `M${left} ${bottom}` : `H${left}V${bottom}`;
    if (step.changes > 1) boxes += `<rect class="between" x="${left}" y="${top}" width="${Math.max(1, right - left)}" height="${Math.max(1, bottom - top)}"/>`;
    else dots += `M${left} ${bottom}h0`;
    line += step.changes > 1 ? `M${right} ${bottom}` : `H${right}`;
    before = step;
  }
  const few = dots.length < 6000;
  return `${boxes}<path class="line" d="${line}"/>${few ? `<path class="dots" d="${dots}"/>` : ''}`;
}

// Labels of the limits at their lines, where they meet no mark. Those that would meet each other are one label.
function limitLabels(plot, width, marks) {
  const labels = [];
  for (const part of plot.parts) {
    const [left, right] = [part.from, part.to].map(end => Math.max(0, Math.min(width, shareOf(end) * width)));
    if (shareOf(part.to) < 0 || shareOf(part.from) > 1) continue;
    for (const [operator, number] of part.limits) {
      const line = heightOf(plot, numberOf(number));
      const beyond = line < 0 ? '↑ ' : line > HEIGHT ? '↓ ' : '';
      addLabel(labels, { texts: [`${beyond}${operator} ${number}`], line, start: left, end: right }, width, marks);
    }
  }
  return labels.map(label => {
    const element = make('div', 'limit_text', label.texts.join(', '));
    element.style.top = label.top + 'px';
    element.style.left = label.left / width * 100 + '%';
    return element;
  });
}

// A place for a label above its line, or below it, as far left in its part as no mark is there; none where there is no room.
function freePlace(label, wide, width, marks) {
  const meets = (left, top) => marks.some(mark => mark.x > left - 10 && mark.x < left + wide + 8 && Math.abs(mark.y - top - 7) < 16);
  const tops = [label.line - 15, label.line + 2].map(top => Math.max(0, Math.min(HEIGHT - 14, top)));
  const first = Math.max(0, Math.min(label.start + 3, width - wide));
  for (const top of tops) {
    for (let left = first; left === first || left + wide <= label.end; left += 4) {
      if (!meets(left, top)) return { left, top };
    }
  }
  return null;
}

// A label that would meet another one is joined with it.
function addLabel(labels, label, width, marks) {
  const wide = widthOf(label.texts.join(', '), 11) + 10;
  const free = freePlace(label, wide, width, marks);
  if (!free) return;
  Object.assign(label, free);
  label.right = label.left + wide;
  const met = labels.findIndex(other => Math.abs(other.top - label.top) < 15 && other.left < label.right && label.left < other.right);
  if (met < 0) { labels.push(label); return; }
  const [other] = labels.splice(met, 1);
  const texts = [...new Set(other.texts.concat(label.texts))];
  addLabel(labels, { texts, line: other.line, start: Math.min(other.start, label.start), end: Math.max(other.end, label.end) }, width, marks);
}

// The failed samples before the rule's requests, at the values that they met.
function sampleMarks(plot, width) {
  return plot.lane.items.filter(item => item.request).flatMap(({ request }) => {
    const rule = ruleIn(request.text, request.rule);
    const part = rule ? rule.comparisons.findIndex(([field]) => field === plot.field) : -1;
    if (part < 0) return [];
    return request.samples.map(([record, time, parts]) => ({ request, record, time, value: parts[part][0] }));
  }).filter(sample => sample.value !== null && sample.record >= FIRST && shareOf(sample) >= 0 && shareOf(sample) <= 1).map(sample => {
    const value = valueText(plot.field, sample.value);
    const name = `failed sample before the request of sequence ${sample.request.sequence}: ${run.fields[plot.field].name} ${value}, ${at(sample)}`;
    const item = plot.lane.items.find(each => each.request === sample.request);
    const mark = makeButton('diamond', '', name, () => showItem(item));
    Object.assign(mark, { place: sample.record, item, x: shareOf(sample) * width, y: heightOf(plot, sample.value) });
    mark.style.left = shareOf(sample) * 100 + '%';
    mark.style.top = mark.y + 'px';
    return mark;
  });
}

// The newest values before the rule's requests, where the list of the field does not have each value.
function aroundShapes(plot, width) {
  return plot.lane.items.filter(item => item.request).map(({ request }) => {
    const [, values] = request.around.find(([field]) => field === plot.field) ?? [0, []];
    const known = values.filter(([record, , value]) => value !== null && record >= FIRST);
    if (!known.length) return '';
    const points = known.map(([record, time, value]) => [sharePixels({ record, time }, width), heightOf(plot, value)]);
    const steps = points.map(([x, y], index) => (index ? `H${x}V${y}` : `M${x} ${y}`)).join('');
    const dots = points.map(([x, y]) => `M${x} ${y}h0`).join('');
    return `<path class="line" d="${steps}H${sharePixels(request, width)}"/><path class="dots" d="${dots}"/>`;
  }).join('');
}

function drawPlot(plot) {
  const width = plot.track.clientWidth || 1;
  [plot.low, plot.high] = boundsOf(plot);
  plot.told.textContent = plot.values;
  const drawing = make('div', 'drawing', undefined, { 'aria-hidden': 'true' });
  drawing.innerHTML = `<svg viewBox="0 0 ${width} ${HEIGHT}" preserveAspectRatio="none">${limitShapes(plot, width)}${valueShapes(plot, width)}${aroundShapes(plot, width)}</svg>`;
  const marks = sampleMarks(plot, width);
  plot.track.drawn = marks.map(({ x, y, item }) => ({ left: x, right: x, top: y, item }));
  redraw(plot.track, [drawing, ...limitLabels(plot, width, marks), ...marks, ...readingOf(plot, width)]);
}

function openLane(lane, open) {
  lane.name.setAttribute('aria-expanded', open);
  if (!open && lane.plots) {
    lane.plots.forEach(plot => plot.row.remove());
    lane.plots = null;
  }
  if (!open || lane.plots) return;
  const fields = [...new Set(rulesOf(lane.rule).flatMap(fieldsOf))];
  lane.plots = fields.map(field => makePlot(lane, field));
  (lane.row.nextElementSibling === byId('panel') ? byId('panel') : lane.row).after(...lane.plots.map(plot => plot.row));
  lane.plots.forEach(drawPlot);
}

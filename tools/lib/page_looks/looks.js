// What is asked of a page that is looked at. Each answers a list of what isn't so.
const looks = {};

looks.boxOf = element => {
  const { left, right, top, bottom } = element.getBoundingClientRect();
  return { left, right, top, bottom, says: element.textContent || element.className };
};

looks.meet = (one, other) => Math.min(one.right, other.right) - Math.max(one.left, other.left) > 0.5
  && Math.min(one.bottom, other.bottom) - Math.max(one.top, other.top) > 0.5;

// Labels of one track don't lie over each other, nor out of it, and each has its room.
looks.labels = () => {
  const faults = [];
  for (const track of document.querySelectorAll('.row:not([hidden]) .track')) {
    const box = looks.boxOf(track);
    const labels = [...track.querySelectorAll('.tick, .mark, .limit_text, .cell')].filter(each => each.textContent).map(each => {
      if (!each.matches('.tick') && each.scrollWidth > each.clientWidth + 1) faults.push(`cut: ${each.textContent}`);
      const range = document.createRange();
      range.selectNodeContents(each);
      return { ...looks.boxOf(range), says: each.textContent };
    });
    for (const label of labels) {
      if (label.left < box.left - 1 || label.right > box.right + 1) faults.push(`outside: ${label.says}`);
    }
    labels.sort((one, other) => one.left - other.left);
    labels.forEach((one, index) => {
      for (const other of labels.slice(index + 1)) if (looks.meet(one, other)) faults.push(`meet: ${one.says} / ${other.says}`);
    });
    const marks = [...track.querySelectorAll('.diamond')].map(looks.boxOf);
    const limits = [...track.querySelectorAll('.limit_text')].map(looks.boxOf);
    for (const one of limits) for (const other of marks) if (looks.meet(one, other)) faults.push(`a sample lies on a limit: ${one.says}`);
  }
  for (const name of document.querySelectorAll('.row:not([hidden]) .name')) {
    if (name.scrollWidth > name.clientWidth + 1 || name.scrollHeight > name.closest('.row').clientHeight + 2) faults.push(`name cut: ${name.textContent}`);
  }
  if (document.documentElement.scrollWidth > innerWidth + 1 && !document.body.classList.contains('printing')) faults.push('wider than the screen');
  return faults;
};

// Each span and mark is a button with a name; each track with some has one stop for the tab key.
looks.names = () => {
  const faults = [];
  for (const track of document.querySelectorAll('.row:not([hidden]) .track')) {
    const buttons = [...track.querySelectorAll('button')];
    for (const button of buttons) if (!button.getAttribute('aria-label')) faults.push(`no name: ${button.className}`);
    const stops = buttons.filter(button => button.tabIndex === 0).length;
    if (buttons.length && stops !== 1) faults.push(`${stops} stops in a track`);
  }
  for (const control of document.querySelectorAll('button, select, input, [role=slider]')) {
    const named = control.getAttribute('aria-label') || control.textContent.trim() || control.closest('label');
    if (!named) faults.push(`no name: ${control.id}`);
  }
  return faults;
};

// Whatever a span's result is, at its place something as bad or worse is drawn.
looks.truth = () => {
  const faults = [];
  const worst = bits => RESULTS.findIndex(([bit]) => bits & bit);
  for (const lane of lanes) {
    if (lane.row.hidden || (others.includes(lane) && !lane.seen)) continue;
    const width = lane.track.clientWidth;
    const cells = [...lane.track.querySelectorAll('.cell')].map(cell => {
      const left = parseFloat(cell.style.left) / 100 * width;
      return { left, right: left + parseFloat(cell.style.width) / 100 * width, paused: cell.classList.contains('paused'), rank: RESULTS.findIndex(([, word]) => cell.classList.contains(word)) };
    });
    for (const span of lane.spans) {
      const [from, to] = [shareOf(span.from) * width, shareOf(span.to) * width];
      if (to < 0 || from > width) continue;
      const middle = Math.max(0, Math.min(width, (Math.max(0, from) + Math.min(width, to)) / 2));
      const here = cells.filter(cell => cell.left <= middle + 0.6 && cell.right >= middle - 0.6);
      if (!here.some(cell => cell.rank <= worst(span.results))) faults.push(`${lane.name.textContent}: ${spanName(lane.rule, span)} isn't drawn`);
      if (span.results & 32 && !span.pause && !here.some(cell => cell.rank === 0 && !cell.paused && cell.right - cell.left >= 3.9)) faults.push(`a failure isn't seen: ${spanName(lane.rule, span)}`);
    }
  }
  return faults;
};

// No control's text is cut, and what is told as text lies within the screen.
looks.texts = () => {
  const faults = [];
  for (const element of document.querySelectorAll('h1, h2, h3, p, td, th, label, summary, small, b')) {
    const box = looks.boxOf(element);
    const scrolls = element.closest('.wide');
    if (box.right > innerWidth + 1 && !scrolls && !document.body.classList.contains('printing')) faults.push(`goes over the edge: ${element.textContent.slice(0, 40)}`);
  }
  return faults;
};

// The rest is about what anybody can see, hit and read.
looks.isSeen = element => element.checkVisibility({ visibilityProperty: true }) && element.getClientRects().length > 0;
looks.isPaper = () => document.body.classList.contains('printing');

// Colours as [red, green, blue, alpha], and the contrast of two (WCAG 2.2, relative luminance).
looks.colours = text => [...text.matchAll(/rgba?\(([^)]*)\)/g)].map(match => match[1].split(/[ ,/]+/).map(Number)).map(([r, g, b, a = 1]) => [r, g, b, a]);
looks.over = (front, back) => [0, 1, 2].map(index => front[index] * front[3] + back[index] * (1 - front[3])).concat(1);
looks.light = colour => colour.slice(0, 3).map(value => value / 255).map(value => (value <= 0.04045 ? value / 12.92 : ((value + 0.055) / 1.055) ** 2.4))
  .reduce((sum, value, index) => sum + value * [0.2126, 0.7152, 0.0722][index], 0);
looks.contrastOf = (one, other) => {
  const [dark, light] = [looks.light(one), looks.light(other)].sort((a, b) => a - b);
  return (light + 0.05) / (dark + 0.05);
};

// What may lie behind an element's text: its background or that of the nearest element around it that has one; of a pattern all its colours.
looks.backdrops = element => {
  const [paper] = looks.colours(getComputedStyle(document.body).backgroundColor);
  const layers = [];
  for (let each = element; each; each = each.parentElement) {
    const { backgroundColor, backgroundImage } = getComputedStyle(each);
    const own = looks.colours(backgroundColor).concat(looks.colours(backgroundImage)).filter(colour => colour[3] > 0);
    layers.push(...own);
    if (own.some(colour => colour[3] === 1)) return layers.map(colour => looks.over(colour, paper));
  }
  return [...layers.map(colour => looks.over(colour, paper)), paper];
};

looks.shortName = element => `${element.tagName.toLowerCase()}.${element.className.baseVal ?? element.className} ${element.textContent.trim().slice(0, 30)}`;

// Text has a contrast of 4.5 to whatever lies behind it.
looks.contrast = () => {
  const faults = new Set();
  for (const element of document.body.querySelectorAll('*:not(script):not(style):not(option):not(noscript)')) {
    const text = [...element.childNodes].filter(node => node.nodeType === 3 && node.data.trim());
    if (!text.length || !looks.isSeen(element)) continue;
    const [ink] = looks.colours(getComputedStyle(element).color);
    const least = Math.min(...looks.backdrops(element).map(back => looks.contrastOf(looks.over(ink, back), back)));
    if (least < 4.5) faults.add(`${least.toFixed(2)} of ${looks.shortName(element)}`);
  }
  return [...faults];
};

// Graphics have 3 to what is around them: spans and bands by their edge or their filling, lines, marks, hatches, controls by their edge.
const GRAPHICS = [
  ['#lanes .cell', ['borderTopColor', 'borderBottomColor', 'backgroundColor'], true], ['.reach', ['backgroundColor']], ['#lanes .diamond', ['borderTopColor']],
  ['.plot .limit', ['stroke']], ['.plot .line', ['stroke']], ['.plot .between', ['fill']], ['.track > .hatch:not(.cell)', ['backgroundImage']],
  ['#controls select, #controls input, #controls button', ['borderTopColor']], ['#answers li', ['borderLeftColor']],
];
looks.graphics = () => {
  const faults = new Set();
  for (const [selector, names, mayDiffer] of GRAPHICS) {
    for (const element of document.querySelectorAll(selector)) {
      if (!looks.isSeen(element)) continue;
      const style = getComputedStyle(element);
      const around = looks.backdrops(element.parentElement.closest('.track, #answers, #controls'));
      const shade = element.closest('svg')?.querySelector('.shade');
      if (shade && !element.matches('.between')) around.push(looks.colours(getComputedStyle(shade).fill)[0]);
      const own = names.flatMap(name => looks.colours(style[name])).filter(colour => colour[3] === 1);
      const values = around.map(back => Math.max(0, ...own.map(colour => looks.contrastOf(colour, back))));
      const value = mayDiffer ? Math.max(...values) : Math.min(...values);
      if (value < 3) faults.add(`${value.toFixed(2)} of ${looks.shortName(element)}`);
    }
  }
  const [link] = looks.colours(getComputedStyle(document.querySelector('summary')).color);
  if (looks.contrastOf(link, looks.backdrops(document.body)[0]) < 3) faults.add('the outline of what has the keys');
  return [...faults];
};

// What can be hit has 24 pixels each way; what is narrower is opened by its track, and takes no hit itself.
looks.hit = () => [...document.querySelectorAll('button, select, input, summary, a[href], [role=slider]')]
  .filter(each => looks.isSeen(each) && getComputedStyle(each).pointerEvents !== 'none');

looks.targets = () => {
  if (looks.isPaper()) return [];
  return looks.hit().map(each => [each, each.getBoundingClientRect()]).filter(([, { width, height }]) => width < 23.9 || height < 23.9)
    .map(([each, { width, height }]) => `${width.toFixed(1)} by ${height.toFixed(1)}: ${looks.shortName(each)}`);
};

// Nothing that can be hit lies over another such thing, and no text over another, but for the axis, under which the page moves.
looks.overlap = () => {
  const faults = [];
  const pairs = elements => {
    const boxes = elements.map(element => ({ element, ...looks.boxOf(element) })).sort((one, other) => one.top - other.top);
    boxes.forEach((one, index) => {
      for (const other of boxes.slice(index + 1)) {
        if (other.top >= one.bottom) break;
        if (one.element.contains(other.element) || other.element.contains(one.element)) continue;
        if (looks.meet(one, other)) faults.push(`${looks.shortName(one.element)} / ${looks.shortName(other.element)}`);
      }
    });
  };
  for (const track of document.querySelectorAll('.row:not([hidden]) .track')) pairs([...track.querySelectorAll('.mark, .cell:not(.slim)')]);
  const texts = 'header p, h1, h2, h3, h4, #answers p, #answers dt, #answers dd, #controls label, #controls p, #panel p, #panel td, #panel th, footer p, footer td, #figures div, .signs span, .name';
  pairs([...document.querySelectorAll(texts)].concat(looks.hit().filter(each => !each.closest('.track'))).filter(each => looks.isSeen(each) && !each.closest('#axis')));
  return [...new Set(faults)];
};

// The texts of an element that stand beside each other, with <wbr> between them at most.
looks.runsOf = element => {
  const runs = [];
  let run = null;
  for (const node of element.childNodes) {
    if (node.nodeType === 3) {
      if (!run) runs.push(run = { text: '', nodes: [] });
      run.nodes.push([node, run.text.length]);
      run.text += node.data;
    } else if (node.nodeName !== 'WBR') run = null;
  }
  return runs;
};

looks.inRun = (run, offset, isStart) => {
  const [node, begin] = run.nodes.findLast(([, start]) => (isStart ? start <= offset : start < offset));
  return [node, offset - begin];
};

// No word is broken (one of over sixteen letters may be, after each sixteen), and none says null.
looks.words = () => {
  const faults = new Set();
  const areas = [...document.querySelectorAll('header, #answers, #controls, #panel, .name, footer, #sent h2, #sent p')].concat([...document.querySelectorAll('#rows tr')].slice(0, 60));
  const range = document.createRange();
  for (const area of areas.filter(looks.isSeen)) {
    for (const element of [area, ...area.querySelectorAll('*:not(.command_line):not(option)')]) looks.runsOf(element).forEach(run => {
      for (const match of run.text.matchAll(/\d+\.\d+|[A-Za-z0-9]{2,16}/g)) {
        range.setStart(...looks.inRun(run, match.index, true));
        range.setEnd(...looks.inRun(run, match.index + match[0].length, false));
        const tops = [...range.getClientRects()].map(rect => Math.round(rect.top));
        if (Math.max(...tops) - Math.min(...tops) > 4) faults.add(`broken: ${match[0]}`);
      }
    });
  }
  const said = [document.body.innerText, ...[...document.querySelectorAll('[aria-label], [aria-valuetext]')].map(each => `${each.getAttribute('aria-label')} ${each.getAttribute('aria-valuetext') ?? ''}`)];
  for (const text of said) {
    const match = text.match(/.{0,30}\b(null|undefined|NaN)\b.{0,30}/);
    if (match) faults.add(`says ${match[0]}`);
  }
  return [...faults];
};

// The parts of the page have their roles and names, and the keys go from top to bottom.
looks.landmarks = () => {
  const faults = [];
  for (const tag of ['header', 'main', 'footer', 'h1']) if (document.querySelectorAll(`body ${tag}`).length !== 1) faults.push(`not one ${tag}`);
  for (const part of document.querySelectorAll('main section, form')) {
    if (!part.closest('article, #panel *, #reasons *') && !part.getAttribute('aria-label') && !byId(part.getAttribute('aria-labelledby'))) faults.push(`no name: ${part.id}`);
  }
  if (document.querySelector('[tabindex]:not([tabindex="0"]):not([tabindex="-1"])')) faults.push('an order of its own for the keys');
  if (looks.isPaper()) return faults;
  const stops = looks.hit().filter(each => each.tabIndex === 0 && !each.closest('.track, #axis, #panel .close')).map(each => [each, each.getBoundingClientRect()]);
  stops.forEach(([each, box], index) => {
    if (index && box.bottom < stops[index - 1][1].top - 1) faults.push(`the keys go up to ${looks.shortName(each)}`);
  });
  if (document.getAnimations().length) faults.push('something moves');
  return faults;
};

// What is asked first is on the first screen: whether anything was requested, and of the first rule when, why and whether it is over.
looks.first = () => {
  const headline = byId('headline').getBoundingClientRect();
  if (!byId('headline').textContent || headline.bottom > innerHeight) return ['the first screen does not say what was requested'];
  if (!run.requests.length) return [];
  const item = document.querySelector('#answers li');
  const asked = [...item.querySelectorAll('dt')].map(each => each.textContent).join();
  if (!/^when,(why,)?is it over$/.test(asked) || !/sequence \d/.test(item.textContent)) return [`the first answer has ${asked}`];
  if (item.getBoundingClientRect().bottom + scrollY > innerHeight) return ['the first answer is not on the first screen'];
  return byId('answers').compareDocumentPosition(byId('lanes')) & 4 ? [] : ['the lanes are before the answers'];
};

// All questions, or those alone that go by the part of the run that is seen; of each the first three faults.
looks.asked = names => names.flatMap(look => looks[look]().slice(0, 3).map(fault => `${look}: ${fault}`));
looks.drawn = () => looks.asked(['labels', 'names', 'truth', 'targets', 'overlap']);
looks.all = () => looks.drawn().concat(looks.asked(['texts', 'contrast', 'graphics', 'words', 'landmarks']));

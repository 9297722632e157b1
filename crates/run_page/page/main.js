// The page put together.
function figure(name, value, more) {
  const box = make('div', '', name);
  box.append(make('b', '', value.toLocaleString('en')), make('small', '', more));
  return box;
}

// Which part of the run the page has.
function tellPart() {
  if (!run.window) return;
  const { from, until, records, packets } = run.window;
  const bounds = [from === null ? 'from the start' : `from second ${decimal(from)}`, until === null ? 'to the end' : `until second ${decimal(until)}`];
  const which = run.figures.records ? `records ${FIRST} to ${END.record - 1}` : 'no record';
  byId('part').textContent = `This page is a part of the run, ${bounds.join(' ')}: ${which}. `
    + `${counted(records, 'record')} and ${counted(packets, 'packet')} before it are not on this page.`;
  byId('part').hidden = false;
}

function tellFigures() {
  const all = run.figures;
  const ended = run.ended.whole ? 'The stream ended after a whole record' : 'The stream is cut short';
  const seconds = all.records ? ` Seconds ${secondOf(0)} to ${secondOf(run.end)}${run.epoch ? `, ${instantOf(0)} to ${instantOf(run.end)}` : ''}.` : '';
  const text = `Ended with status ${run.ended.status}: ${run.ended.says}. ${ended}.${seconds}`
    + (run.ordered ? '' : ' Times go back in this stream, so the axis has its records.');
  byId('ended').append(...makeBroken('span', '', text).childNodes);
  byId('ended').classList.toggle('cut', run.ended.status !== 0);
  const events = LEVELS.reduce((sum, level) => sum + all[level], 0);
  byId('figures').append(
    figure('records', all.records, `${all.telemetry} telemetry, ${all.ticks} ticks, ${all.commands} commands, ${all.files} files`),
    figure('packets written', all.packets, `${all.housekeeping} housekeeping${all.other ? `, ${all.other} others` : ''}`),
    figure('requests', all.requests, `of ${run.requests_left_out || run.requests.some(request => request.rule === null) ? 'at least ' : ''}${counted(new Set(run.requests.map(request => request.rule).filter(rule => rule !== null)).size, 'rule')}`),
    figure('samples', run.samples, `of ${counted(run.lanes.length, 'rule')}${run.account.steps_back ? `; ${counted(run.account.steps_back, 'step')} back in time` : ''}`),
    figure('events', events, LEVELS.map(level => `${all[level]} ${level}`).join(', ')));
}

function tellFiles() {
  byId('program').textContent = `Made by ${run.program}.`;
  document.title = `${run.files.at(-1).name.split('/').at(-1)}: run of the Limit Checker`;
  for (const file of run.files) {
    const row = make('tr');
    const sum = make('td');
    sum.append(makeBroken('code', '', file.sha256));
    row.append(make('td', '', file.role), makeBroken('td', '', file.name), make('td', 'number', file.bytes), sum);
    byId('file_rows').append(row);
  }
}

function fillUnits() {
  const units = !run.ordered ? ['record'] : ['start', 'second', ...(run.epoch === null ? [] : ['utc']), 'record'];
  const words = { start: 'seconds from the start', second: 'seconds', utc: 'UTC', record: 'records' };
  for (const unit of units) byId('unit').append(make('option', '', words[unit], { value: unit }));
  byId('unit').addEventListener('input', () => changeUnit(byId('unit').value));
}

function listenToControls() {
  const moves = { in: () => zoom(0.6), out: () => zoom(1 / 0.6), earlier: () => pan(-0.25), later: () => pan(0.25), all: showAll };
  for (const id of Object.keys(moves)) byId(id).addEventListener('click', moves[id]);
  byId('controls').addEventListener('submit', event => event.preventDefault());
  byId('csv').addEventListener('click', saveCsv);
  addEventListener('keydown', moveByKey);
  addEventListener('resize', drawSoon);
  listenToPointers(byId('lanes'));
}

// On paper all lanes are drawn for its width, all rows are there, and each request says why.
function beforePrint() {
  showRest();
  for (const more of document.querySelectorAll('#answers details')) more.open = true;
  document.body.classList.add('printing');
  if (drawn < found.length) drawRows(found.length);
  byId('reasons').replaceChildren(...run.requests.map(request => {
    const article = whyOf(request);
    article.prepend(make('h3', '', `Why sequence ${request.sequence}?`));
    return article;
  }));
  draw();
}

function afterPrint() {
  document.body.classList.remove('printing');
  byId('reasons').replaceChildren();
  draw();
}

function start() {
  document.body.classList.toggle('no_epoch', run.epoch === null);
  tellPart();
  tellFigures();
  tellFiles();
  fillUnits();
  makeLanes();
  tellAnswers();
  fillFilters();
  [view.low, view.high] = wholeRun();
  find();
  draw();
  listenToControls();
  addEventListener('beforeprint', beforePrint);
  addEventListener('afterprint', afterPrint);
}

start();

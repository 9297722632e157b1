// Elements of the page, and how wide a text is.
const byId = id => document.getElementById(id);

function make(tag, className, text, attributes = {}) {
  const element = document.createElement(tag);
  if (className) element.className = className;
  if (text !== undefined) element.textContent = text;
  for (const name of Object.keys(attributes)) element.setAttribute(name, attributes[name]);
  return element;
}

// With names that may break after each _, / and ., and after each sixteen letters of longer words; an instant doesn't break.
function makeBroken(tag, className, text, attributes) {
  const element = make(tag, className, undefined, attributes);
  text.split(/(\d{4}-\d\d-\d\dT[\d:.]+Z)/).forEach((part, index) => {
    const pieces = part.split(/(?<=[_/])(?=\w)|(?<=\.)(?=[A-Za-z])/).flatMap(piece => piece.split(/([A-Za-z0-9]{16})(?=[A-Za-z0-9])/)).filter(piece => piece);
    element.append(...(index % 2 ? [make('span', 'whole', part)] : pieces.flatMap(piece => [make('wbr'), piece]).slice(1)));
  });
  return element;
}

// A button with a name for a person who can't see it, which is its tip as well.
function makeButton(className, text, name, click) {
  const button = make('button', className, text, { type: 'button', 'aria-label': name, title: name, tabindex: -1 });
  button.addEventListener('click', click);
  return button;
}

const pen = document.createElement('canvas').getContext('2d');
const family = getComputedStyle(document.body).fontFamily;

function widthOf(text, size, weight = 400) {
  pen.font = `${weight} ${size}px ${family}`;
  return pen.measureText(text).width;
}

// The first of some texts that there is room for.
const fitting = (texts, room, size, weight) => texts.find(text => widthOf(text, size, weight) <= room) ?? '';

// Within a track the arrows go from button to button, by their places, and at the window's edge they move it.
// The track is one stop of the tab key.
function walkable(track) {
  track.addEventListener('keydown', event => {
    const step = { ArrowLeft: -1, ArrowRight: 1, Home: -Infinity, End: Infinity }[event.key];
    const buttons = stopsOf(track);
    const now = buttons.indexOf(document.activeElement);
    if (step === undefined || now < 0) return;
    event.preventDefault();
    event.stopPropagation();
    if (!buttons[now + step] && Number.isFinite(step)) pan(step / 2);
    const next = buttons[Math.max(0, Math.min(buttons.length - 1, now + step))];
    setStop(track, next);
    next.focus({ preventScroll: true });
  });
}

// A tap on a track opens what is below it, with what is near it and too narrow to be hit alone.
const TARGET = 24; // px

function tappable(track, open) {
  track.addEventListener('click', event => {
    if (!event.detail || event.target.closest('.mark') || !track.drawn) return;
    const box = track.getBoundingClientRect();
    const [x, y] = [event.clientX - box.left, event.clientY - box.top];
    const near = track.drawn.filter(({ left, right, top }) => {
      const room = right - left < TARGET ? TARGET / 2 : 0;
      return left - room <= x && x <= right + room && (top === undefined || Math.abs(top - y) <= TARGET / 2);
    });
    if (near.length) open(near);
  });
}

const stopsOf = track => [...track.querySelectorAll('button')].sort((one, other) => one.place - other.place);

function setStop(track, button) {
  for (const other of track.querySelectorAll('button[tabindex="0"]')) other.tabIndex = -1;
  if (button) button.tabIndex = 0;
}

// Draws a track anew. Where the keys were in it, they go on at the same place.
function redraw(track, elements) {
  const held = track.contains(document.activeElement) ? document.activeElement.place : undefined;
  track.replaceChildren(...elements);
  const buttons = stopsOf(track);
  const stop = buttons.filter(button => held !== undefined && button.place <= held).at(-1) ?? buttons[0];
  setStop(track, stop);
  if (held !== undefined && stop) stop.focus({ preventScroll: true });
}

// Dragging by mouse or one finger moves the window, two fingers zoom it.
const pointers = new Map(); // where each pointer is
let grip = null; // how the window was when the pointers came down
let dragged = false; // a drag's end is no click

function takeGrip(track) {
  const box = track.getBoundingClientRect();
  grip = { track, left: box.left, width: box.width, low: view.low, high: view.high, at: [...pointers.values()] };
}

// The place on the axis below a point of the screen, when the pointers came down.
const gripped = x => grip.low + (x - grip.left) / grip.width * (grip.high - grip.low);

function pointerDown(event) {
  const track = event.target.closest('.track');
  if (!track || event.button > 0) return;
  pointers.set(event.pointerId, event.clientX);
  dragged = false;
  takeGrip(track);
}

function pointerMove(event) {
  if (!grip || !pointers.has(event.pointerId)) return;
  pointers.set(event.pointerId, event.clientX);
  const now = [...pointers.values()];
  if (now.length === 1 && Math.abs(now[0] - grip.at[0]) <= 4 && !dragged) return;
  dragged = true;
  if (now.length === 1) {
    const step = gripped(grip.at[0]) - gripped(now[0]);
    moveTo(grip.low + step, grip.high + step);
  } else {
    pinch(now);
  }
}

// What was below the two fingers stays below them.
function pinch(now) {
  const [one, other] = grip.at.map(gripped);
  const apart = now[1] - now[0];
  if (Math.abs(apart) < 8) return;
  const scale = (other - one) / apart;
  if (!(scale > 0)) return;
  const low = one - (now[0] - grip.left) * scale;
  moveTo(low, low + grip.width * scale);
}

function pointerUp(event) {
  if (!pointers.delete(event.pointerId)) return;
  if (pointers.size && grip) takeGrip(grip.track);
  else grip = null;
}

function listenToPointers(lanes) {
  lanes.addEventListener('pointerdown', pointerDown);
  addEventListener('pointermove', pointerMove);
  addEventListener('pointerup', pointerUp);
  addEventListener('pointercancel', pointerUp);
  lanes.addEventListener('click', event => {
    if (dragged && event.detail > 0) event.stopPropagation();
    dragged = false;
  }, true);
  lanes.addEventListener('wheel', zoomByWheel, { passive: false });
}

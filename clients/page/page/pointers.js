// Pointers on a board: one draws, two fingers move and zoom, a finger that comes while another draws moves the board,
// and the wheel zooms with Ctrl.

import { UNIT } from "./elements.js";
import { EDGE } from "./picture.js";

const DRAWS = 250; // milliseconds after which a finger that has drawn isn't the first one of a pair that zooms

// Where a pointer is, in cells.
function where(board, event) {
  const box = board.svg.getBoundingClientRect(), edge = EDGE / UNIT;
  return { x: (event.clientX - box.left) / board.scale - edge, y: (event.clientY - box.top) / board.scale - edge };
}

// The middle between two fingers, and how far they are apart.
function spread(fingers) {
  const [a, b] = [...fingers.values()];
  return { x: (a.clientX + b.clientX) / 2, y: (a.clientY + b.clientY) / 2,
    far: Math.max(1, Math.hypot(a.clientX - b.clientX, a.clientY - b.clientY)) };
}

class Pointers {
  // `draws` is the pointer that draws, `moves` the finger that moves the board meanwhile.
  constructor(board) { Object.assign(this, { board, down: new Map(), draws: null, moves: null, pinch: null }); }

  press(event) {
    const { board, down } = this, id = event.pointerId;
    event.preventDefault();
    board.svg.focus({ preventScroll: true });
    board.element.classList.remove("by-key");
    board.svg.setPointerCapture(id);
    down.set(id, event);
    if (down.size === 1) this.begin(event);
    else if (this.draws !== null && board.stroke.length && event.timeStamp - this.since > DRAWS) this.moves = id;
    else if (down.size === 2) {
      if (this.draws !== null) board.forget();
      this.draws = null;
      this.pinch = { ...spread(down), scale: board.scale };
    }
  }

  begin(event) {
    const { board } = this;
    if (event.button === 1) return;
    Object.assign(this, { draws: event.pointerId, since: event.timeStamp });
    board.renew();
    board.kind.press(board, where(board, event), event);
  }

  move(event) {
    const { board, down } = this, id = event.pointerId, before = down.get(id);
    if (!before) return;
    down.set(id, event);
    if (id === this.moves) {
      board.element.scrollLeft -= event.clientX - before.clientX;
      board.element.scrollTop -= event.clientY - before.clientY;
      if (down.has(this.draws)) board.kind.drag(board, where(board, down.get(this.draws)));
    } else if (id === this.draws) {
      for (const part of event.getCoalescedEvents?.() ?? []) board.kind.drag(board, where(board, part));
      board.kind.drag(board, where(board, event));
    } else if (this.pinch && down.size === 2) this.zoom(spread(down));
  }

  zoom(now) {
    const { board, pinch } = this;
    board.element.scrollLeft -= now.x - pinch.x;
    board.element.scrollTop -= now.y - pinch.y;
    board.zoomTo(pinch.scale * now.far / pinch.far, now);
    Object.assign(pinch, { x: now.x, y: now.y });
  }

  // A pointer went up, or the browser took it away.
  lift(event, isTaken = false) {
    const { board, down } = this, id = event.pointerId;
    if (!down.delete(id)) return;
    if (id === this.moves) this.moves = null;
    if (id === this.draws) {
      if (!isTaken) board.kind.lift(board, where(board, event));
      if (isTaken) board.forget();
      else board.end();
      this.draws = null;
    }
    if (!down.size) this.pinch = null;
  }
}

export function listen(board) {
  const pointers = new Pointers(board), on = (name, f) => board.svg.addEventListener(name, f);
  on("pointerdown", (event) => pointers.press(event));
  on("pointermove", (event) => pointers.move(event));
  on("pointerup", (event) => pointers.lift(event));
  on("pointercancel", (event) => pointers.lift(event, true));
  // Else a drag that ends fast counts as a throw that rolls on, and the next tap, on whatever button, only stops it.
  board.svg.addEventListener("touchstart", (event) => event.preventDefault(), { passive: false });
  on("contextmenu", (event) => event.preventDefault());
  on("wheel", (event) => {
    if (!event.ctrlKey) return;
    event.preventDefault();
    board.zoomTo(board.scale * 1.1 ** -Math.sign(event.deltaY), { x: event.clientX, y: event.clientY });
  });
}

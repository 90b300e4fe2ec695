// Mouse and fingers on the picture: one draws or moves, two zoom. Keys do the same.
import { space } from "./controls.js";
import { zoom } from "./look.js";
import { repaint } from "./screen.js";
import { $, GAP, amount, chosen, look, marks, paneWidth, shown, tell, view } from "./state.js";
import { hideNotes } from "./words.js";

const ARROWS = { ArrowLeft: [-1, 0], ArrowRight: [1, 0], ArrowUp: [0, -1], ArrowDown: [0, 1] };
const FINGER = 12; // pixels that the first of two fingers may move before the second comes

const gesture = {
  /** @type {Map<number, { x: number, y: number }>} the pointers that are down, in CSS pixels of the canvas */
  fingers: new Map(),
  stroke: /** @type {Place | null} */ (null), // its end
  begun: { x: 0, y: 0 },
  isDrawn: false, // something of the stroke
  isMoving: false,
};

/** The place on the lattice under a point of the canvas, in whichever picture. */
function placeOf({ x, y }) {
  const { place } = look, each = paneWidth(view().clientWidth) + GAP;
  const pane = Math.max(0, Math.min(shown.frames.length - 1, Math.floor(x / each)));
  return [place.x + (x - pane * each) / place.scale, place.y + y / place.scale];
}

/** One of two fingers has moved: the picture stays beneath both. */
function pinch(moved, before, now) {
  const [other] = [...gesture.fingers].filter(([id]) => id !== moved).map(([, finger]) => finger);
  const distance = ({ x, y }) => Math.max(20, Math.hypot(x - other.x, y - other.y));
  const middle = ({ x, y }) => ({ x: (x + other.x) / 2, y: (y + other.y) / 2 });
  zoom(distance(now) / distance(before), middle(before), middle(now));
}

/** @param {Disc} disc */
export function setProbe(disc) {
  Object.assign(marks, { probe: disc, samples: [] });
  $("probed").hidden = false;
  tell("probe", disc);
}

export function listenToPointers() {
  const canvas = view();
  const pointOf = ({ clientX, clientY }) => {
    const box = canvas.getBoundingClientRect();
    return { x: clientX - box.left, y: clientY - box.top };
  };
  const draw = (to, end) => {
    const from = gesture.stroke ?? to, solid = chosen.tool === "draw";
    const piece = { from, to, radius: amount("brush"), solid, end };
    Object.assign(gesture, { isDrawn: true, stroke: end ? null : to });
    marks.pieces.push(piece);
    tell("stroke", piece);
    repaint();
  };
  const use = (at) => {
    const radius = amount("brush");
    if (chosen.tool === "dense") tell("dense", { at, radius: radius + 10 });
    if (chosen.tool === "flip") tell("flip", { at, radius: 1 });
    if (chosen.tool === "probe") setProbe({ at, radius: Math.max(radius, 4) });
    else marks.touched = { at, radius };
    repaint();
  };
  canvas.onpointerdown = (event) => {
    if (!shown.frames.length || event.button > 1) return;
    canvas.setPointerCapture(event.pointerId);
    gesture.fingers.set(event.pointerId, pointOf(event));
    if (gesture.fingers.size > 1) {
      if (gesture.stroke && gesture.isDrawn) draw(gesture.stroke, true);
      gesture.stroke = null;
      return;
    }
    hideNotes();
    const at = placeOf(pointOf(event));
    space.isUsed = space.isDown;
    gesture.isMoving = chosen.tool === "move" || event.button > 0 || space.isDown;
    if (gesture.isMoving) return;
    if (chosen.tool !== "draw" && chosen.tool !== "erase") return use(at);
    Object.assign(gesture, { stroke: at, isDrawn: false, begun: pointOf(event) });
    if (event.pointerType === "mouse") draw(at, false);
  };
  canvas.onpointermove = (event) => {
    const before = gesture.fingers.get(event.pointerId), now = pointOf(event);
    if (!before) return;
    gesture.fingers.set(event.pointerId, now);
    if (gesture.fingers.size === 1 && gesture.stroke) {
      const { x, y } = gesture.begun, isPinch = !gesture.isDrawn && Math.hypot(now.x - x, now.y - y) < FINGER;
      return isPinch ? undefined : draw(placeOf(now), false);
    }
    if (gesture.fingers.size > 1) pinch(event.pointerId, before, now);
    else if (gesture.isMoving) zoom(1, before, now);
  };
  canvas.onpointerup = canvas.onpointercancel = (event) => {
    gesture.fingers.delete(event.pointerId);
    if (gesture.stroke) draw(gesture.stroke, true);
  };
  canvas.addEventListener("wheel", (event) => {
    event.preventDefault();
    if (shown.frames.length) zoom(Math.exp(-event.deltaY / 400), pointOf(event));
  }, { passive: false });
  // arrows move the picture, or once a tool was chosen a mark at which Space or Enter use it
  canvas.onkeydown = ({ key, shiftKey }) => {
    const [x, y] = ARROWS[key] ?? [0, 0], far = shiftKey ? 4 : 24, { scale } = look.place;
    const middle = { x: paneWidth(canvas.clientWidth) / 2, y: canvas.clientHeight / 3 };
    if (!shown.frames.length || (!(x || y) && key !== " " && key !== "Enter")) return;
    const [east, south] = marks.cursor?.at ?? placeOf(middle), isStroke = chosen.tool === "draw" || chosen.tool === "erase";
    if (chosen.tool === "move" || (!chosen.isTool && (x || y))) return zoom(1, { x: far * x, y: far * y }, { x: 0, y: 0 });
    marks.cursor = { at: [east + (x * far) / scale, south + (y * far) / scale], radius: amount("brush") };
    if (x || y) repaint();
    else if (isStroke) draw(marks.cursor.at, true);
    else use(marks.cursor.at);
  };
  canvas.onblur = () => {
    marks.cursor = null;
    repaint();
  };
}

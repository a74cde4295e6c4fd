// The picture: its boxes lead to rows, it shows who waits for whom, and it is moved and zoomed.

const drawing = document.querySelector("figure svg");
const frame = element("view");
const closest = 12, step = 1.25;
const wide = 1200; // a screen on which letters of 11 points aren't smaller than 11 pixels at first
const whole = drawing.viewBox.baseVal;
const all = {x: whole.x, y: whole.y, w: whole.width, h: whole.height};
const view = {...all};
const fingers = new Map();
let stop = -1, dragged = 0, pinched = 0;

function boxElement(box) { return box >= 0 ? element("b" + box) : null; }

function everyBox() { return Array.from(drawing.querySelectorAll("[data-box]")); }

function numberOf(box) { return Number(box.dataset.box); }

// Who waits for whom

function partsOf(arrow) { return drawing.querySelectorAll(".a" + arrow); }

// Shows who waits for the ones of a box, and for whom these wait, and dims the rest.
function relateBox(box, isOn) {
  drawing.querySelectorAll(".lit").forEach((it) => it.classList.remove("lit"));
  const own = boxElement(box);
  drawing.classList.toggle("related", Boolean(isOn && own));
  if (!isOn || !own) { return; }
  own.classList.add("lit");
  data.arrows.forEach(([from, to, root], arrow) => {
    if (from !== box && !to.includes(box)) { return; }
    partsOf(arrow).forEach((it) => it.classList.add("lit"));
    [from, ...to].forEach((other) => {
      if (from === box || other === from) { const it = boxElement(other); if (it) { it.classList.add("lit"); } }
    });
  });
}

// Where one looks

// A view at least as wide as it may be, which shows some of the drawing.
function setView(wanted) {
  const width = Math.min(Math.max(wanted.w, all.w / closest), all.w * 1.5);
  const height = width * frame.clientHeight / Math.max(frame.clientWidth, 1);
  view.w = width;
  view.h = height;
  view.x = Math.min(Math.max(wanted.x, all.x - width * 0.8), all.x + all.w - width * 0.2);
  view.y = Math.min(Math.max(wanted.y, all.y - height * 0.8), all.y + all.h - height * 0.2);
  drawing.setAttribute("viewBox", [view.x, view.y, view.w, view.h].join(" "));
  frame.classList.toggle("zoomed", isZoomed() && stop < 0);
  drawMap();
}

function isZoomed() { return view.w < all.w * 0.99; }

function showWhole() {
  stop = -1;
  setView({x: all.x, y: all.y, w: Math.max(all.w, all.h * frame.clientWidth / Math.max(frame.clientHeight, 1))});
}

// Zooms about a point, given as parts of the width and the height.
function zoom(by, right = 0.5, down = 0.5) {
  const w = Math.min(Math.max(view.w / by, all.w / closest), all.w * 1.5), h = view.h * w / view.w;
  setView({x: view.x + (view.w - w) * right, y: view.y + (view.h - h) * down, w});
}

function move(right, down) { setView({x: view.x + right * view.w, y: view.y + down * view.h, w: view.w}); }

function pointOf(event) {
  const area = drawing.getBoundingClientRect();
  return [(event.clientX - area.left) / area.width, (event.clientY - area.top) / area.height];
}

// Returns where a form stands in the drawing, with some space around.
function areaOf(form, space) {
  const box = form.getBBox(), turn = element("drawn").transform.baseVal.consolidate();
  const matrix = turn ? turn.matrix : {a: 1, d: 1, e: 0, f: 0};
  return {x: box.x * matrix.a + matrix.e - space, y: box.y * matrix.d + matrix.f - space,
    w: box.width * matrix.a + 2 * space, h: box.height * matrix.d + 2 * space};
}

// On a narrow screen each root is a stop: the first one is whole at first, and a swipe leads to the next.

function isNarrow() { return window.innerWidth < 600; }

function stops() {
  return Array.from(drawing.querySelectorAll(".rootframe")).sort((one, other) => rootOf(one) - rootOf(other));
}

function rootOf(form) { return Number(form.dataset.root || 0); }

function showStop(number_) {
  const some = stops();
  if (!some.length) { showWhole(); return; }
  stop = Math.max(0, Math.min(number_, some.length - 1));
  const area = areaOf(some[stop], 8), shape = frame.clientHeight / Math.max(frame.clientWidth, 1);
  const w = Math.max(area.w, area.h / shape);
  setView({x: area.x - (w - area.w) / 2, y: area.y - (w * shape - area.h) / 2, w});
  element("stop").textContent = "Root " + rootOf(some[stop]) + " of " + data.roots;
}

function isSwipe(dx, dy) { return isNarrow() && Math.abs(dx) > 40 && Math.abs(dx) > 2 * Math.abs(dy); }

// By fingers and mouse

function startDrag(event) {
  fingers.set(event.pointerId, {x: event.clientX, y: event.clientY, from: [event.clientX, event.clientY]});
  if (fingers.size === 1) { dragged = 0; }
  pinched = 0;
}

function distance() {
  const [one, other] = Array.from(fingers.values());
  return Math.hypot(one.x - other.x, one.y - other.y);
}

function drag(event) {
  const finger = fingers.get(event.pointerId);
  if (!finger) { return; }
  const dx = event.clientX - finger.x, dy = event.clientY - finger.y;
  finger.x = event.clientX;
  finger.y = event.clientY;
  dragged += Math.abs(dx) + Math.abs(dy);
  if (fingers.size === 2) {
    const now = distance();
    if (pinched) { zoom(now / pinched, ...pointOf(event)); stop = -1; }
    pinched = now;
  } else if (dragged > 4 && (isZoomed() || isNarrow())) {
    if (!drawing.hasPointerCapture(event.pointerId)) { drawing.setPointerCapture(event.pointerId); }
    move(-dx / frame.clientWidth, isNarrow() && stop >= 0 ? 0 : -dy / frame.clientHeight);
  }
}

function endDrag(event) {
  const finger = fingers.get(event.pointerId);
  fingers.delete(event.pointerId);
  if (!finger || fingers.size || pinched || stop < 0) { return; }
  const dx = event.clientX - finger.from[0], dy = event.clientY - finger.from[1];
  if (isSwipe(dx, dy)) { showStop(stop + (dx < 0 ? 1 : -1)); }
}

// The wheel zooms with Ctrl, as a pinch on a touchpad does; else it moves what is zoomed, and otherwise the page.
function turnWheel(event) {
  if (event.ctrlKey || event.metaKey) {
    event.preventDefault();
    zoom(Math.exp(-event.deltaY / 300), ...pointOf(event));
  } else if (isZoomed()) {
    event.preventDefault();
    move(event.deltaX / frame.clientWidth, event.deltaY / frame.clientHeight);
  }
}

// By keys

// Returns the box that is nearest in a direction.
function nextBox(from, right, down) {
  const middle = (box) => {
    const area = box.getBoundingClientRect();
    return [area.left + area.width / 2, area.top + area.height / 2];
  };
  const [x, y] = middle(from);
  const far = (box) => {
    const [dx, dy] = [middle(box)[0] - x, middle(box)[1] - y];
    const along = dx * right + dy * down;
    return along < 2 ? Infinity : along + 3 * Math.abs(dx * down - dy * right);
  };
  const found = everyBox().filter((box) => box !== from).map((box) => [far(box), box]);
  found.sort((one, other) => one[0] - other[0]);
  return found.length && found[0][0] < Infinity ? found[0][1] : null;
}

const ways = {ArrowLeft: [-1, 0], ArrowRight: [1, 0], ArrowUp: [0, -1], ArrowDown: [0, 1]};

function pressInPicture(event) {
  const box = event.target.closest("[data-box]");
  if (event.ctrlKey || event.altKey || event.metaKey) { return; }
  if (event.key in ways) {
    event.preventDefault();
    const next = box && !event.shiftKey ? nextBox(box, ...ways[event.key]) : null;
    if (next) { focusBox(numberOf(next)); }
    if (!box || event.shiftKey) { move(...ways[event.key].map((part) => part / 8)); }
  } else if (event.key === "+" || event.key === "=") {
    zoom(step);
  } else if (event.key === "-") {
    zoom(1 / step);
  } else if (event.key === "0") {
    showWhole();
  } else if ((event.key === "Enter" || event.key === " ") && box) {
    event.preventDefault();
    openBox(numberOf(box));
  }
}

// Moves to a box, and gives it the focus.
function focusBox(box) {
  const form = boxElement(box);
  if (!form) { return; }
  everyBox().forEach((it) => it.setAttribute("tabindex", it === form ? "0" : "-1"));
  form.focus({preventScroll: true});
  const area = areaOf(form, 4);
  const isSeen = area.x >= view.x && area.y >= view.y && area.x + area.w <= view.x + view.w &&
    area.y + area.h <= view.y + view.h;
  if (!isSeen) { setView({x: area.x + area.w / 2 - view.w / 2, y: area.y + area.h / 2 - view.h / 2, w: view.w}); }
  form.scrollIntoView({block: "nearest", inline: "nearest"});
}

function openBox(box) {
  const rows = everyRow.filter((row) => data.box[row] === box);
  if (rows.length === 1) { choose(rows[0]); return; }
  if (location.hash === "#b=" + box) { showAddress(); } else { location.hash = "#b=" + box; }
}

// The small map, which is there while the picture is zoomed.

function drawMap() {
  const map = element("map");
  const isSeen = isZoomed() && !isNarrow();
  map.parentNode.hidden = !isSeen;
  if (!isSeen) { return; }
  const sight = element("sight");
  ["x", "y"].forEach((key) => sight.setAttribute(key, String(view[key])));
  sight.setAttribute("width", String(view.w));
  sight.setAttribute("height", String(view.h));
}

const space = "http://www.w3.org/2000/svg";

function makeMap() {
  const map = element("map");
  map.setAttribute("viewBox", [all.x, all.y, all.w, all.h].join(" "));
  map.style.aspectRatio = all.w + " / " + all.h;
  const copy = document.createElementNS(space, "use");
  copy.setAttribute("href", "#drawn");
  const sight = document.createElementNS(space, "rect");
  sight.id = "sight";
  map.append(copy, sight);
  const go = (event) => {
    if (!event.buttons && event.type !== "click") { return; }
    const area = map.getBoundingClientRect();
    const x = all.x + (event.clientX - area.left) / area.width * all.w;
    const y = all.y + (event.clientY - area.top) / area.height * all.h;
    setView({x: x - view.w / 2, y: y - view.h / 2, w: view.w});
  };
  ["click", "pointermove"].forEach((sort) => map.addEventListener(sort, go));
}

// Has the frame as much room as the drawing has in it at its own size, or on a narrow screen as the first root needs.
function fit() {
  frame.style.height = "";
  drawing.removeAttribute("width");
  drawing.removeAttribute("height");
  const natural = all.w * 4 / 3, width = Math.min(frame.clientWidth, natural);
  frame.style.maxWidth = isNarrow() ? "" : Math.ceil(natural) + "px";
  const form = isNarrow() && stops().length ? areaOf(stops()[Math.max(stop, 0)], 8) : null;
  const height = form ? Math.min(form.h / form.w * frame.clientWidth, window.innerHeight * 0.8) :
    width * all.h / all.w;
  frame.style.height = Math.max(120, Math.ceil(height)) + "px";
  element("stops").hidden = !isNarrow() || stops().length < 2;
  if (isNarrow()) { showStop(Math.max(stop, 0)); } else { showWhole(); }
  if (window.innerWidth >= wide && all.w > frame.clientWidth) { setView({x: all.x, y: all.y, w: frame.clientWidth}); }
}

function startBoxes() {
  drawing.setAttribute("role", "group");
  drawing.querySelector("g").id = "drawn";
  everyBox().forEach((box) => {
    box.setAttribute("tabindex", numberOf(box) ? "-1" : "0");
    box.setAttribute("role", "link");
    box.setAttribute("aria-label", data.boxes[numberOf(box)].join("; "));
  });
  const boxOf = (event) => { const box = event.target.closest("[data-box]"); return box ? numberOf(box) : -1; };
  ["mouseover", "focusin"].forEach((sort) => drawing.addEventListener(sort, (event) => {
    const box = boxOf(event);
    if (box >= 0 || panel.hidden) { relateBox(box, box >= 0); }
  }));
  ["mouseleave", "focusout"].forEach((sort) => drawing.addEventListener(sort, () => {
    if (panel.hidden) { relateBox(-1, false); }
  }));
  drawing.addEventListener("click", (event) => {
    const box = boxOf(event);
    if (box >= 0 && dragged < 5) { openBox(box); }
  });
}

function startPicture() {
  startBoxes();
  makeMap();
  frame.addEventListener("wheel", turnWheel, {passive: false});
  drawing.addEventListener("pointerdown", startDrag);
  drawing.addEventListener("pointermove", drag);
  ["pointerup", "pointercancel"].forEach((sort) => drawing.addEventListener(sort, endDrag));
  frame.addEventListener("keydown", pressInPicture);
  const buttons = {closer: () => zoom(step), farther: () => zoom(1 / step), whole: showWhole,
    before: () => showStop(stop - 1), after: () => showStop(stop + 1)};
  Object.keys(buttons).forEach((id) => element(id).addEventListener("click", buttons[id]));
  element("stall").hidden = false;
  let width = window.innerWidth;
  window.addEventListener("resize", () => { if (window.innerWidth !== width) { width = window.innerWidth; fit(); } });
  fit();
}

"use strict";

// The stage.

const SIZE = 64;

// A script gives no places, so the page puts the elements on a grid in the order in which they first show. The grid is
// as wide as the movements need, but at most four boxes an element, or two where there are many. Then all is scaled so
// that every frame fits.
function layOut() {
  const { report } = see, extents = new Map(), ids = new Map(), half = SIZE / 2;
  for (const frame of report.frames) {
    frame.ids.forEach((id, row) => {
      // The number of an element is written above its place.
      if (!ids.has(id)) ids.set(id, { left: -half, top: -half - 20, right: half, bottom: half, lists: new Set() });
      const round = ids.get(id), list = frame.lists[row];
      if (frame.opacities[row] === 0 || round.lists.has(list)) return;
      round.lists.add(list);
      if (!extents.has(list)) extents.set(list, extent(list, SIZE));
      const shown = extents.get(list);
      round.left = Math.min(round.left, shown.left);
      round.top = Math.min(round.top, shown.top);
      round.right = Math.max(round.right, shown.right);
      round.bottom = Math.max(round.bottom, shown.bottom);
    });
  }
  const all = [...ids.values()], widest = side => Math.max(0, ...all.map(side));
  const most = (all.length > 50 ? 2 : 4) * SIZE;
  const cellX = Math.min(most, widest(round => round.right - round.left) + 16);
  const cellY = Math.min(most, widest(round => round.bottom - round.top) + 16);
  const stage = $("stage"), [width, height] = [stage.clientWidth, stage.clientHeight];
  const columns = Math.max(1, Math.ceil(Math.sqrt(all.length * cellY / cellX * width / height)));
  const bounds = { left: Infinity, top: Infinity, right: -Infinity, bottom: -Infinity };
  const places = new Map();
  [...ids].forEach(([id, round], at) => {
    const x = (at % columns) * cellX, y = Math.floor(at / columns) * cellY;
    places.set(id, [x, y]);
    bounds.left = Math.min(bounds.left, x + round.left);
    bounds.top = Math.min(bounds.top, y + round.top);
    bounds.right = Math.max(bounds.right, x + round.right);
    bounds.bottom = Math.max(bounds.bottom, y + round.bottom);
  });
  const scale = Math.min(1.5, (width - 24) / (bounds.right - bounds.left), (height - 24) / (bounds.bottom - bounds.top));
  const world = $("world");
  world.replaceChildren();
  see.boxes = new Map();
  if (!all.length) return;
  const left = (width - scale * (bounds.left + bounds.right)) / 2, top = (height - scale * (bounds.top + bounds.bottom)) / 2;
  world.style.transform = `translate(${left}px, ${top}px) scale(${scale})`;
  for (const [id, [x, y]] of places) {
    const style = { left: `${x - half}px`, top: `${y - half}px` };
    world.append(make("div", { className: "home", style }, make("span", {}, `${id}`)));
  }
  for (const [id, [x, y]] of places) {
    const style = { left: `${x - half}px`, top: `${y - half}px` };
    const box = make("div", { className: "box", hidden: true, style }, `${id}`);
    box.dataset.id = id;
    see.boxes.set(id, { box, opacity: null, list: null, frame: -1 });
    world.append(box);
  }
}

function drawStage() {
  const frame = see.report.frames[see.at];
  if (!frame) return;
  frame.ids.forEach((id, row) => {
    const shown = see.boxes.get(id), opacity = frame.opacities[row], list = frame.lists[row];
    shown.frame = see.at;
    shown.box.hidden = false;
    if (shown.opacity !== opacity) shown.box.style.opacity = (shown.opacity = opacity) / 1e6;
    if (shown.list !== list) shown.box.style.transform = cssOf(shown.list = list);
  });
  for (const shown of see.boxes.values()) if (shown.frame !== see.at) shown.box.hidden = true;
}

"use strict";

// Lists of operations: what they say in CSS, and how much room they take. Nothing here touches the page.

function operations(list) {
  if (list === "none") return [];
  return list.split(" ").map(operation => {
    const [kind, ...parts] = operation.split(":");
    return { kind, parts: parts.map(Number) };
  });
}

// What stays in the plane is said by the functions of the plane: a browser may give each box with a function of space a
// layer of its own, and many layers are slow.
function cssOf(list) {
  return operations(list).map(operation => {
    const { kind, parts: [x, y, z, angle] } = operation;
    if (kind === "translate" && z === 0) return `translate(${x / 1e3}px, ${y / 1e3}px)`;
    if (kind === "scale" && z === 1e6) return `scale(${x / 1e6}, ${y / 1e6})`;
    if (kind === "rotate" && x === 0 && y === 0 && z > 0) return `rotate(${angle / 1e3}deg)`;
    return cssInSpace(operation);
  }).join(" ") || "none";
}

function cssInSpace({ kind, parts: [x, y, z, angle] }) {
  if (kind === "translate") return `translate3d(${x / 1e3}px, ${y / 1e3}px, ${z / 1e3}px)`;
  if (kind === "scale") return `scale3d(${x / 1e6}, ${y / 1e6}, ${z / 1e6})`;
  if (kind === "rotate") return `rotate3d(${x}, ${y}, ${z}, ${angle / 1e3}deg)`;
  return `skew(${x / 1e3}deg, ${y / 1e3}deg)`;
}

// The rectangle round a box of this size, seen from its centre, under a list. It is worked out point by point, which is
// much faster than matrices of the browser where a report has many thousand lists.
function extent(list, size) {
  const round = { left: Infinity, top: Infinity, right: -Infinity, bottom: -Infinity };
  const all = operations(list).reverse();
  for (const corner of [[-1, -1], [1, -1], [-1, 1], [1, 1]]) {
    let [x, y, z] = [corner[0] * size / 2, corner[1] * size / 2, 0];
    for (const { kind, parts: [a, b, c, angle] } of all) {
      if (kind === "translate") [x, y, z] = [x + a / 1e3, y + b / 1e3, z + c / 1e3];
      else if (kind === "scale") [x, y, z] = [x * a / 1e6, y * b / 1e6, z * c / 1e6];
      else if (kind === "skew") [x, y] = [x + Math.tan(a * Math.PI / 18e4) * y, y + Math.tan(b * Math.PI / 18e4) * x];
      else {
        const length = Math.hypot(a, b, c);
        if (length === 0) continue;
        const [u, v, w] = [a / length, b / length, c / length], turn = angle * Math.PI / 18e4;
        const cos = Math.cos(turn), sin = Math.sin(turn), along = (u * x + v * y + w * z) * (1 - cos);
        const cross = [v * z - w * y, w * x - u * z, u * y - v * x];
        [x, y, z] = [x * cos + cross[0] * sin + u * along, y * cos + cross[1] * sin + v * along, z * cos + cross[2] * sin + w * along];
      }
    }
    round.left = Math.min(round.left, x);
    round.right = Math.max(round.right, x);
    round.top = Math.min(round.top, y);
    round.bottom = Math.max(round.bottom, y);
  }
  return round;
}

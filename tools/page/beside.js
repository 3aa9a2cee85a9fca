"use strict";

// Beside the browser's own. A model's keys are given to element.animate on a hidden box, which is paused and set to the
// model's time at each tick. One microsecond is one second there, so that the browser counts in whole numbers.

const ONE = 2 ** 20;
const STRETCH = 1000;

function cssEasing({ kind, count, position, parts }) {
  if (kind === "linear") return "linear";
  if (kind === "steps") return `steps(${count}, ${position})`;
  return `cubic-bezier(${parts.map(part => part / 1e6).join(", ")})`;
}

// Why Web Animations can't say a model, or "" where they can.
function unsaid(model) {
  const inner = model.keys.slice(0, -1).map(key => key.easing);
  const coarse = [model.easing, ...inner].find(easing => easing.kind === "steps" && !Number.isInteger(Math.log2(easing.count)));
  if (coarse) return `steps of ${coarse.count}: a progress is a part of 2^20 here, and such a step does not begin at one`;
  if (inner[0].kind === "steps" && ["jump-start", "start", "jump-both"].includes(inner[0].position))
    return "the first key's easing jumps at once: at the beginning the value here is the key's own, and there the jump is made";
  if (model.easing.kind === "cubic" && model.easing.parts.some((part, at) => at % 2 && (part < 0 || part > 1e6)))
    return "the easing of the whole curve may leave its ends: it is held at them here, and goes past them there";
  if (model.property === "transform") {
    for (let at = 1; at < model.keys.length; at += 1) {
      const [one, other] = [operations(model.keys[at - 1].value), operations(model.keys[at].value)];
      const axis = operation => operation.kind === "rotate" ? operation.parts.slice(0, 3).join() : "";
      const matches = (operation, beside) => operation.kind === beside.kind && axis(operation) === axis(beside);
      if (one.some((operation, place) => other[place] && !matches(operation, other[place])))
        return "two keys have lists that do not match: one of them is taken whole here, and matrices are blended there";
    }
  }
  const last = see.report.frames.length - 1, total = model.iterations === Infinity ? 0 : totalOf(model);
  const longest = Math.max(...[0, last].map(at => Math.abs(localTime(model, see.report.frames[at].time)))) + Math.abs(model.offset);
  if (longest * Math.max(1, Math.abs(model.rate) / 1e3) > 2 ** 42 || total > 2 ** 42)
    return "its times are greater than the browser counts exactly";
  return "";
}

// How steep an easing is at most, along its own way. For a cubic this is the steepest side of its control points.
function steepness({ kind, parts }) {
  if (kind !== "cubic") return 1;
  const [, first, , second] = parts.map(part => part / 1e6);
  return Math.max(1, 3 * Math.abs(first), 3 * Math.abs(second - first), 3 * Math.abs(1 - second));
}

function matrixOf(css) {
  return new DOMMatrix(css === "none" ? "" : css).toFloat64Array();
}

function inSpace(all) {
  return all.map(cssInSpace).join(" ") || "none";
}

// A model in the browser. `value` gives its value once so much of the iterations is covered, or null where it shows none.
// `near` gives values of its curve near a time of the curve: as far before it as the roundings of times and of progress
// reach, which all go down and are each at most a microsecond or a part of 2^20; and barely after it, for the browser's own
// rounding where a step jumps.
function browserOf(model) {
  const opaque = model.property === "opacity", { keys, duration, rate } = model, easing = cssEasing(model.easing);
  const said = key => opaque ? { opacity: key.value / 1e6 } : { transform: inSpace(operations(key.value)) };
  const keyframes = keys.map(key => ({ ...said(key), offset: key.time / duration, easing: cssEasing(key.easing) }));
  // A negative rate runs from the end to the beginning: so a fill behind the end is one before the beginning there.
  const turned = { none: "none", both: "both", forwards: "backwards", backwards: "forwards" };
  const whole = $("probe").animate(keyframes, {
    duration: duration * STRETCH, iterations: model.iterations / 1e3, iterationStart: model.istart / 1e3,
    direction: model.direction, fill: rate < 0 ? turned[model.fill] : model.fill, easing,
  });
  // The first of these tells how the easing of the whole curve bends a time, and the second what is at the bent time.
  const bending = $("near").animate(keyframes, { duration: duration * STRETCH, fill: "both", easing });
  const straight = $("near").animate(keyframes, { duration: duration * STRETCH, fill: "both" });
  for (const animation of [whole, bending, straight]) animation.pause();
  if (rate < 0) whole.playbackRate = -1;
  const styles = new Map([[whole, getComputedStyle($("probe"))], [straight, getComputedStyle($("near"))]]);
  const read = (animation, time) => {
    animation.currentTime = time * STRETCH;
    if (animation.effect.getComputedTiming().progress === null) return null;
    const css = opaque ? styles.get(animation).opacity : styles.get(animation).transform;
    return { css, numbers: opaque ? [Number(css)] : matrixOf(css) };
  };
  const inside = time => Math.min(Math.max(time, 0), duration), reach = 2 + 4 * duration / ONE;
  const bend = model.easing.kind === "linear" ? 0 : 1 + (steepness(model.easing) + 2) * duration / ONE;
  return {
    value: covered => read(whole, rate < 0 ? totalOf(model) - covered : covered),
    near: time => [time - reach, time, time + .001].flatMap(other => {
      bending.currentTime = inside(other) * STRETCH;
      const bent = bending.effect.getComputedTiming().progress * duration;
      return [...new Set([bent - bend, bent, bent + bend])].map(place => read(straight, inside(place)));
    }),
    cancel: () => { for (const animation of [whole, bending, straight]) animation.cancel(); },
  };
}

// How far the roundings of a value reach, for an opacity or for each number of a list's matrix. The place on a cubic and
// its height are rounded, then the blend, and the browser gives six digits of a number.
function slackOf(model, list) {
  const { keys } = model, part = (Math.max(...keys.slice(0, -1).map(key => steepness(key.easing))) + 2) / ONE;
  const widest = pick => Math.max(...keys.slice(1).map((key, at) => Math.abs(pick(key.value) - pick(keys[at].value))));
  if (model.property === "opacity") return [(3 + part * widest(Number)) / 1e6];
  const all = operations(list), whole = matrixOf(cssOf(list)), slack = Array.from(whole, number => 2e-6 + 1e-5 * Math.abs(number));
  all.forEach(({ kind, parts }, place) => parts.forEach((number, axis) => {
    if (kind === "rotate" && axis < 3) return;
    const wide = widest(value => operations(value)[place]?.parts[axis] ?? (kind === "scale" ? 1e6 : 0));
    const moved = matrixOf(inSpace(all.with(place, { kind, parts: parts.with(axis, number + 2 + part * wide) })));
    moved.forEach((other, at) => slack[at] += Math.abs(other - whole[at]));
  }));
  return slack;
}

// Compares each frame whose value the model gave. A frame is within fixed point where the report's value lies among the
// browser's values near its time, or outside of them by no more than the slack. A transform is compared by the numbers
// of its matrix.
function compare(id) {
  const model = see.run.models.get(id), why = unsaid(model), rows = [];
  if (why) return { why, rows };
  const models = modelsOf(see.run, model.element, model.property), browser = browserOf(model), total = totalOf(model);
  see.report.frames.forEach((frame, at) => {
    const place = frame.ids.indexOf(model.element);
    if (place < 0 || giver(models, at, frame.time) !== model) return;
    const list = frame.lists[place], opaque = model.property === "opacity";
    const report = opaque ? `${frame.opacities[place] / 1e6}` : cssOf(list);
    const numbers = opaque ? [Number(report)] : [...matrixOf(report)];
    const covered = (localTime(model, frame.time) + model.offset) * Math.abs(model.rate) / 1e3, now = browser.value(covered);
    const row = { frame: at, tick: frame.time, report, browser: now ? now.css : "none", difference: null, within: false };
    rows.push(row);
    if (!now) return;
    const near = [now, ...browser.near(curveTime(model, Math.min(Math.max(covered, 0), total), total))], slack = slackOf(model, list);
    row.difference = Math.max(...numbers.map((number, which) => Math.abs(number - now.numbers[which])));
    row.within = numbers.every((number, which) => {
      const round = near.map(other => other.numbers[which]);
      return number >= Math.min(...round) - slack[which] && number <= Math.max(...round) + slack[which];
    });
  });
  browser.cancel();
  return { why, rows };
}

const MOST_ROWS = 1000;

function drawBeside() {
  const id = Number($("beside-model").value), model = see.run.models.get(id), holder = $("beside");
  for (const label of $("models").querySelectorAll("button")) label.classList.toggle("chosen", Number(label.dataset.model) === id);
  holder.replaceChildren();
  see.besideRows = new Map();
  if (!model) return void ($("beside-says").textContent = "No model started.");
  const { why, rows } = compare(id);
  if (why) return void ($("beside-says").textContent = `Web Animations can't say model ${id}: ${why}.`);
  const far = rows.filter(row => !row.within), differences = rows.map(row => row.difference ?? Infinity);
  const worst = differences.indexOf(Math.max(...differences));
  if (rows.length === 0) return void ($("beside-says").textContent = `No frame shows a value of model ${id}.`);
  $("beside-says").textContent = `${rows.length} frames show a value of model ${id}. ` +
    `The largest difference is ${number(rows[worst].difference)}, at ${rows[worst].tick}. ` +
    (far.length ? `${far.length} of them are farther off than fixed point explains.` : "All are within fixed point.");
  const body = make("tbody");
  for (const row of rows.slice(0, MOST_ROWS)) {
    const texts = [row.frame + 1, row.tick, row.report, row.browser, number(row.difference), row.within ? "yes" : "no"];
    const line = make("tr", { className: row.within ? "" : "far" }, ...texts.map(text => make("td", {}, `${text}`)));
    see.besideRows.set(row.frame, line);
    body.append(line);
  }
  const difference = model.property === "opacity" ? "difference" : "difference of matrices";
  const heads = ["frame", "tick", "report", "browser", difference, "within fixed point"];
  const head = make("tr", {}, ...heads.map(text => make("th", { scope: "col" }, text)));
  holder.append(make("table", {}, make("thead", {}, head), body));
  if (rows.length > MOST_ROWS) holder.append(make("p", { className: "soft" }, `The table has the first ${MOST_ROWS} of them.`));
  markBeside();
}

function number(value) {
  if (value === null) return "none";
  return value > 0 && value < 1e-9 ? "less than 0.000000001" : value.toFixed(9).replace(/\.?0+$/, "");
}

function markBeside() {
  see.marked?.classList.remove("here");
  see.marked = see.besideRows?.get(see.at);
  if (!see.marked) return;
  see.marked.classList.add("here");
  const holder = $("beside"), top = see.marked.offsetTop;
  const shown = top > holder.scrollTop + 30 && top + 24 < holder.scrollTop + holder.clientHeight;
  if (!shown) holder.scrollTop = top - holder.clientHeight / 2;
}

function choose(id) {
  $("beside-model").value = id;
  drawBeside();
  $("beside-part").scrollIntoView({ block: "nearest" });
}

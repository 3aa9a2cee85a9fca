"use strict";

// The frames from left to right: models and curves share one axis. Frame i lies between edges[i] and edges[i + 1].

function spaceFrames() {
  const { frames } = see.report, count = frames.length;
  const first = frames[0]?.time, whole = frames.at(-1)?.time - first;
  const evenly = $("spacing").value === "frames" || !whole;
  if (evenly) see.edges = Array.from({ length: count + 1 }, (_, at) => at / Math.max(1, count));
  else see.edges = [...frames.map(frame => (frame.time - first) / (whole * count / (count - 1))), 1];
}

function span(className, from, to, more = {}, ...children) {
  const { edges } = see, { style, ...rest } = more;
  const place = { left: `${edges[from] * 100}%`, width: `${(edges[to] - edges[from]) * 100}%`, ...style };
  const node = make("div", { className, ...rest, style: place }, ...children);
  return node;
}

function colour(group) {
  return `hsl(${(205 + group.place * 137.5) % 360} var(--group-s) var(--group-l))`;
}

function band() {
  const across = make("div", { className: "across" }), { frames } = see.report;
  let from = 0;
  frames.forEach((frame, at) => {
    if (at + 1 < frames.length && frames[at + 1].commit === frame.commit) return;
    const says = `commit ${frame.commit}`, tip = { "data-tip": `frames ${from + 1} to ${at + 1} show ${says}` };
    across.append(span(frame.commit % 2 ? "commit-span odd" : "commit-span", from, at + 1, tip, says));
    from = at + 1;
  });
  return make("div", { className: "row band" }, make("div", { className: "soft" }, "the commit that shows"), across);
}

// What the report says of a model.
function modelText(model) {
  const lines = [`model ${model.id} of group ${model.group}: ${model.property} of element ${model.element}`, ...model.events];
  if (model.inEdge === undefined) lines.push("in no commit that was activated");
  else if (model.events.length === 0) lines.push("did not start");
  return lines.join("\n");
}

function modelRow(model) {
  const text = modelText(model), says = `${model.id} · group ${model.group} · ${model.property} of ${model.element}`;
  const label = make("button", { type: "button", onclick: () => choose(model.id) }, says);
  label.setAttribute("aria-label", text.replaceAll("\n", "; "));
  label.dataset.tip = text;
  label.dataset.model = model.id;
  const row = make("div", { className: "row" }, label, make("div", { className: "across" }));
  row.fill = () => fillModel(row.lastChild, model, text);
  inView.observe(row);
  return row;
}

function fillModel(across, model, text) {
  const group = see.run.groups.get(model.group), last = see.report.frames.length;
  const tint = tip => ({ style: { background: colour(group) }, "data-tip": tip });
  const { startFrame: start, inEdge: from, outEdge: out = last, end } = model;
  if (from === undefined) across.append(make("div", { className: "never" }, "in no commit that was activated"));
  for (const wait of group.waits) {
    const [left, right] = [Math.max(wait.from, from ?? last), Math.min(wait.to, out)];
    if (left >= right) continue;
    const blocker = !wait.lacks && wait.by.find(Boolean), style = { color: blocker ? colour(blocker) : "var(--soft)" };
    const says = see.edges[right] - see.edges[left] > .03 ? [make("span", {}, wait.says)] : [];
    across.append(span("waits", left, right, { style, "data-tip": `${text}\n${wait.says}` }, ...says));
  }
  if (start !== undefined) {
    across.append(span("runs", start, end?.edge ?? last, tint(text)));
    // A group keeps its properties until it ends as a whole, also that of a model that was aborted before.
    const blocks = `group ${group.id} blocks ${model.property} of element ${model.element}`;
    across.append(span("blocks", start, group.endEdge ?? last, tint(blocks)));
    if (end?.kind === "finished" && ["forwards", "both"].includes(model.fill))
      across.append(span("fills", end.edge, out, tint(`${text}\nits fill shows while the active commit has it`)));
  }
  if (end) {
    const sign = end.kind === "aborted" ? "×" : "";
    across.append(span(`ended ${end.kind}`, end.edge, end.edge, { style: { width: "" }, "data-tip": text }, sign));
  }
}

function framesPart(id, rows) {
  const cursor = make("div", { className: "cursor" });
  $(id).replaceChildren(make("div", { className: "strip" }, ...rows, cursor));
  see.cursors[id] = cursor;
}

// Rows are filled when they come into view: there may be a thousand models, and as many waits of each.
const inView = new IntersectionObserver(entries => {
  for (const { target, isIntersecting } of entries) {
    if (!isIntersecting) continue;
    inView.unobserve(target);
    target.fill();
  }
}, { rootMargin: "200px" });

function drawModels() {
  framesPart("models", [band(), ...[...see.run.models.values()].map(modelRow)]);
}

function drawCurves() {
  const rows = [], seen = new Set();
  for (const model of see.run.models.values()) {
    const key = `${model.element} ${model.property}`;
    if (model.startFrame === undefined || seen.has(key)) continue;
    seen.add(key);
    const label = make("div", { className: "label" }, make("b", {}, `${model.property} of element ${model.element}`));
    const row = make("div", { className: "row curve" }, label, make("div", { className: "across" }));
    Object.assign(row, { element: model.element, property: model.property, fill: () => fillCurve(row) });
    rows.push(row);
    inView.observe(row);
  }
  if (rows.length === 0) rows.push(make("p", { className: "soft" }, "No model started."));
  framesPart("curves", rows);
}

// The numbers of a property, each with a name, at each frame that shows the element.
function numbersOf(element, property) {
  const numbers = new Map();
  const put = (name, unit, at, value) => {
    if (!numbers.has(name)) numbers.set(name, { name, unit, values: [] });
    numbers.get(name).values[at] = value;
  };
  see.report.frames.forEach((frame, at) => {
    const row = frame.ids.indexOf(element);
    if (row < 0) return;
    if (property === "opacity") return put("opacity", "", at, frame.opacities[row] / 1e6);
    operations(frame.lists[row]).forEach(({ kind, parts }, place) => {
      const scale = kind === "scale" ? 1e6 : 1e3, unit = kind === "translate" ? " px" : kind === "scale" ? "" : "°";
      const before = place ? `${place + 1}: ` : "";
      if (kind === "rotate") put(`${before}rotate round ${parts.slice(0, 3).join(" ")}`, unit, at, parts[3] / scale);
      else parts.forEach((part, axis) => put(`${before}${kind} ${"xyz"[axis]}`, unit, at, part / scale));
    });
  });
  const all = [...numbers.values()];
  const moving = all.filter(({ values }) => values.some(value => value !== values.find(other => other !== undefined)));
  return moving.length ? moving : all.slice(0, 1);
}

// How the lines of one property's numbers are told apart.
const DASHES = [["", ""], ["6 3", " (dashes)"], ["2 2", " (dots)"], ["8 2 2 2", " (dots and dashes)"]];

function fillCurve(row) {
  const { frames } = see.report, across = row.querySelector(".across"), models = modelsOf(see.run, row.element, row.property);
  // Stretches of frames with one giver, so that each is drawn in its colour.
  const stretches = [];
  frames.forEach((frame, at) => {
    if (!frame.ids.includes(row.element)) return;
    const model = giver(models, at, frame.time), last = stretches.at(-1);
    if (last && last.to === at && last.model === model) last.to = at + 1;
    else stretches.push({ model, from: at, to: at + 1 });
  });
  const tint = model => model ? colour(see.run.groups.get(model.group)) : "var(--soft)";
  for (const { model, from, to } of stretches) {
    const says = model ? `model ${model.id}` : "its own value";
    const more = { style: { borderColor: tint(model) }, "data-tip": `frames ${from + 1} to ${to}: ${says}` };
    across.append(span("gave", from, to, more, says));
  }
  const svg = document.createElementNS("http://www.w3.org/2000/svg", "svg");
  svg.setAttribute("viewBox", "0 0 1 1");
  svg.setAttribute("preserveAspectRatio", "none");
  svg.setAttribute("role", "img");
  const legend = [];
  numbersOf(row.element, row.property).forEach(({ name, unit, values }, which) => {
    const [dashes, dashed] = DASHES[which % DASHES.length];
    let [low, high] = [Infinity, -Infinity];
    for (const value of values) if (value !== undefined) [low, high] = [Math.min(low, value), Math.max(high, value)];
    const height = value => 1 - (high > low ? (value - low) / (high - low) : .5);
    for (const { model, from, to } of stretches) {
      // A frame shows until the next one: so each sample is a level.
      let d = "";
      for (let at = from; at < to; at += 1) {
        if (values[at] === undefined) continue;
        const y = height(values[at]).toFixed(4);
        d += `${d && values[at - 1] !== undefined ? "L" : "M"}${see.edges[at].toFixed(5)} ${y}H${see.edges[at + 1].toFixed(5)}`;
      }
      const path = document.createElementNS(svg.namespaceURI, "path");
      path.setAttribute("d", d);
      path.setAttribute("stroke-dasharray", dashes);
      path.style.stroke = tint(model);
      svg.append(path);
    }
    legend.push(`${name} ${low}${unit} to ${high}${unit}${dashed}`);
  });
  svg.setAttribute("aria-label", `${row.property} of element ${row.element}: ${legend.join("; ")}`);
  across.append(svg);
  const label = row.querySelector(".label");
  for (const line of legend) label.append(make("br"), line);
}

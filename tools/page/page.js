"use strict";

// The page: what is given, the frame under the cursor, playing.

const see = window.see = {
  texts: { report: null, script: null, names: {} }, report: null, run: null, at: 0, playing: null, cursors: {},
  compare, show, load, faults: () => faultsOf(see.report, see.run),
};

// Whatever goes wrong in a load is shown.
function load(texts) {
  try {
    openTexts(texts);
  } catch (fault) {
    broken(fault);
  }
}

function broken(fault) {
  const says = `${fault?.message ?? fault}`;
  pause();
  note(`${says[0]?.toUpperCase() ?? ""}${says.slice(1, 400)}. What is shown may be wrong or missing.`);
}

addEventListener("error", event => broken(event.error ?? event.message));
addEventListener("unhandledrejection", event => broken(event.reason));

function openTexts(texts) {
  Object.assign(see, { texts, report: null, run: null, at: 0, cursors: {}, compared: null });
  pause();
  $("notes").replaceChildren();
  const { names = {} } = texts;
  $("names").textContent = [names.report, names.script].filter(Boolean).join(", ");
  document.title = names.report ? `${names.report}: a report of cctick` : "A report of cctick";
  $("refusal").hidden = $("shown").hidden = $("summary").hidden = true;
  $("choose").open = texts.report === null || texts.script === null;
  const report = texts.report === null ? null : readReport(texts.report);
  if (report?.refused) {
    see.report = report;
    $("refusal").hidden = false;
    return drawRefusal(report.refused, texts.script);
  }
  const run = report && texts.script !== null ? retrace(readScript(texts.script), report) : null;
  Object.assign(see, { report, run });
  if (!see.report) return void (texts.script !== null && note("The report is missing: choose it, or drop it on the page."));
  if (!see.run) note("The script is missing: without it the page shows the stage alone.");
  const faults = faultsOf(report, run);
  for (const { line, says } of faults.slice(0, MOST_NOTES)) note(`Line ${line} of the report: ${says}.`);
  if (faults.length > MOST_NOTES) note(`There are ${faults.length - MOST_NOTES} further faults.`);
  $("shown").hidden = false;
  for (const part of ["lanes-part", "models-part", "curves-part", "beside-part"]) $(part).hidden = !see.run;
  $("slider").max = Math.max(0, see.report.frames.length - 1);
  summarize();
  timePlaying();
  drawAll();
  if (see.run) {
    const started = [...see.run.models.values()].filter(model => model.startFrame !== undefined);
    const option = model => make("option", { value: model.id }, `${model.id}: ${model.property} of element ${model.element}`);
    $("beside-model").replaceChildren(...started.map(option));
    drawBeside();
    compareAll(started);
  }
}

const MOST_NOTES = 5;

// The line of summary. It says how many values were compared with the browser's, and of how many models so far.
function summarize() {
  const { report, run, compared } = see, parts = [summaryText(report, run)];
  let far = 0;
  if (compared) {
    far = compared.far.length;
    const left = compared.done < compared.all ? `, ${counted(compared.all - compared.done, "model")} still to come` : "";
    const unsaid = compared.unsaid ? `, ${counted(compared.unsaid, "model")} not comparable` : "";
    const [{ model, frame } = {}] = compared.far;
    const first = far ? `, ${far} of them beyond fixed point, first of model ${model} in frame ${frame + 1}` : "";
    parts.push(`${counted(compared.values, "value")} compared with the browser's${first}${unsaid}${left}`);
  } else parts.push("no value compared");
  $("summary").textContent = `${parts.join("; ")}.`;
  $("summary").classList.toggle("wrong", far > 0 || faultsOf(report, run).length > 0);
  $("summary").hidden = false;
}

// All models are compared with the browser's own animations, one after the other, while the browser has nothing else to do.
function compareAll(models) {
  const compared = see.compared = { all: models.length, done: 0, values: 0, unsaid: 0, far: [] }, { run } = see;
  const later = window.requestIdleCallback ?? (next => setTimeout(next, 20));
  const next = () => {
    if (see.run !== run) return;
    const model = models[compared.done];
    if (!model) return;
    const { why, rows } = compare(model.id);
    compared.done += 1;
    compared.values += rows.length;
    compared.unsaid += why ? 1 : 0;
    for (const row of rows) if (!row.within) compared.far.push({ model: model.id, frame: row.frame });
    summarize();
    later(next);
  };
  summarize();
  later(next);
}

function note(text) {
  $("notes").append(make("p", {}, text));
}

function drawFrames() {
  inView.disconnect();
  spaceFrames();
  drawModels();
  drawCurves();
}

function drawAll() {
  layOut();
  if (see.run) {
    drawLanes();
    drawFrames();
  }
  show(see.at);
}

function show(at) {
  const { frames, lines } = see.report, last = frames.length - 1;
  see.at = at = Math.max(0, Math.min(last, at));
  $("slider").value = at;
  const frame = frames[at], ran = see.run?.frames[at];
  if (!frame) {
    $("where").textContent = "no frames";
    $("rows").textContent = lines.join("\n");
    $("stage").setAttribute("aria-label", "The report has no frames");
    return;
  }
  const where = `frame ${at + 1} of ${frames.length}, at ${frame.time} µs`;
  $("where").textContent = where;
  $("slider").setAttribute("aria-valuetext", `${where}, commit ${frame.commit}`);
  $("stage").setAttribute("aria-label", `${frame.ids.length} elements at frame ${at + 1}. The text that follows has their values.`);
  $("rows").textContent = [...lines.slice(frame.from, frame.to), ...(ran?.events ?? [])].join("\n");
  drawStage();
  if (!ran) return;
  $("step-says").textContent = stepText(ran.step).replaceAll("\n", "; ");
  const { lanes, models, curves } = see.cursors, { edges } = see;
  lanes.style.width = `${see.wide}px`;
  lanes.style.left = `${ran.step * see.wide}px`;
  for (const cursor of [models, curves]) {
    cursor.style.left = `calc(var(--label) + (100% - var(--label)) * ${edges[at]})`;
    cursor.style.width = `calc((100% - var(--label)) * ${edges[at + 1] - edges[at]})`;
  }
  const holder = $("lanes"), x = ran.step * see.wide, room = holder.clientWidth - LANE.name;
  if (x < holder.scrollLeft || x + see.wide > holder.scrollLeft + room) holder.scrollLeft = x - room / 2;
  markBeside();
}

// When each frame comes, in milliseconds from the first. A gap of more than two seconds is played in two.
function timePlaying() {
  const due = [0], { frames } = see.report;
  for (let at = 1; at < frames.length; at += 1) {
    const gap = (frames[at].time - frames[at - 1].time) / 1e3;
    due.push(due[at - 1] + Math.min(2000, gap));
  }
  see.due = due;
  const fast = [...$("speed").options].find(option => due.at(-1) / option.value >= 1500) || [...$("speed").options].at(-1);
  $("speed").value = fast.value;
}

function play() {
  const last = see.report.frames.length - 1;
  if (see.at >= last) show(0);
  see.playing = { from: see.due[see.at], since: performance.now() };
  $("play").textContent = "Pause";
  const turn = now => {
    if (!see.playing) return;
    const passed = see.playing.from + Math.max(0, now - see.playing.since) * $("speed").value;
    let at = see.at;
    while (at < last && see.due[at + 1] <= passed) at += 1;
    if (at !== see.at) show(at);
    if (at >= last) pause();
    else requestAnimationFrame(turn);
  };
  requestAnimationFrame(turn);
}

function pause() {
  see.playing = null;
  $("play").textContent = "Play";
}

function go(at) {
  pause();
  show(at);
}

$("first").onclick = () => go(0);
$("back").onclick = () => go(see.at - 1);
$("next").onclick = () => go(see.at + 1);
$("last").onclick = () => go(Infinity);
$("play").onclick = () => see.playing ? pause() : play();
$("slider").oninput = () => go(Number($("slider").value));
$("speed").onchange = () => { if (see.playing) play(); };
$("spacing").onchange = () => {
  drawFrames();
  drawBeside();
  show(see.at);
};
$("beside-model").onchange = drawBeside;

// A slider and a list have their own arrow keys, and a button its own space.
document.addEventListener("keydown", event => {
  if (!see.report?.frames?.length || event.altKey || event.ctrlKey || event.metaKey) return;
  const target = event.target.closest?.("select, input, button, summary");
  const own = target?.type === "file" ? "SELECT" : target?.tagName;
  const keys = {
    ArrowLeft: () => go(see.at - 1), ArrowRight: () => go(see.at + 1), Home: () => go(0), End: () => go(Infinity),
    " ": () => $("play").click(),
  };
  if (!keys[event.key] || own === "SELECT" || (event.key === " " ? ["BUTTON", "SUMMARY"].includes(own) : own === "INPUT")) return;
  event.preventDefault();
  keys[event.key]();
});

// A click into the lanes or the frames moves the cursor there.
function frameAt(event) {
  const across = event.target.closest?.(".across");
  if (!across) return null;
  const box = across.getBoundingClientRect(), x = (event.clientX - box.left) / box.width;
  const after = see.edges.findIndex(edge => edge > x);
  return after < 0 ? see.report.frames.length - 1 : Math.max(0, after - 1);
}

function stepAt(event) {
  const steps = event.target.closest?.("#steps");
  return steps ? Math.floor((event.clientX - steps.getBoundingClientRect().left) / see.wide) : null;
}

for (const id of ["models", "curves"]) $(id).addEventListener("click", event => {
  const at = frameAt(event);
  if (at !== null) go(at);
});
$("lanes").addEventListener("click", event => {
  const step = see.run.steps[stepAt(event)];
  if (step?.frame !== undefined) go(step.frame);
  if (step) $("step-says").textContent = stepText(stepAt(event)).replaceAll("\n", "; ");
});

function tell(text, x, y) {
  const tip = $("tip");
  tip.hidden = !text;
  if (!text) return;
  tip.textContent = text;
  tip.style.left = `${Math.min(x + 12, innerWidth - tip.offsetWidth - 8)}px`;
  tip.style.top = `${y + 16 + tip.offsetHeight > innerHeight ? y - tip.offsetHeight - 8 : y + 16}px`;
}

document.addEventListener("pointermove", event => {
  const step = see.run ? stepAt(event) : null;
  tell(step !== null ? stepText(step) : event.target.closest?.("[data-tip]")?.dataset.tip, event.clientX, event.clientY);
});
document.addEventListener("pointerleave", () => tell(""));
// Who goes from model to model by the keyboard sees the same text.
document.addEventListener("focusin", event => {
  const box = event.target.getBoundingClientRect();
  tell(event.target.matches(":focus-visible") && event.target.dataset.tip, box.left, box.top + 8);
});
document.addEventListener("focusout", () => tell(""));

// Files, by the picker or dropped. A dropped file is a report if its text begins like one.
async function take(files, kind) {
  const { report, script, names } = see.texts, texts = { report, script, names: { ...names } };
  for (const file of files) {
    const text = await file.text(), which = kind || (/^(report |refused: )/.test(text) ? "report" : "script");
    texts[which] = text;
    texts.names[which] = file.name;
  }
  load(texts);
}

$("pick-report").onchange = event => take(event.target.files, "report");
$("pick-script").onchange = event => take(event.target.files, "script");
document.addEventListener("dragover", event => {
  event.preventDefault();
  document.body.classList.add("over");
});
document.addEventListener("dragleave", () => document.body.classList.remove("over"));
document.addEventListener("drop", event => {
  event.preventDefault();
  document.body.classList.remove("over");
  take(event.dataTransfer.files);
});

let resized;
addEventListener("resize", () => {
  clearTimeout(resized);
  resized = setTimeout(() => see.report?.frames && drawAll(), 100);
});

const sample = kind => `<svg width="16" height="18" viewBox="0 0 16 18" aria-hidden="true">${kind}</svg>`;
$("lanes-legend").innerHTML = KINDS.map(([kind, says]) => {
  const triangle = "M1 1h14l-7 15z", box = "M1 1h14v15h-14z";
  const shape = { drain: triangle, pull: triangle, tick: "M7 2h2v13h-2z", edit: "M1 6h14v6h-14z" }[kind] || box;
  return `<li>${sample(`<path class="${kind}" d="${shape}"/>`)}${says}</li>`;
}).join("");
$("models-legend").append(...[
  "full bar: runs", "hatched: waits, in the colour of the group that blocks it", "line below: blocks its property",
  "thin bar: its fill shows", "upright: finished", "×: aborted",
].map(says => make("li", {}, says)));

const given = JSON.parse($("given").textContent);
if (given) load(given);

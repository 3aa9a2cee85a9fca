"use strict";

// The texts. The report is read strictly: what docs/formats.md does not allow is noted as a fault with its line, and a
// line that can't be read is left out. The script is one that cctick took, and what the page can't read of it is thrown.
// Nothing here touches the page.

const MAIN_STEPS = ["element", "opacity", "transform", "drop-element", "timeline", "model", "drop-model", "commit", "drain"];
const COMPOSITOR_STEPS = ["pull", "activate", "tick"];
const PARTS = { translate: 3, scale: 3, rotate: 4, skew: 2 };
const MOST_ID = 2 ** 32 - 1, MOST_TIME = 2 ** 50, MOST_NUMBER = 2 ** 40, MOST_OPERATIONS = 8;

// As much of a line as a note shows.
function short(line) {
  return line.length > 100 ? `${line.slice(0, 100)} ..` : line;
}

// Whether a field spells a whole number of this range, in its one spelling.
function isNumber(field, low, high) {
  return field !== undefined && /^(0|-?[1-9][0-9]{0,16})$/.test(field) && Number(field) >= low && Number(field) <= high;
}

function isList(fields) {
  if (fields.length === 1 && fields[0] === "none") return true;
  return fields.length >= 1 && fields.length <= MOST_OPERATIONS && fields.every(field => {
    const [kind, ...parts] = field.split(":");
    return PARTS[kind] === parts.length && parts.every(part => isNumber(part, -MOST_NUMBER, MOST_NUMBER));
  });
}

const isId = field => isNumber(field, 0, MOST_ID), isTime = field => isNumber(field, 0, MOST_TIME);
const isCount = field => isNumber(field, 0, 2 ** 31), isStart = field => isNumber(field, -2 * MOST_TIME, 2 * MOST_TIME);

function readScript(text) {
  const script = { lines: text.split("\n"), main: [], compositor: [], models: new Map(), zeros: new Map() };
  let steps = null, known = [], model = null;
  script.lines.forEach((line, at) => {
    if (line === "" || line.startsWith("#")) return;
    const [name, ...fields] = line.split(" "), fault = why => new Error(`line ${at + 1} of the script ${why}: ${short(line)}`);
    if (name === "main") [steps, known] = [script.main, MAIN_STEPS];
    else if (name === "compositor") [steps, known] = [script.compositor, COMPOSITOR_STEPS];
    else if (name === "key" && model) {
      const [time, easing, ...value] = fields;
      if (!isTime(time) || easing === undefined || !(isList(value) || isNumber(value.join(" "), 0, 1e6))) throw fault("is no key");
      model.keys.push({ time: Number(time), easing: readEasing(easing), value: value.join(" ") });
    } else if (known.includes(name)) {
      const step = { name, fields, text: line, line: at + 1 };
      if (name === "model") {
        if (fields.length !== 15) throw fault("is no model");
        script.models.set(Number(fields[0]), model = step.model = readModel(fields, at + 1));
        const { id, group, element, timeline, offset, iterations, istart, rate, given } = model;
        const numbers = [id, group, element, timeline, offset, istart, rate, given ?? 0, iterations === Infinity ? 0 : iterations];
        if (!numbers.every(Number.isSafeInteger)) throw fault("has a field that is no number");
      }
      if (["tick", "timeline"].includes(name) && !isTime(fields.at(-1))) throw fault("has no time");
      if (name === "timeline") script.zeros.set(Number(fields[0]), Number(fields[1]));
      steps.push(step);
    } else if (!["anim", "word", "end"].includes(name)) throw fault("is none that the page knows");
  });
  if (!steps) throw new Error("the script has no steps: is it a script of cctick?");
  for (const { id, keys, line, count, timeline } of script.models.values()) {
    if (keys.length !== count || count < 2) throw new Error(`line ${line} of the script: model ${id} has ${keys.length} keys below it`);
    if (!script.zeros.has(timeline)) throw new Error(`line ${line} of the script: there is no timeline ${timeline}`);
  }
  return script;
}

function readModel(fields, line) {
  const [id, group, element, timeline, property, start, offset, iterations, istart, direction, fill, rate, policy, easing, keys] = fields;
  return {
    id: Number(id), group: Number(group), element: Number(element), timeline: Number(timeline), property,
    given: start === "-" ? null : Number(start), offset: Number(offset),
    iterations: iterations === "infinite" ? Infinity : Number(iterations), istart: Number(istart),
    direction, fill, rate: Number(rate), policy, easing: readEasing(easing), count: Number(keys), keys: [], line,
  };
}

const KEYWORDS = {
  "ease": "cubic:250000:100000:250000:1000000", "ease-in": "cubic:420000:0:1000000:1000000",
  "ease-out": "cubic:0:0:580000:1000000", "ease-in-out": "cubic:420000:0:580000:1000000",
  "step-start": "steps:1:jump-start", "step-end": "steps:1:jump-end",
};

function readEasing(field) {
  const [kind, ...parts] = (KEYWORDS[field] || field).split(":");
  if (kind === "steps") return { kind, count: Number(parts[0]), position: parts[1] };
  return { kind, parts: parts.map(Number) };
}

// The form of each line of a report, and the part of the report in which it stands. `like` are the fields between.
const EVENT_FORMS = {
  started: {
    like: [isId, "group", isId, "at", isTime, "start", isStart],
    read: ([, , group, , , , start]) => ({ group: Number(group), start: Number(start) }),
  },
  finished: { like: [isId, "at", isTime], read: () => ({}) },
  aborted: { like: [isId, "commit", isCount], read: ([, , commit]) => ({ commit: Number(commit) }) },
};
const REPORT_PARTS = {
  word: 1, frame: 2, element: 2, started: 3, finished: 3, aborted: 3, heard: 4, end: 5,
};

function isLike(fields, like) {
  return fields.length === like.length && like.every((is, at) => typeof is === "string" ? fields[at] === is : is(fields[at]));
}

function readReport(text) {
  const refused = /^refused: line (\d+): ([^\n]*)\n?$/.exec(text);
  if (refused) return { refused: { line: Number(refused[1]), cause: refused[2] } };
  const lines = text.split("\n"), report = { lines, word: "", frames: [], events: [], heard: [], faults: [] };
  if (lines[0] !== "report 1") throw new Error("the report does not begin with 'report 1'");
  // A line feed ends the last line, and begins none.
  if (lines.at(-1) === "") lines.pop();
  else report.faults.push({ line: lines.length, says: "the last line has no line feed" });
  let part = 0;
  for (let at = 1; at < lines.length; at += 1) {
    const line = lines[at], fields = line.split(" ", 20), name = fields.shift(), here = REPORT_PARTS[name] ?? 0;
    const fault = why => report.faults.push({ line: at + 1, says: `${why}: ${short(line)}` });
    if (here < part || (part === 0 && here !== 1) || (["word", "end"].includes(name) && here === part)) fault("it may not stand here");
    else if (!readReportLine(report, name, fields, at)) fault("it is not of the form of its kind");
    part = Math.max(part, here);
  }
  if (part < 5) report.faults.push({ line: lines.length + 1, says: "the report has ended without the line 'end'" });
  report.endLine = lines.length;
  return report;
}

// Reads one line into the report, and says whether it has the form of its kind.
function readReportLine(report, name, fields, at) {
  const [first, , third, , fifth] = fields, frame = report.frames.at(-1);
  if (name === "element") {
    const list = fields.slice(2);
    if (!frame || !isId(first) || !isNumber(fields[1], 0, 1e6) || !isList(list)) return false;
    frame.ids.push(Number(first));
    frame.opacities.push(Number(fields[1]));
    frame.lists.push(list.join(" "));
    frame.rowLines.push(at + 1);
    frame.to = at + 1;
  } else if (name === "frame") {
    if (!isLike(fields, [isTime, "commit", isCount])) return false;
    const rows = { ids: [], opacities: [], lists: [], rowLines: [] };
    report.frames.push({ time: Number(first), commit: Number(third), ...rows, from: at, to: at + 1 });
  } else if (name === "word") {
    if (fields.length !== 1 || !/^(-|[MC]+)$/.test(first)) return false;
    report.word = first === "-" ? "" : first;
  } else if (name === "heard") {
    if (!isLike(fields, [isCount])) return false;
    report.heard.push({ count: Number(first), line: at + 1 });
  } else if (name === "end") return fields.length === 0;
  else {
    const form = EVENT_FORMS[name];
    if (!form || !isLike(fields, form.like)) return false;
    const time = name === "started" ? Number(fifth) : name === "finished" ? Number(third) : undefined;
    report.events.push({ kind: name, model: Number(first), at: time, text: report.lines[at], line: at + 1, ...form.read(fields) });
  }
  return true;
}

"use strict";

// The run. The page makes the steps of the report's word again, by docs/rules.md: commits, pulls and activations, what
// starts, finishes and is aborted, and when a group waits and why. What the report says of these is checked, and so are
// the rows in which an element's own value shows. Values of models come from the report alone. A fault has the line of the
// report at which it is. Nothing here touches the page.

const MOST_FAULTS = 100;
const DROPS = { auto: ["finished", "aborted"], finished: ["finished"], manual: [] };

const runs = model => model.startFrame !== undefined && !model.end;

class Retracing {
  constructor(script, report) {
    const nothing = { number: 0, edits: 0, step: -1, elements: new Map(), models: [], set: new Set() };
    const run = { steps: [], commits: [nothing], models: script.models, frames: [], groups: new Map(), sent: [], faults: [] };
    Object.assign(this, { script, report, run, elements: new Map(), kept: new Map(), blockers: new Map(), running: new Set() });
    Object.assign(this, { edits: 0, drains: 0, heard: 0, told: 0, pending: null, lastPulled: 0, active: nothing, waiting: [], givers: new Map() });
    for (const model of script.models.values()) {
      Object.assign(model, { zero: script.zeros.get(model.timeline), duration: model.keys.at(-1).time, events: [] });
      const { group: id } = model;
      if (!run.groups.has(id)) run.groups.set(id, { id, models: [], running: 0, waits: [], place: run.groups.size });
      run.groups.get(id).models.push(model);
    }
  }

  differs(line, says) {
    if (this.run.faults.length < MOST_FAULTS) this.run.faults.push({ line, says });
  }

  // An event that is due. The report's next event has to be this one. Where one is not, later ones are not compared.
  send(model, kind, text) {
    const { events, endLine } = this.report, event = events[this.run.sent.length];
    this.run.sent.push({ model, kind, text });
    model.events.push(text);
    if (this.astray || event?.text === text) return;
    this.astray = true;
    const line = event?.line ?? (events.at(-1) ? events.at(-1).line + 1 : this.report.heard[0]?.line ?? endLine);
    this.differs(line, `the event '${text}' is due here`);
  }

  end(model, kind, edge, text) {
    const group = this.run.groups.get(model.group), ran = runs(model);
    model.end = { edge, kind };
    this.send(model, kind, text);
    if (!ran) return;
    group.running -= 1;
    if (group.running > 0) return;
    group.endEdge = edge;
    this.running.delete(group);
    for (const [key, blocker] of this.blockers) if (blocker === group) this.blockers.delete(key);
  }

  // Main hears all that was sent, and drops what its policy says.
  hear() {
    for (const { model, kind } of this.run.sent.slice(this.heard))
      if (DROPS[model.policy]?.includes(kind) && this.kept.get(model.id) === model) this.kept.delete(model.id);
    this.heard = this.run.sent.length;
    const said = this.report.heard[this.drains];
    this.drains += 1;
    if (!said) this.differs(this.report.endLine, `the line 'heard ${this.heard}' is due here`);
    else if (said.count !== this.heard) this.differs(said.line, `'heard ${this.heard}' is due here`);
  }

  // A waiting group, with what stays the same until the next pull or activation.
  look(group) {
    const { active, pending } = this, models = group.models.filter(model => active.set.has(model.id)), [{ element }] = models;
    let lacks = "";
    if (!active.elements.has(element)) lacks = `commit ${active.number} has no element ${element}`;
    else if (pending && group.models.some(model => pending.set.has(model.id)) && !pending.elements.has(element))
      lacks = `the pending commit ${pending.number} has no element ${element}`;
    return { group, lacks, properties: models.map(model => model.property), keys: models.map(model => `${element} ${model.property}`) };
  }

  // Notes that a group waits in a frame. A stretch of frames with one reason is one wait.
  wait({ group, lacks, properties }, by, at) {
    const last = group.waits.at(-1);
    if (last?.to === at && last.lacks === lacks && last.by.every((blocker, place) => blocker === by[place])) last.to = at + 1;
    else group.waits.push({
      from: at, to: at + 1, lacks, by,
      get says() {
        const blocks = by.flatMap((blocker, place) => blocker ? [`group ${blocker.id} blocks ${properties[place]}`] : []);
        return `waits: ${lacks || blocks.join(", ")}`;
      },
    });
  }

  // The groups of which all that runs is done, finish.
  finish(at, time) {
    const done = new Set();
    for (const group of this.running)
      if (group.models.every(model => !runs(model) || phase(model, localTime(model, time)) === "after")) done.add(group);
    if (done.size === 0) return;
    for (const model of this.active.models)
      if (done.has(this.run.groups.get(model.group)) && runs(model)) this.end(model, "finished", at, `finished ${model.id} at ${time}`);
  }

  // The groups that are ready start, one after the other.
  start(at, time) {
    this.waiting = this.waiting.filter(waits => {
      const { group, lacks, keys } = waits, by = keys.map(key => this.blockers.get(key));
      if (lacks || by.some(Boolean)) {
        this.wait(waits, by, at);
        return true;
      }
      group.startFrame = at;
      this.running.add(group);
      for (const model of group.models.filter(other => this.active.set.has(other.id))) this.startModel(model, group, at, time);
      return false;
    });
  }

  startModel(model, group, at, time) {
    const recorded = model.given ?? time - model.zero, key = `${model.element} ${model.property}`;
    Object.assign(model, { startFrame: at, recorded, order: this.run.sent.length });
    group.running += 1;
    this.blockers.set(key, group);
    if (!this.givers.has(key)) this.givers.set(key, []);
    this.givers.get(key).unshift(model);
    this.send(model, "started", `started ${model.id} group ${group.id} at ${time} start ${recorded}`);
  }

  // The frame of the report: its time, its commit, its elements, and the rows that show an element's own value.
  check(at, time, step) {
    const shown = this.report.frames[at], { active } = this;
    if (!shown) return this.differs(this.report.events[0]?.line ?? this.report.heard[0]?.line ?? this.report.endLine,
      `frame ${at + 1}, of line ${step.line} of the script, is missing before this`);
    const due = `frame ${time} commit ${active.number}`;
    if (shown.time !== time || shown.commit !== active.number) return this.differs(shown.from + 1, `'${due}' is due here`);
    let row = 0;
    for (const [id, own] of active.elements) {
      if (shown.ids[row] !== id) return this.differs(shown.rowLines[row] ?? shown.to + 1, `a row of element ${id} is due here`);
      for (const property of ["opacity", "transform"]) {
        const said = property === "opacity" ? shown.opacities[row] : shown.lists[row], models = this.givers.get(`${id} ${property}`);
        if (said !== own[property] && !(models && giver(models, at, time)))
          this.differs(shown.rowLines[row], `element ${id} has its own ${property} here, which is ${own[property]}`);
      }
      row += 1;
    }
    if (shown.ids.length > row) this.differs(shown.rowLines[row], `no row of element ${shown.ids[row]} is due here`);
  }

  // The steps of both lanes, by their names in a script.

  element({ fields: [id, opacity, ...list] }) {
    this.elements.set(Number(id), { opacity: Number(opacity), transform: list.join(" ") });
  }

  opacity({ fields: [id, opacity] }) {
    this.elements.set(Number(id), { ...this.elements.get(Number(id)), opacity: Number(opacity) });
  }

  transform({ fields: [id, ...list] }) {
    this.elements.set(Number(id), { ...this.elements.get(Number(id)), transform: list.join(" ") });
  }

  "drop-element"({ fields: [id] }) { this.elements.delete(Number(id)); }

  model({ model }) { this.kept.set(model.id, model); }

  "drop-model"({ fields: [id] }) { this.kept.delete(Number(id)); }

  timeline() {}

  commit(step) {
    const { run, kept } = this, made = { number: run.commits.length, edits: this.edits, step: run.steps.length, state: "unpulled" };
    Object.assign(made, { elements: new Map(this.elements), models: [...kept.values()], set: new Set(kept.keys()) });
    if (run.commits.at(-1).state === "unpulled") run.commits.at(-1).state = "replaced";
    run.commits.push(step.commit = made);
  }

  drain(step) {
    const before = this.heard;
    this.hear();
    step.says = `drain: heard ${this.heard}, ${this.heard - before} of them now`;
  }

  pull(step) {
    const newest = this.run.commits.at(-1);
    if (this.pending) step.says = `pull: nothing, for commit ${this.pending.number} is pending`;
    else if (newest.number <= this.lastPulled) step.says = "pull: nothing, for no commit is new";
    else {
      this.pending = step.took = newest;
      this.lastPulled = newest.number;
      Object.assign(newest, { state: "pulled", pulled: this.run.steps.length });
      this.waiting = this.waiting.map(({ group }) => this.look(group));
      step.says = `pull: takes commit ${newest.number}`;
    }
  }

  activate(step) {
    const { active: old, pending: made, run } = this, edge = run.frames.length, before = run.sent.length;
    if (!made) return void (step.says = "activate: nothing is pending");
    step.made = made;
    for (const model of old.models) {
      const lost = !made.set.has(model.id) || (model.startFrame !== undefined && !made.elements.has(model.element));
      if (!model.end && lost) this.end(model, "aborted", edge, `aborted ${model.id} commit ${made.number}`);
      if (!made.set.has(model.id)) model.outEdge = edge;
    }
    for (const model of made.models) model.inEdge ??= edge;
    step.says = [`activate: commit ${made.number} becomes active`, ...run.sent.slice(before).map(event => event.text)].join("\n");
    made.activated = run.steps.length;
    Object.assign(this, { active: made, pending: null });
    const groups = new Set(made.models.map(model => run.groups.get(model.group)));
    this.waiting = [...groups].filter(group => group.startFrame === undefined).map(group => this.look(group));
  }

  tick(step) {
    const { run, active } = this, at = run.frames.length, time = Number(step.fields[0]), before = run.sent.length;
    const frame = { step: run.steps.length, commit: active, newest: run.commits.at(-1).number, edits: this.edits - active.edits };
    run.frames.push(frame);
    step.frame = at;
    this.finish(at, time);
    this.start(at, time);
    // Aborts of the activations before are told with the frame too.
    frame.events = run.sent.slice(this.told).map(event => event.text);
    this.told = run.sent.length;
    this.check(at, time, step);
    const says = `tick ${time}: frame ${at + 1} shows commit ${active.number}, ${behindText(frame)}`;
    step.says = [says, ...run.sent.slice(before).map(event => event.text)].join("\n");
  }

  // Makes all steps in the order of the word.
  all() {
    const { script, report, run } = this, lanes = { M: script.main.values(), C: script.compositor.values() };
    for (const letter of report.word) {
      const step = lanes[letter].next().value;
      if (!step) {
        this.differs(2, "the word has other letters than the script has steps");
        break;
      }
      this[step.name](step);
      if (!["commit", "drain"].includes(step.name) && letter === "M") this.edits += 1;
      run.steps.push({ ...step, letter });
    }
    if (run.steps.length < script.main.length + script.compositor.length)
      this.differs(2, "the word does not make all steps of the script");
    const { frames, events, heard } = report;
    if (frames.length > run.frames.length)
      this.differs(frames[run.frames.length].from + 1, `the script has ${run.frames.length} ticks, and no more frames are due`);
    if (!this.astray && events.length > run.sent.length) this.differs(events[run.sent.length].line, "no further event is due");
    this.hear();
    if (heard.length > this.drains) this.differs(heard[this.drains].line, "no further drain is due");
    return run;
  }
}

function retrace(script, report) {
  return new Retracing(script, report).all();
}

// All that is wrong with a report, by its lines.
function faultsOf(report, run) {
  return [...report.faults, ...(run?.faults ?? [])].sort((one, other) => one.line - other.line);
}

function counted(count, noun) {
  return `${count} ${noun}${count === 1 ? "" : "s"}`;
}

// The line of summary. Without a script nothing is checked but the form of the report.
function summaryText(report, run) {
  const faults = faultsOf(report, run), [first] = faults;
  const fits = first ? `report fits: no, first at line ${first.line}` : run ? "report fits: yes" : "report fits: not checked";
  if (!run) return `${counted(report.frames.length, "frame")}; ${fits}`;
  const replaced = run.commits.filter(commit => commit.state === "replaced").length;
  const count = kind => run.sent.filter(event => event.kind === kind).length;
  const waited = [...run.groups.values()].filter(group => group.waits.length).length;
  return [
    counted(report.frames.length, "frame"), `${counted(run.commits.length - 1, "commit")} (${replaced} replaced)`,
    `${counted(run.models.size, "model")}: ${count("started")} started, ${count("finished")} finished, ${count("aborted")} aborted`,
    `${counted(waited, "group")} waited`, fits,
  ].join("; ");
}

function behindText(frame) {
  const commits = frame.newest - frame.commit.number;
  if (!commits && !frame.edits) return "not behind main";
  return `${counted(commits, "commit")} and ${counted(frame.edits, "edit")} behind main`;
}

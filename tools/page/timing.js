"use strict";

// When a model shows, by docs/values.md and docs/rules.md. Nothing here touches the page.

// Where a model's local time lies. Products may be greater than a number of JavaScript keeps exactly, and are BigInts then.
function phase(model, local) {
  const elapsed = local + model.offset;
  if (elapsed < 0) return "before";
  if (model.iterations === Infinity) return "active";
  const covered = elapsed * Math.abs(model.rate), total = model.duration * model.iterations;
  if (covered < Number.MAX_SAFE_INTEGER && total < Number.MAX_SAFE_INTEGER) return covered >= total ? "after" : "active";
  const exact = BigInt(elapsed) * BigInt(Math.abs(model.rate));
  return exact >= BigInt(model.duration) * BigInt(model.iterations) ? "after" : "active";
}

function localTime(model, time) {
  return time - model.zero - model.recorded;
}

// Whether a model gives a value in this frame, whose time is given too.
function showsAt(model, at, time) {
  if (model.startFrame === undefined || at < model.startFrame || at >= (model.outEdge ?? Infinity)) return false;
  if (model.end?.kind === "aborted" && at >= model.end.edge) return false;
  const where = phase(model, localTime(model, time));
  return where === "active" || model.fill === "both" || model.fill === (where === "before" ? "backwards" : "forwards");
}

// The model that gave the value: of those that show, the one that started last. There may be none.
function giver(models, at, time) {
  return models.find(model => showsAt(model, at, time));
}

// The started models of a property, the last one to start first.
function modelsOf(run, element, property) {
  return [...run.models.values()]
    .filter(model => model.element === element && model.property === property && model.startFrame !== undefined)
    .sort((one, other) => other.order - one.order);
}

function totalOf({ duration, iterations }) {
  return duration * iterations / 1e3;
}

// The time of the curve, in parts of a microsecond, for what is covered of the iterations.
function curveTime({ duration, rate, istart, direction }, covered, total) {
  const place = (rate < 0 ? total - covered : covered) + istart * duration / 1e3;
  const atEnd = total > 0 && place === total + istart * duration / 1e3 && place % duration === 0;
  const iteration = Math.floor(place / duration) - (atEnd ? 1 : 0), part = place - iteration * duration;
  const odd = iteration % 2 !== 0, turned = { normal: false, reverse: true, alternate: odd, "alternate-reverse": !odd }[direction];
  return turned ? duration - part : part;
}

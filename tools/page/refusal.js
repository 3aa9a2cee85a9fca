"use strict";

// A refusal beside its line of the script.

const CAUSES = {
  ElementThere: "The tree has this element already.", ElementNotThere: "The tree does not have this element.",
  ModelIdUsed: "A model was added under this id before.", ModelUnknown: "No model was ever added under this id.",
  TimelineThere: "The tree has this timeline already.", TimelineUnknown: "The tree does not have this timeline.",
  GroupClosed: "A commit came since the first model of this group was added.",
  GroupMixed: "The group has another element, timeline or given start, or has this property already.",
  BadHeader: "The first line is 'anim 1'.", BadLine: "A line like this is not allowed here.",
  BadNumber: "A number is spelled in another way, or is out of range.",
  BadCurve: "A curve has 2 to 16 keys, the first at time 0, and their times rise.",
  BadTiming: "A part of the timing is out of range, or endless iterations run backwards.",
  BadEasing: "An easing is spelled in another way, or is out of range.", TimeBack: "A tick is not before the one above it.",
  BadWord: "The word has one letter for each step of each lane.", MissingPart: "The lines end too early.",
  TooLong: "A script has 2^20 bytes at most.",
};

function drawRefusal(refused, text) {
  const lines = (text ?? "").split("\n"), list = $("refused-lines");
  // The last line feed ends a line and begins none.
  if (lines.at(-1) === "") lines.pop();
  const why = CAUSES[refused.cause] || (refused.cause.startsWith("Limit ") ? "The script has more of these than is allowed." : "");
  const ask = text === null ? " Give the script too, and the page shows the line." : "";
  $("refusal-says").textContent = `refused: line ${refused.line}: ${refused.cause}. ${why}${ask}`;
  const from = Math.max(1, refused.line - 60), to = Math.min(Math.max(lines.length, refused.line), refused.line + 60);
  list.replaceChildren();
  if (text === null) return;
  const put = (count, where) => {
    if (count > 0) list.append(make("li", {}, make("span", {}), make("span", { className: "number" }, `${count} more lines ${where}`)));
  };
  put(from - 1, "before");
  for (let at = from; at <= to; at += 1) {
    const line = lines[at - 1] ?? "(the text has ended)";
    const item = make("li", {}, make("span", { className: "number" }, `${at}`), make("span", {}, line));
    if (at === refused.line) {
      item.className = "at";
      item.setAttribute("aria-current", "true");
      item.lastChild.append(make("strong", {}, refused.cause));
    }
    list.append(item);
  }
  put(lines.length - to, "after");
  list.querySelector(".at")?.scrollIntoView({ block: "center" });
}

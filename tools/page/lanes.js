"use strict";

// The lanes. Steps of one kind are one path, so that twenty thousand steps are a dozen nodes.

const LANE = { main: 22, compositor: 76, height: 18, behind: 122, tall: 34, whole: 160, name: 104 };
const KINDS = [
  ["edit", "edit"], ["commit", "commit"], ["replaced", "commit, replaced before a pull"], ["unpulled", "commit, not pulled"],
  ["drain", "drain"], ["pull", "pull"], ["activate", "activation"], ["tick", "tick"], ["idle", "step without effect"],
  ["behind", "commits behind main"],
];

function shapes(step, x, wide) {
  const box = (top, height = LANE.height) => `M${x + 1} ${top}h${wide - 2}v${height}h${2 - wide}z`;
  const triangle = top => `M${x + 1} ${top}h${wide - 2}l${1 - wide / 2} ${LANE.height}z`;
  switch (step.name) {
    case "commit": return [step.commit.state === "pulled" ? "commit" : step.commit.state, box(LANE.main)];
    case "drain": return ["drain", triangle(LANE.main)];
    case "pull": return [step.took ? "pull" : "idle", triangle(LANE.compositor)];
    case "activate": return [step.made ? "activate" : "idle", box(LANE.compositor)];
    case "tick": return ["tick", `M${x + wide / 2 - 1} ${LANE.compositor + 2}h2v${LANE.height - 4}h-2z`];
    default: return ["edit", box(LANE.main + 6, 6)];
  }
}

function drawLanes() {
  const { steps, commits, frames } = see.run, holder = $("lanes");
  const room = holder.clientWidth - LANE.name - 4, wide = see.wide = Math.max(8, Math.min(34, room / Math.max(1, steps.length)));
  const behind = frame => frame.newest - frame.commit.number, most = Math.max(0, ...frames.map(behind));
  const paths = Object.fromEntries([...KINDS.map(([kind]) => [kind, ""]), ["path", ""], ["crossed", ""]]);
  const texts = [], lastText = { M: -99, C: -99 };
  const label = (lane, x, top, text) => {
    if (x - lastText[lane] < 8 + 6 * `${text}`.length) return;
    lastText[lane] = x;
    texts.push(`<text x="${x}" y="${top}">${text}</text>`);
  };
  const middle = at => at * wide + wide / 2, foot = LANE.main + LANE.height, under = LANE.compositor + LANE.height;
  steps.forEach((step, at) => {
    const [kind, shape] = shapes(step, at * wide, wide);
    paths[kind] += shape;
    if (step.commit) label("M", middle(at), LANE.main - 7, step.commit.number);
    if (step.took || step.made) label("C", middle(at), under + 14, (step.took || step.made).number);
    if (step.frame !== undefined) {
      const high = LANE.tall * behind(frames[step.frame]) / Math.max(1, most);
      if (high) paths.behind += `M${at * wide + 1} ${LANE.behind + LANE.tall - high}h${wide - 2}v${high}h${2 - wide}z`;
    }
  });
  for (const commit of commits.slice(1)) {
    const from = middle(commit.step), to = middle(commit.pulled);
    const bend = foot + 18;
    if (commit.state === "pulled") paths.path += `M${from} ${foot}C${from} ${bend} ${to} ${bend} ${to} ${LANE.compositor}`;
    if (commit.activated !== undefined) paths.path += `M${to} ${under}v4H${middle(commit.activated)}v-4`;
    if (commit.state === "replaced") paths.crossed += `M${from - 4} ${foot + 4}l8 8m0 -8l-8 8`;
  }
  const all = Object.entries(paths).map(([kind, d]) => d && `<path class="${kind}" d="${d}"/>`).join("");
  const long = Math.max(room, steps.length * wide);
  const rule = y => `<path class="rule" d="M0 ${y}H${long}"/>`, name = (y, text) => `<text class="name" x="0" y="${y}">${text}</text>`;
  const rules = rule(LANE.main + 9) + rule(LANE.compositor + 9) + rule(LANE.behind + LANE.tall);
  const names = name(LANE.main + 13, "main") + name(LANE.compositor + 13, "compositor") +
    name(LANE.behind + 14, "commits behind") + name(LANE.behind + 27, `(at most ${most})`);
  const svg = (width, what, inside) => `<svg width="${width}" height="${LANE.whole}" ${what}>${inside}</svg>`;
  const counts = KINDS.slice(0, 9).map(([kind, says]) => `${(paths[kind].match(/M/g) || []).length} ${says}`).join(", ");
  const drawn = svg(long, `role="img" aria-label="${steps.length} steps: ${counts}"`, rules + all + texts.join(""));
  // Only numbers and fixed names go into this markup, and nothing of the texts.
  holder.innerHTML = `<div class="strip" style="width:${LANE.name + long}px">
    <div id="lane-names" style="width:${LANE.name}px">${svg(LANE.name, 'aria-hidden="true"', names)}</div>
    <div id="steps" style="position:relative;margin-left:${LANE.name}px">${drawn}<div class="cursor"></div></div>
  </div>`;
  see.cursors.lanes = holder.querySelector(".cursor");
}

function stepText(at) {
  const step = see.run.steps[at];
  if (!step) return "";
  let says = step.says || step.text;
  if (step.commit) {
    const { number, state, pulled } = step.commit;
    const replaced = `commit ${number + 1} replaced it before a pull`;
    says = `commit, which is commit ${number}: ${{ pulled: `pulled in step ${pulled + 1}`, replaced, unpulled: "never pulled" }[state]}`;
  }
  return `Step ${at + 1} of ${see.run.steps.length}, ${step.letter === "M" ? "main" : "compositor"}. ${says}`;
}

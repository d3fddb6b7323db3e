// The list of requirements. Only the rows in view are in the document, so that 2,000 cost no more than 20.
import { $, h, put, lay, dim, mark, exactly, many, WORDS } from "./dom.js";
import { desk, kept, ask, chip, looking, noProduct } from "./desk.js";
import { drawCard } from "./card.js";
import { told, effects } from "./past.js";

const ROW = 30; // pixels
const CHIPS = [["all", "All"], ["h", "Hopeless"], ["p", "Possible"], ["s", "Sure"], ["now", "Just changed"]];
export const list = { chosen: null }; // the place of the requirement that the card shows
let only = kept.get("only") || "all";
let rows = []; // the places of the requirements listed
let ghost = null; // a preview: what each of its changes would make of which requirement
let scrolled = null; // where the list stood before a preview
let asking = false;
const answers = new Map(); // what was asked of rows in view: why they are as they are, or exactly

looking.show = (options, got) => {
  const to = p => new Map((p.changed || []).map(([i, , now]) => [i, now]));
  ghost = options.map(([label], n) => ({ label, bad: got[n].error, to: to(got[n]) }));
  drawGoals();
};
looking.hide = () => { if (ghost) { ghost = null; drawGoals(); } };
export const forgetAnswers = () => answers.clear();

export function drawGoals() {
  drawChips();
  const isHit = i => ghost?.some(it => it.to.has(i)), find = $("gfind").value.trim().toLowerCase();
  rows = [...desk.family.goals.keys()].filter(i => isHit(i) || isListed(i) && isFound(desk.family.goals[i], find));
  const box = $("list");
  if (ghost?.some(it => it.to.size) && rows.length * ROW > box.clientHeight + 9) {
    scrolled ??= box.scrollTop;
    rows = [...rows.filter(isHit), ...rows.filter(i => !isHit(i))];
    box.scrollTop = 0;
  }
  box.style.flexBasis = matchMedia("(min-width:1500px)").matches ? "" : Math.max(2, rows.length) * ROW + 3 + "px";
  document.body.classList.toggle("working", !desk.settled);
  drawNews();
  drawRows();
  if (!ghost && scrolled != null) { box.scrollTop = scrolled; scrolled = null; }
}
const isListed = i => only === "all" || only === desk.verdicts[i] || only === "now" && desk.was.has(i);
const isFound = (g, find) => !find || `${g.name} ${g.note} ${g.text}`.toLowerCase().includes(find);

function drawChips() {
  const n = { all: desk.family.goals.length, h: 0, p: 0, s: 0, now: desk.was.size };
  for (const v of desk.verdicts) n[v]++;
  const choose = kind => () => { only = kind; kept.set("only", kind); $("list").scrollTop = 0; drawGoals(); };
  put($("chips"), CHIPS.map(([kind, word]) => h("button",
    { "aria-pressed": String(only === kind), onclick: choose(kind) }, `${word} ${n[kind].toLocaleString("en")}`)));
  $("tally").textContent = ` ✕ ${n.h} ✓ ${n.s}`;
}

// The line above the list: what is previewed, or what happened last.
function drawNews() {
  const e = desk.past.at(-1);
  const changes = it => [h("b", it.label), it.bad ? " is refused" : ` changes ${many(it.to.size, "verdict")}`];
  put($("news"), noProduct() ? h("b.v-h", "No product is left: verdicts say nothing. Take a decision back.")
    : ghost ? ["Preview: ", ghost.map((it, n) => [n ? " · " : "", changes(it)])]
    : !desk.settled ? "Working the verdicts out …" : e ? ["Last: ", told(e), ": ", effects(e)]
    : "Nothing is decided yet. What is sure or hopeless now is so in every product of the family.");
}

export function drawRows() {
  const box = $("list"), from = Math.max(0, Math.floor(box.scrollTop / ROW) - 5);
  const seen = rows.slice(from, from + Math.ceil(box.clientHeight / ROW) + 10);
  $("rows").style.height = rows.length * ROW + "px";
  lay($("rows"), rows.length ? seen.map((i, n) => row(i, from + n)) : [h("p.none", nothing())]);
  if (list.chosen != null) box.setAttribute("aria-activedescendant", "g" + list.chosen);
  if ($("more").checked) askMore(seen);
}
const nothing = () => $("gfind").value ? "No requirement has this in its text."
  : only === "now" ? "The last change changed no verdict."
  : only === "all" ? "The family has no requirements." : `None is ${WORDS[only]}.`;

function row(i, place) {
  const g = desk.family.goals[i], rest = g.note || g.text;
  const e = h("div", {
    class: "r", role: "option", id: "g" + i, "aria-selected": String(list.chosen === i),
    "aria-posinset": place + 1, "aria-setsize": rows.length, onclick: () => choose(i),
  },
  mark(desk.verdicts[i]), h("span", { class: "n", title: rest }, g.name, h("i", rest)),
  ghost ? ghost.map(it => foreseen(it, i)) : [answers.has(i) && h("span.ex", answer(answers.get(i))),
    desk.was.has(i) && h("span.was", "was " + WORDS[desk.was.get(i)])]);
  e.style.top = place * ROW + "px";
  return e;
}
const foreseen = (it, i) => h("span.pv", it.bad ? dim("–")
  : it.to.has(i) && [it.label.length < 11 ? it.label + " →" : "→", mark(it.to.get(i))]);
const answer = ({ what, decided, because }) => what === "decide" ? exactly(decided)
  : !because.length ? "whatever is decided"
  : ["by ", chip(because[0]), because.length > 1 && `+ ${because.length - 1}`];

// Asks, one after the other, why rows in view are sure or hopeless, and exactly about those that are neither.
async function askMore(these) {
  if (asking || !desk.settled || noProduct()) return;
  const at = desk.page.at, missing = these.filter(i => !answers.has(i));
  asking = true;
  for (const i of missing) {
    if (desk.page.at !== at || !desk.settled) break;
    const r = await ask(desk.verdicts[i] === "p" ? "decide" : "why", desk.family.goals[i].id).catch(() => null);
    if (r && desk.page.at === at && desk.settled) answers.set(i, r);
  }
  asking = false;
  if (desk.page.at !== at || missing.some(i => answers.has(i))) drawRows();
}

export function choose(i) {
  list.chosen = i;
  kept.set("goal", desk.family.goals[i].id);
  const y = rows.indexOf(i) * ROW, box = $("list");
  const isSeen = y >= box.scrollTop && y + ROW <= box.scrollTop + box.clientHeight;
  if (y >= 0 && !isSeen) box.scrollTop = y - box.clientHeight / 2;
  drawRows();
  drawCard(true);
}

$("list").onscroll = () => requestAnimationFrame(drawRows);
$("list").onkeydown = e => {
  const i = rows.indexOf(list.chosen), go = n => rows.length && choose(rows[Math.max(0, Math.min(rows.length - 1, n))]);
  const keys = { ArrowDown: i + 1, ArrowUp: i - 1, PageDown: i + 10, PageUp: i - 10, Home: 0, End: rows.length };
  if (e.key in keys) { e.preventDefault(); go(keys[e.key]); }
};

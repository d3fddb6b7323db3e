// Who is here, the decisions that stand, the history, and undo and redo, which are about my own changes only.
import { $, h, put, plain, WORDS } from "./dom.js";
import { desk, standing, known, step, back, isUndo, change, act, chip } from "./desk.js";

export function drawPeople() {
  const initials = name => name.split(" ").map(word => [...word][0]).slice(0, 2).join("").toUpperCase();
  const mine = p => p.session === desk.family.you.session;
  put($("people"), desk.page.people.map(p => h("li", { class: mine(p) && "self", title: p.name },
    h("span", { "aria-hidden": "true" }, initials(p.name)), h("span.hide", p.name))));
}

// --- what an entry of the history says

// The step that an undo or redo of this serial was about.
const made = serial => desk.past.flatMap(e => e.steps).find(s => s.serial === serial && !isUndo(s));
function toldStep(s) {
  if (!s) return "an older change";
  if (isUndo(s)) return `${s.do === "undo" ? "undid" : "redid"} “${toldStep(made(s.serial))}”`;
  const words = { select: "selected", exclude: "excluded", retract: "took back" };
  return s.do === "reset" ? "took all decisions back" : `${words[s.do]} ${s.feature}`;
}
function steps(e) {
  const more = e.steps.length > 3 && ` and ${e.steps.length - 1} more`;
  return more ? toldStep(e.steps[0]) + more : e.steps.map(toldStep).join(", ");
}
export const told = e => [h("b", isMine(e) ? "You" : e.by), " " + steps(e)];
export function effects(e) {
  const became = e.became && ["h", "s", "p"].filter(v => e.became[v]).map(v => `${e.became[v]} became ${WORDS[v]}`);
  return became ? became.join(", ") || "no verdict changed" : "";
}

// --- undo and redo

// Which entries have no effect any more: they were undone, or a later entry, which stands, took them back.
function undoneEntries() {
  const gone = new Set(), taken = new Set();
  for (const s of desk.past.flatMap(e => e.steps)) {
    if (s.do === "undo") gone.add(s.serial);
    if (s.do === "redo") gone.delete(s.serial);
  }
  const isGone = e => e.steps.every(s => gone.has(s.serial));
  for (const e of desk.past.toReversed()) if (e.of && !taken.has(e.entry) && !isGone(e)) taken.add(e.of);
  return new Set(desk.past.filter(e => taken.has(e.entry) || !isUndo(e.steps[0]) && isGone(e)).map(e => e.entry));
}

// The steps that take an entry's effect back, as far as it is still there.
const inverse = e => e.steps.toReversed().flatMap(s => {
  if (s.do === "retract" || s.do === "reset") return s.was.filter(it => !known(it.slice(1))).map(step);
  return standing(s.feature)?.serial === s.serial ? [back("+" + s.feature)] : [];
});

// My newest change that stands: undone exactly if nothing came after it, else taken back by a new change.
function undoOf(undone) {
  for (const e of desk.past.filter(it => isMine(it) && !isUndo(it.steps[0])).reverse()) {
    if (undone.has(e.entry) || e.of) continue;
    const isNewest = desk.page.undo?.serial === e.steps.at(-1).serial, todo = isNewest ? backwards(e) : inverse(e);
    if (todo.length) return { e, todo, of: isNewest ? undefined : e.entry };
  }
  return null;
}
// What I undid last: exactly by a redo, or by undoing the new change that took it back.
function redoOf() {
  const entry = it => desk.past.find(e => !isUndo(e.steps[0]) && e.steps.some(s => s.serial === it?.serial));
  const e = entry(desk.page.redo), taking = entry(desk.page.undo);
  if (e && isMine(e)) return e.steps.map(s => ({ do: "redo", serial: s.serial }));
  return taking?.of && isMine(taking) ? backwards(taking) : null;
}
const isMine = e => e.session === desk.family.you.session;
const backwards = e => e.steps.toReversed().map(s => ({ do: "undo", serial: s.serial }));

function drawUndo(undone) {
  const undo = undoOf(undone), redo = redoOf();
  $("undo").disabled = !undo;
  $("redo").disabled = !redo;
  $("undo").title = !undo ? "None of your changes can be undone"
    : "You " + steps(undo.e) + (undo.of ? ". Something was changed since: so a new change takes it back." : "");
  $("undo").onclick = () => undo && change(undo.todo, undo.of);
  $("redo").onclick = () => redo && change(redo);
}

// --- the column

export function drawPast() {
  const undone = undoneEntries(), { decisions } = desk.page;
  const away = sign => act("✕", [back(sign)], { class: "quiet", "aria-label": "Take back " + sign.slice(1) });
  put($("decisions"), decisions.length ? decisions.map(d => h("li", chip(d.sign, away(d.sign))))
    : h("li.dim", "None stands. Select or exclude a feature."));
  $("dcount").textContent = decisions.length || "";
  $("reset").hidden = decisions.length < 2;
  put($("past"), desk.past.length ? desk.past.toReversed().map(e => entry(e, undone.has(e.entry)))
    : h("li.dim", "Nothing has happened yet."));
  drawUndo(undone);
}
$("reset").onclick = () => change([{ do: "reset" }]);

function entry(e, isUndone) {
  const time = new Date(e.time * 1000);
  const stands = e.steps.filter(s => !isUndo(s) && standing(s.feature)?.serial === s.serial);
  const label = stands.length > 1 ? `Take back ${stands.length}` : "Take back";
  return h("li", h("div.top", h("span", { class: isUndone && "gone" }, told(e)),
    h("time", { datetime: time.toISOString() }, time.toTimeString().slice(0, 5))), e.note && h("div.note", e.note),
  h("div.dim", isUndone ? "undone" : [
    effects(e), e.known.length > 0 && [" · brings ", plain(e.known)],
    stands.length > 0 && [" ", act(label, stands.map(s => back("+" + s.feature)), { class: "quiet" })]]));
}

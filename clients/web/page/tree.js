// The feature tree, and below it the dock: what a decision on a feature would do, or what forces it.
import { $, h, put, lay, dim, mark, plain, count, productsLeft } from "./dom.js";
import {
  desk, standing, known, who, verb, done, step, back, ask, change, chip, takeBack, preview, look, unlook, soon,
} from "./desk.js";

const HOW = { root: "root", mandatory: "mandatory", optional: "optional", member: "member of a group" };
const features = new Map(); // by name, each with its children, depth and place
const folded = new Set();
let at = null; // the feature that the dock is about
let shown = []; // the names in the rows, from top to bottom
let over = null; // the feature under the pointer
let docks = 0;
const drawn = new Map(); // the rows, by feature or group, each with what it depends on

export function growTree() {
  desk.family.features.forEach((f, place) => features.set(f.name, { ...f, place, kids: [], depth: 0 }));
  for (const f of features.values()) {
    const parent = features.get(f.parent);
    if (parent) { parent.kids.push(f); f.depth = parent.depth + 1; }
  }
}
const root = () => features.get(desk.family.features[0].name);
const rowOf = name => $("f" + features.get(name)?.place);

// --- rows

export function drawTree() {
  const find = $("tfind").value.trim().toLowerCase(), found = namesWith(find), rows = [];
  const held = document.activeElement.closest("#tree") && at, top = $("tree").scrollTop;
  shown = [];
  addRows(rows, root(), 1, 1, find, found);
  lay($("tree"), rows.length ? rows : [h("p.none", "No feature has this in its name.")]);
  $("tree").scrollTop = top;
  stopAt(rowOf(at) || $("tree").firstChild);
  if (held) rowOf(held)?.focus({ preventScroll: true });
  const all = desk.family.features.length;
  $("tcount").textContent = `${all - desk.marks.size} of ${all} open`;
}

// A row: the one that is there, if it depends on the same, or else a new one.
function kept(name, key, depth, make) {
  if (drawn.get(name)?.key !== key) {
    const e = make();
    e.style.setProperty("--d", depth);
    e.classList.toggle("at", name === at);
    drawn.set(name, { key, e });
  }
  return drawn.get(name).e;
}

// The features whose name has the text, and all above them.
function namesWith(find) {
  const found = new Set();
  for (let f of find ? features.values() : []) {
    if (f.name.toLowerCase().includes(find)) for (; f; f = features.get(f.parent)) found.add(f.name);
  }
  return found;
}

// Adds the row of a feature, and those of what is below it.
function addRows(rows, f, place, of, find, found) {
  if (find && !found.has(f.name)) return;
  const open = f.kids.length > 0 && (find || !folded.has(f.name));
  shown.push(f.name);
  const d = standing(f.name), k = known(f.name);
  rows.push(kept(f.name, `${d?.serial} ${k} ${open}`, f.depth, () => row(f, place, of, open, d, k)));
  let group = null;
  (open ? f.kids : []).forEach((kid, n) => {
    if (kid.group != null && kid.group !== group) rows.push(groupRow(kid, f));
    group = kid.group;
    addRows(rows, kid, n + 1, f.kids.length, find, found);
  });
}

function row(f, place, of, open, d, k) {
  const state = d ? done(d.sign) + " by " + who(d) : { "+": "in, follows", "-": "out, follows" }[k] || "open";
  return h("div", {
    class: `f ${d ? "decided" : k && "known"} ${k === "-" && "out"}`, role: "treeitem", id: "f" + f.place, tabindex: -1,
    "aria-level": f.depth + 1, "aria-posinset": place, "aria-setsize": of,
    "aria-expanded": f.kids.length ? String(open) : null, "aria-checked": { "+": "true", "-": "false" }[k] || "mixed",
    "aria-label": `${f.name}, ${state}`,
  },
  h("button", { class: "tw", tabindex: -1, "aria-hidden": "true", "data-fold": true },
    f.kids.length > 0 && (open ? "▾" : "▸")),
  h("span.box", cell(f.name, "+", "✓", d, k), cell(f.name, "-", "✕", d, k)),
  h("span", { class: "kind " + f.how, title: HOW[f.how] }), h("span", { class: "n", title: f.name }, f.name),
  d && h("span", { class: "who", title: d.by }, who(d)));
}

// A half of a feature's box. It is for the mouse: the tree has keys for the same.
function cell(name, sign, glyph, d, k) {
  const on = k === sign, title = d && on ? "Take back" : d ? `${verb(sign)} instead` : k ? "Why?" : verb(sign);
  const css = (on ? "on " : "") + (sign === "-" ? "x" : "");
  return h("button", { tabindex: -1, "aria-hidden": "true", class: css, title, "data-sign": sign }, glyph);
}

// The line above a group: how many of its members a product may have.
function groupRow(kid, parent) {
  const { low, high } = desk.family.groups[kid.group], all = parent.kids.filter(it => it.group === kid.group);
  const inside = all.filter(it => known(it.name) === "+").length;
  const words = low === high ? "exactly " + low : high === all.length ? "at least " + low : `${low} to ${high}`;
  const text = `[${low}..${high}] ${words} of ${all.length}` + (inside ? ` · ${inside} in` : "");
  return kept(kid.group, text, kid.depth, () => h("div", { class: "g", role: "none" }, text));
}

// --- what is done in the tree

function fold(name) {
  if (!folded.delete(name)) folded.add(name);
  drawTree();
}

function pointAt(name) {
  rowOf(at)?.classList.remove("at");
  rowOf(name)?.classList.add("at");
  at = name;
}

// Makes a row the one to which Tab leads.
function stopAt(e) {
  for (const it of $("tree").querySelectorAll("[tabindex='0']")) it.tabIndex = -1;
  e.tabIndex = 0;
}

function focusOn(name) {
  const e = rowOf(name);
  if (!e) return;
  stopAt(e);
  e.focus({ preventScroll: true });
  e.scrollIntoView({ block: "nearest" });
  pointAt(name);
}

// Asks for what a half of the box means now: a decision, or taking it back. If it follows, the dock says why.
async function press(name, sign) {
  const d = standing(name), other = [step(sign + name)];
  const steps = !d ? other : d.sign[0] === sign ? [back(d.sign)] : [back(d.sign), ...other];
  if (!d && known(name) === sign || !await change(steps)) dock(name);
}

const named = e => shown.find(name => rowOf(name) === e.target.closest(".f"));
$("tree").onmouseover = e => {
  const f = named(e);
  if (f && f !== over) soon(() => { pointAt(f); dock(f); });
  over = f;
};
$("tree").onmouseleave = () => { over = null; unlook(); };
$("tree").onclick = e => {
  const f = named(e), data = e.target.dataset;
  if (!f) return;
  if ("fold" in data && features.get(f).kids.length) return fold(f);
  unlook();
  focusOn(f);
  return data.sign ? press(f, data.sign) : dock(f);
};
$("tree").onkeydown = e => {
  if (e.ctrlKey || e.altKey || e.metaKey || !shown.length) return;
  const name = shown.includes(at) ? at : shown[0], i = shown.indexOf(name), f = features.get(name), d = standing(name);
  const visit = it => { focusOn(it); dock(it); }, open = f.kids.length && !folded.has(name);
  const go = n => visit(shown[Math.max(0, Math.min(shown.length - 1, n))]);
  const away = () => d && change([back(d.sign)]), main = () => press(name, known(name) || "+");
  const keys = {
    ArrowDown: () => go(i + 1), ArrowUp: () => go(i - 1), Home: () => go(0), End: () => go(shown.length),
    ArrowRight: () => f.kids.length && (open ? go(i + 1) : fold(name)),
    ArrowLeft: () => open ? fold(name) : f.parent && visit(f.parent),
    "+": () => press(name, "+"), "-": () => press(name, "-"),
    " ": main, Enter: main, Delete: away, Backspace: away,
  };
  const starts = it => it.toLowerCase().startsWith(e.key.toLowerCase());
  if (keys[e.key]) { e.preventDefault(); keys[e.key](); }
  else if (/^\w$/.test(e.key)) visit([...shown.slice(i + 1), ...shown.slice(0, i + 1)].find(starts) || name);
};

// --- the dock

export function drawDock() {
  if (at) dock(at, true);
  else put($("dock"), dim("Point at a feature to see what a decision on it would do. Looking changes nothing."));
}

async function dock(name, isQuiet) {
  at = name;
  const mine = ++docks, d = standing(name), k = known(name);
  const options = d ? flips(d) : k ? [] : [["Select", [step("+" + name)]], ["Exclude", [step("-" + name)]]];
  const head = title(name, d, k), foot = rulesOf(name);
  if (options.length) {
    const rows = options.map(option);
    put($("dock"), head, rows, foot);
    const got = await (isQuiet ? Promise.all(options.map(([, todo]) => preview(todo))) : look(options));
    if (mine === docks) rows.forEach((e, n) => put(e.lastChild, effect(got[n])));
    return;
  }
  unlook();
  const r = await ask("why", name).catch(e => e);
  if (mine === docks) put($("dock"), head, h("p", r.error ? r.text : forcedBy(r, k)), foot);
}

function flips(d) {
  const other = (d.sign[0] === "+" ? "-" : "+") + d.sign.slice(1);
  return [["Take back", [back(d.sign)]], [d.sign[0] === "+" ? "Exclude" : "Select", [back(d.sign), step(other)]]];
}

function title(name, d, k) {
  const by = d && `${done(d.sign)} by ${who(d)}, change ${d.serial}`;
  return h("p", h("b", name), " ", dim(by || (k ? `is ${k === "+" ? "in" : "out"}: it follows` : "is open")));
}

// The diagram's lines that name the feature.
function rulesOf(name) {
  const rules = desk.family.rules.filter(it => it.split(/[^A-Za-z0-9_]+/).includes(name));
  return rules.map(it => h("div.dim", h("code", it)));
}

const option = ([label, steps]) =>
  h("div.opt", h("button", { onclick: () => change(steps) }, label), h("div", dim("Trying it out …")));

// What a preview found, in a line.
function effect(p) {
  if (p.error === "Conflict") {
    return ["Not possible: contradicts ", p.because.length ? p.because.map(it => chip(it)) : "the diagram"];
  }
  if (p.error) return p.text;
  const dot = () => dim(" · "), n = { h: 0, p: 0, s: 0 };
  for (const [, , now] of p.changed) n[now]++;
  const became = v => [dot(), `${n[v]} become${n[v] === 1 ? "s" : ""} `, mark(v)];
  const changes = ["h", "s", "p"].filter(v => n[v]).map(became);
  return [
    p.products.count === "0" ? h("b.v-h", "no product left") : [h("b", count(p.products)), productsLeft(p.products)],
    changes.length ? changes : [dot(), dim("no verdict changes")],
    p.known.length > 0 && [dot(), "brings ", plain(p.known)],
    p.freed.length > 0 && [dot(), "opens ", plain(p.freed.map(it => " " + it.slice(1)))],
  ];
}

function forcedBy(r, k) {
  if (!r.because.length) return `${k === "+" ? "Every" : "No"} product of the family has it.`;
  return [r.because.length > 1 ? "These decisions together force it: " : "It is forced by ", r.because.map(takeBack)];
}

// Begins the page, draws what an event changes, saves, and has the keys of the whole page.
import { $, h, put, count, productsLeft, dim } from "./dom.js";
import {
  desk, kept, call, ask, saved, follow, say, refused, takeBack, noProduct, forgetPreviews, unlook,
} from "./desk.js";
import { growTree, drawTree, drawDock } from "./tree.js";
import { list, choose, drawGoals, drawRows, forgetAnswers } from "./goals.js";
import { drawCard } from "./card.js";
import { drawPast, drawPeople } from "./past.js";

// Draws what an event of this kind changes.
function draw(kind) {
  $("link").textContent = desk.alive ? "" : "No connection. Trying again …";
  document.body.classList.toggle("lost", !desk.alive);
  if (kind === "page" || kind === "people") drawPeople();
  if (kind === "people" || kind === "lost") return;
  forgetPreviews();
  forgetAnswers();
  put($("left"), h("b", noProduct() ? "No" : count(desk.page.products)), productsLeft(desk.page.products));
  if (kind !== "verdicts") drawTree();
  drawGoals();
  drawPast();
  const lost = [...desk.was.keys()].find(i => desk.verdicts[i] === "h");
  if (list.chosen == null && kind === "verdicts" && lost != null) choose(lost);
  else drawCard(!$("cname"));
  if (desk.settled) { drawDock(); blameNone(); }
}

// Names the decisions that leave no product: verdicts say nothing then.
let isBlamed = false;
async function blameNone() {
  if (!noProduct()) {
    if (isBlamed) say();
    isBlamed = false;
    return;
  }
  const r = await ask("empty").catch(() => ({}));
  if (!r.empty || !noProduct()) return;
  const words = r.because.length > 1 ? "These decisions together leave none: " : "This decision leaves none: ";
  say(h("b", "No product is left,"), " so no verdict says anything. ", words, r.because.map(takeBack));
  isBlamed = true;
}

// --- what is saved as a file

function save(text, name) {
  const url = URL.createObjectURL(new Blob([text], { type: "application/octet-stream" }));
  const a = h("a", { href: url, download: name });
  a.click();
  setTimeout(() => URL.revokeObjectURL(url), 10000);
}

for (const b of document.querySelectorAll("[data-save]")) {
  const form = b.dataset.save, name = () => `${desk.family.name}.${form === "report" ? "html" : form}`;
  b.onclick = () => saved(form).then(text => save(text, name()), e => refused(e));
}

// --- parts of the page

const tabs = document.querySelectorAll("nav button");
function tab(name) {
  document.body.dataset.tab = name;
  for (const b of tabs) b.setAttribute("aria-current", String(b.dataset.tab === name));
  if (desk.page) drawGoals();
}
for (const b of tabs) b.onclick = () => tab(b.dataset.tab);
$("tfind").oninput = () => desk.page && drawTree();
$("gfind").oninput = () => desk.page && drawGoals();
$("more").onchange = () => { kept.set("more", $("more").checked ? "1" : "0"); drawRows(); };
$("skip").onclick = e => { e.preventDefault(); $("list").focus(); };
addEventListener("resize", () => desk.page && drawGoals());
addEventListener("hashchange", () => location.reload());
addEventListener("keydown", e => {
  if (e.key === "Escape") { say(); unlook(); }
  if (e.target.matches("input:not([type=checkbox])")) return;
  const isUndo = (e.ctrlKey || e.metaKey) && e.key.toLowerCase() === "z";
  if (!isUndo && e.key !== "/") return;
  e.preventDefault();
  if (isUndo) $(e.shiftKey ? "redo" : "undo").click();
  else $("gfind").focus();
});

async function begin() {
  tab("goals");
  while (!desk.family) {
    desk.family = await call("family").catch(e => { say(h("b", e.text)); return null; });
    if (!desk.family) await new Promise(done => setTimeout(done, 2000));
    else say();
  }
  const { family } = desk, i = family.goals.findIndex(g => g.id === kept.get("goal"));
  document.title = family.name + " – vpgdesk";
  $("family").textContent = family.name;
  put($("me"), dim("You are "), family.you.name);
  $("beyond").hidden = !family.beyond;
  $("more").checked = (kept.get("more") ?? (family.goals.length > 64 ? "0" : "1")) === "1";
  list.chosen = i >= 0 ? i : family.goals.length === 1 ? 0 : null;
  growTree();
  follow(draw);
}
begin();

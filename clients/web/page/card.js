// The card of the chosen requirement: each part is a question to the server, and `winners`, which may take long, the last.
import { $, h, put, dim, mark, digits, plain, LONG } from "./dom.js";
import { desk, known, verb, step, back, ask, act, chip, takeBack } from "./desk.js";
import { list } from "./goals.js";
import { trace } from "./trace.js";

const HEAD = {
  h: LONG.h + ".", s: LONG.s + ".", won: LONG.s + " (asked exactly).", lost: LONG.h + " (asked exactly).",
  mixed: "It holds in some products that are left, and fails in others.",
  empty: "No product is left.", unsettled: "A limit was met: nothing was shown.",
};
const OFFERED = {
  won: "holds in all left", mixed: "holds in some", lost: "fails in all left", conflict: "not possible",
  empty: "leaves no product", unsettled: "not shown",
};
const PARTS = { won: "holds", lost: "fails", unsettled: "not shown" };
const LATE = Symbol("another card is wanted");
let cards = 0;

const part = name => h("section", { "aria-label": name }, h("h3", name), h("div", dim("Working …")));
const fill = (section, ...what) => put(section.lastChild, what);

// Draws the card: `anew` if another one was chosen. Else what is there stays until answers have come.
export async function drawCard(anew) {
  const mine = ++cards, card = $("card");
  if (list.chosen == null) {
    return put(card, dim("Choose a requirement to see why it is so, what to take back, and which products meet it."));
  }
  const g = desk.family.goals[list.chosen], v = desk.verdicts[list.chosen];
  const why = part("Why"), wins = part("Which products"), next = part("What one more decision does");
  const how = part(v === "h" ? "How it fails, step by step" : "How it holds, step by step");
  const isOpen = v === "p" && desk.marks.size < desk.family.features.length;
  const build = () => put(card, h("h2", { id: "cname" }, mark(v), g.name), g.note && h("p", g.note),
    g.text && h("p", h("code", g.text)), why, wins, isOpen && next, v !== "p" && how);
  const question = async what => {
    const r = await ask(what, g.id).catch(e => e);
    if (mine !== cards) throw LATE;
    return r;
  };
  if (anew) { build(); card.scrollTop = 0; }
  if (!desk.settled) return card;
  try {
    const d = v === "p" ? await question("decide") : { decided: { h: "lost", s: "won" }[v], ...await question("why") };
    const top = card.scrollTop;
    if (!anew) build();
    fill(why, d.error ? h("p", d.text) : reasons(v, d, d.decided === "lost" ? await question("repair") : {}));
    card.scrollTop = top;
    if (isOpen) fill(next, d.decided === "mixed" ? offers(await question("offer")) : dim("No decision changes that."));
    if (v !== "p") fill(how, trace(await question("trace")));
    fill(wins, products(await question("winners"), await question("needs"), d.example)); // this may take long
  } catch (e) { if (e !== LATE) throw e; }
  return card;
}

// The decisions that make it so, and which of them to take back.
function reasons(v, d, fix) {
  const because = d.because || [], repairs = fix.repairs || [], several = because.length > 1;
  const enough = repairs.filter(r => !r.lost && r.signs.length === 1).map(r => r.signs[0]);
  const set = repairs.find(r => r.signs.length > 1);
  const words = several ? "These decisions alone make it so: " : "This decision alone makes it so: ";
  return [
    h("p", HEAD[v] || HEAD[d.decided]),
    d.because && (because.length ? h("p", words, because.map(takeBack), !d.least && dim(" or fewer"))
      : h("p.dim", "No decision did that: it is so in every product of the family.")),
    enough.length > 0 && h("p", String(enough) !== String(because)
      ? ["Taking back one of these is enough: ", enough.map(takeBack)]
      : `Taking ${several ? "any one of them" : "it"} back is enough.`),
    set && h("p", "These have to go together: ", set.signs.map(s => chip(s)),
      act("Take them all back", set.signs.map(back))),
    fix.state === "none" && because.length > 0 && h("p", "Taking back is no help: no product of the family meets it."),
  ];
}

// How many products meet it, what these have in common, and the parts in which they fall.
function products(n, needs, example) {
  if (n.error) return h("p", n.text);
  const sums = [n.won, n.lost, n.unsettled].map(BigInt), total = sums[0] + sums[1] + sums[2];
  const parts = [...n.parts].sort((a, b) => (b.who === "won") - (a.who === "won") || b.count - a.count);
  const body = h("tbody", parts.slice(0, 8).map(partRow));
  const all = e => { put(body, parts.map(partRow)); e.target.remove(); };
  return [
    h("p", h("b", (n.exact ? "" : "at least ") + digits(n.won)),
      ` of ${digits(String(total))} ${total === 1n ? "product" : "products"} left meet${n.won === "1" ? "s" : ""} it.`),
    total > 0n && h("div", { class: "meter", "aria-hidden": "true" }, sums.map(it => bar(it, total))),
    needs.needs?.length > 0 && common(needs.needs),
    parts.length > 1 && h("table", h("thead", h("tr", ["It", "products", "with", ""].map(it => h("th", it)))), body),
    parts.length > 8 && h("button", { class: "quiet", onclick: all }, `Show all ${parts.length} parts`),
    example && oneOf(example),
  ];
}
function bar(n, total) {
  const e = h("i");
  e.style.width = Number(n) / Number(total) * 100 + "%";
  return e;
}
function partRow(p) {
  const steps = p.signs.filter(s => !known(s.slice(1))).map(step);
  return h("tr", h("td", PARTS[p.who]), h("td.num", p.count === "0" ? "" : digits(p.count)),
    h("td", p.signs.length ? plain(p.signs, 12) : dim("whatever else is decided")),
    h("td", p.who === "won" && steps.length > 0 && act("Take over", steps, { class: "quiet" })));
}
function common(signs) {
  return h("p", "All that meet it have in common: ", plain(signs, 12), " ",
    act(`Decide ${signs.length > 1 ? "them all" : "it"} so`, signs.map(step)));
}
function oneOf(example) {
  const open = desk.family.features.map(f => f.name).filter(f => !known(f)), has = open.filter(f => example.includes(f));
  return h("p", "A product that meets it has ", has.length ? plain(has.map(f => "+" + f), 12) : "none",
    " of the open features. ", act("Take it over", open.map(f => step((example.includes(f) ? "+" : "-") + f))));
}

// What selecting or excluding each open feature would make of it; only those that make a difference.
function offers(o) {
  if (o.error) return h("p", o.text);
  const table = new Map();
  for (const it of o.offers) table.set(it.sign.slice(1), { ...table.get(it.sign.slice(1)), [it.sign[0]]: it });
  const telling = [...table].filter(([, it]) => it["+"]?.decided !== it["-"]?.decided);
  if (!telling.length) return h("p.dim", "No single decision makes a difference.");
  return h("table", h("thead", h("tr", ["Feature", "selected", "excluded"].map(it => h("th", it)))), h("tbody",
    telling.map(([f, it]) => h("tr", h("th", { scope: "row" }, f), offered(it["+"]), offered(it["-"])))));
}
function offered(it) {
  if (!it || it.decided === "conflict") return h("td", dim(it ? OFFERED.conflict : ""));
  const word = OFFERED[it.decided], css = { won: " v-s", lost: " v-h" }[it.decided] || "";
  const label = `${verb(it.sign)} ${it.sign.slice(1)}: ${word}`;
  return h("td", act(word, [step(it.sign)], { class: "quiet" + css, "aria-label": label }));
}

// Elements, and the words and numbers in them. A name from outside becomes text here, and never markup.

export const $ = id => document.getElementById(id);
export const WORDS = { h: "hopeless", p: "possible", s: "sure" };
export const LONG = {
  h: "It fails in every product that is left", s: "It holds in every product that is left",
  p: "It may hold in all, some or none of the products left",
};
const EXACT = {
  won: "holds in all", lost: "fails in all", mixed: "in some", empty: "no product left", unsettled: "not shown",
};
const DRAWN = new Set(["svg", "use", "path", "circle", "rect", "text"]);

// An element. `what` is its tag, perhaps with a class ("span.dim"); then come perhaps attributes, and what is in it.
export function h(what, ...kids) {
  const [tag, name] = what.split(".");
  const e = DRAWN.has(tag) ? document.createElementNS("http://www.w3.org/2000/svg", tag) : document.createElement(tag);
  if (name) e.setAttribute("class", name);
  if (kids[0]?.constructor === Object) {
    for (const [key, value] of Object.entries(kids.shift())) {
      if (key.startsWith("on")) e[key] = value;
      else if (value !== false && value != null) e.setAttribute(key, value === true ? "" : value);
    }
  }
  return put(e, kids);
}

// Replaces what is in an element. Lists are laid flat; null and false are left out.
export function put(e, ...kids) {
  e.replaceChildren(...kids.flat(9).filter(it => it != null && it !== false));
  return e;
}

// Puts rows into a box. Those that are there already stay, so that a click on them is not lost.
export function lay(box, rows) {
  const old = [...box.children];
  if (old.length !== rows.length || rows.some((e, n) => e !== old[n] && e.isConnected)) put(box, rows);
  else rows.forEach((e, n) => { if (e !== old[n] && e.outerHTML !== old[n].outerHTML) old[n].replaceWith(e); });
}

export const dim = (...kids) => h("span.dim", ...kids);
export const icon = v => h("svg", { "aria-hidden": "true" }, h("use", { href: "#v-" + v }));
export const shortly = (text, n) => text.length > n ? text.slice(0, n - 2) + " …" : text;
export const many = (n, one) => `${n.toLocaleString("en")} ${one}${n === 1 ? "" : "s"}`;

// A verdict, as shape and word.
export const mark = v => h("span", { class: "v v-" + v, title: LONG[v] }, icon(v), WORDS[v]);

// The answer of `decide`, which is exact where a verdict is cautious.
export function exactly(decided) {
  const v = { won: "s", lost: "h" }[decided];
  const title = "Asked exactly, of all products left";
  return h("span", { class: "v v-" + (v || "p"), title }, EXACT[decided], v && icon(v));
}

// Numbers of products are digits: there may be more than a number of this language can count.
export function digits(n) {
  return n.length < 19 ? BigInt(n).toLocaleString("en") : `${n[0]}.${n.slice(1, 3)} × 10^${n.length - 1}`;
}
export const count = p => p.count == null ? "Some" : (p.exact ? "" : "at least ") + digits(p.count);
export const productsLeft = p => p.count === "1" && p.exact ? " product left" : " products left";

// The first few of a list of signs, without buttons.
export function plain(signs, most = 5) {
  const kind = sign => ({ "+": "k y", "-": "k x" }[sign[0]] || "k");
  const one = (sign, n) => [n ? ", " : "", h("span", { class: kind(sign) }, sign.slice(1))];
  const shown = signs.slice(0, most).map(one);
  return [shown, signs.length > most && ` and ${signs.length - most} more`];
}

// The steps by which a requirement fails or holds, beside a drawing of the states that they visit: circles are states,
// lines are steps, and an arc leads back to where a loop began. The steps can be gone through one by one.
import { h, put, dim, shortly } from "./dom.js";
import { desk } from "./desk.js";

const ENDS = { true: "here it holds", false: "here it fails", cut: "not followed further" };
const LEFT = 26, INDENT = 16;
const x = depth => LEFT + Math.min(depth, 12) * INDENT;
const isSystem = () => desk.family.kind === "system";
const state = id => isSystem() ? "state " + id : "there";

export function trace(t) {
  if (t.error) return h("p", t.text);
  const items = rowsOf(t).map(it => ({ ...it, li: line(it) }));
  const svg = h("svg", { "aria-hidden": "true" }), steps = h("ol.t", svg, items.map(it => it.li));
  new ResizeObserver(() => drawRail(svg, items, t.verdict)).observe(steps);
  return [stepper(items.map(it => it.li)), steps, t.cut && h("p.dim", "It goes on; the rest is left out.")];
}

// The rows: where it begins, and then each step, with the row that it comes from.
function rowsOf(t) {
  const rows = [], start = t.steps.find(s => s.from != null)?.from ?? t.steps.find(s => s.at != null)?.at;
  // Where a state was met last: in a branch that leads here, if there is one.
  const met = (id, depth) => {
    const all = rows.filter(r => r.node === id);
    return all.findLast(r => r.depth <= depth) || all.at(-1) || rows[0];
  };
  if (start != null) rows.push({ depth: 0, node: start, begins: true });
  for (const s of t.steps) {
    const from = s.from != null ? met(s.from, s.depth) : s.loop != null ? met(s.loop, s.depth) : null;
    rows.push({ ...s, before: from, node: s.from != null ? s.to : null });
  }
  for (const r of rows) r.origin = rows.indexOf(r.before);
  return rows;
}

function line(r) {
  const li = h("li", r.begins ? dim(isSystem() ? "begins in state " + r.node : "begins here")
    : r.from != null ? [h("b", r.action), r.guard && h("code.dim", `[${r.guard}]`), isSystem() ? dim("to state " + r.to)
      : r.again && dim("again"), r.depends && h("span.was", "only in some products left")]
    : r.loop != null ? dim(`and so on for ever, from ${state(r.loop)} again`)
    : r.seen != null ? dim("goes on as above from " + state(r.seen))
    : r.no == null ? dim(ENDS[r.end] || r.end)
    : [/^(step|move)$/.test(r.no) ? `no ${r.no} is left` : [h("b", shortly(r.no, 60)), "cannot happen"],
      dim("in state " + r.at)]);
  li.style.paddingLeft = x(r.depth) + 14 + "px";
  return li;
}

// Buttons that go through the steps: those up to the present one stand out.
function stepper(lines) {
  let n = 0;
  const note = dim(), go = by => {
    n = Math.max(0, Math.min(lines.length, n + by));
    lines.forEach((li, i) => { li.className = !n || i < n - 1 ? "" : i === n - 1 ? "now" : "later"; });
    lines[n - 1]?.scrollIntoView({ block: "nearest" });
    note.textContent = n ? `${n} of ${lines.length}` : "";
  };
  return h("p", h("button", { onclick: () => go(-1), "aria-label": "Previous step" }, "◂"), " ",
    h("button", { onclick: () => go(1) }, "Next step ▸"), " ", h("span", { role: "status" }, note));
}

// Draws what stands left of the rows, as high as these are.
function drawRail(svg, rows, verdict) {
  const middle = rows.map(r => r.li.offsetTop + 13), lines = [], marks = [];
  rows.forEach((r, n) => {
    const y = middle[n], cx = x(r.depth);
    if (r.node != null) {
      const name = isSystem() && r.node.length < 3 && r.node;
      marks.push(h("circle", { cx, cy: y, r: 8 }), h("text", { x: cx, y: y + 3.5 }, name));
    } else if (r.no != null) {
      marks.push(h("rect", { x: cx - 4, y: y - 4, width: 8, height: 8, class: verdict === "h" && "stop" }));
    }
    if (r.origin < 0) return;
    const above = rows[r.origin], ax = x(above.depth), ay = middle[r.origin];
    if (r.loop != null) {
      const py = middle[n - 1], bend = x(0) - 24;
      const d = `M${cx - 8} ${py}C${bend} ${py} ${bend} ${ay} ${ax - 9} ${ay}m-4 -3l4 3l-4 3`;
      lines.push(h("path", { d, class: "arc" }));
      return;
    }
    lines.push(h("path", { d: `M${ax} ${ay + 8}V${ax === cx ? y - 8 : `${y}H${cx - 8}`}`, class: r.depends && "dash" }));
  });
  put(svg, lines, marks);
  svg.style.height = (rows.at(-1)?.li.offsetTop || 0) + 26 + "px";
}

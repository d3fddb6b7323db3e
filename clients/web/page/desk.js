// What the server said last, and the requests. A change shows only once it has come back as an event.
import { $, h, put, dim } from "./dom.js";

export const desk = {
  family: null, // what never changes
  page: null, // decisions, known features, products left
  verdicts: "", // a letter for each requirement: h, p or s
  was: new Map(), // the requirements that the last change changed, with their verdicts before it
  past: [], // the history
  marks: new Map(), // the sign of each feature that is known
  settled: true, // whether the verdicts are those of the page
  alive: false, // whether the stream is open
};
const key = location.hash.slice(1);

export const standing = f => desk.page.decisions.find(d => d.sign.slice(1) === f);
export const known = f => desk.marks.get(f) || "";
export const who = d => d.session === desk.family.you.session ? "you" : d.by;
export const noProduct = () => desk.page.products.count === "0" && desk.page.products.exact;
export const verb = sign => sign[0] === "+" ? "select" : "exclude";
export const done = sign => sign[0] === "+" ? "selected" : "excluded";
export const step = sign => ({ do: verb(sign), feature: sign.slice(1) });
export const back = sign => ({ do: "retract", feature: sign.slice(1) });
export const isUndo = s => s.do === "undo" || s.do === "redo";

// Settings of this tab, which a reload keeps.
export const kept = { get: name => sessionStorage.getItem(name), set: (name, it) => sessionStorage.setItem(name, it) };

// --- requests

async function request(path, body) {
  const headers = { "X-Key": key, ...(body && { "Content-Type": "application/json" }) };
  try {
    return await fetch("api/" + path, { method: body ? "POST" : "GET", headers, body: body && JSON.stringify(body) });
  } catch { throw { error: "Offline", text: "The server does not answer." }; }
}

// The answer to a request. What is thrown has `error`, a word, and `text`, a sentence.
export async function call(path, body) {
  const answer = await request(path, body);
  const said = await answer.json().catch(() => ({ error: "Broken", text: "The server's answer cannot be read." }));
  if (!answer.ok || said.error) throw said;
  return said;
}
export const ask = (what, about = "") => call("ask?" + new URLSearchParams({ what, about }));
export async function saved(form) {
  const answer = await request("export?form=" + form);
  if (!answer.ok) throw await answer.json();
  return answer.text();
}

// Asks for a change, and returns whether it was made. `of` is the entry of the history that it takes back, if any.
export async function change(steps, of) {
  const note = $("note").value;
  try {
    await call("change", { steps, of, note });
    if ($("note").value === note) $("note").value = "";
    if (refused.shown && refused.shown === $("say").firstChild) say();
    return true;
  } catch (e) {
    refused(e, steps);
    refused.shown = $("say").firstChild;
    return false;
  }
}

// Says why a change was refused, and offers what would make it possible.
export function refused(e, steps = []) {
  const s = steps[e.step || 0], because = e.because || [];
  if (e.error !== "Conflict" || !s) return say(h("b", e.text || String(e)), " Nothing was changed.");
  const refusal = h("b", `${s.do === "select" ? "Selecting" : "Excluding"} ${s.feature} is refused`);
  if (!because.length) return say(h("span", refusal, ": the diagram rules it out."), "Nothing was changed.");
  const label = `Take ${because.length > 1 ? "these" : "it"} back and ${s.do} ${s.feature}`;
  return say(h("span", refusal, ": it contradicts ", because.map(it => chip(it))), "Nothing was changed.",
    act(label, [...because.map(back), ...steps]));
}

// Shows a message, or removes it.
export function say(...what) {
  put($("say"), what.length ? [what, h("button", { class: "quiet", onclick: () => say() }, "Close")] : []);
}

// --- previews

const previews = new Map();
let looks = 0, pause = 0;
export const looking = { show() {}, hide() {} }; // what the list of requirements does about a preview

export function preview(steps) {
  const name = JSON.stringify(steps);
  if (!previews.has(name)) {
    const failed = e => { previews.delete(name); return e; };
    previews.set(name, call("preview", { steps }).then(p => p.refused || p).catch(failed));
  }
  return previews.get(name);
}

// Shows in the list what changes would do: `options` has a label and steps for each.
export async function look(options) {
  const mine = ++looks, got = await Promise.all(options.map(([, steps]) => preview(steps)));
  if (mine === looks && !got.some(p => p.error && p.error !== "Conflict")) looking.show(options, got);
  return got;
}
export function unlook() { looks++; clearTimeout(pause); looking.hide(); }
export function forgetPreviews() { previews.clear(); unlook(); }

// Does something once the pointer has rested for a moment.
export function soon(work) { clearTimeout(pause); pause = setTimeout(work, 150); }

// A button that carries out steps. The list shows what they would do while it is pointed at or has the focus.
export function act(label, steps, attributes = {}, of) {
  const b = h("button", { ...attributes, onclick: e => { e.stopPropagation(); change(steps, of); } }, label);
  if (!steps.some(isUndo)) {
    b.onmouseenter = b.onfocus = () => soon(() => look([[label, steps]]));
    b.onmouseleave = b.onblur = unlook;
  }
  return b;
}

// A sign, with who decided it, and perhaps a button.
export function chip(sign, ...more) {
  const d = standing(sign.slice(1)), own = d?.sign === sign;
  const title = done(sign) + (own ? ` by ${d.by}, change ${d.serial}` : "");
  return h("span", { class: sign[0] === "-" ? "s x" : "s", title }, h("b", sign.slice(1)), own && dim(who(d)), more);
}
export function takeBack(sign) {
  return chip(sign, act("Take back", [back(sign)], { "aria-label": "Take back " + sign.slice(1) }));
}

// --- the stream of events

// The events of an answer that goes on, until it is silent for longer than the server ever is.
async function* eventsOf(answer, stop) {
  const reader = answer.body.pipeThrough(new TextDecoderStream()).getReader();
  for (let text = ""; ;) {
    const silence = setTimeout(() => stop.abort(), 40000);
    const { value, done } = await reader.read();
    clearTimeout(silence);
    if (done) return;
    const parts = (text + value).split("\n\n");
    text = parts.pop();
    for (const part of parts) {
      const [, kind, data] = /^event: (\w+)\ndata: (.*)$/s.exec(part) || [];
      if (kind) yield [kind, JSON.parse(data)];
    }
  }
}

const heard = {
  page(p) {
    const changed = [...p.verdicts].flatMap((v, i) => v === desk.verdicts[i] ? [] : [[i, desk.verdicts[i]]]);
    if (desk.page && desk.verdicts.length === p.verdicts.length) desk.was = new Map(changed);
    const isNew = desk.page && desk.page.run !== p.run;
    Object.assign(desk, { page: p, verdicts: p.verdicts, past: p.history, settled: p.settled });
    if (isNew) say("The program or its server was started again. This is the page that it kept.");
  },
  change(c) {
    Object.assign(desk, { page: { ...desk.page, ...c.page }, settled: false, was: new Map() });
    desk.past.push(c.entry);
  },
  verdicts(v) {
    const letters = [...desk.verdicts];
    for (const [i, , now] of v.changed) letters[i] = now;
    Object.assign(desk, { verdicts: letters.join(""), settled: true, was: new Map(v.changed) });
    desk.page.at = v.at;
    const entry = desk.past.find(e => e.entry === v.entry);
    if (entry) entry.became = v.became;
  },
  people(p) { desk.page.people = p.people; },
};

// Follows the stream, and calls `drawn` after each event, with its kind.
// A browser has six connections to a server: a tab that nobody sees gives its one back after five seconds.
export async function follow(drawn) {
  let stop, sleep;
  document.addEventListener("visibilitychange", () => {
    clearTimeout(sleep);
    if (document.hidden) sleep = setTimeout(() => stop.abort(), 5000);
  });
  for (;;) {
    stop = new AbortController();
    try {
      const answer = await fetch("api/events", { headers: { "X-Key": key }, signal: stop.signal });
      if (answer.status === 403) throw await answer.json();
      for await (const [kind, data] of eventsOf(answer, stop)) {
        heard[kind](data);
        desk.alive = true;
        desk.marks = new Map([...desk.page.in.map(f => [f, "+"]), ...desk.page.out.map(f => [f, "-"])]);
        drawn(kind);
      }
    } catch (e) { if (e.text) say(h("b", e.text)); }
    desk.alive = false;
    drawn("lost");
    do await new Promise(done => setTimeout(done, 500)); while (document.hidden);
  }
}

// What a script can check of how the page looks. Each function returns a list of faults.

// Text that is cut without dots, things that overlap in a row, and what sticks out of the window.
function cuts() {
  const faults = [], say = e => `${e.tagName}.${e.className}: ${e.textContent.slice(0, 40)}`;
  const seen = e => e.getClientRects().length > 0;
  for (const e of document.querySelectorAll("body *")) {
    if (!seen(e) || e.closest(".hide, .skip, svg, symbol")) continue;
    const style = getComputedStyle(e), r = e.getBoundingClientRect();
    const hides = style.overflowX === "hidden" && style.textOverflow !== "ellipsis";
    if (hides && e.scrollWidth > e.clientWidth + 1 && !e.children.length) faults.push("cut " + say(e));
    if (style.display.endsWith("flex") && !e.matches("#people")) {
      const inside = [...e.children].filter(it => seen(it) && getComputedStyle(it).position === "static");
      if (overlap(inside.map(it => it.getBoundingClientRect()))) faults.push("overlap in " + say(e));
    }
    const scrolls = e.closest("#card, #list, #tree, #past");
    if (r.width && (r.right > innerWidth + 1 || r.left < -1) && !scrolls) faults.push("outside " + say(e));
  }
  if (document.documentElement.scrollWidth > innerWidth) faults.push("wider than the window");
  return faults.slice(0, 9);
}

function overlap(rects) {
  return rects.some((a, n) => rects.slice(n + 1).some(b => {
    const wide = Math.min(a.right, b.right) - Math.max(a.left, b.left);
    return wide > 1 && Math.min(a.bottom, b.bottom) - Math.max(a.top, b.top) > 1;
  }));
}

// Texts whose contrast with what is below them is under 4.5 to 1, disabled ones left out.
function faint() {
  const faults = new Set();
  for (const e of document.querySelectorAll("body *")) {
    const own = [...e.childNodes].some(n => n.nodeType === Node.TEXT_NODE && n.data.trim());
    if (!own || !e.getClientRects().length || e.closest(":disabled, .hide, .skip, .later, svg")) continue;
    const [low, high] = [light(parts(getComputedStyle(e).color)), light(ground(e))].sort((a, b) => a - b);
    const ratio = (high + .05) / (low + .05);
    if (ratio < 4.5) faults.add(`${ratio.toFixed(2)} ${e.tagName}.${e.className}: ${e.textContent.slice(0, 20)}`);
  }
  return [...faults];
}

const parts = color => color.match(/[\d.]+/g).map(Number);

// The relative luminance of a colour, as the guidelines for accessible content define it.
function light(color) {
  const [r, g, b] = color.map(it => it / 255).map(it => it <= .03928 ? it / 12.92 : ((it + .055) / 1.055) ** 2.4);
  return .2126 * r + .7152 * g + .0722 * b;
}

// The colour on which an element's text stands.
function ground(e) {
  for (; e; e = e.parentElement) {
    const color = parts(getComputedStyle(e).backgroundColor);
    if (color.length < 4 || color[3] > .5) return color;
  }
  return [255, 255, 255];
}

"""Writes a page for those who have no desk: what is decided, and each requirement's verdict with its reason."""
import time
from html import escape

WORDS = {"h": "hopeless", "p": "possible", "s": "sure"}
DONE = {"+": "selected", "-": "excluded"}
LOOK = "body{font:15px/1.5 sans-serif;margin:2em}th,td{text-align:left;vertical-align:top;padding:2px 1em 2px 0}"
MOST = 500  # requirements of which the reason is asked


def report(desk):
    """The report on the desk's page, as HTML."""
    family, page = desk.family, desk.page()
    count, exact = page["products"]["count"], page["products"]["exact"]
    left = f"{'' if exact else 'at least '}{int(count):,}" if count else "some"
    decisions = [f"{it['sign'][1:]} is {DONE[it['sign'][0]]} by {it['by']}" for it in page["decisions"]] or ["none"]
    rows = [row(desk, n, goal, page["verdicts"][n]) for n, goal in enumerate(family["goals"])]
    past = [f"{it['by']}: {', '.join(map(step, it['steps']))}. {it['note']}" for it in page["history"]]
    name, made = escape(family["name"]), f"{time.strftime('%Y-%m-%d %H:%M')}, {escape(family['program'])}"
    parts = [
        f'<!doctype html><html lang="en"><meta charset="utf-8"><title>{name}</title><style>{LOOK}</style>',
        f"<h1>{name}</h1><p>{left} products left<p>{made}",
        f"<h2>Decisions</h2>{items(decisions)}",
        "<h2>Requirements</h2><table><tr><th>name<th>verdict<th>because of<th>text",
        *rows,
        f"</table><h2>History</h2>{items(past or ['nothing has happened'])}",
    ]
    return "\n".join(parts) + "\n"


def items(lines):
    return "<ul>" + "".join(f"<li>{escape(it)}" for it in lines) + "</ul>"


def row(desk, place, goal, verdict):
    """A requirement's row of the table."""
    because = desk.ask("why", goal["id"])["because"] if verdict != "p" and place < MOST else []
    reason = ", ".join(f"{it[1:]} {DONE[it[0]]}" for it in because)
    texts = (goal["name"], WORDS[verdict], reason, goal["note"] or goal["text"])
    return "<tr>" + "".join(f"<td>{escape(it)}" for it in texts)


def step(it):
    return f"{it['do']} {it.get('feature', it.get('serial', ''))}".strip()

"""Tests of the relay and the stand-in without a browser: who may enter, what is refused, and that nothing is lost."""
import http.client
import json
import socket
import subprocess
import sys
import threading
import time

from tests.relay import PROGRAM, STRICT, WEB, Relay, example, hidden_conflict, kill, rng, run, scratch, train
from tests.relay import verdicts, write

VENDING = example("vending_system")


def answers_are_those_of_run():
    """Sixty random changes of the lift: verdicts, known features and products are those of `vpgdesk run`."""
    family, random = example("elevator_system"), rng(1)
    with Relay(family) as relay:
        it = relay.client()
        known = it.ask("family")[1]
        names, goals = [f["name"] for f in known["features"]], [g["id"] for g in known["goals"]]
        for n in range(60):
            it.change(*(random.choice("+-~") + name for name in random.sample(names, random.randint(1, 3))))
            if n % 10 == 9:
                page, script = it.page(), it.raw("GET", "/api/export?form=script")[1].decode().splitlines()
                words = verdicts(family, script, goals)
                assert "".join(word[0] for word in words) == page["verdicts"], (script, page["verdicts"], words)
                inside, out, _ = run(family, [*script, "products"])[-1]
                assert (inside.split()[1:], out.split()[1:]) == (page["in"], page["out"]), script
                number = run(family, [*script, "number"])[-1][0].split()[1]
                assert number == page["products"]["count"], (number, page["products"])
        for form, words in (("config", []), ("xml", ["--xml"])):
            saved = it.raw("GET", f"/api/export?form={form}")[1]
            assert saved.count(b"\n") > 3 and (b"<configuration>" in saved) == bool(words)


def a_change_is_whole_or_not_at_all():
    with Relay(VENDING) as relay:
        it = relay.client()
        before = it.page()
        status, said = it.change("+free", "-tea", "-soda")
        assert (status, said["error"], said["step"], said["because"]) == (409, "Conflict", 2, ["-tea"]), said
        assert it.page() == before
        assert it.change("+free", "-tea")[0] == 200
        assert [d["sign"] for d in it.page()["decisions"]] == ["+free", "-tea"]


def a_preview_changes_nothing_and_comes_true():
    with Relay(VENDING) as relay:
        it = relay.client()
        before, steps = it.page(), [{"do": "exclude", "feature": "tea"}]
        _, seen = it.ask("preview", {"steps": steps})
        assert it.page() == before
        it.ask("change", {"steps": steps})
        after = it.page()
        changed = [[n, a, b] for n, (a, b) in enumerate(zip(before["verdicts"], after["verdicts"])) if a != b]
        assert (changed, after["products"]) == (seen["changed"], seen["products"])


def events_make_the_page():
    """What a stream says, put together, is the page; two people's streams say the same."""
    random = rng(2)
    with Relay(VENDING, "Ann", "Ben") as relay:
        ann, ben = relay.client(0), relay.client(1)
        lines = [ann.stream(), ben.stream()]
        for n in range(20):
            (ann, ben)[n % 2].change(random.choice("+-~") + random.choice(["soda", "tea", "cancel", "free"]))
        end = ann.ask("page")[1]
        pages = []
        for line, read in lines:
            page = None
            while page is None or page["at"] < end["at"]:
                kind, body = read()
                if kind == "page":
                    page = body
                elif kind == "change":
                    page = {**page, **body["page"], "history": [*page["history"], body["entry"]]}
                elif kind == "verdicts":
                    letters = list(page["verdicts"])
                    for place, old, new in body["changed"]:
                        assert letters[place] == old
                        letters[place] = new
                    page["history"][-1]["became"] = body["became"]
                    page |= {"verdicts": "".join(letters), "at": body["at"], "settled": True}
            pages.append({**page, "people": 0})
            line.close()
        assert pages[0] == pages[1] == {**end, "people": 0}, (pages, end)


def only_keys_let_in():
    with Relay(VENDING, "Ann", "Ben") as relay:
        it = relay.client()
        key, before = it.key, it.page()
        wrong = ["", key[:-1], key + "x", key.swapcase(), "x" * 5000, key[1:] + key[0], f" {key}.", "../" + key]
        wrong.append("é" * 22)
        for name in wrong:
            it.key = name.encode("utf-8").decode("latin-1")
            for path in ("family", "page", "events", "ask?what=empty", "export?form=xml", f"page?key={key}", "x"):
                status, said = it.raw("GET", "/api/" + path)
                assert status == 403 and key.encode() not in said, (name, path, status)
            assert it.change("-tea")[0] == 403, name
        it.key = key
        assert it.page() == before


def only_own_hosts_and_origins():
    with Relay(VENDING) as relay:
        it, before = relay.client(), relay.client().page()
        host, body = relay.host, json.dumps({"steps": [{"do": "exclude", "feature": "tea"}]})
        foreign = [{"Host": "evil.example"}, {"Host": f"evil.example:{relay.port}"}, {"Host": ""}, {"Host": host + "."}]
        foreign += [{"Origin": it} for it in ("http://evil.example", "null", f"https://{host}", f"http://{host}.e", "")]
        foreign += [{"Sec_Fetch_Site": "cross-site"}, {"Sec_Fetch_Site": "same-site"}]
        for headers in foreign:
            for method, path in (("GET", "/api/page"), ("POST", "/api/change")):
                data = body if method == "POST" else None
                status, said = it.raw(method, path, data, Content_Type="application/json", **headers)
                assert status == 403, (headers, status, said)
        assert it.raw("GET", "/", Host="evil.example")[0] == 403
        assert it.raw("OPTIONS", "/api/change", Origin="http://evil.example")[0] == 501
        assert it.page() == before
        assert it.raw("POST", "/api/change", body, Content_Type="application/json", Origin=f"http://{host}")[0] == 200


def every_answer_has_its_headers():
    with Relay(VENDING) as relay:
        for path in ("/", "/app.js", "/style.css", "/api/page", "/nothing", "/api/export?form=script", "/../serve.py"):
            with socket.create_connection(("127.0.0.1", relay.port)) as line:
                lines = (f"Host: {relay.host}", f"X-Key: {relay.key}", "Connection: close")
                line.sendall(asked("", "", *lines, first=f"GET {path} HTTP/1.1"))
                head = all_of(line).partition(b"\r\n\r\n")[0].decode().lower()
            names = ["content-security-policy: default-src 'none'; script-src 'self'"]
            names += ["x-content-type-options: nosniff", "referrer-policy: no-referrer", "cache-control: no-store"]
            for name in (*names, "cross-origin-resource-policy: same-origin"):
                assert name in head, (path, name, head)
            assert "set-cookie" not in head and "access-control" not in head


def all_of(line):
    """What comes over a connection until its end."""
    data = b""
    try:
        while part := line.recv(65536):
            data += part
    except OSError:
        pass
    return data


def malformed_bodies_change_nothing():
    good = {"do": "exclude", "feature": "tea"}
    undo = {"do": "undo", "serial": 1}
    steps = [None, [], {}, "x", [None], [[]], [{}], [{"do": "exclude"}], [{"do": "quit"}], [{**good, "more": 1}]]
    steps += [[{**good, "do": it}] for it in (["exclude"], "retract", "reset", "undo", None, 7)]
    steps += [[{**good, "feature": it}] for it in (["tea"], "tea\nexclude soda", "nothing", "", None, 7)]
    steps += [[{**undo, "serial": it}] for it in ("1", True, -1, 10**18, 1.5, None)]
    steps += [[undo, good], [good] * 513, [good, good]]
    with Relay(VENDING) as relay:
        it, before = relay.client(), relay.client().page()
        for them in steps:
            for path in ("preview", "change"):
                status, said = it.ask(path, {"steps": them})
                assert status in (400, 409) or path == "preview" and "refused" in said, (them, status, said)
        bodies = [b"", b"{", b"[]", b"null", b"\xff", b"[" * 60000, b'{"steps":[],"steps":1e999}']
        bodies.append(b'{"steps":' + b"9" * 60000 + b"}")
        for body in bodies:
            assert it.raw("POST", "/api/change", body, Content_Type="application/json")[0] == 400, body[:40]
        assert it.raw("POST", "/api/change", b"{}", Content_Type="text/plain")[0] == 415
        assert it.raw("POST", "/api/change", b"{" + b" " * 70000, Content_Type="application/json")[0] == 413
        for more in ({"of": "1"}, {"of": 1.5}, {"note": 7}, {"note": {"a": 1}}):
            assert it.ask("change", {"steps": [good], **more})[0] == 400, more
        queries = ["what=why", "what=why&about=x", "what=why&about=0%0Aexclude%20tea", "what=quit&about=0"]
        for query in (*queries, "what=winners&about=tea", "", "what", "&" * 99):
            assert it.raw("GET", "/api/ask?" + query)[0] == 400, query
        assert it.page() == before


CHANGE = '{"steps":[{"do":"exclude","feature":"tea"}]}'


def asked(path, body, *lines, first=None):
    """The bytes of a request to change something, with these lines of its head."""
    head = [first or f"POST {path} HTTP/1.1", "Content-Type: application/json", *lines]
    return ("\r\n".join(head) + "\r\n\r\n" + body).encode()


def hostile_request(random, relay):
    """Some bytes that no honest client sends; none of them may change anything."""
    path = random.choice(["/api/change", "/api/preview", "/api/page", "/api/events", "/", "/x"])
    host, key, length = f"Host: {relay.host}", f"X-Key: {relay.key}", f"Content-Length: {len(CHANGE)}"
    wrong = "X-Key: " + "".join(random.sample(relay.key, len(relay.key)))
    words = random.choice(["GET", "POST", "PUT", "G" * 70000, "", "GET GET"])
    lengths = random.choice([10**9, 70000, 10**30, -1, "+3", "1e3", ""])
    other = random.choice(["evil.example", "127.0.0.1", "localhost:1", "[::1]:80", relay.host + "@evil"])
    way = random.choice(["../" * 9, "%2e%2e/", "..%5c", "//", "\\"]) + random.choice(["serve.py", "etc/passwd", "x"])
    hidden = asked("/api/change", CHANGE, host, key, length).decode()
    kinds = [
        lambda: bytes(random.randrange(256) for _ in range(random.randrange(400))),
        lambda: asked("", "", first=f"{words} {path} HTTP/{random.choice(['1.1', '9', 'x', '1.1.1', '-1.0'])}"),
        lambda: asked(path, CHANGE, host, key, f"Content-Length: {lengths}"),
        lambda: asked(path, CHANGE, host, wrong if wrong != key else "X-Key: x", length),
        lambda: asked("/api/change", CHANGE, f"Host: {other}", key, length),
        lambda: asked("/api/change", CHANGE, host, key, length, "Origin: http://evil.example"),
        lambda: asked(path, f"2c\r\n{CHANGE}\r\n0\r\n\r\n", host, key, "Transfer-Encoding: chunked"),
        lambda: asked(path, hidden, host, f"Content-Length: {len(hidden)}"),  # a request in the body of a refused one
        lambda: asked(path, CHANGE, host, key, length, "Content-Length: 0"),
        lambda: asked(path, "", host, *(f"X-{n}: {'y' * random.randrange(900)}" for n in range(120))),
        lambda: asked(path, CHANGE[: random.randrange(len(CHANGE))], host, key, length),  # its body is cut
        lambda: asked("", "", host, first=f"GET /{way} HTTP/1.1"),
    ]
    return random.choice(kinds)()


def ten_thousand_hostile_requests(count=10000):
    """Nobody is let in, nothing is changed, and the relay goes on."""
    with Relay(VENDING) as relay:
        it, before, faults, begun = relay.client(), relay.client().page(), [], time.monotonic()

        def attack(seed):
            random = rng(seed)
            for _ in range(count // 8):
                data = hostile_request(random, relay)
                try:
                    with socket.create_connection(("127.0.0.1", relay.port), timeout=10) as line:
                        line.sendall(data)
                        if random.random() < 0.2:
                            continue  # cut at once
                        line.shutdown(socket.SHUT_WR)
                        said = all_of(line)
                except OSError:
                    continue
                if b'"serials"' in said or b" 200 " in said[:20] and b'"verdicts"' in said:
                    faults.append((data[:200], said[:200]))

        threads = [threading.Thread(target=attack, args=(n,)) for n in range(8)]
        for thread in threads:
            thread.start()
        while any(thread.is_alive() for thread in threads):  # who is let in is answered meanwhile
            assert it.ask("page")[0] == 200
            threads[0].join(0.5)
            threads[-1].join(0.5)
        for thread in threads:
            thread.join()
        took = time.monotonic() - begun
        assert not faults, faults[:3]
        assert took < (60 if STRICT[0] else 600) and relay.child.poll() is None, took
        assert it.page() == before and it.change("-tea")[0] == 200
        return f"{count:,} hostile requests in {took:.1f} s"


def many_idle_connections_end():
    """More connections than are served at once: the others are closed, and once these leave there is room again."""
    with Relay(VENDING) as relay:
        idle = [socket.create_connection(("127.0.0.1", relay.port)) for _ in range(300)]
        for line in idle:
            line.close()
        end = time.monotonic() + 60
        while True:
            try:
                assert relay.client().ask("page")[0] == 200
                return
            except OSError:
                assert time.monotonic() < end
                time.sleep(0.1)


def a_program_that_is_killed_begins_again():
    with Relay(VENDING) as relay:
        it = relay.client()
        it.change("-tea", note="no   tea")
        it.change("+free")
        before = it.page()
        assert [e["note"] for e in before["history"]] == ["no tea", ""]
        for n, feature in enumerate(("tea", "free", "soda")):  # another one each time: no answer is kept
            kill(*relay.programs()[n % 2 :])
            assert it.ask("preview", {"steps": [{"do": "retract", "feature": feature}]})[0] == 200
            assert it.page() == before
        kill(relay.programs()[0])
        assert it.ask("change", {"steps": [{"do": "undo", "serial": 2}]})[0] == 200
        assert [d["sign"] for d in it.page()["decisions"]] == ["-tea"]
        assert it.ask("change", {"steps": [{"do": "redo", "serial": 2}]})[0] == 200
        assert it.page()["decisions"] == before["decisions"]


def a_book_keeps_what_was_acknowledged():
    """Killed at a random moment while changes are made, six times: each acknowledged change is there, in order."""
    random = rng(3)
    with scratch() as folder:
        acknowledged, book = [], f"{folder}/book"
        with Relay(VENDING, "Ann", "Ben", book=book) as relay:
            link = relay.links
            for _ in range(6):
                killer = threading.Timer(random.uniform(0.05, 0.3), relay.kill)
                killer.start()
                people = [relay.client(0), relay.client(1)]
                try:
                    while True:
                        sign = random.choice("+-~") + random.choice(["cancel", "free", "tea"])
                        status, said = random.choice(people).change(sign)
                        acknowledged += [said["serials"]] if status == 200 else []
                except (OSError, ValueError, http.client.HTTPException):
                    killer.join()
                relay.start(relay.port)
                assert relay.links == link  # the same keys
                there = [[s["serial"] for s in e["steps"]] for e in relay.client().page()["history"]]
                assert all(it in there for it in acknowledged[-200:]) and there == sorted(there)
                assert len(there) <= len(acknowledged) + 1, "a change that was never asked for"
                acknowledged = there[:]
        assert len(acknowledged) > 6


def books_are_refused_untouched():
    with scratch() as folder:
        book, other = f"{folder}/book", f"{folder}/other"
        with Relay(VENDING, book=book) as relay:
            relay.client().change("-tea")
            busy = refusal(VENDING, book)
            assert "another desk uses this book" in busy, busy
        with open(book, "rb") as it:
            text = it.read()
        assert "the book of another family" in refusal(example("elevator_system"), book)
        write(folder, other="this is\nno book\n")
        assert "no book of changes" in refusal(VENDING, other)
        for path, was in ((book, text), (other, b"this is\nno book\n")):
            with open(path, "rb") as it:
                assert it.read() == was, path
        with open(book, "ab") as it:
            it.write(b'{"session": 1, "st')  # a torn line
        with Relay(VENDING, book=book) as relay:
            assert [d["sign"] for d in relay.client().page()["decisions"]] == ["-tea"]


def refusal(family, book):
    """What the relay says when it cannot begin."""
    words = [sys.executable, f"{WEB}/serve.py", family, "--program", PROGRAM[0], "--port", "0", "--book", book]
    ran = subprocess.run(words, capture_output=True, text=True, timeout=60, check=False)
    assert ran.returncode == 1 and not ran.stdout, ran
    return ran.stderr


def no_product_left_is_said():
    with scratch() as folder, Relay(hidden_conflict(folder)) as relay:
        it = relay.client()
        assert it.change("-a")[0] == 200
        assert it.page()["products"] == {"count": "0", "exact": True}
        assert it.ask("ask?what=empty")[1]["because"] == ["-a"]


def each_example_is_served():
    """Every family of examples/: its page is that of `vpgdesk run`, and every question has an answer."""
    for name in "vending_system mine_pump_system elevator_system alternating_bit mine_pump body_comfort".split():
        with Relay(example(name)) as relay:
            it = relay.client()
            family = it.ask("family")[1]
            goals = [g["id"] for g in family["goals"]]
            words = verdicts(example(name), [], goals)
            assert "".join(word[0] for word in words) == it.page()["verdicts"], name
            for what in ("why", "decide", "winners", "needs", "repair", "offer", "trace"):
                status, said = it.ask(f"ask?what={what}&about={goals[0]}")
                assert status == 200 and said["what"] == what, (name, what, said)
            named = [g for g in family["goals"] if g["text"] or family["kind"] == "game"]
            assert len(named) == len(goals), (name, family["goals"])


def large_families_are_quick():
    """512 features and 100 vertices: how long a preview and a change take at the relay."""
    with scratch() as folder, Relay(train(folder, 512, 100)) as relay:
        it, times = relay.client(), []
        assert len(it.ask("family")[1]["features"]) == 512
        for n in range(12):
            begun = time.monotonic()
            assert it.change(("-", "~")[n % 2] + "door3_0")[0] == 200
            times.append(round(1000 * (time.monotonic() - begun)))
        return f"512 features, 100 vertices: a change takes {min(times)} to {max(times)} ms at the relay"


TESTS = [
    answers_are_those_of_run,
    a_change_is_whole_or_not_at_all,
    a_preview_changes_nothing_and_comes_true,
    events_make_the_page,
    only_keys_let_in,
    only_own_hosts_and_origins,
    every_answer_has_its_headers,
    malformed_bodies_change_nothing,
    many_idle_connections_end,
    a_program_that_is_killed_begins_again,
    a_book_keeps_what_was_acknowledged,
    books_are_refused_untouched,
    no_product_left_is_said,
    each_example_is_served,
    large_families_are_quick,
    ten_thousand_hostile_requests,
]

#!/usr/bin/env python3
"""Serves the page on which one person or a team configures a family, in a browser. Nothing here is proved.

    python3 clients/web/serve.py FAMILY [NAME..]           one address for each NAME; without any, for you alone

FAMILY is a folder with `diagram` (or a model in `.uvl` or `.xml`), and `system.aut` with `requirements.mcf`, or `game`.

    --open            opens the first address in the browser
    --book FILE       keeps each change in FILE before it is answered, and goes on from there; keys stand in FILE.keys
    --program FILE    the program `vpgdesk`; without it crates/vpgdesk/out/vpgdesk of this repository, else that of PATH
    --port N          8080, or any free port if that is taken
    --listen ADDRESS  the address of this machine by which others reach it, in place of 127.0.0.1: read README.md first

The relay decides nothing. It lets in who has a key, hands requests to a desk (`stand_in.py`), and sends what happens
there as a stream. A key is the part of an address after `#`, which browsers do not send; the page sends it in a header.
"""
import argparse
import getpass
import hmac
import json
import os
import queue
import re
import secrets
import select
import shutil
import socket
import socketserver
import sys
import threading
import webbrowser
from http.server import BaseHTTPRequestHandler, ThreadingHTTPServer
from typing import NamedTuple
from urllib.parse import parse_qs, urlsplit

sys.dont_write_bytecode = True
from report import report  # pylint: disable=wrong-import-position
from stand_in import Desk, Refusal, Unusable  # pylint: disable=wrong-import-position

HERE = os.path.dirname(os.path.abspath(__file__))
ROOT = os.path.dirname(os.path.dirname(HERE))
KINDS = {".html": "text/html", ".js": "text/javascript", ".css": "text/css"}
BODY = 65536  # bytes of a request's body
CONNECTIONS = 256  # at once; further ones are closed
PATIENCE = 20  # seconds for a client to send or take some bytes
QUIET = 15  # seconds after which a stream says that it is still there
HEADERS = {
    "Cache-Control": "no-store",
    "Content-Security-Policy": "default-src 'none'; script-src 'self'; style-src 'self'; connect-src 'self'; "
    "img-src data:; base-uri 'none'; form-action 'none'; frame-ancestors 'none'",
    "Cross-Origin-Opener-Policy": "same-origin",
    "Cross-Origin-Resource-Policy": "same-origin",
    "Referrer-Policy": "no-referrer",
    "X-Content-Type-Options": "nosniff",
}


class Person(NamedTuple):
    session: int
    name: str
    key: str


class Server(ThreadingHTTPServer):
    """The relay: a desk, the people who may enter, and the files of the page."""

    daemon_threads, request_queue_size, allow_reuse_address = True, 128, True

    def __init__(self, address, desk, people, beyond=False):
        self.desk, self.people, self.beyond = desk, people, beyond
        self.places, self.address_family = threading.BoundedSemaphore(CONNECTIONS), family_of(address[0])
        names = [it for it in os.listdir(f"{HERE}/page") if it.endswith(tuple(KINDS))]
        self.files = {f"/{name}": read(f"{HERE}/page/{name}") for name in names}
        self.files["/"] = self.files["/index.html"]
        super().__init__(address, Handler)
        host, port = address[0], self.server_address[1]
        own = [host] if beyond else ["127.0.0.1", "localhost"]
        self.hosts = {f"[{it}]:{port}" if ":" in it else f"{it}:{port}" for it in own}

    def server_bind(self):
        """Binds without asking for the name of this computer, as http.server does: that can take seconds."""
        socketserver.TCPServer.server_bind(self)
        self.server_name, self.server_port = self.server_address[:2]

    def link(self, person):
        return f"http://{sorted(self.hosts)[0]}/#{person.key}"

    def person(self, key):
        """Whose key this is. Each is compared, and in the same time."""
        given = (key or "").encode("utf-8", "replace")
        found = [it for it in self.people if hmac.compare_digest(it.key.encode(), given)]
        if not found:
            raise Refusal(403, "NoKey", "This address lets nobody in. Open the one that the server wrote for you.")
        return found[0]

    def process_request(self, request, client_address):
        if self.places.acquire(blocking=False):
            super().process_request(request, client_address)
        else:
            self.shutdown_request(request)

    def process_request_thread(self, request, client_address):
        try:
            super().process_request_thread(request, client_address)
        finally:
            self.places.release()

    def handle_error(self, request, client_address):
        """Says nothing of a connection that was cut, and all of a mistake."""
        if not isinstance(sys.exc_info()[1], OSError):
            super().handle_error(request, client_address)


class Handler(BaseHTTPRequestHandler):
    """One connection."""

    protocol_version, server_version, sys_version, timeout = "HTTP/1.1", "vpgdesk", "", PATIENCE

    def log_message(self, *_):
        pass

    def send_error(self, code, message=None, explain=None):
        """Answers what http.server refuses by itself, as a request with a malformed first line."""
        self.close_connection = True
        self.answer(code, {"error": "BadRequest", "text": message or "The request is malformed."})

    def do_GET(self):
        self.serve(self.get)

    def do_POST(self):
        self.serve(self.post)

    def serve(self, work):
        try:
            self.check_origin()
            work(urlsplit(self.path))
        except Refusal as it:
            # What is left of the request was not read: it must not be taken for the next one.
            self.close_connection = self.close_connection or self.command == "POST" and it.status != 409
            self.answer(it.status, it.body)
        except OSError:
            self.close_connection = True
        except (ValueError, RecursionError):
            self.close_connection = True
            self.answer(400, {"error": "BadRequest", "text": "The request is malformed."})

    def answer(self, status, body, kind="application/json", **more):
        data = body if isinstance(body, bytes) else json.dumps(body).encode()
        self.send_response(status)
        headers = {"Content-Type": f"{kind}; charset=utf-8", "Content-Length": str(len(data)), **HEADERS, **more}
        for name, value in headers.items():
            self.send_header(name, value)
        if self.close_connection:
            self.send_header("Connection", "close")
        self.end_headers()
        self.wfile.write(data)

    def check_origin(self):
        """Refuses what a page of another site makes a browser send."""
        hosts, origins = self.headers.get_all("Host", []), self.headers.get_all("Origin", [])
        is_own = len(hosts) == 1 and hosts[0] in self.server.hosts and all(it == f"http://{hosts[0]}" for it in origins)
        is_near = self.headers.get("Sec-Fetch-Site", "none") in ("same-origin", "none")
        if not is_own or not is_near and self.path.startswith("/api"):
            self.close_connection = True
            raise Refusal(403, "Foreign", "Open the address that the server wrote.")
        if self.headers.get("Transfer-Encoding") or len(self.headers.get_all("Content-Length", [])) > 1:
            self.close_connection = True
            raise Refusal(400, "BadRequest", "A body has one Content-Length.")

    def get(self, url):
        if self.headers.get("Content-Length", "0") != "0":
            self.close_connection = True
        if url.path in self.server.files:
            return self.answer(200, *self.server.files[url.path])
        person, desk = self.server.person(self.headers.get("X-Key")), self.server.desk
        query = {name: values[0] for name, values in parse_qs(url.query, max_num_fields=8).items()}
        if url.path == "/api/events":
            return self.stream(person)
        if url.path == "/api/family":
            you = {"session": person.session, "name": person.name}
            return self.answer(200, {**desk.family, "you": you, "beyond": self.server.beyond})
        if url.path == "/api/page":
            return self.answer(200, desk.page())
        if url.path == "/api/ask":
            return self.answer(200, desk.ask(query.get("what", ""), query.get("about", "")))
        if url.path == "/api/export" and query.get("form") in ("config", "xml", "script", "report"):
            text = report(desk) if query["form"] == "report" else desk.export(query["form"])
            return self.answer(200, text.encode(), "text/plain")
        raise Refusal(404, "NotFound", "There is nothing here.")

    def post(self, url):
        person, body = self.server.person(self.headers.get("X-Key")), self.body()
        if url.path == "/api/preview":
            return self.answer(200, self.server.desk.preview(body.get("steps")))
        if url.path == "/api/change":
            of, note = body.get("of"), body.get("note") or ""
            if not (of is None or type(of) is int) or not isinstance(note, str):
                raise ValueError
            note = " ".join(note.split())[:200]
            return self.answer(200, self.server.desk.change(person, body.get("steps"), of, note))
        raise Refusal(404, "NotFound", "There is nothing here.")

    def body(self):
        """The object of JSON that was sent."""
        length = self.headers.get("Content-Length", "")
        if not re.fullmatch("[0-9]{1,9}", length) or int(length) > BODY:
            raise Refusal(413, "TooLarge", f"A body has a length, of {BODY:,} bytes at most.")
        if self.headers.get_content_type() != "application/json":
            raise Refusal(415, "NotJson", "A body is of the type application/json.")
        body = json.loads(self.rfile.read(int(length)))
        if not isinstance(body, dict):
            raise ValueError
        return body

    def stream(self, person):
        """Sends what happens at the desk, until the client leaves or takes nothing more."""
        events, self.close_connection = self.server.desk.listen(person), True
        try:
            self.send_response(200)
            for name, value in {"Content-Type": "text/event-stream", "Connection": "close", **HEADERS}.items():
                self.send_header(name, value)
            self.end_headers()
            while (event := self.next_of(events))[0] != "end":
                kind, body = event
                text = f"event: {kind}\ndata: {json.dumps(body)}\n\n" if kind else ": still here\n\n"
                self.wfile.write(text.encode())
        finally:
            self.server.desk.leave(person, events)


    def next_of(self, events):
        """The next event; none after some time; the end if the client has left, as seen within a second."""
        for _ in range(QUIET):
            try:
                return events.get(timeout=1)
            except queue.Empty:
                if select.select([self.connection], [], [], 0)[0] and not self.connection.recv(1):
                    return "end", None
        return "", None


def read(path):
    """A file of the page as it is sent, without lines that are comments, and its type."""
    with open(path, "rb") as it:
        return re.sub(rb"(?m)^ *(//|/\*).*$", b"", it.read()), KINDS[os.path.splitext(path)[1]]


def family_of(host):
    return socket.getaddrinfo(host, None, type=socket.SOCK_STREAM)[0][0]


# --- the words of the command


def program_of(word):
    """The program to run."""
    own = f"{ROOT}/crates/vpgdesk/out/vpgdesk"
    found = shutil.which(word or own) or not word and shutil.which("vpgdesk")
    if found:
        return found
    sys.exit(
        f"serve: there is no program {word or own}. Make it at the top of the repository, proved, by\n"
        "    rt run vpgdesk < crates/vpgdesk/stdin\n"
        "or in some minutes, with nothing proved, and give it with --program, by\n"
        "    python3 bench/unproved.py vpgdesk FILE"
    )


def files_of(folder):
    """The files of a family: (game, diagram), or (system, requirements, diagram)."""
    names = sorted(os.listdir(folder)) if os.path.isdir(folder) else []
    diagrams = [it for it in names if it == "diagram"] + [it for it in names if it.endswith((".uvl", ".xml"))]
    for others in (("system.aut", "requirements.mcf"), ("game",)):
        if diagrams and all(it in names for it in others):
            return [os.path.join(folder, it) for it in (*others, diagrams[0])]
    sys.exit(f"serve: {folder} has no `diagram` with `system.aut` and `requirements.mcf`, or with `game`")


def people_of(names, book):
    """The people who may enter. Beside a book their keys are kept, so that their addresses stay the same."""
    path, keys = f"{book}.keys", {}
    if book and os.path.exists(path):
        with open(path, encoding="utf-8") as it:
            keys = json.load(it)
    people = [Person(n, name, keys.get(name) or secrets.token_urlsafe(16)) for n, name in enumerate(names, 1)]
    if book:
        with open(os.open(path, os.O_WRONLY | os.O_CREAT | os.O_TRUNC, 0o600), "w", encoding="utf-8") as it:
            json.dump({**keys, **{it.name: it.key for it in people}}, it)
    return people


def words():
    parser = argparse.ArgumentParser(description=__doc__, formatter_class=argparse.RawDescriptionHelpFormatter)
    parser.add_argument("family")
    parser.add_argument("names", nargs="*", metavar="NAME")
    parser.add_argument("--open", action="store_true")
    for name in ("--book", "--program", "--listen"):
        parser.add_argument(name)
    parser.add_argument("--port", type=int)
    it = parser.parse_args()
    it.names = [" ".join(name.split())[:32] for name in it.names] or [getpass.getuser()]
    if len(set(it.names)) < len(it.names) or len(it.names) > 64 or "" in it.names:
        parser.error("there are 1 to 64 people, each with a name of their own")
    if it.listen in ("", "0.0.0.0", "::"):
        parser.error("--listen takes the address by which others reach this machine, not that of all its networks")
    return it


def server_of(it, desk, people):
    """The relay at the wanted address; at a free port if 8080 is taken and no other is wanted."""
    host = it.listen or "127.0.0.1"
    for port in (8080, 0) if it.port is None else (it.port,):
        try:
            return Server((host, port), desk, people, beyond=bool(it.listen))
        except OSError as fault:
            why = fault
    sys.exit(f"serve: cannot listen on {host}: {why}")


def main():
    it = words()
    program, files = program_of(it.program), files_of(it.family)
    try:
        desk = Desk(program, os.path.basename(os.path.abspath(it.family)), files, it.book)
        people = people_of(it.names, it.book)
    except (Unusable, OSError, ValueError) as fault:
        sys.exit(f"serve: {fault}")
    server = server_of(it, desk, people)
    for person in people:
        print(f"{person.name}: {server.link(person)}", flush=True)
    if it.listen:
        print("This is plain HTTP: whoever can read the network's traffic can read along, and can enter.", flush=True)
    if it.open:
        webbrowser.open(server.link(people[0]))
    try:
        server.serve_forever()
    except KeyboardInterrupt:
        pass


if __name__ == "__main__":
    main()

"""What the tests share: a relay that is started and killed, a client of it, families, and what `run` answers."""
import http.client
import json
import os
import random
import signal
import socket
import subprocess
import sys
import tempfile

WEB = os.path.dirname(os.path.dirname(os.path.abspath(__file__)))
ROOT = os.path.dirname(os.path.dirname(WEB))
PROGRAM = [None]  # the program under test, once it was found
STRICT = [False]  # whether bars of milliseconds hold as they are, and not six times as high as on a busy machine
HOSTILE = "<img src=x onerror=\"window.hacked=1\">"


class Relay:
    """A relay that serves a family to people of these names."""

    def __init__(self, family, *names, book=None):
        self.words = [sys.executable, f"{WEB}/serve.py", family, *(names or ["Ann"]), "--program", PROGRAM[0]]
        self.words += ["--book", book] if book else []
        self.start(free_port())

    def start(self, port):
        """Starts it at this port, as soon as that is free."""
        for _ in range(100):
            self.child = subprocess.Popen([*self.words, "--port", str(port)], stdout=subprocess.PIPE, text=True)
            lines = [self.child.stdout.readline() for _ in range(self.words.index("--program") - 3)]
            if lines[-1]:
                break
            self.child.wait()
        self.links = [it.rpartition(": ")[2].strip() for it in lines]
        self.host, _, self.key = self.links[0].removeprefix("http://").partition("/#")
        self.port = int(self.host.rpartition(":")[2])

    def client(self, person=0):
        return Client(self.host, self.links[person].rpartition("#")[2])

    def programs(self):
        """The processes of `vpgdesk` that this relay has started."""
        found = []
        for it in filter(str.isdigit, os.listdir("/proc")):
            try:
                with open(f"/proc/{it}/stat", encoding="utf-8", errors="replace") as file:
                    state, parent = file.read().rpartition(")")[2].split()[:2]
            except OSError:
                continue  # it has ended meanwhile
            if int(parent) == self.child.pid and state != "Z":
                found.append(int(it))
        return sorted(found)

    def kill(self):
        self.child.kill()
        self.child.wait()
        self.child.stdout.close()

    def __enter__(self):
        return self

    def __exit__(self, *_):
        self.kill()


class Client:
    """Requests to a relay, as the page makes them."""

    def __init__(self, host, key):
        self.host, self.key = host, key

    def raw(self, method, path, body=None, **headers):
        """The status and the bytes of an answer."""
        line = http.client.HTTPConnection(self.host, timeout=60)
        try:
            given = {name.replace("_", "-"): value for name, value in headers.items()}
            line.request(method, path, body, {"X-Key": self.key, **given})
            answer = line.getresponse()
            return answer.status, answer.read()
        finally:
            line.close()

    def ask(self, path, body=None):
        """The status and the object of an answer."""
        if body is None:
            status, said = self.raw("GET", "/api/" + path)
        else:
            status, said = self.raw("POST", "/api/" + path, json.dumps(body), Content_Type="application/json")
        return status, json.loads(said)

    def page(self):
        """The page, without the people who look at it, and without its number."""
        status, page = self.ask("page")
        assert status == 200, page
        return {name: it for name, it in page.items() if name not in ("people", "at", "run")}

    def change(self, *signs, **more):
        """Asks for decisions (`+F`, `-F`) and retractions (`~F`) as one change."""
        words = {"+": "select", "-": "exclude", "~": "retract"}
        return self.ask("change", {"steps": [{"do": words[it[0]], "feature": it[1:]} for it in signs], **more})

    def stream(self):
        """A connection to the stream of events, and a function that reads the next one."""
        line = http.client.HTTPConnection(self.host, timeout=30)
        line.request("GET", "/api/events", headers={"X-Key": self.key})
        answer = line.getresponse()

        def read():
            kind = ""
            while text := answer.readline().decode().rstrip("\n"):
                name, _, rest = text.partition(": ")
                if name == "event":
                    kind = rest
                if name == "data":
                    answer.readline()
                    return kind, json.loads(rest)
            return kind, None

        return line, read


def free_port():
    """A port that is free, of those that the system gives to no connection by itself."""
    while True:
        port = random.randrange(20000, 32000)
        with socket.socket() as line:
            try:
                line.bind(("127.0.0.1", port))
                return port
            except OSError:
                pass


def example(name):
    return f"{ROOT}/examples/{name}"


def files(family):
    system = ["--system", f"{family}/system.aut", "--requirements", f"{family}/requirements.mcf"]
    return [*(system if os.path.exists(system[1]) else [f"{family}/game"]), f"{family}/diagram"]


def run(family, script):
    """The answers of `vpgdesk run` to the lines of a script: what the page is compared with."""
    words = [PROGRAM[0], "run", "--json", "--keep-going", *files(family), "/dev/stdin"]
    ran = subprocess.run(words, input="".join(f"{it}\n" for it in script), capture_output=True, text=True, check=True)
    return [json.loads(it)["answer"] for it in ran.stdout.splitlines()]


def verdicts(family, script, goals):
    """The words that `vpgdesk run` has for these vertices after a script."""
    lines = run(family, [*script, "settle", *(f"show {it}" for it in goals)])[-len(goals) :]
    return ["hopeless" if "hopeless" in it[0] else "possible" if "unsure" in it[0] else "sure" for it in lines]


# --- families of the tests' own


def write(folder, **texts):
    os.makedirs(folder, exist_ok=True)
    for name, text in texts.items():
        with open(f"{folder}/{name.replace('_', '.')}", "w", encoding="utf-8") as it:
            it.write(text)
    return folder


def train(folder, features, vertices, name="door {0} of the train opens again and again"):
    """A train's cars with their doors: each vertex, a door, needs one feature, and may hand on to the next."""
    lines, doors, left, car = ["root train"], [], features - 1, 0
    while left > 2:
        members = [f"door{car}_{n}" for n in range(min(7, left - 1))]
        lines += [f"optional train car{car}", f"or car{car}: {' '.join(members)}"]
        doors, left, car = doors + members, left - 1 - len(members), car + 1
    lines += [f"optional train extra{n}" for n in range(left)]
    lines += [f"requires car{n} car{n + 1}" for n in range(0, car - 1, 3)]
    game, last = [f"parity {vertices};", "start 0;"], vertices - 2
    for n in range(last):
        door, other = doors[n * 3 % len(doors)], doors[(n * 3 + 1) % len(doors)]
        ways = f"{n}[{door}],{(n + 1) % last}[{door} & {other}],{last}[!{door}]"
        game.append(f'{n} {2 * (n % 2)} {n % 2} {ways} "{name.format(n)}";')
    game += [f'{last} 1 0 {last} "a door stays shut";', f'{last + 1} 2 0 {last + 1} "all is well";']
    return write(folder, diagram="\n".join(lines) + "\n", game="\n".join(game) + "\n")


def hostile(folder):
    """A family whose names try to be markup: vertices, comments and the folder itself."""
    quiet = HOSTILE.replace('"', "")
    names = (quiet, "</span><script>hacked=1</script>", "&lt;b&gt; {}")
    game = "start 0;\n" + "".join(f'{n} {n} {n % 2} {n}[a],1 "{name}";\n' for n, name in enumerate(names))
    return write(f"{folder}/<img src=x onerror=window.hacked=1>", diagram="root r\noptional r a\n", game=game)


def hostile_system(folder):
    """A system whose action and comment try to be markup, and which stands still after that action."""
    quiet = HOSTILE.replace('"', "")
    system, formula = f'des (0, 1, 2)\n(0, "{quiet}", 1)\n', f'% <b onclick="x">{quiet}\nlive = always can "{quiet}";\n'
    return write(folder, diagram="root r\noptional r a\n", system_aut=system, requirements_mcf=formula)


def hidden_conflict(folder):
    """A family of which `exclude a` leaves no product, while propagation finds no conflict."""
    clauses = " & ".join(f"(a | {b}b | {c}c)" for b in ("", "!") for c in ("", "!"))
    text = f"root r\noptional r a\noptional r b\noptional r c\nrule {clauses}\n"
    return write(folder, diagram=text, game='start 0;\n0 0 0 0 "it goes on";\n')


def scratch():
    return tempfile.TemporaryDirectory(prefix="page_test_")


def rng(seed):
    return random.Random(seed)


def kill(*pids):
    """Kills processes that a relay of the tests started."""
    for it in pids:
        os.kill(it, signal.SIGKILL)

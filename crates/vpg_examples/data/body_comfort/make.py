#!/usr/bin/env python3
"""Writes the game of the body comfort system.

    make.py > game          the game
    make.py PATTERN > part  for a picture: the situations whose identifiers fit it; all others are one vertex, 0

A situation is five digits, TDOWG: whose turn it is, the driver, others in the car, the window, the guard.
"""
import re
import sys

WORLD, CONTROLLER = 1, 2
DRIVES, SITS, STANDS, AWAY = 1, 2, 3, 4
CLOSED, OPEN, CLOSING, HAND = 0, 1, 2, 3
UNLOCKED, LOCKED, ON_GUARD, RINGS, UNLOCKED_BY_RADIO = 0, 1, 2, 3, 4
START, PINCHED = (WORLD, SITS, 0, CLOSED, UNLOCKED), (WORLD, 0, 0, 0, 0)

TURNS = {WORLD: "world", CONTROLLER: "controller"}
DRIVERS = {
    DRIVES: "driver drives",
    SITS: "driver sits in the parked car",
    STANDS: "driver by the car",
    AWAY: "driver away",
}
OTHERS = {0: "nobody else in it", 1: "passenger in it"}
WINDOWS = {
    CLOSED: "window closed",
    OPEN: "window open",
    CLOSING: "window closing",
    HAND: "a hand in the closing window",
}
GUARDS = {
    UNLOCKED: "unlocked",
    LOCKED: "locked",
    ON_GUARD: "on guard",
    RINGS: "alarm rings",
    UNLOCKED_BY_RADIO: "unlocked from afar",
}


def controller(driver, others, window, guard):
    """What the controller may do: a guard and what the world finds then. Each line is one step."""
    if window == HAND:
        yield "protection", driver, others, OPEN, guard
        yield "!protection", *PINCHED[1:]
        return
    yield "", driver, others, window, guard
    if window == OPEN:
        yield "automatic", driver, others, CLOSING, guard
    if driver == DRIVES and guard == UNLOCKED:
        yield "drive_lock", driver, others, window, LOCKED
    if guard == UNLOCKED_BY_RADIO:
        yield "relock", driver, others, window, ON_GUARD
    if driver >= STANDS and guard == LOCKED:
        yield "", driver, others, window, ON_GUARD
    if guard == ON_GUARD and others:
        yield "occupancy", driver, others, window, LOCKED
    if guard == RINGS:
        yield "", driver, others, window, LOCKED


def world(driver, others, window, guard):
    """What may happen: a guard and what the controller finds then."""
    if window == CLOSING:
        yield from closes("", driver, others, guard)
        if guard == ON_GUARD:
            yield "interior", driver, others, CLOSED, RINGS
        return
    yield "", driver, others, window, guard
    yield from driver_acts(driver, others, window, guard)
    yield from others_act(driver, others, window, guard)
    if guard == ON_GUARD and window == OPEN:  # a gust of wind
        yield "interior", driver, others, window, RINGS


def closes(which, driver, others, guard):
    """A window that runs up by itself closes, or somebody who is there puts a hand in it."""
    yield which, driver, others, CLOSED, guard
    if others or driver == STANDS:
        yield which, driver, others, HAND, guard


def driver_acts(driver, others, window, guard):
    if driver in (DRIVES, SITS):
        yield "", DRIVES + SITS - driver, others, window, guard
        if window == CLOSED:
            yield "", driver, others, OPEN, guard
        else:
            yield "", driver, others, CLOSED, guard
            if others:
                yield "automatic", driver, others, HAND, guard
    if driver == SITS:
        yield "" if window == CLOSED else "!led_window", STANDS, others, window, UNLOCKED
    if driver == STANDS:
        yield "", SITS, others, window, UNLOCKED
        yield "", driver, others, window, LOCKED if guard == UNLOCKED else UNLOCKED
        if guard == UNLOCKED:
            yield "walk_lock", AWAY, others, window, LOCKED
            yield "!walk_lock & !led_lock", AWAY, others, window, UNLOCKED
        else:
            yield "", AWAY, others, window, guard
    if driver == AWAY:
        yield "", STANDS, others, window, UNLOCKED if guard == UNLOCKED_BY_RADIO else guard
        if guard in (UNLOCKED, UNLOCKED_BY_RADIO):
            yield "remote", driver, others, window, LOCKED
        else:
            yield "remote", driver, others, window, UNLOCKED_BY_RADIO
    if driver in (STANDS, AWAY):
        yield from keys(driver, others, window, guard)


def keys(driver, others, window, guard):
    """The further buttons of the radio key."""
    if guard not in (ON_GUARD, RINGS):
        yield "remote_alarm", driver, others, window, ON_GUARD if window == CLOSED else LOCKED
    if guard == RINGS:
        return
    if window == OPEN:
        yield from closes("remote_window", driver, others, guard)
    elif guard != ON_GUARD:
        yield "remote_window", driver, others, OPEN, guard
    else:
        sees = " & !led_alarm" if driver == STANDS else ""
        yield "remote_window & !remote_alarm" + sees, driver, others, OPEN, ON_GUARD
        yield "remote_window & remote_alarm" + sees, driver, others, OPEN, LOCKED


def others_act(driver, others, window, guard):
    """A passenger gets in or out, or moves."""
    if driver == DRIVES:
        return
    if not others:
        if guard in (UNLOCKED, UNLOCKED_BY_RADIO):
            yield "", driver, 1, window, guard
    elif guard != ON_GUARD:
        yield "", driver, 0, window, guard
    else:
        yield "alarm", driver, 0, window, RINGS
        yield "!alarm", driver, 0, window, guard
        yield "interior & !occupancy", driver, others, window, RINGS


def successors(vertex):
    """The successors, each once, with all guards under which it is one; no guard where it always is."""
    turn, *situation = vertex
    if vertex == PINCHED:
        return {PINCHED: [""]}
    found = {}
    for which, *after in (world if turn == WORLD else controller)(*situation):
        found.setdefault((WORLD + CONTROLLER - turn if after[0] else WORLD, *after), []).append(which)
    return {to: [""] if "" in guards else guards for to, guards in found.items()}


def priority(vertex):
    turn, driver, others, window, guard = vertex
    if guard == RINGS:
        return 3
    if turn == CONTROLLER:
        return 0
    if vertex == PINCHED:
        return 1
    attended = driver != AWAY or others
    return 2 if attended or (window, guard) == (CLOSED, ON_GUARD) else 1


def identifier(vertex):
    return "".join(map(str, vertex))


def name(vertex, is_part):
    if vertex == PINCHED:
        return "a hand is pinched"
    turn, driver, others, window, guard = vertex
    there = "" if is_part else f"{TURNS[turn]}: {DRIVERS[driver]}, {OTHERS[others]}, "
    return f"{there}{WINDOWS[window]}, {GUARDS[guard]}"


def entry(vertex, vertices, is_part):
    edges = {}
    for to, guards in successors(vertex).items():
        edges.setdefault(identifier(to) if to in vertices else "0", []).extend(guards)
    told = [to if "" in guards else f"{to}[{' | '.join(guards)}]" for to, guards in edges.items()]
    player = int(vertex[0] == WORLD)
    return f'{identifier(vertex)} {priority(vertex)} {player} {",".join(told)} "{name(vertex, is_part)}";'


def reached():
    seen, new = {START}, [START]
    while new:
        more = [to for vertex in new for to in successors(vertex)]
        new = [to for to in dict.fromkeys(more) if to not in seen]
        seen.update(new)
    return sorted(seen)


def main():
    vertices = reached()
    if len(sys.argv) == 2:
        part = [v for v in vertices if re.fullmatch(sys.argv[1], identifier(v))]
        print('0 2 1 0 "elsewhere";')
        print("\n".join(entry(vertex, part, True) for vertex in part))
        return
    print(f"parity {identifier(vertices[-1])}; start {identifier(START)};")
    for before, vertex in zip([PINCHED[:1], *vertices], vertices):
        if before[:2] != vertex[:2]:
            print()
        print(entry(vertex, vertices, False))


if __name__ == "__main__":
    main()

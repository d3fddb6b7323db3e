#!/usr/bin/env python3
"""Writes the system of the elevators.

    make.py > system.aut

In turn people do one thing, and then the lift takes one step: it opens or closes its doors, goes up or down a floor, or
stays as it is. A state is whose turn it is, the floor, the doors, from which floor the lift is called, which floor is
wished inside, how many are inside (0, 1 for some, 2 for too many), and whether it last went up.
"""
import itertools
from typing import NamedTuple, Optional

FLOORS, MIDDLE, TOP = (0, 1, 2), 1, 2
PEOPLE, LIFT, FIRE, STUCK, OUT = "people", "lift", "fire", "stuck", "out of service"
CLOSED, OPEN, DOORWAY = "closed", "open", "somebody in the doorway"
PARKS = {"park_ground": 0, "park_middle": 1, "park_top": 2}


class State(NamedTuple):
    turn: str
    floor: int
    doors: str = OPEN
    called: Optional[int] = None
    wished: Optional[int] = None
    load: int = 0
    up: bool = True


FIRST = State(PEOPLE, 0)


def of_people(s):
    """What people may do: a label, and the state then."""
    then = s._replace(turn=LIFT)
    others = [floor for floor in FLOORS if floor != s.floor]
    if s.doors == DOORWAY:
        yield "walk_away", then._replace(doors=OPEN)
        for floor in others if s.load == 0 else ():
            yield f"board_{floor}", then._replace(doors=OPEN, wished=floor, load=1)
        if s.load:
            yield "press_in", then._replace(doors=OPEN, load=2)
            yield "squeeze [quick_close & !light_barrier]", then._replace(doors=OPEN)
    else:
        yield "nothing", then
        for floor in others if s.called is None else ():
            yield f"call_{floor}", then._replace(called=floor)
    if s.doors == OPEN and s.load < 2:
        yield "arrive", then._replace(doors=DOORWAY)
    if s.doors == OPEN and s.load == 0 and s.wished is None:
        for floor in others:
            guard = "!antiprank & !card" if floor == TOP else "!antiprank"
            yield f"prank_{floor} [{guard}]", then._replace(wished=floor)
    if s.doors == DOORWAY or s.doors == OPEN and s.load:
        yield "hold_door [hold_button & !nudging]", s
    yield "fire [fire_service]", State(FIRE, s.floor)


def target(s, has):
    """Where a lift with these features goes, of the floors that are wanted; None where none is."""
    wanted = {s.called, s.wished} - {None}
    if has["executive"] and TOP in wanted:
        return TOP
    if has["twothirds"] and s.load and s.wished is not None:
        return s.wished
    above = [floor for floor in wanted if floor > s.floor]
    below = [floor for floor in wanted if floor < s.floor]
    if s.floor in wanted:
        return s.floor
    if above and (s.up or not below):
        return min(above)
    return max(below, default=None)


def parking(s, has):
    """Where a lift with these features waits for people."""
    return next((floor for feature, floor in PARKS.items() if has[feature]), s.floor)


def opened(s):
    """The lift with open doors. Who wished to come here leaves, and who called stands in the doorway."""
    doors, called = (DOORWAY, None) if s.called == s.floor else (OPEN, s.called)
    wished, load = (None, 0) if s.wished == s.floor else (s.wished, s.load)
    return turned(State(PEOPLE, s.floor, doors, called, wished, load, s.up))


def moved(s, floor):
    up = floor > s.floor
    return f"{'up' if up else 'down'}", turned(s._replace(turn=PEOPLE, floor=s.floor + (1 if up else -1), up=up))


def turned(s):
    """The state with the direction in which the lift would go on: where nothing is wanted there it has turned."""
    wanted = {s.called, s.wished} - {None, s.floor}
    is_both = s.floor == MIDDLE and len(wanted) == 2
    return s if is_both else s._replace(up=not wanted or min(wanted) > s.floor)


def step(s, has):
    """The one step of a lift with these features: a label, and the state then."""
    if s.doors == CLOSED:
        goal = target(s, has)
        goal = parking(s, has) if goal is None else goal
        return moved(s, goal) if goal != s.floor else (f"open_{goal}", opened(s))
    if s.doors == DOORWAY:
        return "wait", s._replace(turn=PEOPLE)
    if s.load == 2 and has["overload"]:
        return "beep", s._replace(turn=PEOPLE, doors=CLOSED, load=1)
    if s.load == 0 and has["empty"]:
        s = s._replace(wished=None)
    if s.load == 2:
        return "close_overloaded", State(STUCK, 0)
    then = turned(s._replace(turn=PEOPLE, doors=CLOSED))
    if target(s, has) is not None:
        return "close" if s.load or s.called is not None else "close_in_vain", then
    return ("park", then) if parking(s, has) != s.floor else ("rest", then._replace(doors=OPEN))


def covers(cube, row):
    return all(row[feature] == value for feature, value in cube)


def guard_of(features, rows, others):
    """A guard that is true in these rows and in none of the others: an `or` of cubes, each as short as it can be."""
    cubes = []
    for size in range(len(features) + 1):
        for chosen in itertools.combinations(features, size):
            for values in itertools.product((True, False), repeat=size):
                cube = tuple(zip(chosen, values))
                if any(covers(cube, row) for row in rows) and not any(covers(cube, row) for row in others):
                    if not any(set(shorter) <= set(cube) for shorter in cubes):
                        cubes.append(cube)
    needed = list(cubes)
    for cube in reversed(cubes):
        rest = [it for it in needed if it != cube]
        if all(any(covers(it, row) for it in rest) for row in rows):
            needed = rest
    return " | ".join(" & ".join(("" if value else "!") + feature for feature, value in cube) for cube in needed)


def of_lift(s):
    """The steps of all lifts, each under the guard of those that take it."""
    names = ["executive", "overload", "twothirds", "empty", *PARKS]
    rows = [dict(zip(names, values)) for values in itertools.product((True, False), repeat=len(names))]
    rows = [row for row in rows if sum(row[park] for park in PARKS) <= 1 and (row["overload"] or not row["twothirds"])]
    steps = {}
    for row in rows:
        steps.setdefault(step(s, row), []).append(row)
    used = [name for name in names if any(step(s, row) != step(s, {**row, name: not row[name]}) for row in rows)]
    for (label, then), taking in steps.items():
        guard = guard_of(used, taking, [row for row in rows if row not in taking])
        yield (f"{label} [{guard}]" if guard else label), then


def steps_from(s):
    if s.turn == PEOPLE:
        yield from of_people(s)
    elif s.turn == LIFT:
        yield from of_lift(s)
    elif s.turn == FIRE and s.floor:
        yield "flee", State(FIRE, 0)
        yield "smoke_holds [light_barrier & !smoke_filter]", s
    elif s.turn == FIRE:
        yield "let_out", State(OUT, 0)
    elif s.turn == STUCK:
        yield "repaired", FIRST
    else:
        yield "burns", s
        yield "all_clear", FIRST


def main():
    todo, numbers, rows = [FIRST], {FIRST: 0}, []
    for state in todo:
        for label, then in steps_from(state):
            if then not in numbers:
                numbers[then] = len(numbers)
                todo.append(then)
            rows.append(f'({numbers[state]}, "{label}", {numbers[then]})')
    print("\n".join([f"des (0, {len(rows)}, {len(numbers)})", *rows]))


if __name__ == "__main__":
    main()

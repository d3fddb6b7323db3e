#!/usr/bin/env python3
"""Writes the system of the mine pump.

    make.py > system.aut

A state is the water, whether there is methane, the pump, and who acts: the mine and its operators, or the controller,
which has a message to answer. What a state is like is said by loops that change nothing: `is_settled` where the mine
acts, `is_running`, `is_methane`, `is_high`.
"""
MINE = "mine"
FALLS, RISES = {"high": "normal", "normal": "low"}, {"low": "normal", "normal": "high"}


def of_mine(water, methane, pump):
    """What the mine or an operator may do: a label, and the state then."""
    if pump == "running" and water in FALLS:
        yield "water_falls", (FALLS[water], methane, pump, "level")
    if pump != "running" and water in RISES:
        yield "water_rises", (RISES[water], methane, pump, "level")
    if water == "high":
        yield "level_stays", (water, methane, pump, "level")
    if methane:
        yield "methane_leaves", (water, False, pump, "level")
    else:
        yield "methane_rises", (water, True, pump, "methane")
    yield "command_start [start]", (water, methane, pump, "start")
    yield "command_stop [stop]", (water, methane, pump, "stop")


def of_controller(water, methane, pump, message):
    """How the controller answers a message. One step; where a feature decides, one of two."""
    runs, rests = (water, methane, "running", MINE), (water, methane, "off", MINE)
    leaves = (water, methane, pump, MINE)
    asks = (water, methane, pump, "answer")
    if message == "level" and water == "high" and pump == "off":
        yield "ask_methane [high & query]", asks
        yield "pump_start [high & !query]", runs
        yield "ignore [!high]", leaves
    elif message == "level" and water == "low" and pump == "running":
        yield "pump_stop [low]", rests
        yield "ignore [!low]", leaves
    elif message == "methane" and pump == "running":
        yield "pump_stop [alarm]", rests
        yield "ignore [!alarm]", leaves
    elif message == "answer" and methane:
        yield "methane_there", leaves
    elif message == "answer":
        yield "pump_start", runs
    elif message == "start" and pump != "running":
        yield "ask_methane [query]", asks
        yield "pump_start [!query]", runs
    elif message == "stop" and pump == "running":
        yield "pump_stop", (water, methane, "stopped", MINE)
    elif message == "stop":
        yield "ignore", (water, methane, "stopped", MINE)
    else:
        yield "ignore", leaves


def loops(water, methane, pump, turn):
    if turn == MINE:
        yield "is_settled"
    if pump == "running":
        yield "is_running"
    if methane:
        yield "is_methane"
    if water == "high":
        yield "is_high"


def main():
    todo = [("normal", False, "off", MINE)]
    numbers, rows = {todo[0]: 0}, []
    for state in todo:
        steps = of_mine(*state[:3]) if state[3] == MINE else of_controller(*state)
        for label, target in list(steps) + [(label, state) for label in loops(*state)]:
            if target not in numbers:
                numbers[target] = len(numbers)
                todo.append(target)
            rows.append((numbers[state], label, numbers[target]))
    print(f"des (0, {len(rows)}, {len(numbers)})")
    for source, label, target in rows:
        print(f'({source}, "{label}", {target})')


if __name__ == "__main__":
    main()

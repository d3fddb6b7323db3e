#!/usr/bin/env python3
"""Writes the system of the alternating bit protocol.

    make.py > system.aut

These are the processes of mCRL2's example `abp` (Bartlett, Scantlebury and Wilkinson 1969): a sender, a channel for
data, a receiver and a channel for acknowledgements. Labels are written as mCRL2 writes them. With `noisy_data`,
`noisy_ack` and `bit`, and without `eager`, it is the system of that example, of 74 states and 92 transitions.
"""
DATA = ("d1", "d2")


def text(bit):
    return "true" if bit else "false"


def of_sender(s):
    if s[0] == "reads":
        for d in DATA:
            yield f"r1({d})", ("sends", d, s[1])


def of_channel(s, noise):
    """What a channel that carries something does alone: it passes it on as it is, or garbled."""
    if s[0] == "carries":
        yield "i", ("gives", s[1])
        yield f"i [{noise}]", ("gives", "e")


def of_receiver(s):
    if s[0] == "delivers":
        yield f"s4({s[1]}) [!eager]", ("delivered", *s[2:])


def together(state):
    """The steps that two take at once."""
    sender, data, receiver, ack = state
    if sender[0] == "sends" and data == ("waits",):
        frame = f"{sender[1]}, {text(sender[2])}"
        yield f"c2({frame})", (("awaits", *sender[1:]), ("carries", frame), receiver, ack)
    if data[0] == "gives" and receiver[0] == "waits":
        for guard, then in received(data[1], receiver[1]):
            yield f"c3({data[1]}){guard}", (sender, ("waits",), then, ack)
    if receiver[0] != "waits" and ack == ("waits",):
        sent, then = receiver[-2:]
        label = f"c5({text(sent)})"
        if receiver[0] == "delivers":
            label = f"s4({receiver[1]})|{label} [eager]"
        yield label, (sender, data, ("waits", then), ("carries", text(sent)))
    if ack[0] == "gives" and sender[0] == "awaits":
        right = ack[1] == text(sender[2])
        then = ("reads", not sender[2]) if right else ("sends", *sender[1:])
        yield f"c6({ack[1]})", (then, data, receiver, ("waits",))


def received(frame, bit):
    """What a receiver that expects this bit does with a frame: a guard, and the receiver then."""
    if frame == "e":
        yield "", ("answers", not bit, bit)
    elif frame.endswith(text(bit)):
        yield "", ("delivers", frame[:2], bit, not bit)
    else:
        yield " [bit]", ("answers", not bit, bit)
        yield " [!bit]", ("delivers", frame[:2], not bit, bit)


def steps(state):
    sender, data, receiver, ack = state
    yield from ((label, (then, data, receiver, ack)) for label, then in of_sender(sender))
    yield from ((label, (sender, then, receiver, ack)) for label, then in of_channel(data, "noisy_data"))
    yield from ((label, (sender, data, then, ack)) for label, then in of_receiver(receiver))
    yield from ((label, (sender, data, receiver, then)) for label, then in of_channel(ack, "noisy_ack"))
    yield from together(state)


def main():
    todo = [(("reads", True), ("waits",), ("waits", True), ("waits",))]
    numbers, rows = {todo[0]: 0}, []
    for state in todo:
        for label, then in steps(state):
            if then not in numbers:
                numbers[then] = len(numbers)
                todo.append(then)
            rows.append(f'({numbers[state]},"{label}",{numbers[then]})')
    print("\n".join([f"des (0,{len(rows)},{len(numbers)})", *rows]))


if __name__ == "__main__":
    main()

#!/usr/bin/env python3
"""Draws docs/states.svg, the six states of a name on an interface, and docs/phases.svg, the three phases of a lookup, with the events that
move them (docs/RULES.md, rules U and A).

Run from anywhere: python3 docs/draw_states.py. The same text comes out on every run; nothing but the standard library is used.
"""

from pathlib import Path
from typing import NamedTuple
from xml.sax.saxutils import escape

WIDTH, HEIGHT = 1300, 590
BOX_WIDTH, BOX_HEIGHT = 180, 70
LINE = 18  # between two lines of a label
NOTE, LAST_NOTE = 22, 566  # between two notes, and where the last one stands

INK = "#1f2933"
EVENT = "#1f2933"
ACTION = "#9a3412"
GREEN = "#d7efdc"
YELLOW = "#fdf0cf"
GREY = "#e4e7eb"


class Diagram(NamedTuple):
    title: str
    beginning: tuple  # the middle of the dot from which the first transition comes
    boxes: dict  # each state: the middle of its box, the colour, and a line about it
    transitions: list  # each: the corners of its line, its label's place (anchor, x, y of the first line), what happens, what comes of it
    notes: list
    legend: list  # each colour: where its mark stands, and what it means


# The line about a state: how it treats a query with C clear.
STATES = Diagram(
    title="States of a name on an interface",
    beginning=(130, 114),
    boxes={
        "Off": (130, 220, GREY, "no reply, refusal 12"),
        "Verifying": (530, 220, YELLOW, "replies with T set"),
        "Unique": (850, 220, GREEN, "replies"),
        "Defending": (1190, 220, GREEN, "replies"),
        "Shared": (130, 450, YELLOW, "replies with C set"),
        "Stopped": (530, 450, GREY, "no reply, refusal 13"),
    },
    transitions=[
        ([(130, 120), (130, 185)], ("start", 142, 150), ["set-up"], []),
        ([(220, 220), (440, 220)], ("middle", 326, 192), ["start, unique name"], ["query sent"]),
        ([(130, 255), (130, 415)], ("start", 142, 330), ["start, shared name"], []),
        ([(480, 185), (480, 125), (580, 125), (580, 185)], ("middle", 530, 93), ["tick when due, below 3 sends"], ["query sent again"]),
        ([(620, 220), (760, 220)], ("middle", 686, 192), ["tick when due,", "at 3 sends"], []),
        ([(575, 255), (575, 415)], ("start", 587, 322), ["response with T clear,", "or with T set from below"], []),
        ([(485, 415), (485, 255)], ("end", 473, 322), ["start, unique name,", "once its time has come"], ["query sent"]),
        ([(940, 200), (1100, 200)], ("middle", 1018, 154), ["conflict notification", "(C set), not from us"], ["query sent"]),
        ([(1100, 242), (940, 242)], ("middle", 1022, 264), ["tick when due"], []),
        ([(1190, 255), (1190, 450), (620, 450)], ("middle", 905, 440), ["response from below"], []),
        ([(440, 450), (220, 450)], ("middle", 334, 422), ["start, shared name,", "once its time has come"], []),
    ],
    notes=[
        "Events that are not drawn leave the state as it is. Response: one that the name waits for, not from us. From below: its source is below",
        "the interface's own address. Its time: when the TTL of the response that stopped the name has run out, or 30 s after one that gives no TTL;",
        "before that a start is refused with 21. Set-up makes every name Off again, whatever its state.",
    ],
    legend=[(700, GREEN, "owns the name"), (860, YELLOW, "answers, without owning it"), (1104, GREY, "does not answer")],
)

# The line about a phase: which response it waits for, and whether it does.
PHASES = Diagram(
    title="Phases of a lookup",
    beginning=(114, 220),
    boxes={
        "Asking": (400, 220, YELLOW, "waits, C clear or set"),
        "Collecting": (950, 220, YELLOW, "waits, C set"),
        "Ended": (675, 450, GREY, "does not wait"),
    },
    transitions=[
        ([(120, 220), (310, 220)], ("middle", 212, 192), ["start"], ["query sent"]),
        ([(350, 185), (350, 125), (450, 125), (450, 185)], ("middle", 400, 93), ["tick when due, below 3 sends"], ["query sent again"]),
        ([(490, 220), (860, 220)], ("middle", 672, 192), ["response with C set"], ["its answers are handed out"]),
        ([(900, 185), (900, 125), (1000, 125), (1000, 185)], ("middle", 950, 93), ["response with C set"], ["its answers are handed out"]),
        ([(370, 255), (370, 462), (585, 462)], ("end", 358, 330), ["tick when due, at 3 sends"], ["no such name"]),
        ([(430, 255), (430, 438), (585, 438)], ("start", 442, 330), ["response with C clear"], ["found: its answers are handed out"]),
        ([(950, 255), (950, 450), (765, 450)], ("start", 962, 330), ["tick when due"], ["found, with what was handed out"]),
    ],
    notes=[
        "Events that are not drawn leave the phase as it is. Response: one with the ID and the question of the lookup's query, not from us, with T",
        "clear and all its records whole. It does not move the due time. A refused start gives a lookup that is Ended.",
    ],
    legend=[(890, YELLOW, "waits for a response"), (1104, GREY, "is over")],
)


def text(x, y, words, anchor="middle", size=14, colour=INK, extra=""):
    return f'<text x="{x}" y="{y}" text-anchor="{anchor}" font-size="{size}" fill="{colour}"{extra}>{escape(words)}</text>'


def box(name, x, y, colour, words):
    left, top = x - BOX_WIDTH // 2, y - BOX_HEIGHT // 2
    return [
        f'<rect x="{left}" y="{top}" width="{BOX_WIDTH}" height="{BOX_HEIGHT}" rx="10" fill="{colour}" stroke="{INK}" stroke-width="1.5"/>',
        text(x, y - 5, name, size=18, extra=' font-weight="bold"'),
        text(x, y + 19, words, size=13),
    ]


def arrow(corners):
    points = " ".join(f"{x},{y}" for x, y in corners)
    return f'<polyline points="{points}" fill="none" stroke="{INK}" stroke-width="1.5" marker-end="url(#head)"/>'


def label(place, events, actions):
    anchor, x, y = place
    lines = [(words, EVENT, "") for words in events] + [(words, ACTION, ' font-style="italic"') for words in actions]
    return [text(x, y + LINE * i, words, anchor, 14, colour, extra) for i, (words, colour, extra) in enumerate(lines)]


def drawing(diagram):
    x, y = diagram.beginning
    out = [
        f'<svg xmlns="http://www.w3.org/2000/svg" width="{WIDTH}" height="{HEIGHT}" viewBox="0 0 {WIDTH} {HEIGHT}" '
        'font-family="DejaVu Sans, Verdana, Arial, sans-serif">',
        f"<title>{escape(diagram.title)}</title>",
        "<defs>",
        f'<marker id="head" markerWidth="10" markerHeight="8" refX="9" refY="4" orient="auto"><path d="M0,0 L10,4 L0,8 Z" fill="{INK}"/></marker>',
        "</defs>",
        f'<rect x="0" y="0" width="{WIDTH}" height="{HEIGHT}" fill="#ffffff"/>',
        text(30, 42, diagram.title, "start", 20, INK, ' font-weight="bold"'),
        f'<circle cx="{x}" cy="{y}" r="6" fill="{INK}"/>',
    ]
    for corners, place, events, actions in diagram.transitions:
        out.append(arrow(corners))
        out += label(place, events, actions)
    for name, (x, y, colour, words) in diagram.boxes.items():
        out += box(name, x, y, colour, words)
    for x, colour, words in diagram.legend:
        out.append(f'<rect x="{x}" y="28" width="18" height="18" rx="4" fill="{colour}" stroke="{INK}" stroke-width="1"/>')
        out.append(text(x + 26, 42, words, "start", 13))
    first = LAST_NOTE - NOTE * (len(diagram.notes) - 1)
    for i, words in enumerate(diagram.notes):
        out.append(text(30, first + NOTE * i, words, "start", 13))
    out.append("</svg>")
    return "\n".join(out) + "\n"


if __name__ == "__main__":
    for name, diagram in (("states.svg", STATES), ("phases.svg", PHASES)):
        Path(__file__).resolve().with_name(name).write_text(drawing(diagram), encoding="utf-8")

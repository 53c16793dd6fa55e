"""Draws the nine states of the manager and the calls that lead from one to another: python3 docs/draw_states.py writes
docs/states.svg, which docs/AUTOSAR.md explains.

It draws nothing and says why where a label is too close to a line, a state or another label or is not within the picture, or where a
line is too close to another, runs through a state or ends near a corner."""

import sys
from pathlib import Path
from typing import NamedTuple

sys.dont_write_bytecode = True  # leaves no folder beside the pages
from drawing import BOX_COLOUR, Rect, arrow, box, closer, document, line_height, text_lines, text_width

WIDTH, HEIGHT = 880, 845
BOX_WIDTH, BOX_HEIGHT = 130, 44
LOOP = 30  # how far a line from a state to itself leads away from it
STATE_SIZE, LABEL_SIZE = 15, 12
LABEL_APART = 8  # between a line and its label
LABEL_CLEAR = 6  # the least distance of a label from everything
LINE_CLEAR = 15  # the least distance of two lines
MIDDLE_PART = 0.6  # of a side, in which lines end

# each state with its number and the middle of its box
STATES = {
    "Idle": (0, 520, 40),
    "Ready": (1, 520, 300),
    "Processing": (2, 520, 165),
    "Activating": (3, 520, 445),
    "Verifying": (4, 520, 565),
    "Activated": (5, 520, 695),
    "RollingBack": (6, 800, 565),
    "RolledBack": (7, 800, 810),
    "CleaningUp": (8, 195, 300),
}


class Edge(NamedTuple):
    start: tuple  # a state, a side of its box, and how far from the middle of that side
    end: tuple  # the same
    label: str
    label_side: str  # of the longest part of the line; where a line leads back to its state, of the part away from it
    label_shift: tuple = (0, 0)  # right and down


EDGES = [
    Edge(("Idle", "bottom", -25), ("Processing", "top", -25), "Process", "left"),
    Edge(("Ready", "top", -25), ("Processing", "bottom", -25), "Process", "left"),
    Edge(
        ("Processing", "bottom", 25),
        ("Ready", "top", 25),
        "Work: Processed,\nor Cancelled or Inconsistent\nif a package was processed",
        "right",
    ),
    Edge(("Processing", "top", 25), ("Idle", "bottom", 25), "Work: Cancelled or Inconsistent\nif no package was processed", "right"),
    Edge(("Processing", "right", -10), ("Processing", "right", 10), "Work: Working\nCancel: Done", "right"),
    Edge(("Ready", "bottom", -25), ("Activating", "top", -25), "Activate", "left"),
    Edge(("Ready", "left", -10), ("CleaningUp", "right", -10), "Revert", "above"),
    Edge(
        ("Activating", "top", 25),
        ("Ready", "bottom", 25),
        "Report bad, all needs met:\nPreActivationFailed\nReport good or bad, a need unmet:\nMissingDependencies",
        "right",
    ),
    Edge(("Activating", "bottom", 0), ("Verifying", "top", 0), "Report good: Done", "right"),
    Edge(("Verifying", "left", -10), ("Verifying", "left", 10), "Report bad:\nVerificationFailed", "left"),
    Edge(("Verifying", "bottom", 0), ("Activated", "top", 0), "Report good: Done", "right"),
    Edge(("Verifying", "right", -10), ("RollingBack", "left", -10), "Rollback", "above"),
    Edge(("Activated", "right", -10), ("RollingBack", "bottom", -35), "Rollback", "above"),
    Edge(("Activated", "left", 0), ("CleaningUp", "bottom", 30), "Finish", "right"),
    Edge(("RollingBack", "bottom", 35), ("RolledBack", "top", 35), "Report good: Done", "left", (0, 75)),
    Edge(("RollingBack", "left", 10), ("Verifying", "right", 10), "Report bad:\nNotAbleToRollback", "below"),
    Edge(("RollingBack", "bottom", 0), ("Activated", "right", 10), "Report bad:\nNotAbleToRollback", "below"),
    Edge(("RolledBack", "left", 0), ("CleaningUp", "bottom", -30), "Finish", "above"),
    Edge(("CleaningUp", "top", 0), ("Idle", "left", 0), "Report good: Done", "above"),
    Edge(("CleaningUp", "right", 10), ("Ready", "left", 10), "Report bad after Revert:\nNotAbleToRevert", "below"),
    Edge(("CleaningUp", "left", -10), ("CleaningUp", "left", 10), "Report bad after Finish:\nCleaningFailed", "above", (-3, -20)),
]


def state_rect(state):
    _, x, y = STATES[state]
    return Rect(x - BOX_WIDTH / 2, y - BOX_HEIGHT / 2, x + BOX_WIDTH / 2, y + BOX_HEIGHT / 2)


def end_point(state, side, shift):
    rect, (_, x, y) = state_rect(state), STATES[state]
    return {
        "left": (rect.left, y + shift),
        "right": (rect.right, y + shift),
        "top": (x + shift, rect.top),
        "bottom": (x + shift, rect.bottom),
    }[side]


def points_of(edge):
    """The points of a line: straight, with a corner, or out of a side and back to it."""
    (x0, y0), (x1, y1) = end_point(*edge.start), end_point(*edge.end)
    side = edge.start[1]
    if side == edge.end[1]:
        out = x0 + (LOOP if side == "right" else -LOOP)
        return [(x0, y0), (out, y0), (out, y1), (x1, y1)]
    if x0 == x1 or y0 == y1:
        return [(x0, y0), (x1, y1)]
    return [(x0, y0), (x0, y1) if side in ("top", "bottom") else (x1, y0), (x1, y1)]


def segments_of(edge):
    """The straight parts of a line, as rectangles without width or height."""
    points = points_of(edge)
    return [Rect(min(x0, x1), min(y0, y1), max(x0, x1), max(y0, y1)) for (x0, y0), (x1, y1) in zip(points, points[1:])]


def label_rect(edge):
    """Where the label of a line stands."""
    segments = segments_of(edge)
    longest = max(segments, key=lambda s: s.right - s.left + s.bottom - s.top)
    beside = segments[1] if len(segments) == 3 else longest
    lines = edge.label.split("\n")
    across = max(text_width(line, LABEL_SIZE) for line in lines) / 2
    down = len(lines) * line_height(LABEL_SIZE) / 2
    right, below = {"left": (-1, 0), "right": (1, 0), "above": (0, -1), "below": (0, 1)}[edge.label_side]
    x = (beside.left + beside.right) / 2 + edge.label_shift[0] + right * (LABEL_APART + across)
    y = (beside.top + beside.bottom) / 2 + edge.label_shift[1] + below * (LABEL_APART + down)
    return Rect(x - across, y - down, x + across, y + down)


def label_text(edge):
    rect = label_rect(edge)
    middle = ("middle", (rect.left + rect.right) / 2)
    anchor, x = {"left": ("end", rect.right), "right": ("start", rect.left)}.get(edge.label_side, middle)
    return text_lines(x, (rect.top + rect.bottom) / 2, edge.label.split("\n"), LABEL_SIZE, anchor)


def named(edge):
    return f"the line from {edge.start[0]} to {edge.end[0]}"


def label_faults(edge):
    """In words, what is wrong with where the label of a line stands."""
    label = label_rect(edge)
    if min(label.left, label.top, WIDTH - label.right, HEIGHT - label.bottom) < 0:
        yield f"the label of {named(edge)} is not within the picture"
    for state in STATES:
        if closer(label, state_rect(state), LABEL_CLEAR):
            yield f"the label of {named(edge)} is too close to {state}"
    for other in EDGES:
        if any(closer(label, segment, LABEL_CLEAR) for segment in segments_of(other)):
            yield f"the label of {named(edge)} is too close to {named(other)}"
        if other is not edge and closer(label, label_rect(other), LABEL_CLEAR):
            yield f"the label of {named(edge)} is too close to the label of {named(other)}"


def line_faults(edge):
    """In words, what is wrong with where a line runs."""
    segments = segments_of(edge)
    for state in STATES:
        if any(closer(segment, state_rect(state), 0) for segment in segments):
            yield f"{named(edge)} runs through {state}"
    for state, side, shift in edge.start, edge.end:
        if abs(shift) > MIDDLE_PART / 2 * (BOX_HEIGHT if side in ("left", "right") else BOX_WIDTH):
            yield f"{named(edge)} ends near a corner of {state}"
    for other in EDGES:
        if other is not edge and any(closer(a, b, LINE_CLEAR) for a in segments for b in segments_of(other)):
            yield f"{named(edge)} is too close to {named(other)}"


def main():
    faults = [fault for edge in EDGES for fault in (*label_faults(edge), *line_faults(edge))]
    if faults:
        sys.exit("\n".join(faults))
    parts = [box(state_rect(state), "#dcefdc" if state == "Idle" else BOX_COLOUR) for state in STATES]
    for state, (number, x, y) in STATES.items():
        parts += text_lines(x, y, [f"{state} {number}"], STATE_SIZE)
    for edge in EDGES:
        parts += [arrow(points_of(edge)), *label_text(edge)]
    (Path(__file__).resolve().parent / "states.svg").write_text(document(WIDTH, HEIGHT, "the nine states", parts))


if __name__ == "__main__":
    main()

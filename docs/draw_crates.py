"""Draws the groups of crates.txt and which of them depends on which: python3 docs/draw_crates.py writes docs/crates.svg.

A group stands above those that it depends on. An arrow is left out where others already lead from the one group to the other. It draws
nothing and names the line where crates.txt lists a crate before the first heading or before a crate that it depends on, or gives a
heading twice."""

import sys
import textwrap
from pathlib import Path
from typing import NamedTuple

sys.dont_write_bytecode = True  # leaves no folder beside the pages
from drawing import Rect, arrow, box, document, line_height, text_lines, text_width

WIDTH = 760
MARGIN = 10
SPACE = 20  # between neighbours in a layer
LANE = 120  # the width that an arrow takes in a layer that it passes
GAP = 40  # between two layers
PADDING = 12  # between a box and its text
HEADING = 15  # the size of a heading
NAMES = 13  # the size of the crates' names


class Crate(NamedTuple):
    group: str
    line: int
    libraries: list


def refuse(line, what):
    sys.exit(f"crates.txt, line {line}: {what}")


def crates_of(text):
    """Each crate by its name, in order."""
    crates, groups = {}, []
    for number, line in enumerate(text.splitlines(), 1):
        if line.startswith("## "):
            if line in groups:
                refuse(number, "this heading was given before")
            groups.append(line)
        head, _, libraries = line.split("#")[0].partition(":")
        if words := head.split():  # the name, and then what kind of crate it is
            name = words[0]
            if not groups:
                refuse(number, f"{name} is listed before the first heading")
            crates[name] = Crate(groups[-1][3:], number, libraries.split())
    return crates


def groups_of(crates):
    """For each group, in order, the groups that a crate of it depends on."""
    groups = {crate.group: set() for crate in crates.values()}
    for name, crate in crates.items():
        for library in crate.libraries:
            if library not in crates:
                continue  # a library of the kit
            needed = crates[library]
            if needed.line >= crate.line:
                refuse(crate.line, f"{name} depends on {library}, which is listed no earlier, in line {needed.line}")
            if needed.group != crate.group:
                groups[crate.group].add(needed.group)
    return groups


def below(group, groups):
    """All groups that a group depends on, itself or through others."""
    return groups[group].union(*(below(lower, groups) for lower in groups[group]))


def level(group, groups):
    """How many layers lie below a group's."""
    return 1 + max((level(lower, groups) for lower in groups[group]), default=-1)


def arrows_of(groups):
    """The arrows, each from an upper group to a lower one."""
    return [
        (upper, lower)
        for upper in groups
        for lower in groups
        if lower in groups[upper] and not any(lower in below(other, groups) for other in groups[upper])
    ]


def layers_of(groups, arrows):
    """From the top layer to the lowest: its groups, then the arrows that pass it."""
    levels = {group: level(group, groups) for group in groups}
    return [
        [group for group in groups if levels[group] == at]
        + [(upper, lower) for upper, lower in arrows if levels[upper] > at > levels[lower]]
        for at in range(max(levels.values()), -1, -1)
    ]


def wrapped(names, width):
    """The names in lines that a box of a width holds."""
    return textwrap.wrap(", ".join(names), int((width - 2 * PADDING) / text_width("n", NAMES)))


def placed(layer, names, top):
    """Where the groups of a layer stand, with boxes of one size, and where arrows pass it; and its lower end."""
    boxes = [item for item in layer if item in names]
    width = (WIDTH - 2 * MARGIN - SPACE * (len(layer) - 1) - LANE * (len(layer) - len(boxes))) / len(boxes)
    lines = max(len(wrapped(names[group], width)) for group in boxes)
    bottom = top + 2 * PADDING + line_height(HEADING) + lines * line_height(NAMES)
    places, left = {}, MARGIN
    for item in layer:
        right = left + (width if item in names else LANE)
        places[item] = Rect(left, top, right, bottom)
        left = right + SPACE
    return places, bottom


def points_of(stops):
    """The points of an arrow from a box down to another, through the places where it passes a layer. Lines are drawn between layers and
    in those places alone, so that none runs through a box; a line is upright where what it joins lies one above the other."""
    points = []
    for upper, lower in zip(stops, stops[1:]):
        x = (max(upper.left, lower.left) + min(upper.right, lower.right)) / 2
        for stop, y in (upper, upper.bottom), (lower, lower.top):
            points.append((min(max(x, stop.left + LANE / 2), stop.right - LANE / 2), y))
    return points


def group_box(rect, heading, names):
    """The box of a group with its heading and its crates' names."""
    middle = (rect.left + rect.right) / 2
    lines = wrapped(names, rect.right - rect.left)
    top = rect.top + PADDING + line_height(HEADING)
    return [
        box(rect),
        *text_lines(middle, top - line_height(HEADING) / 2, [heading], HEADING, weight="bold"),
        *text_lines(middle, top + len(lines) * line_height(NAMES) / 2, lines, NAMES),
    ]


def main():
    docs = Path(__file__).resolve().parent
    crates = crates_of((docs.parent / "crates.txt").read_text())
    groups = groups_of(crates)
    names = {group: [name for name, crate in crates.items() if crate.group == group] for group in groups}
    arrows = arrows_of(groups)
    layers, bottom = [], MARGIN - GAP
    for layer in layers_of(groups, arrows):
        places, bottom = placed(layer, names, bottom + GAP)
        layers.append(places)
    parts = []
    for places in layers:
        for group in names:
            if group in places:
                parts += group_box(places[group], group, names[group])
    for upper, lower in arrows:
        stops = [places[item] for places in layers for item in (upper, (upper, lower), lower) if item in places]
        parts.append(arrow(points_of(stops)))
    picture = document(WIDTH, bottom + MARGIN, "the groups of crates, each above those that it depends on", parts)
    (docs / "crates.svg").write_text(picture)


if __name__ == "__main__":
    main()

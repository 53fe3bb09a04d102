#!/usr/bin/env python3
"""Draws what bench/run curves or bench/run antennas has printed, as SVG, PNG or PDF.

Every curve has its own marker and dashes and stands a little beside its neighbours, so that curves that coincide can be
told apart, without colours too. The same data make the same SVG, byte for byte.
"""

import argparse
import csv
import math
import re
import sys
from pathlib import Path

CRITERIA = {"0": "never", "1": "G-matrix", "2": "least size", "3": "steady marks",
            "4": "least size at information positions"}
# By the energies of both antennas and the second one's factor: the name, and how far the curve stands beside its Eb/N0.
ANTENNAS = {
    ("1", "0", "1"): ("one antenna", -5),
    ("0.5", "0.5", "1"): ("two antennas, each with half of the energy", 0),
    ("0.8", "0.2", "1"): ("two antennas, with 4/5 and 1/5 of the energy", 5),
    ("1", "1", "1"): ("a second antenna added, as strong as the first", 0),
    ("1", "0.25", "1"): ("a second antenna added, 6 dB weaker", 0),
    ("1", "0.25", "2"): ("6 dB weaker, with 2 times its exact factor", 0),
    ("1", "0.25", "4"): ("6 dB weaker, with 4 times its exact factor", 0),
}
RATE_NOTE = "Frame error rate: the bar is the 95 % interval (Wilson); a hollow point has fewer than 50 frame errors."
ARROW_NOTE = "Where no frame was wrong an arrow begins at the upper end of the interval."
CURVE_NOTES = ["The curves stand side by side at each point, so that those that coincide can be told apart."]
ANTENNA_NOTES = [
    "Eb/N0 is that of all antennas together; where a second one is added, that of the first; under fading the mean.",
    "The curves of the first column stand side by side, since on the steady channel their error rates coincide.",
    "2 times is the first's factor; so is 4 times, where the second is amplified until it is as strong as the first.",
]
COLOURS = ["#0b6fb8", "#7a7a7a", "#e8862e", "#1d7a3e", "#8e44ad", "#c2185b", "#7a5230", "#009e9e"]
MARKERS = ["o", "s", "^", "D", "v", "p", "<", ">"]
# from the densest to the sparsest: where two coincide the later one is drawn over the earlier, which its gaps show
DASHES = ["-", (0, (7, 1.5)), (0, (5, 2)), (0, (6, 2, 1.5, 2)), (0, (3, 3)), (0, (4, 3, 1, 3)), (0, (1.5, 2.5)),
          (0, (1.5, 4))]
FEW = 50
ENDINGS = [".svg", ".png", ".pdf"]


def fail(slip):
    """One line for a slip of the user."""
    print(f"bench/run figure: {slip}", file=sys.stderr)
    sys.exit(2)


class Parser(argparse.ArgumentParser):
    def error(self, message):
        fail(f"{message}; --help lists the options")


class Curve:
    """Points are the place on the x axis, blocks, frame errors and the total of iterations."""

    def __init__(self, label, beside, panel):
        self.label, self.beside, self.panel, self.points = label, beside, panel, []


def wilson(wrong, blocks, z=1.96):
    """The ends of the 95 % interval of a rate."""
    rate, scale = wrong / blocks, 1 + z * z / blocks
    centre = (rate + z * z / (2 * blocks)) / scale
    half = z / scale * math.sqrt(rate * (1 - rate) / blocks + z * z / (4 * blocks * blocks))
    return max(centre - half, 0), min(centre + half, 1)


def rows(name):
    """The rows of a file, and which column is the x axis."""
    try:
        with open(name, newline="") as file:
            reader = csv.DictReader(file)
            table, columns = list(reader), reader.fieldnames or []
    except (OSError, UnicodeDecodeError, csv.Error) as error:
        fail(f"{name}: can't be read: {error}")
    axis = next((column for column in ["db", "probability"] if column in columns), None)
    curve = ["channel", "first", "second", "second_factor"] if "channel" in columns else ["criterion", "operand"]
    if axis is None or not {*curve, "blocks", "frame_errors", "iterations"} <= set(columns) or not table:
        fail(f"{name}: the data of bench/run curves or bench/run antennas are expected")
    return table, axis, curve


def point(name, number, row, axis):
    """The numbers of one row."""
    try:
        place, counts = float(row[axis]), [int(row[column]) for column in ["blocks", "frame_errors", "iterations"]]
    except (TypeError, ValueError):
        fail(f"{name}: row {number} has something that is no number")
    if not math.isfinite(place) or not 0 <= counts[1] <= counts[0] or counts[0] == 0:
        fail(f"{name}: row {number} can't be counts of blocks and frame errors")
    return place, *counts


def described(curve, values):
    """The label of a curve, its place beside the others where that is fixed, and its panel."""
    if curve[0] == "channel":
        channel, *key = values
        unknown = (f"energies {key[0]} and {key[1]}, second factor {key[2]}", 0)
        return *ANTENNAS.get(tuple(key), unknown), channel
    criterion, operand = values
    label = f"criterion {criterion}: {CRITERIA.get(criterion, 'unknown')}"
    return label if operand == "0" else f"{label}, operand {operand}", None, "rates"


def read(names):
    """The curves of all files, the x axis, and whether they are of antennas."""
    curves, kinds = {}, set()
    stems = {Path(name).stem for name in names}
    for name in names:
        table, axis, curve = rows(name)
        kinds.add((axis, curve[0] == "channel"))
        if len(kinds) > 1:
            fail(f"{name}: has other columns than {names[0]}; files of one kind are expected")
        for number, row in enumerate(table, 2):
            values = tuple(row[column] for column in curve)
            label, beside, panel = described(curve, values)
            if len(names) > 1:
                label = f"{Path(name).stem if len(stems) == len(names) else name}, {label}"
            found = curves.setdefault((name, values), Curve(label, beside, panel))
            found.points.append(point(name, number, row, axis))
    return list(curves.values()), *kinds.pop()


def styles(curves):
    """For each label its colour, marker and dashes; curves without a place get one beside the others."""
    labels = list(dict.fromkeys(curve.label for curve in curves))
    places = sorted({x for curve in curves for x, *_ in curve.points})
    nearest = min((after - before for before, after in zip(places, places[1:])), default=1)
    # the places have some 300 points of a panel; all curves together take nine tenths of the way to the nearest place
    pitch = min(5.5, 270 * nearest / ((places[-1] - places[0]) or 1) / len(labels))
    for curve in curves:
        if curve.beside is None:
            curve.beside = (labels.index(curve.label) - (len(labels) - 1) / 2) * pitch
    count = len(COLOURS)
    return {
        label: {"color": COLOURS[i % count], "marker": MARKERS[(i + i // count) % count], "markersize": 4,
                "linestyle": DASHES[i % count], "linewidth": 1.2, "zorder": 2 + i / 100}
        for i, label in enumerate(labels)}


def beside(panel, points):
    """The panel's places, moved sideways by so many points."""
    from matplotlib.transforms import ScaledTranslation
    return panel.transData + ScaledTranslation(points / 72, 0, panel.figure.dpi_scale_trans)


def draw_rates(panel, curve, style):
    """Frame error rates with their intervals; an arrow down where no frame was wrong. Whether there is an arrow."""
    from matplotlib.markers import CARETDOWN
    moved = {"transform": beside(panel, curve.beside)}
    bar = {"color": style["color"], "linewidth": 0.9, "zorder": style["zorder"], **moved}
    wrong = [(x, errors / blocks, *wilson(errors, blocks), errors < FEW) for x, blocks, errors, _ in curve.points
             if errors > 0]
    panel.plot([x for x, *_ in wrong], [rate for _, rate, *_ in wrong], **{**style, "marker": ""}, **moved)
    for few, fill in [(False, style["color"]), (True, "white")]:
        points = [(x, rate) for x, rate, _, _, hollow in wrong if hollow == few]
        panel.plot([x for x, _ in points], [rate for _, rate in points], markerfacecolor=fill,
                   **{**style, "linestyle": "", "zorder": style["zorder"] + 0.5}, **moved)
    panel.vlines([x for x, *_ in wrong], [low for _, _, low, *_ in wrong], [high for _, _, _, high, _ in wrong], **bar)
    panel.plot([x for x, *_ in wrong for _ in "ab"], [end for _, _, *ends, _ in wrong for end in ends], marker="_",
               markersize=4, **{**bar, "linewidth": 0})
    none = [(x, wilson(0, blocks)[1]) for x, blocks, errors, _ in curve.points if errors == 0]
    for x, high in none:
        panel.plot([x, x], [high, high / 1.6], marker=CARETDOWN, markevery=[1], markersize=5, **bar)
    return bool(none)


def lowest_rate(curves):
    """A power of ten below all that is drawn."""
    ends = [wilson(errors, blocks)[0] if errors > 0 else wilson(0, blocks)[1] / 2
            for curve in curves for _, blocks, errors, _ in curve.points]
    return 10.0 ** min(math.floor(math.log10(min(ends))), -1)


def prepare(panel, title, axis, curves, low):
    """Axes of a panel; the upper end of a logarithmic one is 1."""
    panel.set_title(title, loc="left", fontsize=11, fontweight="bold")
    panel.set_xlabel("Eb/N0 in dB" if axis == "db" else "probability of a bad sample")
    places = [x for curve in curves for x, *_ in curve.points]
    room = 0.05 * (max(places) - min(places)) or 0.05 * abs(places[0]) or 1
    panel.set_xlim(min(places) - room, max(places) + room)
    panel.grid(color="#dddddd", linewidth=0.8)
    panel.set_axisbelow(True)
    if low > 0:
        panel.set_yscale("log")
        panel.set_ylim(low, 1.3)
        panel.yaxis.set_major_formatter(lambda value, _: f"{value:g}")


def draw(panels, curves, axis, antennas):
    """Fills both panels. Whether there is an arrow, and the styles by label."""
    look = styles(curves)
    titles = {"steady": "Frame error rate, steady channel", "fading": "Frame error rate, Rayleigh fading",
              "rates": "Frame error rate"}
    arrows = False
    for panel, name in zip(panels, ["steady", "fading"] if antennas else ["rates"]):
        drawn = [curve for curve in curves if curve.panel == name]
        if drawn:
            prepare(panel, titles[name], axis, drawn, lowest_rate(curves))
        for curve in drawn:
            arrows |= draw_rates(panel, curve, look[curve.label])
    if not antennas:
        prepare(panels[1], "Iterations on average", axis, curves, 0)
        for curve in curves:
            means = [(x, total / blocks) for x, blocks, _, total in curve.points]
            panels[1].plot(*zip(*means), transform=beside(panels[1], curve.beside / 2), **look[curve.label])
        most = max(total / blocks for curve in curves for _, blocks, _, total in curve.points)
        panels[1].set_ylim(0, 1.06 * most)
    return arrows, look


def legend(picture, look):
    """The legend below the panels, in as many columns as the picture is wide. The height where it ends."""
    from matplotlib.lines import Line2D
    lines = [Line2D([], [], **style) for style in look.values()]
    for columns in [3, 2, 1]:
        made = picture.legend(lines, look, ncol=columns, loc="upper left", bbox_to_anchor=(0.05, 0), frameon=False,
                              handlelength=4.5, columnspacing=1.5)
        picture.canvas.draw()
        place = made.get_window_extent()
        if place.xmax <= picture.bbox.width or columns == 1:
            return place.ymin / picture.bbox.height
        made.remove()


def figure(curves, axis, antennas, title):
    """The whole picture. Legend and notes stand below the panels, where nothing else is."""
    import matplotlib
    matplotlib.rcParams.update({
        "svg.hashsalt": "vedrogne", "svg.fonttype": "none", "font.sans-serif": ["DejaVu Sans"], "font.size": 9,
        "axes.edgecolor": "#888888", "axes.unicode_minus": False})
    from matplotlib.figure import Figure
    picture = Figure(figsize=(11.5, 4.4), dpi=100)
    panels = picture.subplots(1, 2, gridspec_kw={"wspace": 0.16, "left": 0.06, "right": 0.98, "bottom": 0.12})
    if title:
        picture.suptitle(title, fontsize=12, fontweight="bold", y=1.02)
    arrows, look = draw(panels, curves, axis, antennas)
    below = legend(picture, look)
    notes = [RATE_NOTE] + [ARROW_NOTE] * arrows + (ANTENNA_NOTES if antennas else CURVE_NOTES)
    for number, note in enumerate(notes):
        picture.text(0.06, below - 0.02 - 0.04 * number, note, va="top", fontsize=8.5)
    return picture


def broken(tag):
    """A tag and the text behind it. The tag may be broken at any blank, the text may not."""
    lines = []
    for line in tag.group(1).split("\n"):
        lines.append("")
        for word in line.rstrip().split(" "):
            if len(lines[-1]) + len(word) > 100:
                lines.append("")
            lines[-1] += f" {word}" if lines[-1].strip() else word or " "
    text = tag.group(2)
    end = "\n>" if len(lines[-1] + text) > 110 and text else ">"
    return "\n".join(lines) + end + text


def wrapped(svg):
    """The same picture in lines of at most 120 characters, without blanks at their ends."""
    whole = re.sub(r"(<[^>]*)>([^<\n]*)", broken, svg)
    return "\n".join(line.rstrip() for line in whole.splitlines()) + "\n"


def save(picture, out):
    kind = out.suffix[1:]
    metadata = {"svg": {"Date": None, "Creator": None}, "pdf": {"CreationDate": None}}.get(kind)
    try:
        picture.savefig(out, format=kind, dpi=150, metadata=metadata, bbox_inches="tight", pad_inches=0.1)
        if kind == "svg":
            out.write_text(wrapped(out.read_text()))
    except OSError as error:
        fail(f"{out}: can't be written: {error}")


def main():
    parser = Parser(prog="bench/run figure", description="Draws the data of bench/run curves or bench/run antennas: "
                    "frame error rate beside iterations on average, or a steady beside a fading channel.")
    parser.add_argument("data", nargs="+", metavar="DATA", help="comma-separated values; several files in one figure")
    parser.add_argument("-o", "--output", metavar="OUT", help="the figure, .svg, .png or .pdf (the first DATA's .svg)")
    parser.add_argument("--title", metavar="TEXT", help="stands above the figure")
    given = parser.parse_args()
    out = Path(given.output or Path(given.data[0]).with_suffix(".svg"))
    if out.suffix not in ENDINGS:
        fail(f"{out}: the ending .svg, .png or .pdf is expected")
    if any(Path(name).resolve() == out.resolve() for name in given.data):
        fail(f"{out}: is both data and figure; name the figure with -o")
    curves, axis, antennas = read(given.data)
    try:
        picture = figure(curves, axis, antennas, given.title)
    except ModuleNotFoundError:
        print("bench/figure.py: matplotlib is missing; install it (Debian: apt install python3-matplotlib, else pip "
              "install matplotlib)", file=sys.stderr)
        sys.exit(2)
    save(picture, out)


if __name__ == "__main__":
    main()

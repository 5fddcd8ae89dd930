"""Pictures of the pages: a bar of parts, and a strip of arrivals, as SVG without a script."""

import dataclasses
from collections.abc import Iterable, Sequence

import markupsafe

from society_office.formats.numbering import Line, as_sent, number_in, rank_in, segment_of

# What each part of a pool and each state of a file is, and its colour; the colours differ in lightness too, for print in grey.
PARTS = {"paid": "#2f6f4f", "settled": "#7fb69a", "share": "#d9b13b", "conflict": "#b3541e", "nobody": "#c3c9d4"}
PART_WORDS = {
    "paid": "paid",
    "settled": "paid since, by a make-up",
    "share": "share that nobody collects",
    "conflict": "claimed by several",
    "nobody": "no owner at the cut",
}
STATES = {"applied": "#2f6f4f", "waits": "#d9b13b", "missing": "#b3541e", "skipped": "#c3c9d4"}
STATE_WORDS = {"applied": "applied", "waits": "waits", "missing": "missing", "skipped": "never applied"}
WIDTH, HEIGHT, GAP = 1_000, 10, 6


def rectangle(left: float, width: float, colour: str, words: str) -> str:
    """A part of a picture, with the words that it is named by."""
    title = markupsafe.escape(words)
    return f'<rect x="{left:.2f}" y="0" width="{width:.2f}" height="{HEIGHT}" fill="{colour}"><title>{title}</title></rect>'


def svg(kind: str, label: str, parts: Iterable[str]) -> markupsafe.Markup:
    """A picture that fills the width that it is given."""
    head = (
        f'<svg class="{kind}" viewBox="0 0 {WIDTH} {HEIGHT}" preserveAspectRatio="none" role="img" aria-label="{markupsafe.escape(label)}">'
    )
    return markupsafe.Markup(head + "".join(parts) + "</svg>")


def bar(parts: dict[str, int]) -> markupsafe.Markup:
    """A bar of a pool's parts, in the order of PARTS."""
    whole = sum(parts.values())
    left, drawn = 0.0, []
    for name, colour in PARTS.items():
        width = WIDTH * parts.get(name, 0) / whole if whole else 0
        if width:
            drawn.append(rectangle(left, width, colour, f"{PART_WORDS[name]}: {parts[name]:,} units"))
        left += width
    label = ", ".join(f"{PART_WORDS[name]} {100 * parts.get(name, 0) / whole if whole else 0:.1f} %" for name in PARTS)
    return svg("bar", label, drawn)


def single_bar(value: int, most: int, words: str) -> markupsafe.Markup:
    """A bar of one value beside the greatest of them."""
    return svg("bar", words, [rectangle(0, WIDTH * value / most if most else 0, PARTS["paid"], words)])


@dataclasses.dataclass(frozen=True)
class Run:
    """Files that follow one another and are in one state."""

    state: str
    first: int
    last: int

    @property
    def words(self) -> str:
        """The run in words: `3 to 7 missing`."""
        span = as_sent(self.first) if self.first == self.last else f"{as_sent(self.first)} to {as_sent(self.last)}"
        return f"{span} {STATE_WORDS[self.state]}"


def segments_of(line: Line) -> list[tuple[int, int]]:
    """The segments of a line in their order, each with its greatest number that has come or is stated as its end."""
    greatest: dict[int, int] = {}
    for it in line.numbers:
        greatest[segment_of(it)] = number_in(it)
    for segment, (last, _) in line.ends.items():
        greatest[segment] = max(last, greatest.get(segment, 0))
    return sorted((it, last) for it, last in greatest.items() if last)


def runs_of(line: Line) -> list[list[Run]]:
    """The runs of each segment of a sender's line."""
    way, applied, waiting, skipped = line.way, set(line.applied), set(line.waiting), set(line.skipped)
    found: list[list[Run]] = []
    for segment, last in segments_of(line):
        runs: list[Run] = []
        for rank in range(rank_in(segment, 1), rank_in(segment, last) + 1):
            state = "applied" if rank in applied else "waits" if rank in waiting else "skipped" if rank in skipped else "missing"
            if state == "missing" and segment not in way and segment < way[-1]:
                state = "skipped"
            if runs and runs[-1].state == state:
                runs[-1] = Run(state, runs[-1].first, rank)
            else:
                runs.append(Run(state, rank, rank))
        found.append(runs)
    return found


def strip(line: Line) -> markupsafe.Markup:
    """The strip of a sender's arrivals: its files in the order of their numbers, with a gap between the years."""
    segments = runs_of(line)
    files = sum(run.last - run.first + 1 for runs in segments for run in runs)
    room = WIDTH - GAP * max(0, len(segments) - 1)
    left, drawn = 0.0, []
    for runs in segments:
        for run in runs:
            # A run is at least two parts in a thousand wide, so that one missing file of many is seen.
            width = max(2.0, room * (run.last - run.first + 1) / files)
            drawn.append(rectangle(min(left, WIDTH - width), width, STATES[run.state], run.words))
            left += room * (run.last - run.first + 1) / files
        left += GAP
    return svg("strip", strip_words(segments), drawn)


def strip_words(segments: Sequence[Sequence[Run]]) -> str:
    """A strip in words, the first runs of it."""
    words = [run.words for runs in segments for run in runs]
    return ", ".join(words[:8]) + (" and more" if len(words) > 8 else "") if words else "no file"


def swatch(colour: str) -> markupsafe.Markup:
    """A square of a colour, for a legend."""
    return markupsafe.Markup(f'<svg viewBox="0 0 10 10" aria-hidden="true"><rect width="10" height="10" fill="{colour}"/></svg>')


def legend(colours: dict[str, str], words: dict[str, str]) -> list[tuple[markupsafe.Markup, str]]:
    """The lines of a legend."""
    return [(swatch(colour), words[name]) for name, colour in colours.items()]

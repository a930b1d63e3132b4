#!/usr/bin/env python3
"""Draws a run of play as an SVG picture, from its script and its report alone.

    ./draw [--events A..B] [SCRIPT [REPORT]] > PICTURE.svg
    ./draw --page [SCRIPT [REPORT]] > PAGE.html

REPORT is what `./run play SCRIPT` writes; without it the script is played as `./run play` does. Without SCRIPT
the script is read from the standard input, and `-` in the place of one of the two reads that from there. The
picture goes to the standard output, and the same script and report give the same bytes.

A script for threads has no events to draw. A run of it is drawn by `./record SCRIPT | ./draw`, and a play of a
history by `./check HISTORY | ./draw`.

Time goes downwards: each event has a row, with its place and its line of the script at the left. Each
caller and each actor has a lane, callers left of actors. What goes from one side to the other leaves its
lane along its row, slants between the two sides, and arrives along the row of the event that brings it:

  - a letter, from its sending to each of its deliveries. A delivery that was a repeat is dashed. A letter
    that never arrives ends in a cross: soon, where no line delivers it, and grey at its actor's lane,
    where the actor had ended. The letter has its place in the mail at both ends.
  - a reply, from its run to each collection of it, with the answer that was kept. A late one is dashed;
    one that nobody collects is a short stub.
  - a death, from where it is told to each collection, with how many futures it answered.
  - a kill, from each asking to where it is taken; one that is never taken ends in a cross.

What travels more than 15 rows is no line: it has a stub where it leaves and another where it arrives. The words
there tell the other end, `→ 437` where it arrives at event 437 and `← 212` where it came from event 212. Where a
run begins with 16 submissions or more, these are one row, which tells how many calls each caller has.

A run is a box on its actor's lane: its place in the run list, and its call with its arguments as they
were settled; an actor that hadn't the caller's next call shows `gap`. A lane is cut by a bar where its
actor dies or retires, and dotted after it. A refused event is grey, with the refusal at its lane, or behind
its line where it is of no lane. Over each lane stands its name, an actor's with its kind and its limit, and
under it how it is at the end of the run. A legend explains each sign and each colour that is there.

`--events 40..80` draws the events 40 to 80 alone, as the report numbers them. What began before them comes
from the upper edge, and what arrives after them leaves at the lower one; under the rows stands how much was
on its way all the while.

`--page` makes a page for a browser, which needs no network: the whole run, of which the rows in view are drawn. Its
arrow keys step from event to event, and along a call. A call, a caller or an actor can be followed, by a click or
by its name. A pointer over a letter, a run or a reply shows all that belongs to its call. The end of an address
opens the page there: PAGE.html#c1.0, PAGE.html#a1 or PAGE.html#42.

A picture is at most 1000 pixels wide, as a page shows no more. A lane at which none of its events happens
is left out, and named under the rows. Where the others don't fit, the two sides come closer, then the lanes,
so that words may stand over other lanes. Where these would be crowded, words stand left of all callers and
right of all actors, each tied to its lane by a faint line. At last words are cut. A pointer held over words
that are cut shows them whole; over a line it shows the letter or the notice, and where it began and ended.

A script at fault is explained, as `./explain` does.

Statuses: 0; 1 for a script fault, of which there is nothing to draw; 2 for wrong words, for a file that
can't be read, and for a report that isn't one of the script; 4 where the picture can't be written; else
that of the program.
"""
import pathlib
import re
import shlex
import subprocess
import sys
import textwrap
from collections import Counter
from dataclasses import dataclass
from functools import partial
from xml.sax.saxutils import escape, quoteattr

import program
import run as runs
from layout import AT_THE_END, BESIDE, EDGE, FAR, LEGEND_WIDTH, LEVEL, NAME, ROW, SPACE
from layout import Layout, cut, highest, letters_in, width_of
from story import Passage, Story, read_run

USAGE = (
    "usage: ./draw [--events A..B | --page] [SCRIPT [REPORT]]"
    "    (without SCRIPT, or where one is `-`, the standard input)\n"
)
# A line that tells what was left, as only a history has.
HISTORY = re.compile(rb"^(?:c[0-9]+[.][0-9]+ a[0-9]+ [=?]|a[0-9]+ (?:live|retired|dead))", re.M)

# Colours.

COOL = ["#1f5fa8", "#1b8a7a", "#6a4fb3", "#2f7d32", "#3a86c8", "#4b5d9b"]
WARM = ["#b45309", "#9d174d", "#8a6d00", "#c2410c", "#7c4a2d"]
RED = "#c81e1e"
GREY = "#9a9a9a"

FAR_STUB = 15  # how long each of the two is

STYLE = """
text { font-family: 'DejaVu Sans Mono', Menlo, Consolas, monospace; font-size: 12px; fill: #222 }
.place { fill: #777 } .grey { fill: #9a9a9a } .head { font-weight: bold } .again { fill: #888 }
.red { fill: #c81e1e } .green { fill: #2f7d32 } .end, .note { fill: #555 }
.lane { stroke: #777; stroke-width: 1.5 } .after { stroke: #aaa; stroke-width: 1.5; stroke-dasharray: 2 4 }
.leader { stroke: #bbb } .edge { stroke: #777; stroke-dasharray: 8 3 2 3 }
.band { fill: #f5f5f5 } .plain { fill: #fff } .box { fill: #fff6d6; stroke: #8a6d00 }
.dot { fill: #333; stroke: #333 } .submit, .gap { fill: #fff } .handle { fill: #bbb } .urgent { fill: #c81e1e }
.refused { fill: #fff; stroke: #9a9a9a }
.bar { stroke-width: 4 } .dead { stroke: #c81e1e } .retired { stroke: #2f7d32 }
.way { fill: none; stroke-width: 1.5 } .dashed .way { stroke-dasharray: 6 4 } .stub .way { stroke-dasharray: 2 3 }
"""


# Signs.


def text_at(x, y, text, sort="", anchor="start", whole=None):
    """A text with its line's middle at this height; `whole` is what a pointer shows."""
    sort = f' class="{sort}"' if sort else ""
    anchor = f' text-anchor="{anchor}"' if anchor != "start" else ""
    title = f"<title>{escape(whole)}</title>" if whole and whole != text else ""
    return f'<text x="{x}" y="{y + 4}"{sort}{anchor} xml:space="preserve">{escape(text)}{title}</text>'


def line_at(x, top, bottom, sort):
    return f'<line x1="{x}" y1="{top}" x2="{x}" y2="{bottom}" class="{sort}"/>'


def line_along(path, colour):
    return f'<path d="{path}" class="way" stroke="{colour}"/>'


def cross_at(x, y, colour):
    return f'<path d="M{x - 4},{y - 4} l8,8 m0,-8 l-8,8" class="cross" stroke="{colour}" stroke-width="2" fill="none"/>'


def tip_at(x, y, goes_right, colour):
    """An arrow's head that ends here."""
    return f'<path d="M{x},{y} l{-9 if goes_right else 9},-4 v8 z" class="tip" fill="{colour}"/>'


def dot_at(x, y, sort):
    return f'<circle cx="{x}" cy="{y}" r="3.5" class="dot {sort}"/>'


def square_at(x, y, sort):
    return f'<rect x="{x - 3.5}" y="{y - 3.5}" width="7" height="7" class="dot {sort}"/>'


def box_at(x, y, words):
    """The box of a run, for words that begin beside the lane."""
    width = BESIDE + width_of(words) + 8
    return f'<rect x="{x - 3}" y="{y - 8}" width="{width}" height="16" rx="3" class="box"/>'


def bar_at(x, y, sort):
    return f'<path d="M{x - 8},{y} h16" class="bar {sort}"/>'


def finish_at(end, x, y, goes_right, colour):
    """How a line ends: with a head, with a cross, or as it is."""
    return {"tip": tip_at(x, y, goes_right, colour), "cross": cross_at(x, y, colour), "": ""}[end]


SIGNS = {
    "submit": (dot_at, "a call is submitted"),
    "send": (dot_at, "a letter is sent"),
    "handle": (dot_at, "a handle is copied or released"),
    "urgent": (dot_at, "a kill is asked, or a death told"),
    "refused": (dot_at, "refused: nothing changes"),
    "gap": (square_at, "gap: the next call isn't there"),
    "run": (lambda x, y, _: box_at(x - 17, y, "0: …") + text_at(x - 8, y, "0: …"), "a run: its place and its call"),
    "dead": (bar_at, "the actor dies"),
    "retired": (bar_at, "the actor retires"),
    "after": (lambda x, y, _: line_at(x, y - 8, y + 8, "after"), "the actor has ended"),
}
SIGN_OF = {"kill": "urgent", "tell": "urgent"}


# What passes between the lanes.


@dataclass(frozen=True)
class Look:
    """How the line of a passage looks, and what the legend says of it."""

    name: str
    shades: list
    dashes: str
    end: str
    words: str

    def classes(self, first):
        return f"{first} {self.name.replace(' ', '_')} {self.dashes}".strip()

    def sample(self, shades, x, y):
        """A short line, in each of these shades one after the other."""
        marks = [x + 42 * number // len(shades) for number in range(len(shades) + 1)]
        lines = (line_along(f"M{begin},{y} H{end}", shade) for begin, end, shade in zip(marks, marks[1:], shades))
        drawn = "".join(lines) + finish_at(self.end, x + 42, y, True, shades[-1])
        return f'<g class="{self.classes("sample")}">{drawn}</g>'


LOOKS = [
    Look("letter", COOL, "", "tip", "a letter, sent and delivered"),
    Look("letter repeat", COOL, "dashed", "tip", "repeat: the letter had arrived"),
    Look("letter turned away", [GREY], "dashed", "cross", "a letter to an actor that had ended"),
    Look("letter lost", COOL, "", "cross", "a letter that never arrives"),
    Look("reply", WARM, "", "tip", "a reply, sent and collected"),
    Look("reply late", WARM, "dashed", "tip", "late: its call had an answer"),
    Look("reply lost", WARM, "stub", "", "a reply that nobody collects"),
    Look("death", [RED], "", "tip", "a death, and the calls it answered"),
    Look("death lost", [RED], "stub", "", "a death that nobody collects"),
    Look("kill", [RED], "", "tip", "a kill, asked and taken"),
    Look("kill lost", [RED], "", "cross", "a kill that is never taken"),
]
COUNTED = {
    "letter": ("letter", "letters"), "reply": ("reply", "replies"), "death": ("death", "deaths"), "kill": ("kill", "kills"),
}  # fmt: skip
NO_CHANGE = {"repeat", "late", "turned away"}
LOST = "lost"


@dataclass(frozen=True)
class Way:
    """A line of the picture: a passage with one arrival of it, or one that arrives nowhere."""

    passage: Passage
    end: int | None
    came_to: str

    @property
    def look(self):
        sort = self.passage.sort
        name = f"{sort} {self.came_to}" if self.came_to in {*NO_CHANGE, LOST} else sort
        return next(look for look in LOOKS if look.name == name)

    @property
    def colour(self):
        return self.look.shades[self.passage.number % len(self.look.shades)]

    @property
    def goes_right(self):
        return self.passage.sort in ("letter", "kill")

    def is_far(self):
        return self.end is not None and self.end - self.passage.begin > FAR

    def touches(self, shown):
        return self.passage.begin in shown or self.end in shown

    def passes(self, shown):
        """Whether it begins before these events and arrives after them."""
        return self.end is not None and self.passage.begin < shown.start and self.end >= shown.stop

    def drawn(self, inner, first=None):
        """The line with what a pointer shows of it, where it begins and where it ends."""
        passage = self.passage
        end = "arrives nowhere" if self.end is None else f"to {passage.target} at {self.end}: {self.came_to}"
        title = f"{passage.name}, from {passage.source} at {passage.begin} {end}"
        data = f'data-begin="{passage.begin}"' + ("" if self.end is None else f' data-end="{self.end}"')
        sort = self.look.classes(first or ("lost" if self.end is None else "arrow"))
        return f'<g class="{sort}" {data}><title>{escape(title)}</title>{inner}</g>'


def ways_of(story):
    """All lines; those that changed something come last, and stand on top."""
    ways = [Way(passage, *end) for passage in story.passages() for end in passage.arrivals or [(None, LOST)]]
    return sorted(ways, key=lambda way: way.end is not None and way.came_to not in NO_CHANGE)


WORDS_IN = {
    "kill": "red", "dead": "red", "tell": "red", "death": "red", "retired": "green",
    "gap": "grey", "late": "grey", "refused": "grey", "turned_away": "grey",
}  # fmt: skip


class Picture:
    """The SVG of a story, of the events that are shown."""

    def __init__(self, story, shown, name, **how):
        self.story = story
        self.shown = shown
        self.name = name
        self.at = Layout(story, shown, **how)
        ways = ways_of(story)
        self.ways = [way for way in ways if way.touches(shown)]
        self.passing = [way for way in ways if way.passes(shown)]
        self.place_edges()

    # What passes between the lanes.

    def place_edges(self):
        """Where lines come from the upper edge and leave at the lower one, so that few of them cross."""
        near = [way for way in self.ways if not way.is_far()]
        coming = [way for way in near if way.passage.begin not in self.shown]
        leaving = [way for way in near if way.end is not None and way.end not in self.shown]
        self.from_above = self.spread(sorted(coming, key=lambda way: way.end), at_begin=False)
        self.to_below = self.spread(sorted(leaving, key=lambda way: -way.passage.begin), at_begin=True)

    def spread(self, ways, at_begin):
        """Spreads the ways over the half of the gap in which they begin or end, from its side to the middle."""
        places = {}
        for goes_right in False, True:
            those = [way for way in ways if way.goes_right == goes_right]
            step = (self.at.gap_end - self.at.gap_begin) / 2 / (len(those) + 1)
            side, step = (self.at.gap_begin, step) if goes_right == at_begin else (self.at.gap_end, -step)
            places |= {way: round(side + step * number) for number, way in enumerate(those, 1)}
        return places

    def path(self, way):
        """From the lane along the row, through the gap, along the row of the end; or from and to the edges."""
        at, begin = self.at, way.passage.begin
        near, far = (at.gap_begin, at.gap_end) if way.goes_right else (at.gap_end, at.gap_begin)
        if way in self.from_above:
            start = f"M{self.from_above[way]},{at.upper_edge}"
        else:
            start = f"M{at.lanes[way.passage.source]},{at.height_of(begin)} H{near}"
        if way in self.to_below:
            return f"{start} L{self.to_below[way]},{at.lower_edge}"
        return f"{start} L{far},{at.height_of(way.end)} H{at.lanes[way.passage.target]}"

    def way(self, way):
        if way.end is None:
            return self.stub(way)
        if way.is_far():
            return self.two_stubs(way)
        inner = line_along(self.path(way), way.colour)
        if way not in self.to_below:
            x, y = self.at.lanes[way.passage.target], self.at.height_of(way.end)
            inner += finish_at(way.look.end, x, y, way.goes_right, way.colour)
        return way.drawn(inner)

    def stub(self, way):
        """The way of what arrives nowhere: a letter or a kill comes as far as the gap."""
        source, y = self.at.lanes[way.passage.source], self.at.height_of(way.passage.begin)
        end = self.at.gap_begin if way.goes_right else source - 24
        inner = line_along(f"M{source},{y} H{end}", way.colour)
        return way.drawn(inner + finish_at(way.look.end, end, y, True, way.colour))

    def two_stubs(self, way):
        """What travels far: how it leaves, and how it arrives, each where that is shown."""
        ahead = FAR_STUB if way.goes_right else -FAR_STUB
        parts = []
        if way.passage.begin in self.shown:
            x, y = self.at.lanes[way.passage.source], self.at.height_of(way.passage.begin)
            inner = line_along(f"M{x},{y} H{x + ahead}", way.colour)
            parts.append(inner + tip_at(x + ahead, y, way.goes_right, way.colour))
        if way.end in self.shown:
            x, y = self.at.lanes[way.passage.target], self.at.height_of(way.end)
            inner = line_along(f"M{x - ahead},{y} H{x}", way.colour)
            parts.append(inner + finish_at(way.look.end, x, y, way.goes_right, way.colour))
        return "".join(way.drawn(inner, "far") for inner in parts)

    # The rows.

    def band(self, place):
        top = self.at.height_of(place) - ROW // 2
        return f'<rect x="0" y="{top}" width="{self.at.width}" height="{ROW}" class="band"/>'

    def row(self, place):
        event, y = self.story.run.events[place], self.at.height_of(place)
        grey = "grey" if event.is_refused() else ""
        number = text_at(self.at.places_end, y, str(place), "place", "end")
        whole = f"{' '.join(event.words)}: {event.outcome}"
        line = text_at(self.at.lines_begin, y, self.at.shown_line(place), grey, whole=whole)
        return f'<g class="event" data-place="{place}" data-height="{y}">{number}{line}</g>'

    def stairs(self):
        """The row of the submissions that come first, where they are many."""
        if not self.at.stairs:
            return
        last, y = self.at.stairs - 1, self.at.height_of(0)
        number = text_at(self.at.places_end, y, "0", "place", "end")
        line = text_at(self.at.lines_begin, y, self.at.stairs_line())
        yield f'<g class="event" data-place="0" data-last="{last}" data-height="{y}">{number}{line}</g>'
        for lane in self.at.submitted:
            yield dot_at(self.at.lanes[lane], y, "submit")

    def under(self, begin, words, y, sort):
        """What keeps the lanes from running through these words."""
        if not self.at.crosses(begin, words):
            return ""
        return f'<rect x="{begin - 2}" y="{y - 8}" width="{width_of(words) + 4}" height="16" class="{sort}"/>'

    def tie(self, mark):
        """What ties words that stand outside to their lane."""
        x, other, y = self.at.lanes[mark.lane], self.at.lane_of_words(mark.lane), self.at.height_of(mark.place)
        if x == other:
            return ""
        end = other - BESIDE + 3 if other < x else other + BESIDE - 3
        return f'<line x1="{x}" y1="{y}" x2="{end}" y2="{y}" class="tie" stroke="#ddd"/>'

    def sign(self, mark, words):
        """What stands on the lane itself."""
        x, y = self.at.lanes[mark.lane], self.at.height_of(mark.place)
        if mark.sort == "run":
            words = "" if self.at.is_outside else words
            bar = bar_at(x, y + 9, "dead") if self.story.ended.get(mark.lane) == mark.place else ""
            return box_at(x, y, words) + bar
        sort = SIGN_OF.get(mark.sort, mark.sort)
        return SIGNS[sort][0](x, y, sort) if sort in SIGNS else ""

    def mark(self, mark):
        y = self.at.height_of(mark.place)
        words, begin = self.at.words_at(mark)
        under = self.under(begin, words, y, "band" if mark.place % 2 else "plain")
        text = text_at(begin, y, words, WORDS_IN.get(mark.sort, ""), whole=mark.text + self.at.told_far(mark))
        return under + self.sign(mark, words) + text

    # The lanes.

    def end_of(self, lane):
        """The height at which its actor ends, or the lane itself."""
        place = self.story.ended.get(lane, self.shown.stop)
        if place in self.shown:
            return self.at.height_of(place)
        return self.at.lanes_begin if place < self.shown.start else self.at.lanes_end

    def lane(self, lane):
        x, end = self.at.lanes[lane], self.end_of(lane)
        parts = (self.at.lanes_begin, end, "lane"), (end, self.at.lanes_end, "after")
        drawn = "".join(line_at(x, top, bottom, sort) for top, bottom, sort in parts if top < bottom)
        return f'<g class="of_lane" data-lane="{lane}">{drawn}</g>'

    def name_of(self, lane):
        """Over the first row, and short again after each few rows."""
        x, label = self.at.lanes[lane], self.at.names[lane]
        y = self.at.lanes_begin - 10 - LEVEL * label.level
        yield line_at(x, y + 8, self.at.lanes_begin, "leader") if label.level else ""
        yield text_at(x, y, label.words, "head", label.anchor)
        again = self.at.short_names[lane]
        for place in self.at.headed():
            y = self.at.height_of(place) - ROW - LEVEL * again.level
            yield self.under(again.begin, again.words, y, "plain")
            yield text_at(x, y, again.words, "again", again.anchor)

    def end_under(self, lane):
        x, label = self.at.lanes[lane], self.at.ends[lane]
        y = self.at.lanes_end + EDGE + LEVEL * label.level
        leader = line_at(x, self.at.lanes_end, y - 8, "leader") if label.level else ""
        whole = label.words if label.words.endswith(" each") else self.story.end_of(lane)
        return leader + text_at(x, y, label.words, "end", label.anchor, whole)

    # What stands besides.

    def edge(self, y, when, events):
        words = text_at(self.at.lines_begin, y, f"{when}: events {events.start}..{events.stop - 1}", "grey")
        return f'<path d="M{self.at.first_lane - 12},{y} H{self.at.words_end}" class="edge"/>' + words

    def edges(self):
        count = len(self.story.run.events)
        if self.shown.start:
            yield self.edge(self.at.upper_edge, "before", range(self.shown.start))
        if self.shown.stop < count:
            yield self.edge(self.at.lower_edge, "after", range(self.shown.stop, count))

    def notes(self):
        """What the picture doesn't show, in lines."""
        notes = {}
        if self.at.left_out:
            names = ", ".join(self.story.heading_of(lane).replace(" ", "\xa0") for lane in self.at.left_out)
            notes["left_out"] = f"left out, since none of these events happens there: {names}"
        if self.passing:
            count = Counter(way.passage.sort for way in self.passing)
            words = [f"{count[sort]} {ones[count[sort] != 1]}" for sort, ones in COUNTED.items() if count[sort]]
            notes["passing"] = f"on the way from before these events to after them: {', '.join(words)}"
        most = letters_in(self.at.width - self.at.lines_begin - EDGE)
        return [(sort, line) for sort, note in notes.items() for line in textwrap.wrap(note, most)]

    def signs(self):
        """The names in SIGNS of those that are drawn."""
        signs = {SIGN_OF.get(mark.sort, mark.sort) for mark in self.at.marks.values()}
        signs |= {"submit"} if self.at.stairs else set()
        ended = [self.story.ended[lane] for lane in self.at.actors if lane in self.story.ended]
        signs |= {"after" for place in ended if place < self.shown.stop}
        signs |= {"dead" for place in ended if place in self.shown and self.at.marks[place].sort == "run"}
        return [sign for sign in SIGNS if sign in signs]

    def samples(self):
        """The legend: of each sort of line and of each sign that is drawn, how it is drawn and what it means."""
        most_shades = 0
        for look in LOOKS:
            shades = {way.colour for way in self.ways if way.look is look}
            most_shades = max(most_shades, len(shades))
            if shades:
                yield partial(look.sample, [shade for shade in look.shades if shade in shades]), look.words
        for told, words in ("→ 9", "it arrives at event 9"), ("← 9", "it came from event 9"):
            if any(self.at.far.get(place, "").startswith(told[0]) for place in self.shown):
                yield partial(lambda x, y, told: text_at(x + 12, y, told), told=told), words
        for sign in self.signs():
            drawn, words = SIGNS[sign]
            yield partial(lambda x, y, drawn, sign: drawn(x + 20, y, sign), drawn=drawn, sign=sign), words
        if most_shades > 1:
            yield lambda x, y: "", "shades only tell lines apart"

    # The whole.

    def body(self):
        at = self.at
        yield text_at(at.lines_begin, NAME, self.heading(), "head", whole=self.name)
        yield from (self.band(place) for place in self.shown[at.stairs :] if place % 2)
        yield from map(self.tie, at.marks.values())
        yield from map(self.lane, at.lanes)
        yield from map(self.way, self.ways)
        yield from self.edges()
        yield from (part for lane in at.lanes for part in self.name_of(lane))
        yield from self.stairs()
        yield from map(self.row, self.shown[at.stairs :])
        yield from map(self.mark, at.marks.values())
        yield from (self.end_under(lane) for lane in at.lanes if lane in at.ends)
        yield text_at(at.lines_begin, at.lanes_end + EDGE, AT_THE_END, "end")

    def heading(self):
        count = len(self.story.run.events)
        part = f", events {self.shown.start}..{self.shown.stop - 1} of {count}" if len(self.shown) < count else ""
        return cut(self.name, letters_in(self.at.width - self.at.lines_begin - EDGE) - len(part)) + part

    def legend(self, top):
        """The legend below this height, and how high it is."""
        samples = list(self.samples())
        columns = (self.at.width - self.at.lines_begin) // LEGEND_WIDTH
        lines = -(-len(samples) // columns)
        drawn = ['<g class="legend">']
        for number, (sample, words) in enumerate(samples):
            x = self.at.lines_begin + LEGEND_WIDTH * (number // lines)
            y = top + ROW * (number % lines)
            drawn.append(sample(x, y) + text_at(x + 52, y, words, "end"))
        return [*drawn, "</g>"], ROW * lines

    def svg(self):
        """The lines of the picture."""
        at, notes = self.at, self.notes()
        notes_begin = at.lanes_end + 2 * EDGE + LEVEL * (1 + highest(at.ends))
        legend_begin = notes_begin + ROW * len(notes) + SPACE
        legend, legend_height = self.legend(legend_begin)
        width, height = at.width, legend_begin + legend_height + EDGE
        size = f'width="{width}" height="{height}" viewBox="0 0 {width} {height}"'
        yield f'<svg xmlns="http://www.w3.org/2000/svg" {size} role="img" aria-label={quoteattr(self.name)}>'
        yield f"<title>{escape(self.name)}</title>"
        yield f"<style>{STYLE}</style>"
        yield f'<rect x="0" y="0" width="{width}" height="{height}" fill="#fff"/>'
        yield from self.body()
        for number, (sort, line) in enumerate(notes):
            yield text_at(at.lines_begin, notes_begin + ROW * number, line, f"note {sort}")
        yield from legend
        yield "</svg>"


# The tool.


def picture(script, report, name, events=None):
    """The picture of a run, as text: of all its events, or of a range. Raises Stop."""
    run = read_run(script, report)
    count = len(run.events)
    shown = range(count) if events is None else events
    if shown.stop > count:
        raise program.Stop(f"the run has no event {shown.stop - 1}: it has {count}, numbered from 0")
    return "\n".join(line for line in Picture(Story(run), shown, name).svg() if line) + "\n"


def played(script):
    """The report that the program gives."""
    status, report = runs.outcome_of([program.kept("draw"), "play"], script, subprocess.PIPE)
    if status > runs.FAULT:
        raise program.Stop("the program gave no report", status)
    return report


def drawable(path):
    """What gives a picture of a script for threads, or of a history."""
    return f"./record {path} | ./draw", f"./check {path} | ./draw"


def why_faulty(script, path):
    """What is told of a script that has a fault, as text; nothing where it has none."""
    told = runs.explained(script, "play")
    if not told.fault:
        return ""
    recorded, checked = drawable(path)
    more = []
    if not runs.explained(script, "threads").fault:
        more = [f"A run of it in threads is drawn by: {recorded}"]
    elif HISTORY.search(script):
        more = [f"It looks like a history, and a play of one is drawn by: {checked}"]
    return "\n".join([f"nothing to draw, the script has a fault: {told.lines[0]}", *told.lines[1:], *more])


def page(script, report, name):
    """The page of a run, as text. Raises Stop."""
    import run_page  # which takes this module

    return run_page.page(script, report, name)


def drawn_or_why(draws, script, report, name, path):
    """The picture or the page, or why there is none: a script at fault is explained, whatever the report is."""
    try:
        return draws(script, report, name)
    except program.Stop as why:
        if fault := why_faulty(script, path):
            raise program.Stop(fault, runs.FAULT) from None
        told = "the report isn't of this script, which has no fault" if why.status == runs.FAULT else why
        raise program.Stop(told) from None


def plain(name):
    """The name of a file, with what no picture can have as question marks."""
    return "".join(letter if letter.isprintable() else "?" for letter in name)


def without_events(words):
    """The words without `--events A..B`, and the places A to B, both among them, or nothing where they aren't named.
    No words where the places are wrong."""
    if "--events" not in words:
        return words, None
    at = words.index("--events")
    bounds = re.fullmatch(r"(\d{1,9})\.\.(\d{1,9})", "".join(words[at + 1 : at + 2]), re.ASCII)
    if not bounds or int(bounds[1]) > int(bounds[2]):
        return None, None
    return words[:at] + words[at + 2 :], range(int(bounds[1]), int(bounds[2]) + 1)


def without_page(words):
    """The words without `--page`, and whether that is among them."""
    return (words, False) if "--page" not in words else ([word for word in words if word != "--page"], True)


def paths_in(words):
    """The script and the report that the words name; nothing where they are wrong, or nobody could mean them."""
    is_silent = not words and sys.stdin is not None and sys.stdin.isatty()
    if len(words) > 2 or any(word.startswith("-") and word != "-" for word in words) or words == ["-", "-"] or is_silent:
        return None
    return words or ["-"]


def main():
    if program.asks_for_help(sys.argv[1:]):
        program.write_out(__doc__)
        return 0
    words, is_page = without_page(sys.argv[1:])
    words, events = without_events(words)
    paths = None if words is None else paths_in(words)
    if paths is None or is_page and events:
        program.note(USAGE)
        return program.WRONG_WORDS
    script = program.script_in(paths[0])
    report = program.bytes_in(paths[1]) if len(paths) == 2 else played(script)
    name = "standard input" if paths[0] == "-" else plain(pathlib.Path(paths[0]).name)
    path = "FILE" if paths[0] == "-" else shlex.quote(paths[0])
    draws = page if is_page else partial(picture, events=events)
    drawn = drawn_or_why(draws, script, report, name, path)
    runs.tell_unsent("draw", script, f"{drawable(path)[0]} draws a run of it")
    program.write_out(drawn)
    return 0


if __name__ == "__main__":
    program.ended("draw", main)

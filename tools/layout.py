"""Where everything stands in the picture of a run, in pixels; tools/draw.py draws it.

A picture is at most 1000 pixels wide. A lane at which none of the shown events happens is left out. Where
the others have no room for all their words, the two sides come closer, and then the lanes, so that words may
stand over other lanes. Where lanes would be crowded, words stand outside, left of all callers and right of all
actors. At last words are cut. Over and under lanes that stand close, names stand in levels.
"""
import math
from collections import Counter, defaultdict
from dataclasses import dataclass, replace
from itertools import accumulate, takewhile

MAX_WIDTH = 1000
CHARACTER = 7.3
ROW = 20
EDGE = 12
NAME = 18  # the middle of the picture's name
HEAD = 58  # where the lanes begin, if the names of the lanes stand in one level
LEVEL = 14  # from a level to the next
BESIDE = 9  # from a lane to its words
SPACE = 14  # from a line of the script to words at a lane
BESIDE_GAP = 20  # from the last lane of each side to where lines slant
GAP, LEAST_GAP = 240, 100
LEAST_LANE = 18
CROWDED = 72  # words stand outside where a lane has no more, and other words than these
LANE_OUTSIDE, LEAST_LANE_OUTSIDE, LEAST_GAP_OUTSIDE, BOX = 36, 17, 60, 18
LEAST_LINES = 224  # from where lines begin to the first lane
LEAST_WORDS = 176  # right of the last lane
MAX_LETTERS = {"line": 44, "caller": 26, "actor": 36}
LEAST_LETTERS = 12  # of a line
AT_THE_END = "at the end"
FAR = 15  # what travels more rows than these isn't drawn as one line
MOST_FAR = 3  # so many places are told of what travels far
LEAST_STAIRS = 16  # so many submissions at the beginning are one row
ROWS_TO_A_HEADING = 40
LEGEND_WIDTH = 320


def cut(text, most):
    return text if len(text) <= most else text[: max(most - 1, 0)] + "…"


def width_of(text):
    return math.ceil(len(text) * CHARACTER)


def letters_in(width):
    return int(width / CHARACTER)


# Pieces of the width.


@dataclass
class Part:
    width: int
    least: int


def give_way(parts, excess):
    """Takes the excess from these parts alike, as far as they can be narrower."""
    spare = sum(part.width - part.least for part in parts)
    share = min(1, max(0, excess) / spare) if spare else 0
    for part in parts:
        part.width -= math.ceil((part.width - part.least) * share)


def narrow(groups, most):
    """Lets the parts give way, group after group, until all together take no more than that."""
    for group in groups:
        give_way(group, sum(part.width for each in groups for part in each) - most)


# Words over and under lanes.


@dataclass(frozen=True)
class Label:
    words: str
    anchor: str  # how the words stand at their lane
    lane: int  # where this, the words' begin and their end are from left to right
    begin: int
    end: int
    level: int = 0  # how far from the rows

    def is_clear_of(self, other):
        """Whether neither these words nor the way from them to their lane meet the other's."""
        if self.level == other.level:
            return self.end < other.begin or other.end < self.begin
        near, far = (self, other) if self.level < other.level else (other, self)
        return not near.begin < far.lane < near.end


def label_at(lane, words, anchor):
    width = width_of(words)
    begin = {"start": lane, "middle": lane - width // 2, "end": lane - width}[anchor]
    return Label(words, anchor, lane, begin, begin + width)


def with_levels(labels):
    """The labels by their lanes, each at the nearest level at which it is clear of those before."""
    placed = {}
    for lane, label in labels.items():
        levels = (replace(label, level=level) for level in range(len(labels)))
        placed[lane] = next(each for each in levels if all(map(each.is_clear_of, placed.values())))
    return placed


def highest(labels):
    return max((label.level for label in labels.values()), default=0)


# What travels far, and what comes first.


def far_ends(story):
    """Of each event the places at which what it sent far arrives, and of each the places from which such came."""
    to, back = defaultdict(list), defaultdict(list)
    for passage in story.passages():
        for end, _ in passage.arrivals:
            if end - passage.begin > FAR:
                to[passage.begin].append(end)
                back[end].append(passage.begin)
    return to, back


def told_places(sign, places):
    return " ".join([sign, *map(str, places[:MOST_FAR])]) + (" …" if places[MOST_FAR:] else "")


def far_words(story):
    """What is told of those at each event, as `→ 437` and `← 212`."""
    to, back = far_ends(story)
    told = {place: told_places("→", places) for place, places in to.items()}
    return told | {place: told_places("←", places) for place, places in back.items()}


def stairs_of(story, shown):
    """How many submissions come first, where all events are shown, and these are many; they are one row."""
    events = story.run.events
    if shown != range(len(events)):
        return 0
    count = sum(1 for _ in takewhile(lambda event: event.words[0] == "submit" and not event.is_refused(), events))
    return count if count >= LEAST_STAIRS else 0


class Layout:
    """Of the events that are shown, a range of their places; where it folds, many first submissions are one row."""

    def __init__(self, story, shown, folds=True, most_wide=MAX_WIDTH):
        self.story = story
        self.shown = shown
        self.most_wide = most_wide
        self.far = far_words(story)
        self.stairs = stairs_of(story, shown) if folds else 0
        self.marks = {place: story.marks[place] for place in shown[self.stairs :] if place in story.marks}
        self.submitted = Counter(story.marks[place].lane for place in shown[: self.stairs])
        busy = {mark.lane for mark in self.marks.values()} | {*self.submitted}
        self.callers = [lane for lane in story.callers if lane in busy]
        self.actors = [lane for lane in story.actors if lane in busy]
        self.left_out = [lane for lane in [*story.callers, *story.actors] if lane not in busy]
        self.places_end = EDGE + width_of(str(shown.stop))
        self.lines_begin = self.places_end + EDGE
        self.is_outside = False
        self.place_lanes()
        self.place_labels()
        self.place_rows()

    # The lanes, from left to right.

    def most_letters(self, lane):
        return MAX_LETTERS["caller" if self.story.is_caller(lane) else "actor"]

    def told_far(self, mark):
        """What is told of what travels far from the mark, or to it."""
        return f" {self.far[mark.place]}" if mark.place in self.far else ""

    def words_of(self, mark, most):
        """The words of a mark, cut to so many letters, but for what is told of what travels far."""
        told = self.told_far(mark)
        return cut(mark.text, most - len(told)) + told

    def words_width(self, mark):
        return width_of(self.words_of(mark, self.most_letters(mark.lane)))

    def room_of(self, lane):
        """How wide the words of a lane are, with those over and under it."""
        marks = [self.words_width(mark) for mark in self.marks.values() if mark.lane == lane]
        around = cut(self.story.end_of(lane), self.most_letters(lane)), self.story.heading_of(lane)
        return max([*marks, *map(width_of, around)]) + 3 * BESIDE

    def room_of_lines(self):
        """How wide the lines are, each with the words that stand between it and the first lane."""
        first = self.callers if self.is_outside else self.callers[:1]
        room = max(map(self.room_of, self.callers[:1]), default=0) + width_of(AT_THE_END)
        for place in self.shown[self.stairs :]:
            mark = self.marks.get(place)
            words = self.words_width(mark) + SPACE if mark and mark.lane in first else 0
            room = max(room, width_of(self.line_of(place, MAX_LETTERS["line"])) + words + SPACE)
        return max(room, width_of(self.stairs_line()) + SPACE)

    def line_of(self, place, most):
        """The line of an event, cut to so many letters; with the refusal, where no lane shows that."""
        event = self.story.run.events[place]
        refusal = f"  {event.outcome}" if event.is_refused() and place not in self.marks else ""
        return cut(" ".join(event.words), most - len(refusal)) + refusal

    def stairs_line(self):
        """What stands for the submissions that are one row."""
        counts = sorted(self.submitted.values())
        if not counts:
            return ""
        several = f"{counts[0]} to {counts[-1]}" if counts[0] < counts[-1] else str(counts[0])
        return f"..{self.stairs - 1}: {several} calls{' each' if counts[1:] else ''}"

    def parts(self):
        """From left to right: what ends at each caller, the gap, and what begins at each actor."""
        lines = self.room_of_lines()
        if self.is_outside:
            sides = self.callers, self.actors
            callers, actors = ([Part(LANE_OUTSIDE, LEAST_LANE_OUTSIDE) for _ in lanes[1:]] for lanes in sides)
            actors += [Part(max(map(self.room_of, self.actors)), 0)] if self.actors else []
        else:
            callers = [Part(room, LEAST_LANE) for room in map(self.room_of, self.callers[1:])]
            actors = [Part(room, LEAST_LANE) for room in map(self.room_of, self.actors)]
        for last in actors[-1:]:
            last.least = min(last.width, LEAST_WORDS)
        gap = Part(GAP, LEAST_GAP_OUTSIDE if self.is_outside else LEAST_GAP)
        return [Part(lines, min(lines, LEAST_LINES)), *callers], gap, actors

    def place_lanes(self):
        callers, gap, actors = self.parts()
        lanes, sides = callers[1:] + actors[:-1], callers[:1] + actors[-1:]
        full = [part.width for part in lanes]
        narrow([[gap], lanes, sides], self.most_wide - self.lines_begin - 2 * BESIDE_GAP - EDGE)
        crowded = [part for part, width in zip(lanes, full) if part.width < min(width, CROWDED)]
        if crowded and not self.is_outside:
            self.is_outside = True
            self.place_lanes()
            return
        ends = list(accumulate((part.width for part in callers), initial=self.lines_begin))[1:]
        self.gap_begin = ends[-1] + BESIDE_GAP
        self.gap_end = self.gap_begin + gap.width
        begins = list(accumulate((part.width for part in actors), initial=self.gap_end + BESIDE_GAP))
        self.lanes = dict(zip(self.callers, ends)) | dict(zip(self.actors, begins))
        self.first_lane, self.last_lane = ends[0], begins[max(len(self.actors) - 1, 0)]
        self.words_end = begins[-1]
        self.width = max(self.words_end + EDGE, self.lines_begin + 2 * LEGEND_WIDTH)

    # The words of a row.

    def lane_of_words(self, lane):
        """Where the lane stands beside which the words of this one stand."""
        if not self.is_outside:
            return self.lanes[lane]
        return self.first_lane if self.story.is_caller(lane) else self.last_lane

    def words_at(self, mark):
        """The words of a mark, as far as there is room, and where they begin."""
        x, most = self.lane_of_words(mark.lane), self.most_letters(mark.lane)
        if not self.story.is_caller(mark.lane):
            begin = x + (BOX if self.is_outside else BESIDE + (3 if mark.sort in ("dead", "retired") else 0))
            return self.words_of(mark, min(letters_in(self.words_end - begin - BESIDE), most)), begin
        room = x - BESIDE - SPACE - width_of(self.line_of(mark.place, LEAST_LETTERS)) - self.lines_begin
        words = self.words_of(mark, min(letters_in(room), most))
        return words, x - BESIDE - width_of(words)

    def shown_line(self, place):
        """The line of an event, as far as there is room."""
        mark = self.marks.get(place)
        begin = self.words_at(mark)[1] if mark and self.story.is_caller(mark.lane) else self.first_lane
        room = min(begin, self.first_lane) - SPACE - self.lines_begin
        return self.line_of(place, min(letters_in(room + 1), MAX_LETTERS["line"]))

    def crosses(self, begin, words):
        """Whether a lane runs behind these words."""
        return any(begin < x < begin + width_of(words) for x in self.lanes.values())

    # The words over and under the lanes.

    def end_at(self, lane):
        """How the lane is at the end, as far as there is room."""
        x, words = self.lanes[lane], self.story.end_of(lane)
        caller = self.story.is_caller(lane)
        room = x - self.lines_begin - width_of(AT_THE_END) - SPACE if caller else self.words_end - x
        return label_at(x, cut(words, min(letters_in(room), self.most_letters(lane))), "end" if caller else "start")

    def place_labels(self):
        """The full and the short names, and the ends: on each side beginning at the lane whose words stand freest."""
        callers, actors = self.callers, self.actors[::-1]
        short = {lane: label_at(x, lane, "middle") for lane, x in self.lanes.items()}
        full = {lane: label_at(self.lanes[lane], self.story.heading_of(lane), "start") for lane in actors}
        self.short_names = with_levels(short)
        self.names = with_levels({lane: short[lane] for lane in callers}) | with_levels(full)
        self.ends = with_levels({lane: self.end_at(lane) for lane in callers})
        alike = {self.story.end_of(lane) for lane in callers}
        if self.is_outside and len(alike) == 1 and callers[1:]:
            self.ends = {callers[0]: label_at(self.first_lane, f"{alike.pop()} each", "end")}
        self.ends |= with_levels({lane: self.end_at(lane) for lane in actors})

    # The rows.

    def place_rows(self):
        """Where the rows and the lanes begin and end, and the two edges where events are cut off."""
        rows = len(self.shown) - max(self.stairs - 1, 0)
        self.lanes_begin = HEAD + LEVEL * highest(self.names)
        self.rows_begin = self.lanes_begin + (ROW if self.shown.start else 4)
        self.rows_end = self.rows_begin + ROW * rows + self.headings_above(rows - 1)
        self.lanes_end = self.rows_end + (ROW if self.shown.stop < len(self.story.run.events) else 4)
        self.upper_edge = self.rows_begin - ROW // 2
        self.lower_edge = self.rows_end + ROW // 2

    def headings_above(self, row):
        """How high the repeated names above this row are, all together."""
        return max(row, 0) // ROWS_TO_A_HEADING * (ROW + LEVEL * highest(self.short_names))

    def headed(self):
        """The places of the events over whose rows the names are repeated."""
        first = ROWS_TO_A_HEADING + max(self.stairs - 1, 0)
        return self.shown[first::ROWS_TO_A_HEADING]

    def height_of(self, place):
        """The middle of an event's row."""
        row = place - self.shown.start
        row = max(row - self.stairs + 1, 0) if self.stairs else row
        return self.rows_begin + ROW * row + self.headings_above(row) + ROW // 2

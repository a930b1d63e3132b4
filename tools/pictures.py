#!/usr/bin/env python3
"""Draws each example of events, and each record of one for threads, into docs/pictures, by tools/draw.py.

    tools/pictures.py [--check] [--reading]

With `--check` nothing is written: it fails where a picture isn't, byte for byte, what is drawn now, where
one is missing or too many, and where a picture isn't sound. It is sound where it parses as XML and

  - has a row for each of its events, with its line, the words at its lane and the reason of a refusal. At the
    beginning of a whole run many submissions are one row, which tells how many calls there are of each caller;
  - has a lane for each caller and actor at which one of the events happens, cut where its actor ends;
  - has a dot, a box or a bar at its lane for each event of which the report tells such;
  - tells below each lane how it is at the end, and names all other callers and actors as left out;
  - has exactly one line for each delivery, collection and taken kill that the report tells, which goes from
    lane to lane and from row to row; where it is cut, from the upper edge or to the lower one. A line that
    would go through from edge to edge is counted in its words instead. What travels more than 15 rows has a
    stub at each of its ends that is shown, and the words there tell the other end;
  - has exactly one stub for each letter, notice and kill that arrives nowhere;
  - explains in its legend just the colours, dashes, dots and other signs that it has;
  - is at most 1000 pixels wide, and no words of it stand on others, or outside, or in the way of others.

This check reads the script, the report and the picture, and shares no code with the drawing. It is tried
itself: a picture from which a line, a sign, a lane, a sample of the legend or a name was taken, to which a line
was added twice, or in which one ends a row too low, must be refused.

Of the page that `./draw --page` makes of each such run the same is checked: its data have each event once, in order,
with its lane and with the call to which it belongs, each way of the report and no other, and each sign; and the page
asks for nothing from elsewhere. What it does in a browser isn't tried here.

The reports are those of the proved program; with `--reading` they are made by the second reading of the
rules, and no program is needed. Pictures of random scripts, whose reports the reading makes, must be sound,
too: some of a few lanes and some of 16 callers and 8 actors, whole and cut. It also fails where the first
line of an example, of events or for threads, doesn't end with the command that runs it.
"""
import argparse
import collections
import copy
import functools
import json
import random
import re
import subprocess
import sys
import xml.etree.ElementTree as xml

import draw
import fuzz
import reading_of_rules as reading
from program import TOP, kept

EXAMPLES = TOP / "examples"
PICTURES = TOP / "docs/pictures"
RANDOM_SCRIPTS = 160  # some 140 are needed until a letter is turned away
CROWDS = 5
CROWDED = 210  # lines
CUTS = 4
LEAST_LETTERS = 8  # of a line
MAX_WIDTH, MAX_WIDTH_OF_PAGE = 1000, 1240
LETTER = 7.22  # as wide as a letter of the pictures' font is
BOX_BEGINS, UNDER_A_BOX = 3, 9
FAR, MOST_FAR = 15, 3
LEAST_STAIRS = 16
SVG = "{http://www.w3.org/2000/svg}"


def is_played(path):
    """Whether it is a script of events: a record is one, and one for threads has no line that only an event has."""
    words = {line.split(" ")[0] for line in path.read_text().splitlines()}
    return bool(words & (set(reading.PLAY_FORMS) - set(reading.THREAD_FORMS)))


def examples():
    """The scripts of events, and the records that `./record` wrote of those for threads."""
    return [path for path in [*sorted(EXAMPLES.glob("*.actors")), *sorted(EXAMPLES.glob("*.play"))] if is_played(path)]


def wrong_heads():
    """How many examples there are, and those whose first line doesn't end with the command that runs them."""
    failures, paths = [], [*EXAMPLES.glob("*.actors"), *EXAMPLES.glob("*.play")]
    for path in paths:
        command = f"./run {'play' if is_played(path) else 'threads'} examples/{path.name}"
        first = path.read_text().partition("\n")[0]
        if not re.fullmatch(f"# .*: {re.escape(command)}", first):
            failures.append(f"{path.stem}: its first line is '{first}', and doesn't end with {command}")
    return len(paths), failures


def report_of(path, program):
    """The report of an example, which has no fault. Without a program the reading makes it."""
    if program is None:
        report, status = reading.play(path.read_bytes())
    else:
        done = subprocess.run([program, "play"], input=path.read_bytes(), stdout=subprocess.PIPE, timeout=60)
        report, status = done.stdout, done.returncode
    if status != 0:
        sys.exit(f"pictures: {path.name} has the status {status}")
    return report


# What a script and its report tell. This shares no code with the drawing.


class Told:
    """Of the events that are shown: the lines, the stubs and the lanes that are due."""

    def __init__(self, script, report, shown=None, folds=True):
        lines = [line.split(" ") for line in script.decode("ascii").splitlines() if line and line[0] != "#"]
        self.roles = [words for words in lines if words[0] == "actor"]
        self.events = [words for words in lines if words[0] != "actor"]
        self.outcomes = re.findall(r"^[0-9]+: (.*)$", report.decode("ascii"), re.MULTILINE)
        self.terminates = set(re.findall(r"^(a\d+)\.(\d+) c\d+\.\d+ terminate$", report.decode("ascii"), re.MULTILINE))
        self.shown = range(len(self.events)) if shown is None else shown
        self.folds = folds
        items = re.findall(r"^(a\d+)\.(\d+) (c\d+\.\d+) ", report.decode("ascii"), re.MULTILINE)
        self.ends = dict(re.findall(r"^(a\d+) (.*)$", report.decode("ascii"), re.MULTILINE))
        self.answers = re.findall(r"^(c\d+)\.\d+ a\d+ (?:= )?(.*)$", report.decode("ascii"), re.MULTILINE)
        self.ran = {(actor, place): future for actor, place, future in items}
        self.letters = self.begun(r"mail (\d+)")
        self.notices = self.begun(r"(?:place \d+ )?reply (\d+)")

    def begun(self, pattern):
        """By the number that stands in their outcomes: the places of the events that made a letter or a notice."""
        found = ((re.fullmatch(pattern, outcome), place) for place, outcome in enumerate(self.outcomes))
        return {int(each[1]): place for each, place in found if each}

    @functools.cached_property
    def all_lanes(self):
        return {word for words in self.roles for word in words[1:] if re.fullmatch(r"[ac]\d+", word)}

    def target_of(self, letter):
        """The actor of the letter that the event at this place sends."""
        verb, caller, word = self.events[letter]
        submitted = self.outcomes.index(f"future {caller}.{word}") if verb == "send" else letter
        return self.events[submitted][2]

    def lane_of(self, place):
        """Where an event happens: at a caller or an actor, or nowhere."""
        words, outcome = self.events[place], self.outcomes[place]
        if words[0] == "deliver":
            return None if outcome == "refused NoMail" else self.target_of(self.letters[int(words[1])])
        if words[0] == "collect":
            return None if outcome == "refused NoReply" else self.events[self.notices[int(words[1])]][2]
        return words[1] if words[1] in self.all_lanes else None

    @functools.cached_property
    def lanes_due(self):
        return {self.lane_of(place) for place in self.shown} - {None}

    def arrivals(self):
        """Every delivery, collection and taken kill: its sort, where it began, and its place."""
        asked = collections.defaultdict(list)
        for place, (words, outcome) in enumerate(zip(self.events, self.outcomes)):
            if words[0] == "kill" and outcome == "asked":
                asked[words[2]].append(place)
            elif outcome == "dead":
                yield from (("kill", kill, place) for kill in asked.pop(words[1]))
            elif words[0] == "deliver" and outcome in LETTERS:
                yield LETTERS[outcome], self.letters[int(words[1])], place
            elif words[0] == "collect" and outcome != "refused NoReply":
                yield NOTICES[outcome.split(" ")[0]], self.notices[int(words[1])], place

    def stairs(self):
        """How many submissions come first and are one row."""
        if len(self.shown) < len(self.events) or not self.folds:
            return 0
        first = (place for place, outcome in enumerate(self.outcomes) if not outcome.startswith("future "))
        count = next(first, len(self.events))
        return count if count >= LEAST_STAIRS else 0

    def stairs_line(self):
        counts = collections.Counter(words[1] for words in self.events[: self.stairs()]).values()
        least, most = min(counts), max(counts)
        calls = f"{least} calls" if least == most else f"{least} to {most} calls"
        return f"..{self.stairs() - 1}: {calls}" + (" each" if len(counts) > 1 else "")

    def far_due(self):
        """Of each end of what travels far, where it is shown: its sort, its two places, that one, and the lane there."""
        for sort, begin, end in self.arrivals():
            if end - begin > FAR:
                yield from ((sort, begin, end, place, self.lane_of(place)) for place in (begin, end) if place in self.shown)

    def far_words(self):
        """Of each event at which something leaves or arrives that travels far, what its words tell of that."""
        others = collections.defaultdict(list)
        for _, begin, end, place, _ in self.far_due():
            others[place].append(end if place == begin else begin)
        signs = {place: "→" if min(far) > place else "←" for place, far in others.items()}
        shown = {place: " ".join(map(str, sorted(far)[:MOST_FAR])) for place, far in others.items()}
        return {place: f"{signs[place]} {shown[place]}" + " …" * (len(others[place]) > MOST_FAR) for place in others}

    def lines_due(self):
        """Of each line its sort, its two places, and the lanes at those that are shown."""
        for sort, begin, end in self.arrivals():
            if end - begin <= FAR and (begin in self.shown or end in self.shown):
                ends = (self.lane_of(place) if place in self.shown else None for place in (begin, end))
                yield sort, begin, end, *ends

    def stubs_due(self):
        arrived = {begin for _, begin, _ in self.arrivals()}
        for place in self.shown:
            verb, outcome = self.events[place][0], self.outcomes[place]
            sort = {"run": "reply", "tell": "death", "kill": "kill"}.get(verb, "letter")
            makes = outcome == "asked" or re.match(r"mail|place|reply", outcome)
            if makes and place not in arrived:
                yield f"{sort}_lost", place, self.lane_of(place)

    def end_of(self, lane):
        """How a lane is at the end, by the summary of the report."""
        if lane in self.ends:
            return self.ends[lane]
        answers = [answer for caller, answer in self.answers if caller == lane]
        calls = "1 call" if len(answers) == 1 else f"{len(answers)} calls"
        return f"{calls}, {answers.count('?')} open" if "?" in answers else calls

    def goes_to(self, place):
        """The lane to which what begins at an event goes, or that of the event, where nothing happens at the other."""
        makes_a_letter = self.outcomes[place].startswith("mail ")
        target = self.target_of(place) if makes_a_letter else self.events[place][2]
        return target if target in self.lanes_due else self.lane_of(place)

    def chain_of(self, place):
        """The name of what an event belongs to: its call; or a note, the kills of an actor, or a death; or nothing."""
        verb, outcome, words = self.events[place][0], self.outcomes[place], self.events[place]
        if outcome.startswith("future "):
            return outcome.removeprefix("future ")
        if verb == "send" and outcome.startswith("mail "):
            return f"{words[1]}.{words[2]}"
        if outcome.startswith("mail "):
            return f"{outcome}: note"
        if verb == "deliver" and outcome != "refused NoMail":
            return self.chain_of(self.letters[int(words[1])])
        if run := re.fullmatch(r"place (\d+) reply \d+", outcome):
            return self.ran[words[1], run[1]]
        if verb == "tell" and outcome.startswith("reply "):
            return f"{outcome}: {words[1]} died"
        if verb == "collect" and outcome != "refused NoReply":
            return self.chain_of(self.notices[int(words[1])])
        if outcome == "asked" or outcome == "dead" and place in {end for _, _, end in self.arrivals()}:
            return f"kill {words[2] if outcome == 'asked' else words[1]}"
        return None

    def is_end(self, place):
        """Whether an actor dies or retires at this event."""
        run = re.fullmatch(r"place (\d+) reply \d+", self.outcomes[place])
        return self.outcomes[place] in ("dead", "retired") or run and (self.events[place][1], run[1]) in self.terminates

    def ended(self):
        """Of each actor that dies or retires where it does."""
        return {self.events[place][1]: place for place in range(len(self.events)) if self.is_end(place)}

    def signs_due(self):
        """Of each sign at a lane its sort, its place and its lane."""
        yield from (("dot submit", 0, caller) for caller in {words[1] for words in self.events[: self.stairs()]})
        for place in self.shown[self.stairs() :]:
            verb, outcome, lane = self.events[place][0], self.outcomes[place], self.lane_of(place)
            first = outcome.split(" ")[0]
            if first in SIGNS and lane and (verb, outcome) != ("deliver", "refused ActorEnded"):
                yield SIGNS[first], place, lane
            if first == "place" and self.is_end(place):
                yield "bar dead", place, lane

    def passing_due(self):
        """How much of each sort is on its way from before to after what is shown."""
        gone = (each for each in self.arrivals() if each[1] < self.shown.start and each[2] >= self.shown.stop)
        return collections.Counter(sort.partition("_")[0] for sort, _, _ in gone)


LETTERS = {"new": "letter", "repeat": "letter_repeat", "refused ActorEnded": "letter_turned_away"}
SIGNS = {
    "future": "dot submit", "mail": "dot send", "copies": "dot handle", "asked": "dot urgent", "reply": "dot urgent",
    "refused": "dot refused", "gap": "dot gap", "place": "box", "dead": "bar dead", "retired": "bar retired",
}  # fmt: skip
NOTICES = {"kept": "reply", "late": "reply_late", "died": "death"}


# What a picture has.


def classes(element):
    return (element.get("class") or "").split(" ")


def of_class(picture, name):
    return [element for element in picture.iter() if name in element.get("class", "") and name in classes(element)]


def heights_of(picture):
    """Of each event the height of its row; the first row may be of several."""
    rows = ((int(row.get("data-place")), int(row.get("data-last", row.get("data-place"))), row) for row in of_class(picture, "event"))
    return {place: int(row.get("data-height")) for first, last, row in rows for place in range(first, last + 1)}


def lanes_of(picture):
    """Of each lane the name and the distance from the left."""
    return {lane.get("data-lane"): int(lane[0].get("x1")) for lane in of_class(picture, "of_lane")}


def edges_of(picture):
    """The heights of the edges above and below the rows, where there are such."""
    return [int(re.fullmatch(r"M\d+,(\d+) H\d+", edge.get("d"))[1]) for edge in of_class(picture, "edge")]


def way_of(element):
    """Of the way of a line its places from left to right, its two heights, and whether it begins and ends along a row."""
    (way,) = (path.get("d") for path in element.iter(SVG + "path") if path.get("class") == "way")
    x, top, near, far, bottom, target = re.fullmatch(r"M(\d+),(\d+)(?: H(\d+))? L(\d+),(\d+)(?: H(\d+))?", way).groups()
    return [int(each) for each in (x, near, far, target) if each], (int(top), int(bottom)), bool(near), bool(target)


def line_of(element, lanes, heights, edges):
    """What the check of a line compares: its sort, its places, its lanes; nothing where it isn't drawn from row to row."""
    begin, end = int(element.get("data-begin")), int(element.get("data-end"))
    points, (top, bottom), begins, ends = way_of(element)
    x, *_, target = points
    goes_on = points in (sorted(points), sorted(points, reverse=True))
    named = {place: name for name, place in lanes.items()}
    from_row = begins and heights.get(begin) == top and x in named
    from_edge = not begins and begin not in heights and top in edges and top < min(heights.values())
    to_row = ends and heights.get(end) == bottom and target in named
    to_edge = not ends and end not in heights and bottom in edges and bottom > max(heights.values())
    if goes_on and (from_row or from_edge) and (to_row or to_edge):
        return classes(element)[1], begin, end, named[x] if from_row else None, named[target] if to_row else None
    return None


def stub_of(element, lanes, heights):
    """The sort, the place and the lane of what arrives nowhere."""
    place = int(element.get("data-begin"))
    (way,) = (path.get("d") for path in element.iter(SVG + "path") if path.get("class") == "way")
    x, y = map(int, re.fullmatch(r"M(\d+),(\d+) H\d+", way).groups())
    lane = next((name for name, place in lanes.items() if place == x), None)
    return classes(element)[1], place if heights.get(place) == y else None, lane


def far_of(element, lanes, heights):
    """Of a stub of what travels far what is compared; nothing where it doesn't leave or reach a lane along a row."""
    begin, end, sort = int(element.get("data-begin")), int(element.get("data-end")), classes(element)[1]
    (way,) = (path.get("d") for path in element.iter(SVG + "path") if path.get("class") == "way")
    x, y, ahead = map(int, re.fullmatch(r"M(\d+),(\d+) H(\d+)", way).groups())
    named = {place: name for name, place in lanes.items()}
    if (ahead > x) != sort.startswith(("letter", "kill")):
        return None
    ends = [(begin, x), (end, ahead)]
    return next(((sort, begin, end, place, named[at]) for place, at in ends if heights.get(place) == y and at in named), None)


def middle_of(sign):
    return float(sign.get("x")) + float(sign.get("width")) / 2, float(sign.get("y")) + float(sign.get("height")) / 2


def signs_in(picture):
    """Of each sign that isn't in the legend its class, and the point at a lane where it stands."""
    for sign in picture:
        sort = sign.get("class") or ""
        if sign.tag == SVG + "circle":
            yield sort, float(sign.get("cx")), float(sign.get("cy"))
        elif sort.startswith("dot"):
            yield sort, *middle_of(sign)
        elif sort == "box":
            yield sort, float(sign.get("x")) + BOX_BEGINS, middle_of(sign)[1]
        elif sort.startswith("bar"):
            begin, y, width = map(int, re.fullmatch(r"M(\d+),(\d+) h(\d+)", sign.get("d")).groups())
            yield sort, begin + width / 2, y


def note_of(picture, name):
    return " ".join(text.text for text in of_class(picture, name))


def passing_of(picture):
    """How much of each sort is said to be on its way past the events."""
    singular = {"letters": "letter", "replies": "reply", "deaths": "death", "kills": "kill"}
    counts = re.findall(r"(\d+) (\w+)", note_of(picture, "passing"))
    return collections.Counter({singular.get(sort, sort): int(count) for count, sort in counts})


def looks_in(element, dashes=""):
    """How all signs in this element look: their form with its class, or the colour and the dashes of a line."""
    for child in element:
        if "legend" in classes(child):
            continue
        dashed = next((each for each in classes(child) if each in ("dashed", "stub")), dashes)
        if child.get("class") == "way":
            yield child.get("stroke"), dashed
        elif {"dot", "bar", "box", "after"} & set(classes(child)):
            yield child.tag, child.get("class")
        yield from looks_in(child, dashed)


def words_of(picture):
    """Of each text the height of its middle, the begin, the end and the words."""
    for text in picture.iter(SVG + "text"):
        width = len(text.text or "") * LETTER
        begin = int(text.get("x")) - {"start": 0, "middle": width / 2, "end": width}[text.get("text-anchor") or "start"]
        yield int(text.get("y")) - 4, begin, begin + width, text.text or ""


def leaders_of(picture):
    """Of each way from words to a lane its distance from the left, and its two heights."""
    for leader in of_class(picture, "leader"):
        yield int(leader.get("x1")), int(leader.get("y1")), int(leader.get("y2"))


# Whether a picture is sound.


def rows_unsound(picture, told):
    heights, stairs = heights_of(picture), told.stairs()
    below = [heights[place] for place in sorted(heights)]
    first, rest = {*below[:stairs]}, below[max(stairs - 1, 0) :]
    if sorted(heights) != list(told.shown) or rest != sorted({*rest}) or len(first) != min(stairs, 1):
        yield "it has not one row for each event, one below the other"


def stands_for(shown, words):
    """Whether a text is these words, or their begin and a sign that they were cut."""
    return shown == words or shown.endswith("…") and words.startswith(shown[:-1])


def texts_unsound(picture, told):
    """Each row has its place, its line and, where the event is one of a lane, words there; a refusal is told."""
    words = collections.defaultdict(list)
    for y, _, _, text in sorted(words_of(picture)):
        words[y].append(text)
    stairs, far = told.stairs(), told.far_words()
    if stairs and words[heights_of(picture)[0]] != ["0", told.stairs_line()]:
        yield f"the row of the first {stairs} events has {words[heights_of(picture)[0]]}"
    for place, y in heights_of(picture).items():
        if place < stairs:
            continue
        number, line, *others = words[y]
        whole, outcome = " ".join(told.events[place]), told.outcomes[place]
        line, refused, reason = line.partition("  refused ")
        if number != str(place) or not stands_for(line, whole) or len(line) < min(LEAST_LETTERS, len(whole)):
            yield f"'{line}' stands in the row of '{whole}'"
        if len(others) != (told.lane_of(place) is not None):
            yield f"in the row of '{whole}' stands {others}"
        if not "".join(others).endswith(f" {far[place]}" if place in far else ""):
            yield f"in the row of '{whole}' stands {others}, and not {far[place]}"
        if place not in far and re.search("[→←]", "".join(others)):
            yield f"in the row of '{whole}' stands {others}, and nothing travels far"
        told_there = [(refused + reason).strip(), *(re.sub(" [→←] .*", "", other) for other in others)]
        if outcome.startswith("refused ") and not any(stands_for(each, outcome) for each in told_there):
            yield f"'{outcome}' isn't told of '{whole}'"


def lanes_unsound(picture, told):
    lanes, left_out = set(lanes_of(picture)), set(re.findall(r"\b[ac]\d+\b", note_of(picture, "left_out")))
    if lanes != told.lanes_due:
        yield f"it has the lanes {sorted(lanes)}, and {sorted(told.lanes_due)} are due"
    if left_out != told.all_lanes - told.lanes_due:
        yield f"it says that {sorted(left_out)} are left out"


def ends_unsound(picture, told):
    """A lane is solid down to the row in which its actor ends, and dotted from there."""
    heights, ended = heights_of(picture), told.ended()
    for lane in of_class(picture, "of_lane"):
        end = ended.get(lane.get("data-lane"), told.shown.stop)
        parts = ["after"] if end < told.shown.start else ["lane", "after"] if end in told.shown else ["lane"]
        if [line.get("class") for line in lane] != parts or end in told.shown and int(lane[1].get("y1")) != heights[end]:
            yield f"the lane {lane.get('data-lane')} doesn't end at {end}"


def labels_unsound(picture, told):
    """Below each lane stands how it is at the end; of callers that are alike one tells it of each."""
    legend = {*of_class(picture, "legend")[0].iter()}
    words = [text.text for text in of_class(picture, "end") if text not in legend]
    each = [word.removesuffix(" each") for word in words if word.endswith(" each")]
    due = {lane: told.end_of(lane) for lane in lanes_of(picture)}
    for lane, end in due.items():
        alike = lane.startswith("c") and [end] == each
        if not alike and not any(stands_for(word, end) for word in words):
            yield f"it doesn't tell that {lane} is '{end}' at the end"
    if len(words) - 1 != len([lane for lane in due if not (each and lane.startswith("c"))]) + len(each):
        yield f"at the end it tells {words}"


def signs_unsound(picture, told):
    """Each sign stands at its lane, in its row; the bar of a run that ends its actor stands under the box."""
    lanes = {x: name for name, x in lanes_of(picture).items()}
    heights = sorted(heights_of(picture).items(), reverse=True)
    places = {y + lower: place for place, y in heights for lower in (0, UNDER_A_BOX)}
    drawn = [(sort, places.get(y), lanes.get(x)) for sort, x, y in signs_in(picture)]
    yield from difference("signs", drawn, told.signs_due())


def difference(what, drawn, due):
    drawn, due = collections.Counter(drawn), collections.Counter(due)
    if drawn != due:
        yield f"{what} that are due and not drawn: {list(due - drawn)}; drawn and not due: {list(drawn - due)}"


def lines_unsound(picture, told):
    lanes, heights, edges = lanes_of(picture), heights_of(picture), edges_of(picture)
    drawn = [line_of(each, lanes, heights, edges) for each in of_class(picture, "arrow")]
    yield from difference("lines", drawn, told.lines_due())
    yield from difference("far ends", [far_of(each, lanes, heights) for each in of_class(picture, "far")], told.far_due())
    stubs = [stub_of(each, lanes, heights) for each in of_class(picture, "lost")]
    yield from difference("stubs", stubs, told.stubs_due())
    yield from difference("passing", passing_of(picture).elements(), told.passing_due().elements())


def legend_unsound(picture, _):
    (legend,) = of_class(picture, "legend")
    drawn = {*looks_in(picture), *(classes(each)[1] for name in LINES for each in of_class(picture, name))}
    explained = {*looks_in(legend), *(classes(each)[1] for each in of_class(legend, "sample"))}
    drawn |= {sign for each in picture.iter(SVG + "text") for sign in re.findall("[→←]", each.text or "") if each not in [*legend]}
    explained |= {sign for each in legend.iter(SVG + "text") for sign in re.findall("[→←] 9", each.text)}
    explained = {each[:1] if isinstance(each, str) and each.endswith(" 9") else each for each in explained}
    if drawn != explained:
        yield f"the legend doesn't explain {drawn - explained}, and explains {explained - drawn}, which isn't there"


def words_unsound(picture, _):
    width = int(picture.get("width"))
    if width > MAX_WIDTH:
        yield f"it is {width} pixels wide"
    words = sorted(words_of(picture))
    yield from (f"'{each}' stands outside" for _, begin, end, each in words if begin < 0 or end > width)
    for (y, _, end, each), (next_y, begin, _, other) in zip(words, words[1:]):
        if y == next_y and end > begin + 1:
            yield f"'{each}' stands on '{other}'"
    for x, top, bottom in leaders_of(picture):
        crossed = [each for y, begin, end, each in words if top < y < bottom and begin < x < end]
        yield from (f"the way from other words to their lane crosses '{each}'" for each in crossed)


def unsound(picture, told):
    """Why a picture isn't the one of this script and report; nothing where it is."""
    return next((why for check in CHECKS for why in check(picture, told)), None)


# What is drawn of something that goes from lane to lane.
LINES = "arrow", "far", "lost"
CHECKS = [
    rows_unsound, texts_unsound, lanes_unsound, ends_unsound, labels_unsound, signs_unsound, lines_unsound, legend_unsound, words_unsound,
]  # fmt: skip


# The page of a run.


def data_of(page):
    """The data of a page."""
    return json.loads(re.search("^const RUN = (.*);$", page, re.M)[1])


class PageData:
    """The data of a page, with names in the place of numbers."""

    def __init__(self, data):
        lanes, chains = [lane["name"] for lane in data["lanes"]] + [None], data["chains"] + [None]
        self.width, self.lanes, self.dots = data["width"], lanes[:-1], data["dots"]
        self.ended = {lane["name"]: lane["ended"] for lane in data["lanes"]}
        self.events = [(line, outcome, lanes[lane], chains[chain]) for line, outcome, lane, *_, chain, _ in data["events"]]
        self.marks = [(lanes[lane], sort, words, begin) for _, _, lane, sort, words, begin, _, _ in data["events"]]
        self.shown = [shown for *_, shown in data["events"]]
        self.ways = [
            (data["looks"][look]["name"], begin, end, lanes[source], lanes[target], chains[chain])
            for look, _, begin, end, source, target, chain, _ in data["ways"]
        ]

    def signs(self):
        """The signs that are drawn, each with its place and its lane."""
        others = {"run": "box", "gap": "dot gap", "dead": "bar dead", "retired": "bar retired"}
        for place, (lane, sort, *_) in enumerate(self.marks):
            sign = f"dot {self.dots[sort]}" if sort in self.dots else others.get(sort)
            if sign:
                yield sign, place, lane
            if sort == "run" and self.ended[lane] == place:
                yield "bar dead", place, lane


def events_of_page(data, told):
    events = zip(map(" ".join, told.events), told.outcomes)
    due = [(*event, told.lane_of(place), told.chain_of(place)) for place, event in enumerate(events)]
    if data.events != due:
        yield f"its events aren't those of the run, in order: {[each for each in due if each not in data.events][:3]}"


def lanes_of_page(data, told):
    if {*data.lanes} != told.lanes_due or len(data.lanes) != len({*data.lanes}):
        yield f"it has the lanes {data.lanes}"
    if data.ended != {name: told.ended().get(name) for name in data.lanes}:
        yield "an actor ends elsewhere"


def ways_of_page(data, told):
    arrived = [(sort, begin, end, told.lane_of(begin), told.lane_of(end)) for sort, begin, end in told.arrivals()]
    lost = [(sort, begin, -1, lane, told.goes_to(begin)) for sort, begin, lane in told.stubs_due()]
    yield from difference("ways", [way[:-1] for way in data.ways], arrived + lost)
    for sort, begin, end, _, _, chain in data.ways:
        if {chain} != {told.chain_of(place) for place in (begin, end) if place >= 0}:
            yield f"the {sort} of {begin} is of the chain {chain}"


def marks_of_page(data, told):
    yield from difference("signs", data.signs(), told.signs_due())
    far = told.far_words()
    for place, ((lane, _, words, begin), shown) in enumerate(zip(data.marks, data.shown)):
        if not words.endswith(far.get(place, "")) or (lane is None) != (not words):
            yield f"the words of {place} are '{words}'"
        if begin < 0 or begin + len(words) * LETTER > data.width or shown and not shown.rstrip("…").strip():
            yield f"the words of {place} have no room"
    if data.width > MAX_WIDTH_OF_PAGE:
        yield f"it is {data.width} pixels wide"


CHECKS_OF_PAGE = [events_of_page, lanes_of_page, ways_of_page, marks_of_page]


def data_unsound(data, told):
    """Why the data of a page aren't those of the run; nothing where they are."""
    try:
        data = PageData(data)
    except IndexError:
        return "a number names no lane, chain or look"
    return next((why for check in CHECKS_OF_PAGE for why in check(data, told)), None)


def page_unsound(page, told):
    """Why a page isn't the one of this run: what it has, and what it asks for."""
    asked = re.search(r"https?:|\b(?:src|href)\s*=|url[(]|\bfetch[(]|XMLHttp|WebSocket|\bimport\s*[({'\"]|@@", page)
    if asked:
        return f"it asks for something else: {page[asked.start() : asked.start() + 60]!r}"
    return data_unsound(data_of(page), told)


def spoilt_data(data):
    """Data that aren't those of the run, and what was done to them."""
    for list_name, place, part, value in (
        ("events", -1, 1, "kept"), ("events", 0, 0, "run a1 c1"), ("events", -1, 2, 0), ("events", -1, 6, 0), ("events", 0, 4, ""),
        ("ways", 0, 3, 0), ("ways", 0, 2, 1), ("ways", 0, 5, -1), ("ways", 0, 6, -1), ("ways", -1, 0, 5),
    ):  # fmt: skip
        other = copy.deepcopy(data)
        if other[list_name] and other[list_name][place][part] != value:
            other[list_name][place][part] = value
            yield f"{part} of {list_name} {place} changed", other
    for list_name in "events", "ways", "lanes":
        for how, change in ("left out", lambda items: items.pop()), ("doubled", lambda items: items.append(items[-1])):
            other = copy.deepcopy(data)
            change(other[list_name])
            yield f"one of {list_name} {how}", other
    other = copy.deepcopy(data)
    other["lanes"][0]["ended"] = 1
    yield "a lane ended", other


def page_failures(name, script, report):
    """What is wrong with the page of a run, or with the check where it passes a spoilt one; and how many were made."""
    page, told = draw.page(script, report, name), Told(script, report, folds=False)
    why, others = page_unsound(page, told), [*spoilt_data(data_of(page))]
    failures = [f"{name}, its page: {why}"] if why else []
    failures += [f"{name}, its page: the check finds nothing wrong with {how}" for how, data in others if not data_unsound(data, told)]
    network = page.replace("</body>", '<img src="picture.png"></body>')
    return 2 + len(others), failures + ([] if page_unsound(network, told) else [f"{name}, its page: what it asks for isn't seen"])


# The check itself is tried.


def without(picture, *path):
    """The picture without the element to which these places lead."""
    other = copy.deepcopy(picture)
    *parents, last = path
    parent = other
    for place in parents:
        parent = parent[place]
    parent.remove(parent[last])
    return other


def with_a_line_moved(picture, place):
    other = copy.deepcopy(picture)
    end = "data-end" if other[place].get("data-end") else "data-begin"
    other[place].set(end, str(int(other[place].get(end)) + 1))
    return other


def with_a_line_twice(picture, place):
    other = copy.deepcopy(picture)
    other.append(copy.deepcopy(other[place]))
    return other


def spoilt(picture):
    """Pictures that aren't sound, and what was done to each."""
    for place, element in enumerate(picture):
        (sort, *_), sorts = classes(element), set(classes(element))
        if sorts & {*LINES, "of_lane", "event", "left_out", "passing", "dot", "box", "bar"} or sort == "end":
            yield f"{sort} {place} left out", without(picture, place)
        if sorts & {*LINES}:
            yield f"{sort} {place} moved", with_a_line_moved(picture, place)
            yield f"{sort} {place} doubled", with_a_line_twice(picture, place)
        if "legend" in sorts:
            samples = [number for number, sample in enumerate(element) if sample.tag != SVG + "text"]
            yield from ((f"sample {number} left out", without(picture, place, number)) for number in samples)


def failures_of(name, text, told):
    """What is wrong with a picture, or with the check where it passes a spoilt one; and how many checks were made."""
    try:
        picture = xml.fromstring(text)
    except xml.ParseError as why:
        return 1, [f"{name}: the picture is no XML: {why}"]
    why = unsound(picture, told)
    failures = [f"{name}: {why}"] if why else []
    others = list(spoilt(picture))
    failures += [f"{name}: the check finds nothing wrong with {how}" for how, other in others if not unsound(other, told)]
    return 2 + len(others), failures


# Random runs.


class Crowd(fuzz.Author):
    """Writes a script of 16 callers and 8 actors."""

    def __init__(self, chance):
        super().__init__(chance)
        self.lines, self.pool = [], list(range(1, 17))
        self.world = reading.World([self.role(actor) for actor in range(1, 9)])
        self.pairs = [(caller, actor) for caller, named in self.world.callers.items() for actor in named.copies]

    def script(self):
        self.events(CROWDED)
        return "\n".join(self.lines) + "\n"


def long_words():
    """Sixteen callers of eight tables, each of which puts a long text and gets it."""
    text = '"%s"' % ("x" * 64)
    yield from (f"actor a{actor} table max 65536 " + " ".join(f"c{caller}" for caller in range(1, 17)) for actor in range(1, 9))
    for place in range(32):
        caller, call = place // 2 + 1, place % 2
        yield f"submit c{caller} a{caller % 8 + 1} " + ("get " if call else "put ") + text + ("" if call else f" {text}")
        yield from (f"send c{caller} {call}", f"deliver {place}", f"run a{caller % 8 + 1} c{caller}", f"collect {place}")


def in_phases(callers, actors, calls):
    """All calls are submitted, then all are sent, and so on, as threads may do it."""
    turns = [(caller, number) for number in range(calls) for caller in range(1, callers + 1)]
    called = [(caller + number) % actors + 1 for caller, number in turns]
    yield from (f"actor a{actor} counter " + " ".join(f"c{caller}" for caller in range(1, callers + 1)) for actor in range(1, actors + 1))
    yield from (f"submit c{caller} a{actor} add 1" for (caller, _), actor in zip(turns, called))
    yield "submit c1 a1 get"
    yield from (f"send c{caller} {number}" for caller, number in turns)
    yield from (f"deliver {place}" for place in [*range(len(turns)), 0])
    yield from (f"run a{actor} c{caller}" for (caller, _), actor in zip(turns, called))
    yield from (f"kill c{caller} a1" for caller in range(1, callers + 1))
    yield from (f"collect {place}" for place in [*range(len(turns)), 0])
    yield from ("take a1", "tell a1 c1", f"collect {len(turns)}", "deliver 0")


def script_in_phases(*counts):
    return "".join(f"{line}\n" for line in in_phases(*counts)).encode()


def random_scripts():
    yield "phases", script_in_phases(16, 8, 3)
    yield "long words", "".join(f"{line}\n" for line in long_words()).encode()
    for place in range(RANDOM_SCRIPTS):
        yield f"random script {place}", fuzz.random_script("pictures", place)
    for place in range(CROWDS):
        yield f"crowd {place}", Crowd(random.Random(f"crowd.{place}")).script().encode()


def random_runs():
    """Random scripts without a fault, with their reports, whole and cut, by name."""
    for name, script in random_scripts():
        report, status = reading.play(script)
        if status == 0:
            yield name, script, report, None
            count = len(Told(script, report).events)
            chance = random.Random(name)
            for _ in range(CUTS if count else 0):
                first, last = sorted(chance.choices(range(count), k=2))
                yield f"{name}, events {first}..{last}", script, report, range(first, last + 1)


def sorts_in(picture):
    """What the check of a picture had to do with."""
    yield from (classes(each)[1] for name in LINES for each in of_class(picture, name))
    yield from (name for name in ("left_out", "passing", "far", "tie") if of_class(picture, name))
    yield from ("stairs" for row in of_class(picture, "event") if row.get("data-last"))
    for each in of_class(picture, "arrow"):
        _, _, begins, ends = way_of(each)
        yield from ["from the upper edge"] * (not begins) + ["to the lower edge"] * (not ends)


SORTS = {
    "letter", "letter_repeat", "letter_turned_away", "letter_lost", "reply", "reply_late", "reply_lost", "death", "death_lost",
    "kill", "kill_lost", "left_out", "passing", "far", "tie", "stairs", "from the upper edge", "to the lower edge",
}  # fmt: skip


def random_failures():
    """How many pictures of random runs were checked, and what is wrong with them or missing in all of them."""
    checks, failures, met = len(SORTS), [], set()
    for name, script, report, shown in random_runs():
        if shown is None:
            why = page_unsound(draw.page(script, report, name), Told(script, report, folds=False))
            checks, failures = checks + 1, failures + ([f"{name}, its page: {why}"] if why else [])
        picture = xml.fromstring(draw.picture(script, report, name, shown))
        why = unsound(picture, Told(script, report, shown))
        checks, failures = checks + 1, failures + ([f"{name}: {why}"] if why else [])
        met |= set(sorts_in(picture))
    return checks, failures + [f"no picture of a random run has: {sort}" for sort in sorted(SORTS - met)]


def cut_failures():
    """The same of the cut picture of a crowd, with its spoilt ones."""
    script = Crowd(random.Random("cut")).script().encode()
    report, _ = reading.play(script)
    shown = range(CROWDED // 2, CROWDED // 2 + 30)
    made, failures = failures_of("a cut crowd", draw.picture(script, report, "crowd", shown), Told(script, report, shown))
    script = script_in_phases(4, 2, 4)
    report, _ = reading.play(script)
    more, others = failures_of("phases", draw.picture(script, report, "phases"), Told(script, report))
    return made + more, failures + others


# The tool.


def checked(reports):
    """How many checks were made of the pictures that lie there and of random ones, and what is wrong."""
    wanted = {path.stem for path in reports}
    checks, failures = 1, [f"{path.stem}: a picture of no example" for path in PICTURES.glob("*.svg") if path.stem not in wanted]
    for path, report in reports.items():
        text = draw.picture(path.read_bytes(), report, path.name)
        made, wrong = failures_of(path.stem, text, Told(path.read_bytes(), report))
        there = PICTURES / f"{path.stem}.svg"
        if not there.exists() or there.read_bytes() != text.encode():
            wrong.append(f"{path.stem}: docs/pictures has another picture, or none; tools/pictures.py draws it anew")
        of_page, wrong_page = page_failures(path.stem, path.read_bytes(), report)
        checks, failures = checks + made + 1 + of_page, failures + wrong + wrong_page
    for made, wrong in wrong_heads(), cut_failures(), random_failures():
        checks, failures = checks + made, failures + wrong
    return checks, failures


def main():
    options = argparse.ArgumentParser(description=__doc__.splitlines()[0])
    options.add_argument("--check", action="store_true")
    options.add_argument("--reading", action="store_true", help="make the reports by the second reading of the rules")
    chosen = options.parse_args()
    program = None if chosen.reading else kept("pictures")
    reports = {path: report_of(path, program) for path in examples()}
    if not chosen.check:
        PICTURES.mkdir(exist_ok=True)
        for path, report in reports.items():
            (PICTURES / f"{path.stem}.svg").write_text(draw.picture(path.read_bytes(), report, path.name))
        return
    checks, failures = checked(reports)
    print("".join(f"{failure}\n" for failure in failures), end="")
    print(f"pictures: {checks - len(failures)} passed, {len(failures)} failed")
    sys.exit(1 if failures or not reports else 0)


if __name__ == "__main__":
    main()

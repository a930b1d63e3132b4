"""The page of a run, for a browser: ./draw --page makes it. It has all that it shows, and asks for nothing else.

run_page.html is the page without its data. What is drawn there stands where tools/layout.py places it, and only the
rows in view are drawn. The data are lists: of each event its line, its outcome, its lane, the sort of its mark, its
words and where these begin, its chain, and its line as it is shown, where that is cut; of each way its look, colour,
begin, end (or -1), source, target, chain and name.

A chain is what belongs together: a call with its letters, its run and its replies; or the note of a last release, the
kills of an actor, or a death told to a caller, each with its ways.
"""
import json
import pathlib
import re
from xml.sax.saxutils import escape

from draw import FAR_STUB, LOOKS, SIGN_OF, SIGNS, STYLE, WORDS_IN, Picture, dot_at, line_at, text_at, ways_of
from layout import AT_THE_END, BESIDE, CHARACTER, EDGE, FAR, LEVEL, ROW, highest
from story import Story, read_run

TEMPLATE = pathlib.Path(__file__).with_suffix(".html")
NAMES_HEIGHT = 24
WIDTH = 1240
CALL = re.compile(r"c[0-9]+[.][0-9]+")


# Chains.


def chain_of(passage):
    """The name of what a letter, a reply, a death or a kill belongs to."""
    content = passage.name.partition(": ")[2]
    return content if CALL.fullmatch(content) else passage.name


class Chains:
    """Of each event the chain that it is in, and the names of all, in the order in which they begin."""

    def __init__(self, story):
        named = {}
        for event in story.run.events:
            if event.words[0] == "submit" and not event.is_refused():
                named[event.place] = event.outcome.removeprefix("future ")
        for passage in story.passages():
            for place in [passage.begin, *(end for end, _ in passage.arrivals)]:
                named[place] = chain_of(passage)
        self.names = list(dict.fromkeys(named[place] for place in sorted(named)))
        self.numbers = {name: number for number, name in enumerate(self.names)}
        self.of_events = {place: self.numbers[name] for place, name in named.items()}


# The data.


class Data:
    """What the page shows, of a picture of all events of a story."""

    def __init__(self, picture):
        self.picture, self.at, self.story = picture, picture.at, picture.story
        self.chains = Chains(self.story)
        self.lanes = [*self.at.lanes]
        self.numbers = {lane: number for number, lane in enumerate(self.lanes)}

    def lane(self, name):
        ended = self.story.ended.get(name)
        return {"name": name, "x": self.at.lanes[name], "caller": self.story.is_caller(name), "ended": ended}

    def event(self, event):
        mark = self.at.marks.get(event.place)
        words, begin = self.at.words_at(mark) if mark else ("", 0)
        lane = self.numbers[mark.lane] if mark else -1
        line, shown = " ".join(event.words), self.at.shown_line(event.place)
        chain = self.chains.of_events.get(event.place, -1)
        return [line, event.outcome, lane, mark.sort if mark else "", words, begin, chain, shown if shown != line else ""]

    def way(self, way):
        passage = way.passage
        source, target = self.numbers[passage.source], self.numbers.get(passage.target, self.numbers[passage.source])
        chain = self.chains.numbers[chain_of(passage)]
        end = -1 if way.end is None else way.end
        return [LOOKS.index(way.look), way.colour, passage.begin, end, source, target, chain, passage.name]

    def look(self, look):
        name, is_right = look.name.replace(" ", "_"), look.name.split(" ")[0] in ("letter", "kill")
        return {"name": name, "dashes": look.dashes, "end": look.end, "right": is_right}

    def foot(self):
        """What stands below the last row, and how high it is."""
        drawn = [text_at(self.at.lines_begin, EDGE, AT_THE_END, "end")]
        for lane, label in self.at.ends.items():
            y = EDGE + LEVEL * label.level
            drawn.append(line_at(self.at.lanes[lane], 0, y - 8, "leader") if label.level else "")
            drawn.append(text_at(self.at.lanes[lane], y, label.words, "end", label.anchor))
        return "".join(drawn), 2 * EDGE + LEVEL * highest(self.at.ends)

    def all(self):
        at = self.at
        foot, foot_height = self.foot()
        dots = {sort: SIGN_OF.get(sort, sort) for sort in [*SIGNS, *SIGN_OF] if SIGNS[SIGN_OF.get(sort, sort)][0] is dot_at}
        return {
            "name": self.picture.name, "width": at.width, "row": ROW, "far": FAR, "stub": FAR_STUB, "beside": BESIDE,
            "letter": CHARACTER, "gap": [at.gap_begin, at.gap_end], "outside": at.is_outside, "first": at.first_lane,
            "last": at.last_lane, "places_end": at.places_end, "lines_begin": at.lines_begin, "foot": foot,
            "foot_height": foot_height, "dots": dots, "colours": WORDS_IN, "lanes": [*map(self.lane, self.lanes)],
            "looks": [*map(self.look, LOOKS)], "chains": self.chains.names,
            "events": [*map(self.event, self.story.run.events)], "ways": [*map(self.way, ways_of(self.story))],
        }  # fmt: skip


# The page.


def names(at):
    """The names over the lanes, and how high they are."""
    height = NAMES_HEIGHT + LEVEL * highest(at.names)
    for lane, label in at.names.items():
        x, y = at.lanes[lane], height - 12 - LEVEL * label.level
        leader = line_at(x, y + 8, height, "leader") if label.level else ""
        yield f'<g data-lane="{lane}" cursor="pointer">{leader}{text_at(x, y, label.words, "head", label.anchor)}</g>'


def signs(picture):
    """What the page has besides the run, in lines: the legend, and what isn't shown; and how high that is."""
    legend, height = picture.legend(EDGE)
    notes = [text_at(picture.at.lines_begin, EDGE + height + ROW * number, line, f"note {sort}")
             for number, (sort, line) in enumerate(picture.notes())]  # fmt: skip
    return "".join([*legend, *notes]), 2 * EDGE + height + ROW * len(notes)


def filled(template, parts):
    return re.sub("@@([a-z_]+)@@", lambda found: str(parts[found[1]]), template)


def page(script, report, name):
    """The page of a run, as text. Raises Stop."""
    story = Story(read_run(script, report))
    picture = Picture(story, range(len(story.run.events)), name, folds=False, most_wide=WIDTH)
    legend, legend_height = signs(picture)
    data = json.dumps(Data(picture).all(), separators=(",", ":")).replace("<", "\\u003c")
    parts = {
        "name": escape(name), "style": STYLE.strip(), "width": picture.at.width, "data": data,
        "head": "".join(names(picture.at)), "head_height": NAMES_HEIGHT + LEVEL * highest(picture.at.names),
        "legend": legend, "legend_height": legend_height,
    }  # fmt: skip
    return filled(TEMPLATE.read_text(), parts)

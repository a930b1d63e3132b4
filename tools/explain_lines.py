"""Why a line of a script has none of the forms, in plain words; tools/explain.py tells it.

Whether a line is faulty the reading of the rules alone decides (tools/reading_of_rules.py). Here a line that it
refused is looked through for a reason: for bytes that aren't plain, its length, its spaces, and then its words.
"""
import difflib
import itertools
import re
import unicodedata
from dataclasses import dataclass, replace

import reading_of_rules as reading

FORMS = {"play": reading.PLAY_FORMS, "threads": reading.THREAD_FORMS}
OTHER = {"play": "threads", "threads": "play"}
ORDER_MARK = b"\xef\xbb\xbf".decode("latin-1")
LONGEST_TEXT = 64
MAX_REPAIRS = 20
# What a word must be like at the least, to be told as the nearest.
NEAR_ENOUGH = 0.6
# Characters that look like plain ones, and aren't normalised to them.
LOOKS_LIKE = dict.fromkeys("“”„‟«»‘’‚‛", '"') | dict.fromkeys("‐‑‒–—―−", "-")


@dataclass(frozen=True)
class Finding:
    """What is wrong with a line."""

    begin: int  # the bytes that are marked
    end: int
    why: str
    better: str = None  # the line without this, where it is plain how it would be
    is_general: bool = False  # the reason tells what is due, and nothing of the word that stands there


class Line:
    """A line, as a character for each byte, and what is to be known of its script."""

    def __init__(self, text, mode, data):
        self.text = text
        self.mode = mode
        self.data = data
        self.words = text.split(" ")
        self.forms = FORMS[mode]

    def with_text(self, text):
        return Line(text, self.mode, self.data)

    def is_good(self):
        try:
            words = reading.words_of(self.text.encode("latin-1"))
            return not words or bool(reading.read_words(words, self.forms))
        except reading.BadWord:
            return False

    def is_comment(self):
        return self.text.startswith("#")

    def begin_of(self, place):
        return sum(len(word) + 1 for word in self.words[:place])

    def at(self, place, why, instead=None, words=1, is_general=False):
        """A finding at so many words, and the line with others instead of them."""
        begin, end = self.begin_of(place), self.begin_of(place + words) - 1
        better = None if instead is None else " ".join([*self.words[:place], *instead, *self.words[place + words :]])
        return Finding(begin, end, why, better, is_general)

    def form(self):
        form = form_of(self.words[0], self.forms)
        return f"The form is: {form.replace('KIND', 'KIND max LIMIT') if self.words[3:4] == ['max'] else form}"

    def kind_of(self, actor):
        """The kind that the script gives this actor, or none."""
        for line in self.data.split(b"\n"):
            words = line.decode("latin-1").split(" ")
            if words[:2] == ["actor", actor] and words[2:3] and words[2] in reading.KINDS:
                return words[2]
        return None


def near(word, names):
    """The name that is the nearest to the word, or that alone begins with it; none where none is near."""
    longer = [name for name in names if name.startswith(word.lower())]
    if len(longer) == 1 and len(word) > 1:
        return longer[0]
    return next(iter(difflib.get_close_matches(word.lower(), sorted(names), 1, NEAR_ENOUGH)), None)


def shortened(word):
    return word if len(word) <= 40 else f"{word[:30]}.. ({len(word)} bytes)"


def named(word):
    return f"'{shortened(word)}'"


# Bytes that aren't plain.


def odd_byte(line):
    at = next((place for place, each in enumerate(line.text) if not " " <= each <= "~"), None)
    if at is None:
        return None
    if is_wide(line.data):
        why = "the script looks like UTF-16, with two bytes for each letter. Save it as plain text (ASCII)"
        return Finding(at, at + 1, why)
    for look in order_mark, carriage_return, tab, odd_character:
        finding = look(line, at)
        if finding:
            return finding
    return odd_control(line, at)


def is_wide(data):
    """Whether the script looks like text with two bytes for each letter."""
    return data[:2] in (b"\xff\xfe", b"\xfe\xff") or 3 * data[:200].count(0) > len(data[:200])


def order_mark(line, at):
    if not line.text.startswith(ORDER_MARK, at):
        return None
    end = at + len(ORDER_MARK)
    why = "these three bytes are a mark of byte order (BOM), which editors hide. Save the script as UTF-8 without it"
    return Finding(at, end, why, line.text[:at] + line.text[end:])


def carriage_return(line, at):
    text = line.text
    if text[at] != "\r":
        return None
    if text[at:].strip("\r"):
        old = "" if b"\n" in line.data else ", and all lines of this script end so: tr '\\r' '\\n' < FILE"
        return Finding(at, at + 1, f"a CR (carriage return) is no line end, LF is{old}")
    ends = line.data.count(b"\r\n")
    count = f"; {ends} lines of the script end so" if ends > 1 else ""
    why = f"the line end has two bytes, CR LF, and LF alone is right{count}. Without CR: tr -d '\\r' < FILE"
    return Finding(at, len(text), why, text[:at])


def tab(line, at):
    text = line.text
    if text[at] != "\t":
        return None
    end = at + len(text[at:]) - len(text[at:].lstrip("\t"))
    if line.is_comment():
        return Finding(at, end, "a tab has no place in a script, not even in a comment", text.replace("\t", " "))
    better = " ".join(re.split("[ \t]+", text.strip(" \t")))
    return Finding(at, end, "a tab divides no words: between two words stands one space", better)


def odd_character(line, at):
    """A character of UTF-8 that takes more than one byte."""
    if line.text[at] < "\x80":
        return None
    for end in at + 2, at + 3, at + 4:
        try:
            character = line.text[at:end].encode("latin-1").decode("utf-8")
        except UnicodeDecodeError:
            continue
        name = unicodedata.name(character, "a character without a name")
        where = "in comments too" if line.is_comment() else "in texts too"
        why = f"this is U+{ord(character):04X}, {name}, and a script has plain ASCII alone, {where}"
        return Finding(at, end, why, plain(line.text))
    return None


def plain(text):
    """The line with plain characters for those that look like them, or none where one has no such."""
    try:
        decoded = text.encode("latin-1").decode("utf-8")
    except UnicodeDecodeError:
        return None
    changed = "".join(LOOKS_LIKE.get(each, each) for each in decoded)
    changed = "".join(each for each in unicodedata.normalize("NFKD", changed) if not unicodedata.combining(each))
    return changed if changed.isascii() else None


def odd_control(line, at):
    byte = line.text[at]
    sort = "control byte" if byte < " " or byte == "\x7f" else "byte"
    name = "a zero byte" if byte == "\0" else f"the {sort} 0x{ord(byte):02x}"
    without = line.text[:at] + line.text[at + 1 :]
    return Finding(at, at + 1, f"{name} is no plain text: a line has bytes from 0x20 to 0x7E alone", without)


# Length and spaces.


def too_long(line):
    length = len(line.text)
    if length <= reading.LONGEST_LINE:
        return None
    where = ", also of a comment: divide it" if line.is_comment() else ""
    why = f"the line has {length} bytes, and {reading.LONGEST_LINE} is the most{where}. The mark is under what is too much"
    return Finding(reading.LONGEST_LINE, length, why)


def odd_space(line):
    found = None if line.is_comment() else re.search("^ +| +$|  +", line.text)
    if not found:
        return None
    begin, end = found.span()
    count = "a space stands" if end - begin == 1 else f"{end - begin} spaces stand"
    rest = line.text.strip(" ")
    if not rest:
        return Finding(0, end, "a line of spaces alone is no empty line: take them out", "")
    if rest.startswith("#"):
        return Finding(0, end, "a comment's # is the first byte of its line", rest)
    if begin == 0:
        why = "a line begins with its first word, without a space before it"
    elif end == len(line.text):
        why = f"{count} behind the last word, and the line ends with it"
    else:
        why = f"{count} between two words, and one is right"
    return Finding(begin, end, why, " ".join(rest.split()))


# The forms, as a reader sees them.

NAMES = {
    reading.read_actor: ("ACTOR", "an actor (a1 to a8)"),
    reading.read_caller: ("CALLER", "a caller (c1 to c16)"),
    reading.read_kind: ("KIND", "a kind (counter, table, account or list)"),
    reading.read_method: ("METHOD", "a method"),
    reading.read_number: ("NUMBER", "a number"),
    reading.read_limit: ("LIMIT", "a limit (1 to 65536)"),
    reading.read_argument: ("ARG", "an argument"),
}  # fmt: skip
SAMPLES = {reading.read_actor: "a1", reading.read_caller: "c1", reading.read_kind: "list", reading.read_method: "get"}
TAILS = {"actor": ["CALLER .."], "submit": ["ARG .."]}
LIMITED = "actor ACTOR KIND max LIMIT CALLER .."
# How others write a limit, and its value where it stands in the same word.
OTHER_LIMIT = re.compile("(?i)(?:limit|pending|max_?pending(?:_?calls)?|maximum|capacity)(?:[=:](.*))?|max[=:](.*)")
NUMBER_MEANS = {
    "send": "the number of a future of the caller",
    "await": "the number of a future of the caller",
    "deliver": "a letter's place in the mail",
    "collect": "a notice's place in the replies",
}


def form_of(verb, forms):
    return " ".join([verb, *(NAMES[read][0] for read in forms[verb]), *TAILS.get(verb, [])])


def read_max(word):
    """The word that stands before a limit; it was seen to be there."""


def due_in(line):
    """What each word after the first must spell, and whether it may not be missing."""
    verb = line.words[0]
    yield from ((read, True) for read in line.forms[verb])
    if verb == "submit":
        yield from itertools.repeat((reading.read_argument, False))
    if verb == "actor":
        if line.words[3:4] == ["max"]:
            yield from [(read_max, True), (reading.read_limit, True)]
        yield reading.read_caller, True
        yield from itertools.repeat((reading.read_caller, False))


def odd_word(line):
    """The first word that doesn't spell what is due, or is missing or too much; none where all are right."""
    if line.words[0] not in line.forms:
        return odd_verb(line)
    place = 0
    for place, (read, must) in enumerate(due_in(line), 1):
        if place == len(line.words):
            return missing(line, read) if must else None
        try:
            read(line.words[place])
        except reading.BadWord:
            return odd_word_at(line, place, read)
    return too_many(line, place + 1) if place + 1 < len(line.words) else None


# The first word.


def odd_verb(line):
    word = line.words[0]
    other = OTHER[line.mode]
    if word in FORMS[other]:
        return line.at(0, why_other_mode(line, other))
    if word.lower() in line.forms:
        return line.at(0, f"capital letters aren't small ones: '{word.lower()}'", [word.lower()])
    if re.match("//|;|--|%|/[*]", word):
        better = f"# {line.text.lstrip('/;-%* ')}".rstrip()
        return Finding(0, len(word), "a comment begins with #, as the first byte of its line", better)
    if re.fullmatch("[0-9]+:|[ac][0-9]+[.][0-9]+", word):
        more = "" if word.endswith(":") else ". A script with its report below it is a history, for ./check"
        return line.at(0, f"'{word}' begins a line of a report, and no line of a script{more}")
    if line.words[1:2] and line.words[1] in line.forms:
        return line.at(0, f"the line's first word is '{line.words[1]}'", [line.words[1], word], 2)
    return unknown_verb(line, other)


def unknown_verb(line, other):
    word = line.words[0]
    why = f"no line begins with {named(word)}"
    nearest = near(word, line.forms)
    if nearest:
        return line.at(0, f"{why}; the nearest word that is known is '{nearest}'", [nearest])
    abroad = near(word, FORMS[other])
    if abroad:
        return line.at(0, f"{why}; the nearest word, '{abroad}', stands in scripts for {other} alone")
    sort = word_elsewhere(word)
    if sort:
        return line.at(0, f"{why}, {sort}")
    return line.at(0, f"{why}. Lines of a script for {line.mode} begin with: {', '.join(line.forms)}", is_general=True)


def word_elsewhere(word):
    """What the first word of a line is, or nearly is, where it is a word of another place."""
    if re.fullmatch("[ac][0-9]+", word):
        return "which is named behind the word that says what is done, as in 'submit c1 a1 get'"
    method, kind = near(word, reading.METHODS), near(word, reading.KINDS)
    if method:
        return f"and '{method}' is a method: submit CALLER ACTOR {method} ARG .."
    return f"and '{kind}' is a kind: actor ACTOR {kind} CALLER .." if kind else None


def why_other_mode(line, other):
    """What to tell of a line of the other mode, by what the whole script is."""
    word = line.words[0]
    try:
        reading.read_script(line.data, FORMS[other])
    except reading.ScriptFault:
        mixed = next((verb for verb in first_words(line.data) if verb in line.forms and verb not in FORMS[other]), None)
        more = f". But '{mixed}' is a line of {line.mode}: a script is for one of the two" if mixed else ""
        return f"'{word}' is a line of scripts for {other} (./run {other}), and of none for {line.mode}{more}"
    return f"'{word}' is no line of a script for {line.mode}: this is a script for {other}: ./run {other}"


def first_words(data):
    for line in data.decode("latin-1").split("\n"):
        yield line.partition(" ")[0]


# The other words.


def missing(line, read):
    """The line ends too early; the mark is behind its end."""
    why = f"the line ends where {NAMES[read][1]} is due"
    if read == reading.read_number:
        why = f"the line ends where {NUMBER_MEANS[line.words[0]]} is due"
    if read == reading.read_caller and line.words[0] == "actor":
        why = "a role names one caller or more, and this one names none"
    if read == reading.read_method:
        why += f" ({methods_of(line)})"
    return Finding(len(line.text) + 1, len(line.text) + 2, f"{why}. {line.form()}")


def too_many(line, place):
    """More words than the form has."""
    behind = comment_behind(line, place)
    if behind:
        return behind
    count = len(line.words) - place
    told = f"{named(line.words[place])} is a word too many" if count == 1 else f"{count} words are too many"
    return line.at(place, f"{told}. {line.form()}", [], count)


def odd_word_at(line, place, read):
    """Why the word doesn't spell what is due there."""
    for look in comment_behind, SORTS[read], with_comma, swapped, not_named, left_out:
        finding = look(line, place)
        if finding:
            return finding
    due = NUMBER_MEANS[line.words[0]] if read == reading.read_number else NAMES[read][1]
    return line.at(place, f"{named(line.words[place])} stands where {due} is due. {line.form()}", is_general=True)


def comment_behind(line, place):
    if not re.match("#|//", line.words[place]):
        return None
    why = "nothing stands behind a line's last word: a comment has a line of its own, which begins with #"
    return line.at(place, why, [], len(line.words) - place)


def with_comma(line, place):
    word = line.words[place]
    if not re.search("[,;]$", word):
        return None
    instead = [each.rstrip(",;") for each in line.words[place:]]
    return line.at(place, f"words are divided by a space alone, without a '{word[-1]}'", instead, len(instead))


def swapped(line, place):
    """Two words that stand in the other order."""
    one, other = line.words[place], "".join(line.words[place + 1 : place + 2])
    found = line.at(place, f"'{one}' and '{other}' stand in the wrong order. {line.form()}", [other, one], 2)
    return found if line.with_text(found.better).is_good() else None


def not_named(line, place):
    """A word that this line has no place for."""
    found = line.at(place, f"{named(line.words[place])} has no place here. {line.form()}", [])
    return found if line.with_text(found.better).is_good() else None


def left_out(line, place):
    """A word that is missing before this one."""
    due = line.forms[line.words[0]][place - 1 : place]
    if not due or due[0] not in SAMPLES:
        return None
    whole = line.with_text(" ".join([*line.words[:place], SAMPLES[due[0]], *line.words[place:]]))
    why = f"{NAMES[due[0]][1]} is missing before '{line.words[place]}'. {line.form()}"
    return line.at(place, why) if whole.is_good() else None


# Callers and actors.


def odd_id(letter, most, noun):
    """Looks at a word where a caller is due, or an actor."""
    known = f"{noun}s are {letter}1 to {letter}{most}"

    def look(line, place):
        word = line.words[place]
        number = re.fullmatch(f"(?i)(?:{letter}|{noun})?[_-]?([0-9]+),?", word)
        better = f"{letter}{int(number[1])}" if number and 1 <= int(number[1]) <= most else None
        if word == letter:
            return line.at(place, f"'{word}' is no {noun}, its number is missing: {known}")
        if word == "max":
            return limit_at_its_place(line, place)
        if line.words[0] == "actor" and OTHER_LIMIT.fullmatch(word):
            return limit_of_other_form(line, place)
        if place == 3 and near(word.partition("=")[0], ["max"]):
            why = f"'{word}' is no caller; the nearest word that can stand here is 'max', before a limit"
            return line.at(place, why, ["max", *filter(None, [word.partition("=")[2]])])
        if re.fullmatch(f"{letter}[0-9]+(-|[.][.]+){letter}?[0-9]+", word):
            return line.at(place, f"each {noun} is named by itself, with a space between two, and not as a range")
        two = re.fullmatch(f"({letter}[0-9]+)[.,:;/](.+)", word)
        if two:
            return line.at(place, f"'{word}' is two words, and between two words stands one space", [two[1], two[2]])
        finding = word.isdigit() and (swapped(line, place) or left_out(line, place))
        if finding or not number:
            return finding or None
        if better is None:
            return line.at(place, f"{named(word)} is no {noun}: {known}")
        return line.at(place, f"{odd_spelling(word, letter)}, so '{word}' is no {noun}", [better])

    return look


def odd_spelling(word, letter):
    """What is wrong with a caller or an actor whose number is well."""
    if word[0].isdigit():
        return f"the letter {letter} stands before the number"
    if word[0].isupper():
        return "capital letters aren't small ones"
    if word.endswith(","):
        return "words are divided by a space alone"
    if word[1:].isdigit():
        return "a number has no zero before its first digit"
    return f"the letter {letter} and a number name one"


def limit_of_other_form(line, place):
    """A limit that isn't written as `max LIMIT`."""
    if line.words[3:4] == ["max"]:
        return line.at(place, "a role has one limit, behind its kind, and this one has that")
    value = "".join(filter(None, OTHER_LIMIT.fullmatch(line.words[place]).groups()))
    signs = sum(word in ("=", ":") for word in line.words[place + 1 : place + 2])
    count = 1 + (0 if value else signs + len(line.words[place + 1 + signs : place + 2 + signs]))
    value = value or "".join(line.words[place + count - 1 : place + count] if count > 1 else [])
    why = f"a limit is written as 'max LIMIT' behind the kind, and LIMIT is 1 to {reading.LARGEST_LIMIT}"
    none = ". An actor without a limit has no such words" if value == "0" else ""
    found = line.at(place, f"{why}{none}. The form is: {LIMITED}", words=count)
    rest = [*line.words[:place], *line.words[place + count :]]
    better = line.with_text(" ".join([*rest[:3], "max", value, *rest[3:]]))
    return replace(found, better=better.text if better.is_good() else None)


def limit_at_its_place(line, place):
    """A limit that doesn't stand behind the kind, or a second one."""
    if line.words[0] != "actor":
        return None
    limit, rest = line.words[place : place + 2], [*line.words[:place], *line.words[place + 2 :]]
    if line.words[3:4] == ["max"] and place > 3:
        return line.at(place, "a role has one limit, behind its kind", [], len(limit))
    why = f"a limit stands behind the kind. The form is: {LIMITED}"
    found = line.at(place, why, words=len(limit))
    return replace(found, better=" ".join([*rest[:3], *limit, *rest[3:]]))


# Kinds and methods.


def odd_name(line, place, names, noun, known):
    """A word that is none of the names, told with the nearest one."""
    word = line.words[place]
    if word.lower() in names:
        return line.at(place, f"capital letters aren't small ones, so '{word}' is no {noun}", [word.lower()])
    nearest = near(word, names)
    if nearest is None:
        return None
    return line.at(place, f"{named(word)} is no {noun}; the nearest is '{nearest}' ({known})", [nearest])


def odd_kind(line, place):
    kinds = "the kinds are " + ", ".join(reading.KINDS)
    found = odd_name(line, place, reading.KINDS, "kind", kinds) or swapped(line, place) or left_out(line, place)
    return found or line.at(place, f"{named(line.words[place])} is no kind: {kinds}")


def methods_of(line):
    """The methods that can be called there, as words."""
    actor = line.words[2]
    kind = line.kind_of(actor)
    if kind is None:
        return "methods are " + ", ".join(sorted(reading.METHODS))
    return f"{actor} is a {kind}, with {', '.join(reading.KINDS[kind].methods)}; and any actor has {reading.END}"


def odd_method(line, place):
    word = line.words[place]
    called = re.fullmatch(r"(\w+)[(](.*)[)]", " ".join(line.words[place:]))
    if called:
        why = "a method has no brackets: its arguments stand behind it, with a space before each"
        arguments = filter(None, re.split("[, ]+", called[2]))
        return line.at(place, why, [called[1], *arguments], len(line.words) - place)
    kind = line.kind_of(line.words[2])
    own = [*reading.KINDS[kind].methods, reading.END] if kind else reading.METHODS
    names = own if near(word, own) else reading.METHODS
    found = odd_name(line, place, names, "method", methods_of(line)) or swapped(line, place)
    if not found and word in line.forms:
        return line.at(place, f"'{word}' is no method, it begins a line of its own: {form_of(word, line.forms)}")
    return found or line.at(place, f"{named(word)} is no method ({methods_of(line)})")


# Numbers.


def odd_number(word, least, most):
    """Why a word that looks like a number is none from the least to the most, and how it would be right."""
    if not re.match("[+-]?[.]?[0-9]", word):
        return None
    if re.fullmatch("[+]?[0-9]+|-0+|-0[0-9]+", word):
        return odd_digits(word, least, most)
    if re.fullmatch("-[0-9]+", word) and least == 0:
        return "a number here has no sign", None
    if re.fullmatch("-[0-9]+", word):
        return f"{shortened(word)} is below {least}, the least number", None
    if re.fullmatch("[+-]?[0-9]{1,3}([_,'][0-9]{3})+", word):
        return "a number has digits alone, with nothing between them", re.sub("[+_,']", "", word)
    if re.fullmatch("[+-]?[0-9]*[.,][0-9]*", word):
        return f"numbers are whole: {shortened(word)} is none", None
    if re.fullmatch("0[xX][0-9a-fA-F]+", word):
        return "numbers are decimal", str(int(word, 16))
    if re.fullmatch("[0-9]+[,;]", word):
        return f"words are divided by a space alone, without a '{word[-1]}'", word[:-1]
    return f"{shortened(word)} isn't a whole decimal number: a number has digits alone", None


def odd_digits(word, least, most):
    number = int(word)
    better = str(number) if least <= number <= most else None
    if word[0] == "+":
        return "a number has no plus before it", better
    if number == 0 and word[0] == "-":
        return "0 has no minus before it", better
    if word.lstrip("-").startswith("0") and len(word) > 1:
        return "a number has no zero before its first digit", better
    return f"{shortened(word)} is above {most}, the largest number here", None


def odd_place(line, place):
    """Looks at a word where a number without a sign is due."""
    word = line.words[place]
    meant = NUMBER_MEANS[line.words[0]]
    future = re.fullmatch("@?(?:(c[0-9]+)[.])?([0-9]+)", word)
    if future and not word.isdigit():
        better = [future[2]] if future[1] in (None, line.words[1]) else None
        return line.at(place, f"here stands {meant}, as a number alone", better)
    if re.fullmatch('"[0-9]+"', word):
        return line.at(place, f"here stands {meant}, as a number without quotes", [word[1:-1]])
    told = odd_number(word, 0, reading.LARGEST_NUMBER)
    return line.at(place, f"{told[0]}, and here stands {meant}", told[1] and [told[1]]) if told else None


def odd_limit(line, place):
    word = line.words[place]
    if re.fullmatch("0+", word):
        why = "a limit is 1 or more: with 0 no call could come in. For an actor without a limit, leave 'max' and the limit out"
        return line.at(place, why)
    told = odd_number(word, 0, reading.LARGEST_LIMIT)
    if told:
        return line.at(place, f"{told[0]}: limits are 1 to {reading.LARGEST_LIMIT}", told[1] and [told[1]])
    return line.at(place, f"{named(word)} stands where {NAMES[reading.read_limit][1]} is due. {line.form()}")


# Arguments.


def odd_argument(line, place):
    for look in odd_text, odd_future, odd_value:
        finding = look(line, place)
        if finding:
            return finding
    word, method = line.words[place], line.words[3]
    if form_of_argument(line, place) == "n":
        return line.at(place, f"{named(word)} is no number, and {method} takes a number there")
    better = [f'"{word}"'] if len(word) <= LONGEST_TEXT else None
    return line.at(place, f"{named(word)} is no argument. A text stands between two quotes", better)


def form_of_argument(line, place):
    """What the method takes at that place of the line, as the kinds tell it; nothing where that isn't known."""
    kind = line.kind_of(line.words[2])
    forms = reading.KINDS[kind].methods.get(line.words[3], ("",))[0] if kind else ""
    return forms[place - 4 : place - 3]


def odd_text(line, place):
    """A text whose quotes, length or bytes aren't right."""
    word = line.words[place]
    quote = word[0] if word[0] in "\"'`" else None
    if quote is None:
        if not word.endswith('"'):
            return None
        return line.at(place, "the quote before the text is missing", ['"' + word])
    end = next((end for end in range(place, len(line.words)) if closes(line.words[end], quote, end == place)), None)
    if end is None:
        return line.at(place, "the quote behind the text is missing", [f'"{word[1:]}"'])
    inner = " ".join(line.words[place : end + 1])[1:-1]
    return line.at(place, why_no_text(inner, quote), better_text(inner), end + 1 - place)


def closes(word, quote, is_first):
    return word.endswith(quote) and not (is_first and len(word) == 1)


def why_no_text(inner, quote):
    if not inner:
        return f"a text has 1 to {LONGEST_TEXT} bytes, and this one has none"
    if " " in inner:
        return "a text has no space in it; another byte can stand there, as '_'"
    if len(inner) > LONGEST_TEXT:
        return f"the text has {len(inner)} bytes between its quotes, and {LONGEST_TEXT} is the most"
    return f'a text stands between two ", and not between two {quote}'


def better_text(inner):
    return [f'"{inner.strip().replace(" ", "_")}"'] if inner.strip() and len(inner) <= LONGEST_TEXT else None


def odd_future(line, place):
    """A future as an argument, with or without its mark, that isn't spelled right."""
    word, caller = line.words[place], line.words[1]
    owned = re.fullmatch("@?(c[0-9]+)[.]([0-9]+)", word)
    if owned and owned[1] != caller:
        return line.at(place, f"an argument is a future of the submitting caller alone, and {caller} submits here")
    if owned:
        return line.at(place, f"a future of {caller} is written as @ and its number alone", [f"@{owned[2]}"])
    if not word.startswith("@"):
        return None
    number = "".join(line.words[place + 1 : place + 2])
    if word == "@" and number.isdigit():
        return line.at(place, "the number of a future stands right behind @, without a space", [f"@{number}"], 2)
    told = odd_number(word[1:], 0, reading.LARGEST_NUMBER)
    if told:
        return line.at(place, f"{told[0]}, and behind @ stands the number of a future", told[1] and [f"@{told[1]}"])
    return line.at(place, f"behind @ stands the number of a future of {caller}, as in @0")


def odd_value(line, place):
    """A number, a `unit` or a word of other languages that isn't spelled right."""
    word = line.words[place]
    told = odd_number(word, reading.LEAST_INT, reading.LARGEST_INT)
    if told:
        return line.at(place, told[0], told[1] and [told[1]])
    if re.fullmatch(r"[(].+[)]|\[.+\]|[{].+[}]|<.+>", word):
        return line.at(place, "an argument has no brackets", [word[1:-1]])
    if word.lower() in ("unit", "none", "null", "nil", "()"):
        return line.at(place, f"'{word}' is no value; the value of nothing is written as unit", ["unit"])
    if word.lower() in ("true", "false"):
        return line.at(place, f"there is no value {word}: an argument is a number, a text, unit or a future")
    return None


SORTS = {
    reading.read_actor: odd_id("a", 8, "actor"),
    reading.read_caller: odd_id("c", 16, "caller"),
    reading.read_kind: odd_kind,
    reading.read_method: odd_method,
    reading.read_number: odd_place,
    reading.read_limit: odd_limit,
    reading.read_argument: odd_argument,
}

# All together.


def finding_in(line):
    """What is wrong with a line that has none of the forms."""
    for look in odd_byte, too_long, odd_space, odd_word:
        finding = look(line)
        if finding:
            return finding
    return Finding(0, len(line.text), f"the line has none of the forms of a script for {line.mode}", is_general=True)


def righted(line):
    """The line as it would be right, or none where that isn't plain; it may need more than one change."""
    for _ in range(MAX_REPAIRS):
        if line.is_good():
            return line.text
        better = finding_in(line).better
        if better is None:
            return None
        line = line.with_text(better)
    return None

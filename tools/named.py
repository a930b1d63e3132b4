"""What the repository has, as the tools for pages look at it: the words of its code, and the texts of its pages."""
import fnmatch
import functools
import os
import pathlib
import re

from program import TOP

# These hold names that nothing else has to have: what is left out here, and the plants of its test.
NO_SOURCES = {"tools/claims.py", "tools/test_claims.py"}

# What runs and builds leave.
LEFT_BY_RUNS = {".git", ".ci", ".built", "out", "__pycache__"}


def texts_there():
    """Each file of the repository with its text, but the texts of pictures."""
    texts = {}
    for folder, folders, names in os.walk(TOP):
        folders[:] = sorted(set(folders) - LEFT_BY_RUNS)
        for name in sorted(names):
            path = pathlib.Path(folder, name)
            text = "" if name.endswith(".svg") else path.read_text(errors="replace")
            texts[str(path.relative_to(TOP))] = text
    return texts


class Sources:
    """The files of the repository, with the words of their code."""

    def __init__(self, texts):
        self.texts = {path: without_comments(path, text) for path, text in texts.items()}

    @functools.cached_property
    def words(self):
        """All words of sources, of the names of files and of their folders."""
        sources = (text for path, text in self.texts.items() if not path.endswith(".md") and path not in NO_SOURCES)
        words = {word for text in sources for word in words_of(text)}
        return words | {word for path in self.texts for word in re.findall(r"\w+", path)} | set(self.members)

    @functools.lru_cache(maxsize=None)
    def words_of(self, begin):
        """The words of the sources whose paths begin so."""
        return {word for path, text in self.texts.items() if path.startswith(begin) for word in words_of(text)}

    @functools.cached_property
    def declared(self):
        """The types, traits and records that are declared here."""
        declares = re.compile(r"^(?:pub |abbrev |unsafe )*(?:trait|enum|struct|record) (?:pub )?(\w+)", re.M)
        texts = (text for path, text in self.texts.items() if path.endswith((".rt", ".antt")))
        return {name for text in texts for name in declares.findall(text)}

    @functools.cached_property
    def members(self):
        """Of each type, trait and record its functions, variants, constants and fields."""
        found = {}
        for path, text in self.texts.items():
            if path.endswith((".rt", ".rs", ".antt")):
                for owner, member in members_in(text):
                    found.setdefault(owner, set()).add(member)
        return found

    @functools.cached_property
    def clauses(self):
        """Of each function's name the words between it and its body, and of what contracts see of its type."""
        found = {}
        for path, text in self.texts.items():
            if re.match(r"crates/\w+/src/.*\.rt", path):
                ghosts = words_of(" ".join(re.findall(r"^ *ghost \w+ = .*", text, re.M)))
                for _, name, head in heads_in(text):
                    found.setdefault(name, set()).update(words_of(head), ghosts)
        return found

    @functools.cached_property
    def contracts(self):
        """Of each crate its functions, as `contracts_in` has them."""
        found = {}
        for path, text in self.texts.items():
            if place := re.match(r"crates/(\w+)/src/.*\.rt", path):
                found.setdefault(place[1], []).extend(contracts_in(text))
        return found

    @functools.lru_cache(maxsize=None)
    def definitions(self, path):
        """The definitions of a spec, as `definitions_in` has them; `None` where there is no such file."""
        return definitions_in(self.texts[path]) if path in self.texts else None

    @functools.cached_property
    def endings(self):
        """Of each end of a path, from a folder on, the files that end so."""
        found = {}
        for path in self.texts:
            parts = path.split("/")
            for at in range(len(parts)):
                found.setdefault("/".join(parts[at:]), []).append(path)
        return found

    def ending_so(self, path):
        """The files whose paths end so; in a part of braces any of its names will do, and a `*` is any text."""
        found = [file for each in opened(path) for file in self.endings.get(each, [])]
        if "*" not in path or found:
            return found
        return [file for end, files in self.endings.items() if fnmatch.fnmatch(end, path) for file in files]


# Functions with their contracts, what contracts see of types, and definitions.

FUNCTION = re.compile(r"( *)(?:pub(?:\(\w+\))? )?(?:const |unsafe )*fn (\w+)")
CLAUSE = re.compile(r"^ *(ensures|requires) (?:(\w+) )?\{(.*?)(?=\n *(?:ensures|requires) |\Z)", re.M | re.S)
GHOST = re.compile(r"^ *(ghost) (\w+) = \{(.*?)\};$", re.M | re.S)
DEFINITION = re.compile(r"^(?!pub use|pub mod)(?:(?:abbrev|unfoldable|pub|record|data) )+(\w+)", re.M)


def heads_in(text):
    """Each function of a source: the number of its first line, from 0, its name, and its head.

    That ends at its body; one without a body ends at a `;` before an empty line or the end of its trait.
    """
    lines = [*text.split("\n"), ""]
    for at, line in enumerate(lines):
        if begin := FUNCTION.match(line):
            yield at, begin[2], "\n".join(lines[at : end_of_head(lines, at, begin[1]) + 1])


def end_of_head(lines, at, indent):
    """The number of the last line of a head that begins there."""
    bodies, has_contract = {indent + "{", indent + "{}"}, False
    for number in range(at, len(lines) - 1):
        line, after = lines[number].rstrip(), lines[number + 1].rstrip()
        has_contract |= bool(re.match(r" *(?:requires|ensures)\b", line))
        ends_bare = not has_contract and line.endswith(("{", "{}", " }"))
        if after in bodies or ends_bare or (line[-1:] == ";" and after in ("", "}")):
            return number
    return at


def contracts_in(text):
    """Of each function of a source its type or trait, its name, and its clauses and premises.

    A clause or a premise is by its label the words that it says; one without a label has an empty one. A type, without
    another, has what contracts see of it as clauses: its invariant, its view, and what an `impl` gives for a trait.
    """
    owners = owners_by_line(text)
    for at, name, head in heads_in(text):
        yield owners[at], name, said_in(CLAUSE, head, "ensures"), said_in(CLAUSE, head, "requires")
    for owner, block in sorted(ghosts_in(text).items()):
        yield None, owner, said_in(GHOST, block, "ghost"), {}


def said_in(pattern, text, sort):
    """Of each clause of this sort the words, by its label."""
    found = {}
    for each, label, said in pattern.findall(text):
        if each == sort:
            found.setdefault(label, set()).update(words_of(said))
    return found


def owners_by_line(text):
    """Of each line of a source the type or trait in whose block it stands, or `None`."""
    owner, owners = None, []
    for line in [*text.split("\n"), ""]:
        if found := OWNER.match(line):
            owner = next(name for name in found.groups() if name)
        owners.append(owner if line.startswith(" ") else None)
        if line.startswith("}"):
            owner = None
    return owners


def ghosts_in(text):
    """The lines of the blocks of each type."""
    blocks = {}
    for owner, line in zip(owners_by_line(text), text.split("\n")):
        if owner:
            blocks[owner] = blocks.get(owner, "") + line + "\n"
    return blocks


def definitions_in(text):
    """Of each definition of a spec the words of it, those of its equations included."""
    begins = [*DEFINITION.finditer(text)]
    ends = [found.start() for found in begins[1:]] + [len(text)]
    return {found[1]: words_of(text[found.start() : end]) for found, end in zip(begins, ends)}


def opened(path):
    """A path with each of the names that stand in its braces."""
    if not (found := re.search(r"\{(.*?)\}", path)):
        return [path]
    return [path[: found.start()] + name.strip() + path[found.end() :] for name in found[1].split(",")]


def words_of(text):
    return set(re.findall(r"\w+", text))


def without_comments(path, text):
    """The text of a source without its comments; of other files all of it."""
    if path.endswith((".rt", ".rs", ".c")):
        return re.sub(r"(?<!:)//.*", "", text)
    if path.endswith(".antt"):
        return re.sub(r"(?:^|(?<=\s))--(?=\s).*", "", text)
    if path.endswith(".py"):
        return re.sub(r'"""[\s\S]*?"""|(?:^|(?<=\s))#.*', "", text)
    return text


OWNER = re.compile(
    r"^(?:pub )?(?:unsafe )?(?:impl(?:<.*?>)? (?:.* for )?&?(?:'\w+ )?(\w+)|(?:trait|enum|struct|mod) (\w+))", re.M
)
# As the prover names an impl of a trait: by the type, and then the trait.
IMPL = re.compile(r"^impl(?:<.*?>)? (?:\w+::)*(\w+)(?:<.*>)? for &?(?:'\w+ )?(\w+)", re.M)
OWNER_IN_SPECS = re.compile(r"^(?:pub )?(?:abbrev )?(?:pub )?record (?:pub )?(\w+)", re.M)
MEMBER = re.compile(
    r"^ +(?:pub(?:\(\w+\))? )?(?:const |unsafe |ghost |type )*(?:fn |mut )?(\w+)\b *(?=[<(:,={]|$)", re.M
)


def members_in(text):
    """The types of a source, each with a name that stands in it, at the beginning of a line."""
    for found in [*OWNER.finditer(text), *OWNER_IN_SPECS.finditer(text)]:
        owner = next(name for name in found.groups() if name)
        block = re.match(r"[\s\S]*?(?=\n\S(?<!\})|\Z)", text[found.end() :])[0]
        head = block.split("\n", 1)[0]
        block = re.match(r"[\s\S]*?(?=\n\}|\Z)", block)[0] if "{" in head or "\n{" in block else block
        names = {*MEMBER.findall(block), *re.findall(r"\bfn (\w+)", block)}
        of_trait = IMPL.match(text, found.start())
        for each in [owner, *([of_trait[2] + of_trait[1]] if of_trait else [])]:
            yield from ((each, name) for name in names)


# The texts of a page.


def lines_of_page(text):
    """The lines of a page that stand in no block, each with its number."""
    fenced = False
    for number, line in enumerate(text.split("\n"), 1):
        is_fence = line.startswith("```")
        if not (fenced or is_fence or line.startswith("    ")):
            yield number, line
        fenced ^= is_fence


def paragraphs_of(text):
    """The paragraphs of a page without their line ends, each with the number of its first line."""
    first, lines = 0, []
    for number, line in [*lines_of_page(text), (0, "")]:
        begins = not line.strip() or line.startswith(("|", "#")) or re.match(r" *(?:[-*]|\d+\.) ", line)
        if lines and begins:
            yield first, " ".join(lines)
            lines = []
        if line.strip():
            first = first if lines else number
            lines.append(line.strip())


def code_of(text):
    return re.findall(r"`([^`]+)`", text)

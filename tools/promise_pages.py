"""Makes a page of all that a promise rests on, in the order to read it."""
import re

from code_files import CodeFiles, Home, items_of
from promises import LIBRARY, SIGNS, Page, Part
from spec_files import ROOT, Passages, modules, uses_in, with_own_crates

TYPE_USE = re.compile(r"use Rattle\.(\w+)\.specs\.declared\.(\w+)\.(\w+)(\.TheVariants)?(?:\.\{([^}]*)\}| as (\w+))")
LIBRARY_USE = re.compile(r"use Rattle\.(\w+)\.specs\.[\w.]*\.\{([^}]*)\}")
ANY_USE = re.compile(r"^(?:pub )?use Rattle\.[\w.]*?(?:\.\{([^}]*)\}| as (\w+))$", re.M)
# What a definition begins with that says nothing of its meaning.
MODIFIERS = re.compile(r"^(?:abbrev |unfoldable |pub )+", re.M)
NAME = re.compile(r"[\w.'-]*\w")
INNER_COMMENTS = ("--", "//")
FIRST_CHAPTER = "What is promised"
WORDS_A_MINUTE = 200
NAMES_A_MINUTE = 100
# Of a list of data with more lines the page has the first, and says how many follow: CLDR's have hundreds.
MOST_LINES, FIRST_LINES = 100, 8


def is_type(home):
    """Whether it is a type of the code."""
    return home.file is not None and home.file.endswith(".rt")


class Promises:
    """What definitions rest on: on others, on types of the code, and on words of the library."""

    def __init__(self, files):
        self.files = files
        self.code = CodeFiles(files.crates)
        self.passages = {at: Passages(specs.text) for at, specs in self.files.specs.items()}
        self.known = {}

    def known_in(self, text):
        """What the names mean that a text brings."""
        text = with_own_crates(text)
        known = {name: Home(*home) for name, home in self.files.known(uses_in(text)).items()}
        for crate, module, name, variants, listed, alias in TYPE_USE.findall(text):
            if crate in self.files.crates:
                home = Home(crate, f"{module}.rt", name)
                under_alias = self.code.variants(home) if variants else [name]
                called = [f"{alias}.{it}" for it in under_alias] if alias else [it for _, it in items_of(listed)]
                known.update(dict.fromkeys(called, home))
        for crate, listed in LIBRARY_USE.findall(text):
            if crate not in self.files.crates:
                known.update({called: Home(crate, None, name) for name, called in items_of(listed)})
        return known

    def known_at(self, at):
        """What the names mean that a file of definitions has or brings."""
        if at not in self.known:
            specs = self.files.specs[at]
            own = {name: Home(*at, owner) for name, owner in specs.owners.items()}
            self.known[at] = {**self.known_in(specs.text), **own}
        return self.known[at]

    def unknown_at(self, at):
        """The names that a file of definitions brings, and of which it is not known what they mean."""
        known = self.known_at(at)
        known_aliases = {name.split(".")[0] for name in known if "." in name}
        uses = ANY_USE.findall(self.files.specs[at].text)
        names = [called for listed, _ in uses for _, called in items_of(listed) if called not in known]
        return names + [alias for _, alias in uses if alias and alias not in known_aliases]

    def below(self, home):
        """What a definition, or a type, is made of."""
        if home.file is None:
            return []
        if is_type(home):
            return self.code.parts(home)
        body = self.files.specs[home[:2]].bodies[home.name]
        return [it for it in self.named_in(body, self.known_at(home[:2])) if it != home]

    def named_in(self, text, known):
        empty = [home for name, home in known.items() if name == "[]" and name in text]
        return list(dict.fromkeys(self.files.named_in(text, known) + empty))

    def all_below(self, roots, seen):
        """These and all that they rest on, but for what was seen."""
        found = [it for it in dict.fromkeys(roots) if it not in seen]
        for home in found:
            found += [it for it in self.below(home) if it not in found and it not in seen]
        return found

    def shown(self, home):
        if is_type(home):
            return self.code.shown(home)
        return self.passages[home.crate, home.file].shown[home.name]

    def in_order(self, homes):
        """The files of these with what each has of them, each file behind those that it needs."""
        found = {}
        for crate in self.files.crates:
            own = [it for it in homes if it.crate == crate]
            types = self.parts_first([it for it in own if is_type(it)])
            for file in modules(f"{ROOT}/crates/{crate}/specs"):
                listed = [Home(crate, file, name) for name in self.passages[crate, file].shown]
                here = [home for home in listed if home in own]
                needed = self.all_below(here, ())
                for home in [*(it for it in types if it in needed), *here]:
                    found.setdefault((crate, home.file), {})[home] = None
            for home in types:
                found.setdefault((crate, home.file), {})[home] = None
        return {at: list(homes) for at, homes in found.items()}

    def parts_first(self, types):
        """Types of a crate, each behind those that it is made of."""
        found = {}
        for home in types:
            parts = [it for it in self.all_below([home], found) if it in types]
            found.update(dict.fromkeys(reversed(parts)))
        return list(found)

    def promised(self, call):
        """What the clause of a call names."""
        text = self.code.text(call.home.crate, call.home.file[:-3])
        lines = self.code.call(call.home).code
        clause = next(line for line in lines if line.startswith(f"    ensures {call.clause} {{"))
        return self.named_in(clause, self.known_in(text))

    def homes(self, name):
        """The definitions of a name, as `Headline` or `cert_checker/Headline.Headline`."""
        known = [Home(*at, it) for at, specs in self.files.specs.items() for it in specs.bodies]
        return [it for it in known if name in (it.name, f"{it.crate}/{it.file}.{it.name}")]


# ---- the page


def prose(lines):
    """A comment as sentences, its paragraphs one after the other."""
    paragraphs = [text.strip() for text in "\n".join(lines).split("\n\n")]
    return "\n\n".join(sentence(text.replace("\n", " ")) for text in paragraphs if text)


def sentence(text):
    if re.match(r"[a-z]+[, ]", text):
        text = text[0].upper() + text[1:]
    return text if text.endswith((".", "?", ".)")) else f"{text}."


def block(language, lines):
    return [f"```{language}", *lines, "```", ""]


def anchor_of(heading):
    return re.sub(r"[^\w\- ]", "", heading.lower()).replace(" ", "-")


def link_of(at):
    crate, file = at
    path = f"{crate}/src/{file}" if file.endswith(".rt") else f"{crate}/specs/{file}.antt"
    return f"[{path}](../crates/{path})"


class Chapter:
    """A chapter of a page, and how much there is to read in it."""

    def __init__(self):
        self.lines = []
        self.words = self.names = self.definitions = 0

    def minutes(self):
        return self.words / WORDS_A_MINUTE + self.names / NAMES_A_MINUTE

    def add(self, *lines):
        self.lines += lines

    def add_words(self, text):
        if text:
            self.words += len(text.split())
            self.add(text, "")

    def add_code(self, language, code):
        if len(code) > MOST_LINES:
            rest = f"    -- and {len(code) - FIRST_LINES:,} lines more of this list, in the file"
            code = [*code[:FIRST_LINES], rest]
        comments = [line for line in code if line.lstrip().startswith(INNER_COMMENTS)]
        self.words += len(" ".join(comments).split())
        self.names += len(NAME.findall(MODIFIERS.sub("", "\n".join(line for line in code if line not in comments))))
        self.add(*block(language, code))


class PageText:
    """The chapters of a page, by their titles."""

    def __init__(self, promises):
        self.promises = promises
        self.chapters = {}
        self.anchors = {}  # of each definition, the heading of its file on the page

    def chapter(self, title):
        return self.chapters.setdefault(title, Chapter())

    def add_call(self, title, call):
        """A call with its contract."""
        chapter = self.chapter(title)
        shown = self.promises.code.call(call.home)
        chapter.add(f"### {call.home.name} ({call.home.crate})", "", link_of(call.home[:2]), "")
        chapter.add_words(prose(shown.words))
        chapter.add_code("rust", shown.code)
        chapter.add_words(call.words)

    def add_file(self, title, at, homes):
        """A file with what the page has of it."""
        crate, file = at
        chapter = self.chapter(title)
        chapter.definitions += len(homes)
        is_again = any(home[:2] == at for home in self.anchors)
        heading = f"{file}{', once more' if is_again else ''} ({crate})"
        self.anchors.update(dict.fromkeys(homes, anchor_of(heading)))
        chapter.add(f"### {heading}", "", link_of(at), "")
        if file.endswith(".rt"):
            self.add_types(chapter, homes)
        else:
            if not is_again:
                chapter.add_words(prose(self.promises.passages[at].words))
            self.add_definitions(chapter, self.promises.passages[at], [it.name for it in homes])

    def add_types(self, chapter, homes):
        for home in homes:
            shown = self.promises.code.shown(home)
            chapter.add_words(prose(shown.words))
            chapter.add_code("rust", shown.code)

    @staticmethod
    def add_definitions(chapter, passages, names):
        section = None
        for group in passages.groups(names):
            if passages.sections[group[0]] != section:
                section = passages.sections[group[0]]
                chapter.add_words(f"*{section[0].upper()}{section[1:]}*")
            words = [line for name in group for line in passages.shown[name].words]
            code = [line for name in group for line in ["", *passages.shown[name].code]]
            chapter.add_words(prose(words))
            chapter.add_code("", code[1:])

    def outline(self):
        """Which chapters there are, and how long they take to read."""
        rows = [(f"[{title}](#{anchor_of(title)})", it.definitions, it.minutes()) for title, it in self.chapters.items()]
        rows.append(("all", sum(row[1] for row in rows), sum(row[2] for row in rows)))
        table = [f"| {title} | {definitions} | {minutes:.0f} |" for title, definitions, minutes in rows]
        rate = f"A minute is {WORDS_A_MINUTE} words of text, or {NAMES_A_MINUTE} names and numbers in definitions."
        return ["| chapter | definitions | minutes |", "|---|---|---|", *table, "", rate, ""]

    def index(self):
        """The names of a page, each with a link to its place."""
        named = sorted((home.name.lower(), home.name, anchor) for home, anchor in self.anchors.items())
        return ", ".join(f"[{name}](#{anchor})" for _, name, anchor in named)


def untold(words):
    """The words of the library that LIBRARY does not have."""
    return sorted(words - {name for row, _, _ in LIBRARY for name in row.split()})


def library(words):
    """What the words of the library mean that a page has."""
    rows = [f"| {written} | {means} |" for row, written, means in LIBRARY if not words.isdisjoint(row.split())]
    others = ", ".join(f"`{word}`" for word in untold(words))
    return ["| word | means |", "|---|---|", *rows, "", *([f"`rt lemma` finds {others}.", ""] if others else [])]


def page_of(promises, page):
    """The text of a page, with its faults: words that it does not explain, and those that it explains too late."""
    made = PageText(promises)
    roots, first = [], None
    if page.call:
        made.add_call(FIRST_CHAPTER, page.call)
        roots, first = promises.promised(page.call), page.call.promise[:2]
    seen, named_alone = [], set()
    for part in page.parts:
        found = promises.all_below([*roots, *part.roots], [*part.named_alone, *seen])
        files = promises.in_order(found)
        if first in files:
            made.add_file(FIRST_CHAPTER, first, files.pop(first))
        for at, homes in files.items():
            made.add_file(part.chapters.get(at[0], at[0]), at, homes)
        seen += found
        named_alone.update(part.named_alone)
        roots = []
    words = {it.name for it in seen if it.file is None}
    body = [line for title, chapter in made.chapters.items() for line in [f"## {title}", "", *chapter.lines]]
    head = [page.head, *made.outline(), "## Signs", "", SIGNS, ""]
    end = ["## Words of the library", "", *library(words), page.tail, "## Index", "", made.index()]
    faults = [f"LIBRARY in tools/promises.py does not say what {word} means" for word in untold(words)]
    files = [at for at in dict.fromkeys(home[:2] for home in made.anchors) if at in promises.files.specs]
    faults += [f"{link_of(at)} brings {name} from nowhere" for at in files for name in promises.unknown_at(at)]
    faults += told_late(promises, [it for it in made.anchors if it[:2] != first], named_alone)
    return "\n".join([*head, *body, *end]) + "\n", faults


def told_late(promises, order, named_alone):
    """The faults of definitions that stand before one that they are made of."""
    place = {home: at for at, home in enumerate(order)}
    pairs = [(home, below) for home in order for below in promises.below(home) if below not in named_alone]
    return [f"{home.name} stands before {below.name}" for home, below in pairs if place.get(below, 0) > place[home]]


def page_of_name(promises, home):
    """The text of a page of one definition. It may have words of the library that it does not explain."""
    return page_of(promises, Page(None, f"# {home.name}\n", None, [Part([home], [], {})], ""))[0]

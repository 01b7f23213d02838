"""The page of refusals: its sections, what each says of which refusal, and which of that a printed line is about."""

import dataclasses
import re

from lib.program import Failed

KINDS = ("words", "record", "readings", "battery", "schedule")
KIND_WORD = re.compile(r"\b(words|record|readings|battery|schedule)\b", re.IGNORECASE)
SPAN = re.compile(r"`([^`]*)`")
IN_SPAN = re.compile(r"(?:refused (\w+) )?([0-9]+) ([A-Z][A-Za-z]+)((?: \w+)*)")
IN_TEXT = re.compile(r"\b([0-9]+) ([A-Z][A-Za-z]+)\b")
AS_FOR = re.compile(r"\bas for (\w+)")
DETAILS = {"1": "it is no decimal", "2": "it is above the limit in size", "3": "it has more than 18 decimals"}
FORM = f"refused {'|'.join(KINDS)} NUMBER NAME .."


@dataclasses.dataclass
class Refusal:
    """A printed line: what is refused, the number and name, and the words behind them."""

    kind: str
    number: str
    name: str
    words: list

    @property
    def column(self):
        """The record's column, in the page's own form; none where no single column is meant."""
        named = self.kind == "record" and len(self.words) > 1 and self.words[0] != "none"
        return column_form(self.words[0]) if named else None

    @property
    def detail(self):
        """The detail of a record's refusal."""
        return self.words[1] if self.kind == "record" and len(self.words) > 1 else None

    @property
    def cell(self):
        """What stands in the record's cell."""
        return " ".join(self.words[2:]) if self.kind == "record" else ""


@dataclasses.dataclass
class Section:
    """A part of the page under one heading."""

    level: int
    title: str
    kind: str
    paragraphs: list


@dataclasses.dataclass
class Entry:
    """What the page says of one or more refusals: a row of a table, or a paragraph that names them."""

    section: Section
    kind: str
    lines: list
    head: str
    when: str
    example: str
    advice: str
    is_row: bool

    def names(self, refusal):
        """Whether it names this number and name."""
        return any(line[1:3] == (refusal.number, refusal.name) for line in self.lines)


def read_line(text):
    """The refusal that a line tells."""
    words = text.strip().strip("`").split()
    if len(words) < 4 or words[0] != "refused" or words[1] not in KINDS or not re.fullmatch("[0-9]+", words[2]):
        raise Failed(f"`{text.strip()[:80]}` is no refusal: a refusal is `{FORM}`")
    return Refusal(words[1], words[2], words[3], words[4:])


def column_form(name):
    """A column's name without period, tier and part, or without a month; the list of months and its columns are one."""
    small = name.lower()
    return small.split("/")[0] + "/" if "/" in small else small.rstrip("0123456789").removesuffix("s")


def kind_of(title, default):
    """What a section is about, by the first word of its title that says so; code spans don't count."""
    found = KIND_WORD.search(SPAN.sub("", title))
    return found[1].lower() if found else default


def lines_in(head):
    """The refusals that the first cell of a row names: kind or None, number, name, and words behind them."""
    spans = [IN_SPAN.fullmatch(span) for span in SPAN.findall(head)]
    if any(spans):
        return [(found[1], found[2], found[3], found[4].split()) for found in spans if found]
    return [(None, number, name, []) for number, name in IN_TEXT.findall(head)]


def cells_of(row):
    """The cells of a row of a table."""
    return [cell.strip().replace("\\|", "|") for cell in re.split(r"(?<!\\)\|", row.strip().strip("|"))]


class Page:
    """The page of refusals, read once."""

    def __init__(self, text):
        self.entries = []
        self.sections = []
        self.columns = []
        above = []
        paragraph = []
        for line in [*text.splitlines(), ""]:
            heading = re.fullmatch(r"(#+) +(.*)", line)
            if heading or line.startswith("|") or not line.strip():
                self.end_paragraph(paragraph)
            if heading:
                level = len(heading[1])
                above = [section for section in above if section.level < level]
                section = Section(level, heading[2], kind_of(heading[2], above[-1].kind if above else None), [])
                above.append(section)
                self.sections.append(section)
            elif line.startswith("|"):
                self.add_row(cells_of(line))
                continue
            elif line.strip():
                paragraph.append(line.strip())
            self.columns = []

    def end_paragraph(self, paragraph):
        """Keeps a paragraph, and as an entry where it names refusals."""
        if paragraph and self.sections:
            text = " ".join(paragraph)
            section = self.sections[-1]
            section.paragraphs.append(text)
            named = [*lines_in(text), *((None, number, name, []) for number, name in IN_TEXT.findall(SPAN.sub("", text)))]
            if named:
                self.entries.append(Entry(section, section.kind, named, "", text, "", "", False))
        paragraph.clear()

    def add_row(self, cells):
        """Keeps a row of a table; the first row names the columns."""
        if not self.columns:
            self.columns = cells
            return
        row = dict(zip(self.columns, cells))
        named = lines_in(cells[0])
        if named and self.sections:
            section = self.sections[-1]
            kind = next((line[0] for line in named if line[0] in KINDS), section.kind)
            advice = row.get("what to do", "")
            example = row.get("example", row.get("an example", ""))
            when = row.get("when", row.get("where", ""))
            self.entries.append(Entry(section, kind, named, cells[0], when, example, advice, True))

    def about(self, refusal):
        """All entries that name this refusal."""
        return [entry for entry in self.entries if entry.kind == refusal.kind and entry.names(refusal)]


def best(entries, score):
    """The entries with the highest score."""
    scores = [score(entry) for entry in entries]
    return [entry for entry, reached in zip(entries, scores) if reached == max(scores)]


def words_score(entry, refusal):
    """How many words of the line the entry names as they are; below 0 where it names others."""
    found = [line[3] for line in entry.lines if line[1:3] == (refusal.number, refusal.name)]
    return max(sum(-99 if not said.isupper() and said != word else not said.isupper() for said, word in zip(words, refusal.words)) for words in found)


def detail_score(entry, refusal):
    """1 where the entry is about this detail alone, below 0 where it is about another."""
    said = re.findall(r"detail ([0-9]+)", entry.head)
    return 0 if not said else 1 if refusal.detail in said else -1


def mentions(text, column):
    """Whether a text names this column, in code."""
    return any(column_form(word) == column for span in SPAN.findall(text) for word in span.split())


def column_score(entry, refusal):
    """How near the entry is to the column: by its own words, or by its section's title."""
    if refusal.column is None:
        return 0
    if mentions(entry.when, refusal.column) or mentions(entry.example, refusal.column):
        return 2
    return 1 if mentions(entry.section.title, refusal.column) else 0


def entries_for(page, refusal):
    """What the page says of a refusal: rows of tables, or a paragraph that names it where no row does."""
    named = page.about(refusal)
    if not named:
        return []
    near = best(named, lambda entry: column_score(entry, refusal))
    rows = [entry for entry in near if entry.is_row] or near
    if refusal.kind == "record":
        fitting = [entry for entry in rows if detail_score(entry, refusal) >= 0]
        return sorted(fitting, key=lambda entry: -detail_score(entry, refusal))
    return [entry for entry in best(rows, lambda entry: words_score(entry, refusal)) if words_score(entry, refusal) >= 0]


def with_references(page, refusal, entries):
    """The entries, each followed by what it points to by `as for ..`."""
    told = []
    waiting = list(entries)
    while waiting:
        entry = waiting.pop(0)
        if entry in told:
            continue
        told.append(entry)
        for word in AS_FOR.findall(f"{entry.when} {entry.advice}"):
            waiting += [other for other in page.about(refusal) if other.is_row and other.section.title.lower().startswith(word.lower())]
    return told


def row_above(page, refusal, entry, alike):
    """The row above in the same section; the last of this refusal where that is asked for."""
    above = []
    for other in page.entries:
        if other is entry:
            break
        if other.is_row and other.section is entry.section:
            above.append(other)
    same = [other for other in above if other.names(refusal)]
    return next(reversed(same if alike and same else above), None)


def advice_of(page, refusal, entry):
    """What to do; where the page says `the same`, what that is."""
    if re.fullmatch(r"as for [0-9]+", entry.advice):
        number = entry.advice.split()[-1]
        for other in page.entries:
            if other.is_row and other.kind == entry.kind and any(line[1] == number for line in other.lines):
                return other.advice
    above = row_above(page, refusal, entry, True) if entry.advice in ("the same", "the same as above", "likewise") else None
    return f"{entry.advice}: {advice_of(page, refusal, above)}" if above else entry.advice


def checked_before(page, refusal, entry):
    """What the row above says, where the entry's own words point to it."""
    alike = entry.when.startswith("the same") or entry.when.endswith("as above")
    if not entry.is_row or not (alike or entry.when.startswith(("it ", "one of them"))):
        return ""
    above = row_above(page, refusal, entry, alike)
    return above.when if above else ""


def notes_on(page, refusal, entries):
    """Paragraphs that name the refusal too: of the entries' sections, or of any where the line is about no single column."""
    sections = [entry.section for entry in entries]
    return [
        other.when for other in page.about(refusal)
        if not other.is_row and other not in entries and (refusal.column is None or other.section in sections)
    ]


def detail_text(entries, refusal):
    """What the line's detail says: by the entries, else as for every number of a record."""
    for entry in entries:
        for number, text in re.findall(r"(?:Detail |; )([0-9]+): ([^;.]*)", entry.when):
            if number == refusal.detail:
                return text
    return DETAILS.get(refusal.detail, "") if (refusal.kind, refusal.name) == ("record", "Decimal") else ""

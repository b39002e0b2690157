#!/usr/bin/env python3
"""Cases of crates/ep_cases from the pages: each row of README.md and docs/ with a source and what comes of it.

    python3 tools/doc_rows.py           writes crates/ep_cases/data/pages.txt
    python3 tools/doc_rows.py --check   ends with status 1 where that file is not what it would write
    python3 tools/doc_rows.py --count   says how many cases each page has

docs/CASES.md says under 'Pages that are run' how rows and their cells are written. A cell that is not written so is an
error, with its page and line, and status 1.
"""
import dataclasses
import os
import re
import sys

TOP = os.path.dirname(os.path.dirname(os.path.abspath(__file__)))
TABLE = "crates/ep_cases/data/pages.txt"
PAGES = ("README.md", "docs/LANGUAGE.md", "docs/RULES.md", "docs/CASES.md")
HEADING = """# Rows of the pages, each with its page, heading and number. Made by tools/doc_rows.py from what the pages say
# (docs/CASES.md, 'Pages that are run'): change a page, and run it.

frame: %
"""
REFUSED, RUN_ERROR, HALTED, NOT_BUILT = 3, 2, 1, 14
GRAMMAR = "no token|open comment|open string|bad number|long name|syntax|nested"
SPAN = r"`[^`]+`"
SPANS = rf"{SPAN}(?: {SPAN})*"
LINE = rf"{SPAN}(?: and a line end)?"
WRITTEN = rf"nothing|{LINE}(?:, {LINE})*"
CAUSE = rf"rule \d+|error \d+|not built|halted|{GRAMMAR}"
OUTPUT = re.compile(rf"({WRITTEN})(?:; standard error has ({SPAN}))?")
ANSWER = re.compile(rf"(?:writes ({WRITTEN}))?(?:(?:^|; )({CAUSE})(?: at line (\d+))?)?")
TEXT = re.compile(rf"({SPANS})(?:, with ({SPANS}))?")
CHANGE = re.compile(rf"as it stands|with {SPAN} for {SPAN}(?:, {SPAN} for {SPAN})*")
DECLARES = re.compile(r"(const|type|var|procedure|function)\b", re.IGNORECASE)
# Where an example of a production stands, for the productions whose examples are no programs.
PROGRAM, DECLARED, STATED = "program p; %s begin end.", "program p; type t = %s; begin end.", "program p; begin %s end."
FORMALS, RECORD = "program p; procedure q%s; begin end; begin end.", "program p; type t = record %s end; begin end."
MODULE, EXPRESSION = "module m interface; %s end.", "program p; begin x := %s end."
PLACES = {
    "component": "%s", "program": "%s.", "module": "%s.", "heading": "%s; end.", "heading-rest": "module m interface%s.",
    "block": "module m implementation; %s.", "exports": MODULE, "export": "module m interface; export %s; end.",
    "export-item": "module m interface; export i = (%s); end.", "imports": PROGRAM, "import": "program p; import %s; begin end.",
    "import-item": "program p; import i(%s); begin end.", "parts": PROGRAM, "constants": PROGRAM, "types": PROGRAM,
    "type-definition": "program p; type %s; begin end.", "discriminants": "program p; type t(%s) = u; begin end.",
    "variables": PROGRAM, "names": "program p; var %s: t; begin end.", "qualified-name": DECLARED, "routine": PROGRAM,
    "routine-heading": "program p; %s; begin end; begin end.", "formals": FORMALS,
    "formal-section": "program p; procedure q(%s); begin end; begin end.", "type": DECLARED, "plain-type": DECLARED,
    "core": DECLARED, "structure": DECLARED, "fields": RECORD, "field-section": RECORD, "variant-part": RECORD,
    "variant": "program p; type t = record case k of %s end; begin end.", "labels": "program p; begin x := [%s] end.",
    "label": "program p; begin x := [%s] end.", "compound": "program p; %s.", "statement": STATED,
    "arms": "program p; begin case x of %s end end.", "arm": "program p; begin case x of %s end end.",
    "otherwise-part": "program p; begin case x of %s end end.", "access": EXPRESSION, "argument": "program p; begin p(%s) end.",
    "expression": EXPRESSION, "simple": EXPRESSION, "term": EXPRESSION, "factor": EXPRESSION, "component-value": EXPRESSION,
    "values": "program p; begin x := [%s] end.", "element": "program p; begin x := [%s] end.",
}


class Unreadable(Exception):
    """A cell that is not written as it has to be."""


@dataclasses.dataclass
class Place:
    """The row that is read, and what the page said before it."""
    page: str
    heading: str = ""
    number: int = 0  # of the line
    row: int = 0
    fence: list = dataclasses.field(default_factory=list)  # the lines of the last block between fences
    frame: list = dataclasses.field(default_factory=list)  # the block with DECLARATIONS and STATEMENTS
    helpers: str = ""  # the block behind that
    paragraph: str = ""
    production: str = ""

    def title(self, part=""):
        return f"{self.page}, {self.heading.replace('`', '')}, row {self.row}{part}"


@dataclasses.dataclass(frozen=True)
class Source:
    """A text of a page, and the line that an error in it has where none is told."""
    text: str
    line: int


def spans(cell):
    """What stands between the backticks."""
    return [span[1:-1] for span in re.findall(SPAN, cell)]


def matched(pattern, cell, what):
    found = pattern.fullmatch(cell)
    if not found or not cell:
        raise Unreadable(f"no {what}: {cell}")
    return found


def spelled(text):
    """The bytes of a text as a table has them. What a page writes with a backslash is written so for the table already."""
    text = text.replace("\n", "\\n")
    return ("\\e" if text[:1] == " " else "") + text + ("\\e" if text[-1:] == " " else "")


def written(cell):
    """What is written, of the words that say so."""
    if cell is None or cell == "nothing":
        return ""
    return "".join(line + ("\n" if ending else "") for line, ending in re.findall(r"`([^`]+)`( and a line end)?", cell))


def framed(place, declarations, statements):
    """A text in the frame of its page. What it has before statements stands before its own declarations."""
    if not place.frame:
        raise Unreadable("no frame stands before this text")
    if statements:
        declarations = f"{place.helpers} {declarations}".rstrip()
    lines = []
    for line in place.frame:
        lines.append(declarations if line == "DECLARATIONS" else statements if line == "STATEMENTS" else line)
    return "\n".join(lines)


def source_of(place, cell):
    """The source of a text: a program, declarations or statements, a code span a line, and the declarations behind `with`."""
    text, others = matched(TEXT, cell, "text").groups()
    text, others = "\n".join(spans(text)), "\n".join(spans(others or ""))
    if re.match("program\\b", text, re.IGNORECASE):
        return Source(text, 1)
    is_declared = bool(DECLARES.match(text))
    wanted = "DECLARATIONS" if is_declared else "STATEMENTS"
    line = place.frame.index(wanted) + 1 if place.frame else 1
    if is_declared and others:
        raise Unreadable("declarations with declarations")
    return Source(framed(place, text, "") if is_declared else framed(place, others, text), line)


def case(title, source, status=0, output="", report="", words=""):
    lines = [f"case: {title}"]
    if words:
        lines.append(f"words: {words}")
    lines.append(f"source: {spelled(source)}")
    if status:
        lines.append(f"status: {status}")
    if output:
        lines.append(f"output: {spelled(output)}")
    if report:
        lines.append(f"report: {spelled(report)}\\n")
    return "\n".join(lines)


def ending(cause, unit, line):
    """The status and the report of a cause."""
    if cause is None:
        return 0, ""
    if cause == "halted":
        return HALTED, ""
    if cause.startswith("error"):
        return RUN_ERROR, f"{cause} in {unit} at line {line}"
    return NOT_BUILT if cause == "not built" else REFUSED, f"x.pas: line {line}: {cause}"


def answered(title, source, answer):
    """The case of a source and a cell that says what comes of it."""
    output, cause, line = matched(ANSWER, answer, "answer").groups()
    unit = re.match(r"\s*program\s+(\w+)", source.text, re.IGNORECASE)
    status, report = ending(cause, unit.group(1).lower() if unit else "", line or source.line)
    return case(title, source.text, status, written(output), report)


def told(title, source, output, status, words=""):
    """The case of a source and of cells that say what is written and how it ends."""
    out, report = matched(OUTPUT, output, "output").groups()
    number = int(matched(re.compile(r"\d+"), status, "status").group())
    return case(title, source, number, written(out), (report or "")[1:-1], words)


def tour_rows(place, cells):
    source, output, status = cells
    yield told(place.title(), "\n".join(spans(matched(TEXT, source, "text").group(1))), output, status)


def command_rows(place, cells):
    command, output, status = cells
    source = re.search(r"With (`[^`]+`) in `x\.pas`", place.paragraph)
    if not source:
        raise Unreadable("no `With SOURCE in x.pas` stands before this table")
    words = matched(re.compile(r"`epc ([^`]+)`"), command, "command").group(1)
    yield told(place.title(), source.group(1)[1:-1], output, status, words)


def answer_rows(place, cells):
    text, answer = cells
    yield answered(place.title(), source_of(place, text), answer)


def changed_rows(place, cells):
    change, answer = cells
    text = "\n".join(place.fence)
    matched(CHANGE, change, "change")
    for new, old in re.findall(r"`([^`]+)` for `([^`]+)`", change):
        if text.count(old) != 1:
            raise Unreadable(f"`{old}` does not stand once in the text")
        text = text.replace(old, new)
    yield answered(place.title(), Source(text, 1), answer)


def halting(place, source):
    """The source with a `halt` first, so that all rules are tried and nothing else is done."""
    lines = source.text.split("\n")
    at = lines.index("begin") if source.line > 1 else 0
    rest = "\n".join(lines[at:])
    begins = list(re.finditer(r"\bbegin\b", rest))
    end = begins[0 if at else -1].end()
    return Source("\n".join(lines[:at] + [rest[:end] + " halt;" + rest[end:]]), source.line)


def rule_rows(place, cells):
    """A text that breaks the first of the rules, and the nearest, which breaks none."""
    rules, _, text, line, nearest = cells
    rule = matched(re.compile(r"(\d+)(?:, \d+)*"), rules, "rule").group(1)
    number = matched(re.compile(r"\d+"), line, "line").group()
    yield answered(place.title(", the text"), source_of(place, text), f"rule {rule} at line {number}")
    yield answered(place.title(", the nearest"), halting(place, source_of(place, nearest)), "halted")


def error_rows(place, cells):
    error, _, text, line = cells
    number = matched(re.compile(r"\d+"), error, "error").group()
    at = matched(re.compile(r"\d+"), line, "line").group()
    yield answered(place.title(), source_of(place, text), f"error {number} at line {at}")


def production_rows(place, cells):
    """The examples of a production, which is that of the row before where none is named."""
    production, _, examples = cells
    place.production = production or place.production
    for example in spans(examples):
        where = PLACES.get(place.production)
        if where is None:
            raise Unreadable(f"no place for examples of {place.production}")
        yield f"# {place.title()}\naccepted: {where % example}"


TABLES = {
    ("Source", "Output", "Status"): tour_rows,
    ("Command", "Output", "Status"): command_rows,
    ("Text", "Answer"): answer_rows,
    ("The text above", "Answer"): changed_rows,
    ("Rule", "Broken where", "A text that breaks it", "Line", "The nearest that breaks none"): rule_rows,
    ("No.", "Met by", "Text", "Line"): error_rows,
    ("Production", "Is", "Example"): production_rows,
}


def cells_of(line):
    """The cells of a row. A bar in a cell has a backslash before it."""
    cells = re.split(r"(?<!\\)\|", line.strip())[1:-1]
    return [cell.strip().replace("\\|", "|") for cell in cells]


def block_rows(place, lines):
    """A block of a table, which stands on the page as it is."""
    place.row = 1
    return [f"# {place.title()}"] + [line[4:].rstrip() for line in lines] + ["frame: %"]


def read_fence(place, lines, at):
    """Takes the block behind this fence, and tells where it ends."""
    end = lines.index("```", at + 1)
    block = lines[at + 1:end]
    if "DECLARATIONS" in block:
        place.frame = block
    elif place.fence and "DECLARATIONS" in place.fence:
        place.helpers = " ".join(block)
    place.fence = block
    return end + 1


def read_table(place, lines, at, made):
    """Reads the rows of a table, and tells where it ends."""
    rows = TABLES.get(tuple(cells_of(lines[at])))
    end = at
    while end < len(lines) and lines[end].startswith("|"):
        end += 1
    for number in range(at + 2, end if rows else at):
        place.number, place.row = number + 1, number - at - 1
        cells = cells_of(lines[number])
        if len(cells) != len(cells_of(lines[at])):
            raise Unreadable("another number of cells than the table has")
        made.extend(rows(place, cells))
    return end


def read_block(place, lines, at, made):
    """Reads a block that is set in, and tells where it ends."""
    end = at
    while end < len(lines) and lines[end].startswith("    "):
        end += 1
    if re.match(r" {4}(frame|case): ", lines[at]):
        made.append("\n".join(block_rows(place, lines[at:end])))
    return end


def page_cases(page):
    """The cases of a page, in the order of its text."""
    place, made, at = Place(page), [], 0
    with open(os.path.join(TOP, page), encoding="utf-8") as text:
        lines = text.read().split("\n")
    try:
        while at < len(lines):
            line, place.number = lines[at], at + 1
            if line.startswith("```"):
                at = read_fence(place, lines, at)
            elif line.startswith("|"):
                at = read_table(place, lines, at, made)
            elif line.startswith("    ") and not lines[at - 1].strip():
                at = read_block(place, lines, at, made)
            else:
                place.heading = line.lstrip("#").strip() if line.startswith("#") else place.heading
                place.paragraph = line or place.paragraph
                at += 1
    except Unreadable as cause:
        sys.exit(f"{page}:{place.number}: {cause}")
    return made


def table():
    return HEADING + "".join(f"\n{made}\n" for page in PAGES for made in page_cases(page))


def count(page):
    """How many cases a page has. In a block that stands as it is, more than one may begin."""
    keys = rf"(case|accepted|prints|usage|not built|rule \d+|{GRAMMAR}):"
    return sum(1 for made in page_cases(page) for line in made.split("\n") if re.match(keys, line))


def first_difference(held, made):
    """The number of the first line that differs."""
    number = 1
    for one, other in zip(held.split("\n"), made.split("\n")):
        if one != other:
            break
        number += 1
    return number


def main(arguments):
    path = os.path.join(TOP, TABLE)
    if arguments == ["--count"]:
        for page in PAGES:
            print(page, count(page))
        return
    if arguments not in ([], ["--check"]):
        sys.exit(__doc__)
    made = table()
    if not arguments:
        with open(path, "w", encoding="utf-8", newline="\n") as file:
            file.write(made)
        print(f"{TABLE} has {sum(count(page) for page in PAGES)} cases")
        return
    held = ""
    if os.path.exists(path):
        with open(path, encoding="utf-8", newline="") as file:
            held = file.read()
    if held != made:
        sys.exit(f"{TABLE}:{first_difference(held, made)}: not what the pages say: run python3 tools/doc_rows.py, and try the "
                 "table (docs/CASES.md)")


if __name__ == "__main__":
    main(sys.argv[1:])

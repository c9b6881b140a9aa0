#!/usr/bin/env python3
"""Writes what the pages under docs/ take from the sources: docs/INDEX.md (every public call with its clauses), docs/GLOSSARY.md (every
definition that such a clause cites), and the pictures of the crates and of the formats. With --check it writes nothing, and ends with status 1 where a file in the tree differs, or a
page names something that stands nowhere in the sources.

    python3 docs/generate.py [--check]
"""
import html
import pathlib
import re
import sys

ROOT = pathlib.Path(__file__).resolve().parent.parent
PICTURES = "docs/pictures"
FORMATS = "docs/FORMATS.md"


def crates():
    """The floors of crates.txt, lowest first: of each its title, and of each of its crates the name and the libraries that it uses."""
    floors = []
    for line in (ROOT / "crates.txt").read_text().splitlines():
        if line.startswith("#"):
            floors.append((line.lstrip("# "), []))
        elif ":" in line:
            name, used = line.split(":", 1)
            floors = floors or [("", [])]
            floors[-1][1].append((name.split()[0], used.split()))
    return floors


# The index of calls.

FUNCTION = re.compile(r"^(\s*)(pub )?(?:const )?fn (\w+)")
CLAUSE = re.compile(r"^\s+(requires|ensures)\*?\s+(?:(\w+)\s*)?\{")
OWNER = re.compile(r"^(?:impl(?:<.*?>)? (?:(?P<of>[\w:]+)(?:<.*>)? for )?(?P<impl>\w+)|pub trait (?P<trait>\w+))")


def calls_of(path):
    """Each public call of a source file: its name, what it requires and ensures, by the names of the clauses, and their lines."""
    owner, is_open, found, calls = None, False, None, []
    for line in path.read_text().splitlines():
        if line.startswith(("impl", "pub trait")):
            match = OWNER.match(line)
            owner = match and (match["trait"] or (match["impl"] if not match["of"] else None))
            is_open = line.startswith("pub trait")
        elif line.startswith("}"):
            owner, is_open = None, False
        match = FUNCTION.match(line)
        if match:
            is_public = match[2] or is_open
            is_here = not match[1] or owner
            found = None
            if is_public and is_here:
                name = f"{owner}::{match[3]}" if match[1] else match[3]
                found = (name, [], [], [])
                calls.append(found)
        elif found:
            clause = CLAUSE.match(line)
            if clause:
                found[1 if clause[1] == "requires" else 2].append(clause[2] or "(no name)")
            elif re.match(r"^\s*\{", line):
                found = None
                continue
            found[3].append(line)
    return calls


def sources(crate):
    """The files of a crate that are no tests, in order."""
    folder = ROOT / "crates" / crate / "src"
    for path in sorted(folder.rglob("*.rt")):
        if not {"tests", "tests.rt"} & set(path.relative_to(folder).parts):
            yield path


def index():
    said = [
        "# Every public call and its clauses",
        "",
        "Written by `docs/generate.py` from the sources; the gate compares. A clause is read in the file that is named: its name stands",
        "behind `requires` or `ensures`. What the words in it mean is in [GLOSSARY.md](GLOSSARY.md), and how to read one in",
        "[CLAIMS.md](CLAIMS.md). A call that is marked public in a module which its crate keeps to itself is listed too.",
    ]
    for _, row in crates():
        for crate, _ in row:
            said += ["", f"## {crate}", "", "| Call | File | Requires | Ensures |", "|---|---|---|---|"]
            for path in sources(crate):
                short = path.relative_to(ROOT / "crates" / crate)
                link = f"[{short}](../crates/{crate}/{short})"
                for name, requires, ensures, _ in calls_of(path):
                    words = [" ".join(f"`{it}`" for it in names) or "-" for names in (requires, ensures)]
                    said.append(f"| `{name}` | {link} | {words[0]} | {words[1]} |")
    return "\n".join(said) + "\n"


# The definitions that clauses cite.

DEFINITION = re.compile(r"^(?:abbrev |opaque |unfoldable )*pub (?:abbrev |opaque |unfoldable )*(?:record |data )?([^\s:({]+)")
# one that stands under a module's parameters; what is indented otherwise is a field
INNER = re.compile(r"^  (?:(?:abbrev |opaque |unfoldable )+pub |pub (?:record |data ))([^\s:({]+)")


def definitions_of(crate):
    """Each public definition of a crate's specs: its name, the comment above it, and its file."""
    found = []
    for path in sorted((ROOT / "crates" / crate / "specs").rglob("*.antt")):
        said = []
        for line in path.read_text().splitlines():
            inner = INNER.match(line)
            # (a small word is a value's name in other crates too; one without a comment says nothing here)
            match = DEFINITION.match(line) or (inner if inner and said and inner[1][0].isupper() else None)
            if re.match(r"(  )?-- ", line):
                said.append(line.strip()[3:].strip())
                continue
            if match and match[1] not in ("mod", "use") and path.name != "Lib.antt":
                found.append((match[1], " ".join(said), path.relative_to(ROOT / "crates" / crate)))
            said = []
    return found


def glossary():
    cited = set()
    for _, row in crates():
        for crate, _ in row:
            for path in sources(crate):
                for _, _, _, lines in calls_of(path):
                    said = re.sub(r"(?m)^\s+(?:requires|ensures)\*?\s+\w*", "", "\n".join(lines))
                    cited |= set(re.findall(r"[A-Za-z_][\w-]*", said))
    said = [
        "# Definitions that clauses cite",
        "",
        "Written by `docs/generate.py` from the comments above the definitions; the gate compares. Here stands each definition that a clause",
        "of a public call names, by crate. What those stand on is in the same files. [DEFINITIONS.md](DEFINITIONS.md) has the twelve to",
        "read first.",
    ]
    for _, row in crates():
        for crate, _ in row:
            rows = [it for it in definitions_of(crate) if it[0] in cited]
            if rows:
                said += ["", f"## {crate}", "", "| Definition | What it says | File |", "|---|---|---|"]
            for name, comment, short in rows:
                said.append(f"| `{name}` | {comment.replace('|', '/')} | [{short.name}](../crates/{crate}/{short}) |")
    return "\n".join(said) + "\n"


# Pictures: boxes and words alone, so that a text tool can write them.


class Picture:
    def __init__(self, title):
        self.title, self.parts, self.width, self.height = title, [], 0, 0

    def box(self, x, y, width, height, fill):
        self.parts.append(f'<rect x="{x}" y="{y}" width="{width}" height="{height}" fill="{fill}" stroke="#444"/>')
        self.grow(x + width, y + height)

    def word(self, x, y, text, size=12, anchor="middle", fill="#111"):
        self.parts.append(f'<text x="{x}" y="{y}" font-size="{size}" text-anchor="{anchor}" fill="{fill}">{html.escape(text)}</text>')
        self.grow(x if anchor != "start" else x + 6 * len(text), y)

    def line(self, x1, y1, x2, y2, stroke="#888"):
        self.parts.append(f'<line x1="{x1}" y1="{y1}" x2="{x2}" y2="{y2}" stroke="{stroke}"/>')

    def grow(self, x, y):
        self.width, self.height = max(self.width, x), max(self.height, y)

    def text(self):
        head = f'<svg xmlns="http://www.w3.org/2000/svg" width="{self.width + 12}" height="{self.height + 12}" font-family="sans-serif">'
        return "\n".join([head, f"<title>{html.escape(self.title)}</title>", *self.parts, "</svg>", ""])


def height_of(name, used):
    """How many crates of the repository stand below one another under this crate, at most."""
    return 1 + max([height_of(it, used) for it in used[name] if it in used], default=-1)


def reached_from(names, used):
    """The crates of the repository that these name, and those below them."""
    reached, left = set(), list(names)
    while left:
        name = left.pop()
        if name in used and name not in reached:
            reached.add(name)
            left += used[name]
    return reached


def crates_picture():
    used = {name: below for _, row in crates() for name, below in row}
    rows = {}
    for name in used:
        rows.setdefault(height_of(name, used), []).append(name)
    top, wide, high = max(rows), 150, 80
    most = max(map(len, rows.values()))
    places = {}
    picture = Picture("The crates: a line leads from a crate to one that it stands on")
    for height, names in rows.items():
        for at, name in enumerate(names):
            places[name] = (12 + at * wide + (most - len(names)) * wide // 2, 12 + (top - height) * high)
    for name, below in used.items():
        # a line that others lead along anyway is left out
        for it in sorted(set(below) & set(used) - set().union(*[reached_from(used[other], used) for other in below if other in used])):
            (x1, y1), (x2, y2) = places[name], places[it]
            picture.line(x1 + 65, y1 + 34, x2 + 65, y2)
    reached = reached_from(["tmf_cli"], used)
    for name, (x, y) in places.items():
        picture.box(x, y, 130, 34, "#dce9f7" if name in reached else "#eeeeee")
        picture.word(x + 65, y + 22, name)
    picture.word(12, 12 + (top + 1) * high, "blue: the program stands on it; grey: it does not use it yet", 11, "start", "#555")
    return picture.text()


ROW = re.compile(r"^\| (\d+) \| (\d+) \| (.*) \|$")


def tables():
    """The tables of the formats page whose rows are offset, size and field: of each its heading and rows."""
    found, heading, rows = [], "", []
    for line in (ROOT / FORMATS).read_text().splitlines() + [""]:
        match = ROW.match(line)
        if match:
            rows.append((int(match[1]), int(match[2]), match[3]))
            continue
        if rows:
            found.append((heading, rows))
            rows = []
        if line.startswith("#"):
            heading = line.lstrip("# ")
        elif line.startswith("| Offset in a"):
            heading = line.split("|")[1].strip().removeprefix("Offset in a ").capitalize()
    return found


def strip_picture(heading, rows):
    """One strip: a box a field, whose width grows with its size, and its offset and name below."""
    picture, x = Picture(f"{heading}: the fields by their offsets"), 12
    picture.word(12, 22, heading, 14, "start")
    for at, (offset, size, field) in enumerate(rows):
        name = re.split(r"[:,;]", field)[0]
        wide = 18 + 6 * min(size, 12)
        picture.box(x, 36, wide, 30, "#f3f3f3" if name == "zero" else "#dce9f7")
        picture.word(x + wide / 2, 55, str(size), 11)
        y = 84 + 16 * (len(rows) - 1 - at)
        picture.line(x, 66, x, y)
        picture.word(x + 3, y, f"{offset} {name}", 11, "start")
        x += wide
    return picture.text()


LANDING = re.compile(r"^\| (write|sync) \| (.*) \| (.*) \|$")


def landing_picture():
    """The calls that land a batch, with what an image shows after each, from the table of the formats page."""
    picture = Picture("How a batch lands, and what a crash after each call leaves")
    for at, word in enumerate(("device call", "the trail's end", "an image shows")):
        picture.word(12 + (0, 110, 470)[at], 22, word, 13, "start", "#555")
    steps = [it for it in map(LANDING.match, (ROOT / FORMATS).read_text().splitlines()) if it]
    for at, step in enumerate(steps):
        y = 34 + 44 * at
        picture.box(12, y, 90, 34, "#eeeeee")
        picture.word(57, y + 22, f"{at + 1} {step[1]}")
        picture.box(122, y, 340, 34, "#fbeed5" if "at risk" in step[2] else "#dce9f7")
        picture.word(130, y + 22, step[2], 12, "start")
        shows = {"nothing": "#ffffff", "all of it": "#cfe8cf"}.get(step[3], "#fbeed5")
        picture.box(482, y, 150, 34, shows)
        picture.word(557, y + 22, step[3])
    return picture.text()


POINTS = "docs/pictures/crash_points.txt"


def crash_points_picture():
    """A square for each failing call: how many commits were printed before it, and how many the recovery behind the crash has found."""
    rows = {}
    for line in (ROOT / POINTS).read_text().splitlines():
        choice, device, call, told, found = line.split()
        rows.setdefault((int(device), int(choice)), []).append((int(call), told, found))
    picture = Picture("Each device call of a run fails in turn, the node crashes there, and recovers")
    picture.word(12, 20, "three transfers over two trails: each device call fails in turn, with four choices of what the crash leaves", 12, "start")
    y = 34
    for (device, choice), points in sorted(rows.items()):
        picture.word(12, y + 12, f"{('MAT', 'AUX1', 'AUX2')[device]}, choice {choice}", 11, "start")
        for call, told, found in points:
            fill = "#dddddd" if told == "-" else "#cfe8cf" if found == told else "#f2c14e" if int(found) == int(told) + 1 else "#d33333"
            picture.box(112 + 19 * call, y, 18, 16, fill)
            picture.word(121 + 19 * call, y + 12, "" if told == "-" else found, 10)
        y += 20
    picture.word(12, y + 14, "the number: how many commits the recovery found. green: those that were printed; yellow: these and one more; grey: the format was refused", 11, "start", "#555")
    return picture.text()


def written():
    """Every file that this script makes, by its path."""
    files = {"docs/INDEX.md": index(), "docs/GLOSSARY.md": glossary(), f"{PICTURES}/crates.svg": crates_picture(), f"{PICTURES}/landing.svg": landing_picture(), f"{PICTURES}/crash_points.svg": crash_points_picture()}
    for heading, rows in tables():
        name = re.sub(r"[^a-z]+", "_", heading.split(":")[0].lower()).strip("_")
        while f"{PICTURES}/{name}.svg" in files:
            name += "_more"
        files[f"{PICTURES}/{name}.svg"] = strip_picture(heading, rows)
    return files


# The names that pages cite.


def unknown_names():
    """Each name in back-ticks, on a page, that stands nowhere in the sources: a page names it, and nothing has it."""
    known = set()
    for folder in ("crates", "tests", "bench", "examples", "docs"):
        for path in (ROOT / folder).rglob("*"):
            if "out" not in path.parts:
                known |= set(re.findall(r"\w+", path.name))
            if path.suffix in (".rt", ".antt", ".sh", ".tmf", ".out", ".edit") and "out" not in path.relative_to(ROOT).parts[:-1]:
                known |= set(re.findall(r"\w+", path.read_text()))
    known |= set(re.findall(r"\w+", (ROOT / "crates.txt").read_text() + (ROOT / "tmf").read_text() + (ROOT / ".ci/run").read_text()))
    for page in sorted([*ROOT.glob("*.md"), *ROOT.glob("docs/*.md"), *ROOT.glob("crates/*/README.md"), *ROOT.glob("*/README.md")]):
        if page.name in ("INDEX.md", "GLOSSARY.md"):
            continue
        text = re.sub(r"(?s)```.*?```", "", page.read_text())
        for name in re.findall(r"`([A-Za-z_]\w+(?:::\w+)*)`", text):
            if not set(name.split("::")) <= known:
                yield f"{page.relative_to(ROOT)}: `{name}` stands nowhere in the sources"


def main(words):
    stale = [path for path, text in written().items() if not (ROOT / path).is_file() or (ROOT / path).read_text() != text]
    if words == ["--check"]:
        for path in stale:
            print(f"{path}: differs from what docs/generate.py writes")
        unknown = list(unknown_names())
        print(*unknown, sep="\n", end="\n" if unknown else "")
        return 1 if stale or unknown else 0
    for path in stale:
        (ROOT / path).write_text(written()[path])
        print(path)
    return 0


if __name__ == "__main__":
    sys.exit(main(sys.argv[1:]))

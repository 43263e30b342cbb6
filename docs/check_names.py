#!/usr/bin/env python3
"""Checks that what the documents name stands in the tree.

    docs/check_names.py

- Every crate has a README.md, whose tables name each call that the crate exports with each of its
  clauses, and no others; MAP.md names every crate once, and no other, in at most 300 lines.
- What stands in backticks as `crate::name`, `Type::name`, a name with an underscore or with two
  capitals, or a file, is there; so is each definition in the tables of READING.md, and each file
  of that of FEED.md in the folder that it names.
- Each relative link leads to a file, and its anchor to a heading there.
- No line of prose, of the code, of a definition or of a script of a shell is wider than 100
  columns, but for one with a text in quotes, a row of a table or an attribute, and for a clause
  that `rt fmt` keeps on a line, which has up to 112.
- README.md says how many must-fail edits there are and what they turn, and with LIVE.md how many
  crates the programs have.
- What a reader has to believe stands in a crate's `specs/` itself: the definitions that a top call,
  a law or a table of READING.md needs, by their imports. All others, which only the layers tell one
  another, stand in `specs/layers/`.

It writes each fault with its place, and its status is 1 where there is one.
"""

import os
import re
import sys
from pathlib import Path

TOP = Path(__file__).resolve().parent.parent
WIDEST, WIDEST_CLAUSE = 100, 112
NO_CLAUSE = "no clause"
LONGEST_MAP = 300
CODE = (".rt", ".antt", ".py", ".sh", ".awk")
FOLDERS = r"crates|docs|examples|bench|packages|src|specs|proofs|must-fail|\.ci"

# The files, or folders of files, with the calls that a user reads first: of the programs, of the
# library for C, and the laws of whole runs.
TOP_CALLS = [
    "pitch_tool/src/program.rt",
    "pitch_tool/src/status.rt",
    "live_words/src/reading.rt",
    "live_setups/src",
    "live_listen/src/listening.rt",
    "live_recovery/src/recovery.rt",
    "live_venue/src/service.rt",
    "watched_venue/src/watched.rt",
    "harmed_venue/src/laws.rt",
    "venue_plan/src/text.rt",
    "served_laws/src",
    "world_laws/src",
    "live_laws/src",
    "pitch_c/src",
    "own_client/src",
]

faults = []


def fault(path, line, text):
    faults.append(f"{path.relative_to(TOP)}:{line}: {text}")


# The crates, as crates.txt has them: each with the libraries that it stands on.
def read_crates():
    lines = (TOP / "crates.txt").read_text(encoding="utf-8").splitlines()
    pairs = [it.split(":", 1) for it in lines if it.strip() and not it.startswith("#")]
    return {name.split()[0]: below.split() for name, below in pairs}


class Function:
    """A function of the code: the type or trait that it belongs to, and its clauses."""

    def __init__(self, name, owner, module, is_public, is_of_trait):
        self.name, self.owner, self.module = name, owner, module
        self.is_public, self.is_of_trait, self.clauses = is_public, is_of_trait, []


def owner_of(line):
    """The type of an `impl`, or the name of a `trait`, and whether a trait says what it has."""
    if found := re.match(r"(?:pub )?trait (\w+)", line):
        return found[1], True
    bare = line.strip().rstrip("{").replace("->", "")
    while (less := re.sub(r"<[^<>]*>", "", bare)) != bare:
        bare = less
    found = re.match(r"impl\s+(?:([\w:]+)\s+for\s+)?&?([\w:]+)", bare)
    return (found[2].split("::")[-1], found[1] is not None) if found else (None, False)


def functions_in(path):
    """The functions of a file, which is in the layout of `rt fmt`."""
    owner, of_trait, current, found = None, False, None, []
    for line in path.read_text(encoding="utf-8").splitlines():
        if re.match(r"(pub )?(impl|trait)\b", line):
            owner, of_trait = owner_of(line)
        elif line.startswith("}"):
            owner, of_trait = None, False
        elif head := re.match(r"(\s*)(pub )?(?:pub\(crate\) )?(?:const |unsafe |extern .C. )*fn (\w+)", line):
            current = Function(head[3], owner if head[1] else None, path.stem, head[2], of_trait)
            found.append(current)
        elif current and line.strip() == "{":
            current = None
        elif current and (clause := re.match(r"\s+ensures\*?(?: (\w+))? \{", line)):
            current.clauses.append(clause[1] or "-")
    return found


class Crate:
    """A crate's functions, and the names that its lib.rt exports."""

    def __init__(self, name):
        self.name, self.folder = name, TOP / "crates" / name
        files = sorted(self.folder.glob("src/**/*.rt"))
        self.functions = [it for path in files for it in functions_in(path)]
        text = "\n".join(path.read_text(encoding="utf-8") for path in files)
        self.words = set(re.findall(r"\w+", re.sub(r"//.*", "", text)))
        lib = self.folder / "src/lib.rt"
        head = lib.read_text(encoding="utf-8") if lib.exists() else ""
        self.modules = set(re.findall(r"^pub mod (\w+);", head, re.M))
        uses = re.findall(r"^pub use crate::([^;]*);", head, re.M)
        self.exports = {it for use in uses for it in re.findall(r"(\w+)(?=\s*[,}]|\s*$)", use)}
        if lib.exists():
            self.exports |= {it.name for it in self.functions if it.module == "lib"}

    def exported(self):
        """The calls that a caller can make, but those of std's traits."""
        for it in self.functions:
            if it.module in self.modules and it.is_public and not it.owner:
                yield it
            elif it.is_public and (it.owner or it.name) in self.exports:
                yield it

    def named(self, name, prefix):
        """The functions that a name in a table means, after a type's or a module's name."""
        if "::" in name:
            prefix, name = name.rsplit("::", 1)
        found = [it for it in self.functions if it.name == name]
        here = [it for it in found if prefix == (it.owner or it.module)]
        free = [it for it in found if not it.owner and prefix not in self.types()]
        return prefix, here or free

    def types(self):
        return {it.owner for it in self.functions if it.owner}


def slug(heading):
    text = re.sub(r"\[([^\]]*)\]\([^)]*\)", r"\1", heading).replace("`", "").strip().lower()
    return re.sub(r"[^\w\- ]", "", text).replace(" ", "-")


class Page:
    """A document: its lines, each with whether it is code or a row of a table."""

    def __init__(self, path):
        self.path, self.lines, fenced, after_blank, code = path, [], False, True, False
        for number, line in enumerate(path.read_text(encoding="utf-8").splitlines(), 1):
            fence = line.lstrip().startswith("```")
            code = line.startswith("    ") and (after_blank or code)
            kind = "code" if fenced or fence or code else "row" if line.startswith("|") else "prose"
            self.lines.append((number, line, kind))
            fenced ^= fence
            after_blank = not line.strip()
        heads = [it for _, it, kind in self.lines if kind == "prose" and re.match(r"#+ ", it)]
        self.anchors = {slug(it.lstrip("#")) for it in heads}

    def cells(self, heads):
        """The rows of the tables that have these heads: a list of cells each."""
        inside = False
        for number, line, kind in self.lines:
            cells = [it.strip() for it in line.strip().strip("|").split("|")]
            if kind != "row":
                inside = False
            elif cells[: len(heads)] == heads:
                inside = True
            elif inside and not set(line) <= set("|- "):
                yield number, cells


def quoted(text):
    return re.findall(r"`([^`]+)`", text)


def check_widths(page):
    for number, line, kind in page.lines:
        if kind == "prose" and len(line) > WIDEST:
            fault(page.path, number, f"{len(line)} columns")


def check_links(page, pages):
    for number, line, kind in page.lines:
        if kind == "code":
            continue
        for target in re.findall(r"\]\(([^)\s]+)\)", line):
            if re.match(r"[a-z]+:", target):
                continue
            name, _, anchor = target.partition("#")
            path = (page.path.parent / name).resolve() if name else page.path
            if not path.exists():
                fault(page.path, number, f"no file {name}")
            elif anchor and path in pages and anchor not in pages[path].anchors:
                fault(page.path, number, f"no heading #{anchor} in {path.name}")


def check_calls(crate, page):
    """The tables of a crate's README: its calls, each with clauses that it has."""
    told, calls = {}, []
    for number, cells in page.cells(["Call", "Clause"]):
        unquoted = re.sub(r"`[^`]*`", "", cells[1])
        clauses = quoted(cells[1]) + [it for it in ("-", NO_CLAUSE) if it in unquoted]
        if cells[0]:
            calls, prefix = [], None
            for name in quoted(cells[0]):
                prefix, found = crate.named(name, prefix)
                if not found:
                    fault(page.path, number, f"no call {name}")
                elif not any(has(it, clauses) for it in found):
                    fault(page.path, number, f"{name} has none of these clauses")
                calls += found
        for clause in clauses:
            if not any(has(it, [clause]) for it in calls):
                fault(page.path, number, f"no clause {clause}")
        for it in calls:
            told.setdefault(id(it), set()).update(clauses)
    for it in crate.exported():
        name = f"{it.owner}::{it.name}" if it.owner else it.name
        if untold := [clause for clause in clauses_of(it) if clause not in told.get(id(it), ())]:
            fault(page.path, 1, f"does not tell clauses of {name}: {', '.join(untold)}")


# A method without clauses has those of its trait; of any other the table says that it has none.
def clauses_of(function):
    return function.clauses or ([] if function.is_of_trait else [NO_CLAUSE])


def has(function, clauses):
    own = clauses_of(function)
    return not own or any(it in own for it in clauses)


def check_map(page, crates):
    if len(page.lines) > LONGEST_MAP:
        fault(page.path, len(page.lines), f"more than {LONGEST_MAP} lines")
    rows = [(number, quoted(cells[0])) for number, cells in page.cells(["Crate"])]
    named = [name for _, names in rows for name in names]
    for number, names in rows:
        for name in names:
            if name not in crates or named.count(name) > 1:
                fault(page.path, number, f"{name} is no crate, or stands twice")
    for name in crates:
        if name not in named:
            fault(page.path, 1, f"no row for {name}")


def check_rules(page):
    """The table of rules: each file stands in the `specs/` that its row named last."""
    for number, cells in page.cells(["Rule", "File"]):
        folder = TOP
        for name in quoted(cells[1]):
            if found := re.match(r"crates/\w+/specs/", name):
                folder, name = TOP / found[0], name[len(found[0]) :]
            if not (folder / name).exists():
                fault(page.path, number, f"no file {name} in {folder.relative_to(TOP)}")


def words_of(paths):
    text = "\n".join(path.read_text(encoding="utf-8") for path in paths)
    return set(re.findall(r"\w+", re.sub(r"(//|--).*", "", text)))


def check_reading(page):
    """The tables of definitions: `crate` `File`: `name`. A row may leave crate and file out. Returns
    the files that they name."""
    crate, files, read = None, [], set()
    for number, cells in page.cells(["Definition"]):
        for group in cells[0].split("; "):
            before, colon, after = group.partition(":")
            here = []
            for name in quoted(before):
                path = TOP / "crates" / str(crate) / f"specs/{name}.antt"
                if (TOP / "crates" / name).is_dir():
                    crate, files = name, []
                elif path.exists():
                    files = here = [*here, path]
                    read.add(path)
                elif colon or name not in definitions_of(crate):
                    fault(page.path, number, f"no file or definition {name} in {crate}")
            for name in quoted(after):
                if name not in (words_of(files) if files else definitions_of(crate)):
                    fault(page.path, number, f"no definition {name} in {crate}")
    return read


def imports_of(path):
    """The files of definitions that a file imports."""
    text = path.read_text(encoding="utf-8")
    for crate, name in re.findall(r"\buse Rattle\.(\w+)\.specs\.((?:layers\.)?\w+)", text):
        found = TOP / "crates" / crate / "specs" / (name.replace(".", "/") + ".antt")
        if found.exists():
            yield found


def check_layers(read):
    """Each file of definitions stands where it belongs, by what needs it."""
    tops = [TOP / "crates" / it for it in TOP_CALLS]
    for top in tops:
        if not top.exists():
            fault(TOP / "docs/check_names.py", 1, f"no {top}")
    files = [it for top in tops for it in (top.rglob("*.rt") if top.is_dir() else [top])]
    needed, left = set(read), [*read, *(it for it in files if it.exists())]
    while left:
        more = set(imports_of(left.pop())) - needed
        needed |= more
        left += more
    for path in sorted(TOP.glob("crates/*/specs/**/*.antt")):
        is_inner = path.parent.name == "layers"
        is_list = path.stem in ("Lib", "layers")
        if is_inner and path in needed:
            fault(path, 1, "a top call needs it: it stands in specs/ itself")
        elif not (is_inner or is_list or "_tests/" in str(path)) and path not in needed:
            fault(path, 1, "no top call needs it: it stands in specs/layers/")


def definitions_of(crate):
    return words_of((TOP / "crates" / str(crate)).glob("specs/**/*.antt"))


def files_of_tree():
    """The files and folders of the tree, but what git keeps and what a check makes."""
    for at, folders, names in os.walk(TOP):
        folders[:] = [it for it in folders if it not in (".git", "out", "__pycache__")]
        yield from (Path(at, it) for it in [*folders, *names])


class Names:
    """All names of the tree, by which a word in backticks is looked up."""

    def __init__(self, crates):
        self.crates = crates
        kept = list(files_of_tree())
        self.paths = {it.relative_to(TOP).parts for it in kept}
        self.tails = {it[at:] for it in self.paths for at in range(len(it))}
        self.words = words_of(it for it in kept if it.suffix in CODE) | {it.stem for it in kept}
        self.words |= {it for below in read_crates().values() for it in below}
        self.types = {it for crate in crates.values() for it in crate.types()}

    def has_path(self, text):
        """Whether some path ends so; `*` and `NAME` stand for any part, and `out` is made later."""
        parts = tuple(text.rstrip("/").split("/"))
        if "*" not in text and "NAME" not in parts:
            return parts in self.tails
        tests = [re.escape(it).replace(r"\*", ".*").replace("NAME", ".*") for it in parts]
        return any(
            len(it) == len(tests) and all(map(re.fullmatch, tests, it)) for it in self.tails
        )

    def trouble(self, text):
        """What is wrong with a word in backticks, if anything is."""
        if path := re.fullmatch(r"([\w]+)::([\w:]+)", text):
            first, last = path[1], path[2].split("::")[-1]
            if first in self.crates and last not in self.crates[first].words:
                return f"no {last} in {first}"
            if first in self.types and last not in self.words:
                return f"no {last} of {first}"
        elif re.fullmatch(rf"({FOLDERS})/[\w./*-]*", text):
            return None if "out" in text.split("/") or self.has_path(text) else f"no file {text}"
        elif re.fullmatch(r"[\w-]+\.(rt|antt|py|sh|awk|edit)", text):
            return None if (text,) in self.tails else f"no file {text}"
        elif re.fullmatch(r"[a-z][a-z0-9]*(_[a-z0-9]+)+|([A-Z][a-z0-9]+){2,}", text):
            return None if text in self.words else f"no {text} in the tree"
        return None


def check_names(page, names):
    for number, line, kind in page.lines:
        for text in quoted(line) if kind != "code" else []:
            if trouble := names.trouble(text):
                fault(page.path, number, trouble)


def check_sources(folder):
    for pattern in ("src/**/*.rt", "specs/**/*.antt"):
        for path in sorted(folder.glob(pattern)):
            for number, line in enumerate(path.read_text(encoding="utf-8").splitlines(), 1):
                exempt = re.search(r'"|\\$|^\s*#\[|^\s*//[/!] \|', line)
                is_clause = re.match(r"\s*(ensures|requires|ghost)\b", line)
                if len(line) > (WIDEST_CLAUSE if is_clause else WIDEST) and not exempt:
                    fault(path, number, f"{len(line)} columns")


def check_scripts():
    named = [TOP / it for it in ("pitch", "pitch_live", ".ci/run")]
    found = [it for it in files_of_tree() if it.suffix in (".sh", ".awk")]
    for path in sorted([*named, *found]):
        for number, line in enumerate(path.read_text(encoding="utf-8").splitlines(), 1):
            if len(line) > WIDEST:
                fault(path, number, f"{len(line)} columns")


def check_edits(page):
    """How many edits there are, and what they turn: files of `specs/`, of `src/`, or of both."""
    turned = []
    for path in TOP.glob("crates/*/must-fail/*.edit"):
        files = re.findall(r"^file: (\w+)/", path.read_text(encoding="utf-8"), re.M)
        turned.append(("specs" in files, "src" in files))
    both, definition, code = (turned.count(it) for it in ((True, True), (True, False), (False, True)))
    text = re.sub(r"\s+", " ", page.path.read_text(encoding="utf-8"))
    for said in (
        f"{len(turned)} edits in `crates/*/must-fail`",
        f"{both} turn a definition and its code alike",
        f"{definition} a definition alone, and {code} the code alone",
    ):
        if said not in text:
            fault(page.path, 1, f"does not say: {said}")


def crates_below(name, crates):
    """A crate, and all crates that it stands on."""
    found, left = set(), [name]
    while left:
        if (one := left.pop()) in crates and one not in found:
            found.add(one)
            left += crates[one]
    return found


def check_programs(pages):
    """How many crates the programs have, where README and LIVE say so."""
    crates = read_crates()
    own, live = crates_below("pitch", crates), crates_below("pitch_live", crates)
    for page, said in (
        (pages[TOP / "README.md"], f"the {len(own)} crates of the program"),
        (pages[TOP / "docs/LIVE.md"], f"{len(live)} crates, of which {len(own & live)} are also"),
    ):
        if said not in re.sub(r"\s+", " ", page.path.read_text(encoding="utf-8")):
            fault(page.path, 1, f"does not say: {said}")


def main():
    crates = {name: Crate(name) for name in read_crates()}
    paths = ["*.md", "docs/*.md", "bench/*.md", "examples/**/*.md", "crates/*/*.md"]
    pages = {it: Page(it) for pattern in paths for it in sorted(TOP.glob(pattern))}
    names = Names(crates)
    for page in pages.values():
        check_widths(page)
        check_links(page, pages)
        check_names(page, names)
    for name, crate in crates.items():
        page = pages.get(crate.folder / "README.md")
        if page is None or page.lines[0][1] != f"# {name}":
            fault(crate.folder, 1, f"no README.md that begins with '# {name}'")
        else:
            check_calls(crate, page)
        check_sources(crate.folder)
    check_scripts()
    check_map(pages[TOP / "docs/MAP.md"], crates)
    check_layers(check_reading(pages[TOP / "docs/READING.md"]))
    check_rules(pages[TOP / "docs/FEED.md"])
    check_edits(pages[TOP / "README.md"])
    check_programs(pages)
    print("\n".join([*faults, f"{len(pages)} documents, {len(faults)} faults"]))
    return 1 if faults else 0


if __name__ == "__main__":
    sys.exit(main())

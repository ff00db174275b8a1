#!/usr/bin/env python3
"""Tells whether what docs/PROMISES.md and README.md cite stands in the sources, and whether docs/promises/ has what the sources say of
each public call; where it does not, it says where and ends with status 1. With the word `write` it writes docs/promises/ anew.

Of a page that cites, the last cell of a table's row cites calls (`Type::call`, `module::call`, `call`), clauses of
those calls (behind the word `clause` or `clauses`), types, and definitions of specs/. A clause has to be one of a call that
the same cell names. A page of docs/promises/ has a crate's root comment, its types and its public calls: of each its comment, and of each
clause its name, the definitions that it cites, and the comment above it; and of the crate's own definitions that contracts cite the
comments.
"""

import re
import sys
from collections import defaultdict
from pathlib import Path

TOP = Path(__file__).resolve().parents[2]
PAGES = ["README.md", "docs/PROMISES.md"]
SHORT = 100  # the letters of a clause that cites no definition and stands on the page itself
MADE = TOP / "docs" / "promises"

# The head of a function: its indent, whether it is public, whether C calls it, and its name. breadth.py holds that no function has another.
HEAD = re.compile(r'^(?P<indent> *)(?P<pub>pub(?:\([a-z]+\))? )?(?:final )?(?:const )?(?:unsafe )?(?P<export>extern "C" )?fn (?P<name>\w+)', re.M)
OWNER = re.compile(r"^(?:pub(?:\(crate\))? )?(?:unsafe )?(?:impl|trait)\b(?:<[^{]*?>)?\s*([^{]*)\{?", re.M)
CLAUSE = re.compile(r"\b(?:ensures|requires)\s+(\w+)\s*\{")
TYPE = re.compile(r"\b(?:struct|enum|trait|type|const|static|mod|macro_rules!) (\w+)|^\s*(\w+)(?:\(.*?\)|\s*\{.*?\})?,\s*$|^\s*pub (\w+):|\bghost (\w+)\b", re.M)
DEFINITION = re.compile(r"^\s*(?:abbrev |unfoldable |pub |record |data |field )*(\w[\w'-]*)\s*(?::|\(|\{)", re.M)
CITED = re.compile(r"`([^`]+)`")
# Words that the page writes as code and that are none of this repository's names.
OUTSIDE = set("Ord Display Debug Clone Copy From Drop Default Iterator Ok Err Some None Vec String HashMap u8 u32 u64 usize std error Error SHA256 true false rt ci".split())


def words_of(owner):
    """The names in the head of an impl or a trait."""
    return set(re.findall(r"\w+", owner))


class Sources:
    """The names of each crate: of calls, with their owners and clauses, and all others."""

    def __init__(self):
        self.calls = defaultdict(list)  # a call's name: (crate, words of its owner and modules, clauses)
        self.names = defaultdict(set)  # a crate: its other names
        for folder in sorted((TOP / "crates").iterdir()):
            if folder.is_dir():
                self.add_crate(folder)

    def add_crate(self, folder):
        self.names[folder.name].add(folder.name)
        for path in folder.glob("src/**/*.rt"):
            self.add_code(folder.name, path, path.read_text(encoding="utf-8"))
        for path in folder.glob("specs/**/*.antt"):
            self.names[folder.name].add(path.stem)
            self.names[folder.name].update(DEFINITION.findall(path.read_text(encoding="utf-8")))

    def add_code(self, crate, path, text):
        self.names[crate].add(path.stem)
        for match in TYPE.finditer(text):
            self.names[crate].update(name for name in match.groups() if name)
        owners = [(match.start(), words_of(match[1])) for match in OWNER.finditer(text)]
        found = list(HEAD.finditer(text))
        for at, match in enumerate(found):
            end = found[at + 1].start() if at + 1 < len(found) else len(text)
            inside = [words for start, words in owners if start < match.start()] if match["indent"] else []
            owner = inside[-1] if inside else set()
            clauses = set(CLAUSE.findall(text[match.start() : end]))
            self.calls[match["name"]].append((crate, owner | {path.stem, path.parent.name, crate}, clauses))

    def calls_of(self, path):
        """The calls that `a::b` names."""
        *before, name = path.split("::")
        return [call for call in self.calls.get(name, []) if all(word in call[1] for word in before)]

    def has(self, path):
        """Whether `a::b` names a type, a definition or a crate; of a variant, its type stands before it."""
        parts = path.split("::")
        return any(all(part in names or part == crate for part in parts) for crate, names in self.names.items())


def identifiers(code):
    """The names in what the page writes as code; none in what is no name."""
    code = re.sub(r"<[^<>]*>|\(\)|\(\.\.\)", "", code)
    return re.findall(r"[A-Za-z_]\w*(?:(?:::|\.)[A-Za-z_]\w*)*", code) if re.fullmatch(r"[\w:. ,=?'&]+", code) else []


def citations(cell):
    """What a cell cites: each name, and whether it is cited as a clause. Clauses stand in a list behind their word."""
    clauses = False
    for piece in re.split(r"(`[^`]+`)", cell):
        if piece.startswith("`"):
            yield from ((name.replace(".", "::"), clauses) for name in identifiers(piece[1:-1]))
        else:
            clauses = bool(re.search(r"\bclauses? $", piece)) or clauses and piece in (", ", " and ")


def faults_of(sources, cell):
    """What a cell cites and the sources lack."""
    cited = list(citations(cell))
    calls = [call for name, clause in cited if not clause for call in sources.calls_of(name)]
    for name, clause in cited:
        if clause and not any(name in call[2] for call in calls):
            yield f"{name} is a clause of no call that is named beside it"
        if not clause and not (sources.calls_of(name) or sources.has(name) or name in OUTSIDE):
            yield f"{name} is not there"


class Call:
    """A public call: by what path it is called, what its comment says, and its clauses: kind, name, text and comment."""

    def __init__(self, path, comment, clauses, is_law):
        self.path, self.comment, self.clauses, self.is_law = path, comment, clauses, is_law


def comment_above(lines, at):
    """The `///` in front of a line, behind its attributes."""
    first = at
    while first > 0 and re.match(r"\s*(///|#\[)", lines[first - 1]):
        first -= 1
    return [line.strip()[3:].removeprefix(" ") for line in lines[first:at] if line.strip().startswith("///")]


def closing(text, at):
    """Where the braces that open at a place close."""
    depth = 0
    for place in range(at, len(text)):
        depth += {"{": 1, "}": -1}.get(text[place], 0)
        if depth == 0:
            return place
    return len(text)


def head_of(lines, at):
    """The signature and the clauses of the function that begins at a line."""
    indent = re.match(r"\s*", lines[at])[0]
    for end in range(at, len(lines)):
        line = lines[end]
        if re.match(rf"{indent}\{{", line) or line.endswith(";"):
            return "\n".join(lines[at : end + 1])
        if not re.search(r"\b(ensures|requires)\b", line) and line.endswith("{"):
            return "\n".join(lines[at : end + 1])
        if line.endswith("{}"):
            return "\n".join(lines[at : end + 1])
    return "\n".join(lines[at:])


def clauses_of(head):
    """The clauses of a head, in order."""
    found, done = [], 0
    for match in re.finditer(r"((?:^[ \t]*//.*\n)*)[ \t]*\b(ensures|requires)\b[ \t]*(\w*)[ \t]*\{", head, re.M):
        if match.start() >= done:
            end = closing(head, match.end() - 1)
            said = " ".join(line.strip().removeprefix("//").strip() for line in match[1].splitlines())
            found.append((match[2], match[3], head[match.end() : end], said))
            done = end
    return found


class Crate:
    """What a crate lets others call: read of its root file and the files of its modules."""

    def __init__(self, folder):
        self.name = folder.name
        self.root = next(path for path in (folder / "src" / name for name in ("lib.rt", "main.rt")) if path.is_file())
        self.is_program = self.root.name == "main.rt"
        text = self.root.read_text(encoding="utf-8")
        self.about = [line[3:].removeprefix(" ") for line in text.splitlines()[: len(re.match(r"(//!.*\n)*", text)[0].splitlines())]]
        self.open = set(re.findall(r"^pub mod (\w+);", text, re.M))
        own = set(re.findall(r"^(?:pub )?mod (\w+);", text, re.M))
        self.names = {}
        for path, names in re.findall(r"^pub use ([\w:]+?)(?:::\{([^}]*)\})?;", text, re.M | re.S):
            parts = path.split("::") if names else path.split("::")[:-1]
            if parts and parts[0] in own:
                for name in re.findall(r"\w+", names or path.split("::")[-1]):
                    self.names[name] = parts[-1]
        self.calls, self.types, self.words = [], [], {}
        paths = sorted((folder / "src").rglob("*.rt"), key=lambda path: (path != self.root, path))
        for path in paths:
            self.read_types(path.read_text(encoding="utf-8").splitlines(), path.stem)
        self.kinds = {name for name, *_ in self.types}
        for path in paths:
            self.read(path)

    def lets(self, name, module):
        """Whether an item of a module can be named from outside."""
        return module in self.open or module in ("lib", "main") or self.names.get(name) == module

    def read(self, path):
        lines, module, owner = path.read_text(encoding="utf-8").splitlines(), path.stem, None
        words = {}
        for line in lines:
            for crate, file, names in re.findall(r"use Rattle\.(\w+)\.specs\.([\w.]+?)(?:\.\{(.*?)\})?(?: as \w+)?;", line):
                if (TOP / "crates" / crate).is_dir() and not file.startswith("declared"):
                    for pair in names.split(",") if names else []:
                        words[pair.split(" as ")[-1].strip()] = (crate, file, pair.split(" as ")[0].strip())
        for at, line in enumerate(lines):
            block = re.match(r"(?:unsafe )?impl(?:<.*?>+)? (?:(?P<trait>[^{]*?) for )?(?P<type>\w[\w:]*)|pub trait (?P<named>\w+)", line)
            if block:
                owner = block
            elif line == "}":
                owner = None
            call = HEAD.match(line)
            if call and call["pub"] in (None, "pub ") and (not call["indent"] or owner):
                self.read_call(lines, at, module, owner if call["indent"] else None, call, words)

    def read_types(self, lines, module):
        for at, line in enumerate(lines):
            named = re.match(r"pub (struct|enum|trait|const|type) (\w+)", line)
            if named and self.lets(named[2], module):
                self.types.append((named[2], comment_above(lines, at)))

    def read_call(self, lines, at, module, owner, call, words):
        trait = owner and owner["trait"]
        kind = owner and (owner["type"] or owner["named"])
        is_open = bool(call["pub"]) or bool(owner and (owner["named"] or trait)) or self.is_program
        names = [kind, *re.findall(r"^\w+", trait or "")] if kind else []
        is_seen = any(name in self.kinds for name in names) if kind else call["export"] or self.lets(call["name"], module)
        if not is_open or not is_seen:
            return
        clauses = clauses_of(head_of(lines, at))
        if (trait or self.is_program) and not any(kind == "ensures" for kind, *_ in clauses):
            return
        before = f"{kind}::" if kind else f"{module}::" if module in self.open else ""
        path = f"{trait} for {kind}: {call['name']}" if trait else before + call["name"]
        cited = [(word, name, [words[found] for found in re.findall(r"[\w'-]+", text) if found in words], said, text) for word, name, text, said in clauses]
        for _, _, found, *_ in cited:
            self.words.update({name: (crate, file) for crate, file, name in found})
        self.calls.append(Call(path, comment_above(lines, at), cited, module == "laws" or self.name.endswith("_laws")))


def in_words(lines):
    """What a comment says, on one line of a table."""
    text = "\n".join(lines).strip()
    text = re.sub(r"\[(`[^`\]]+`|[^\]`]+)\](?:\([^)]*\))?", r"\1", text)
    text = re.sub(r"\n\s*\n", "<br>", text)
    text = re.sub(r"\n- ", "<br>- ", text)
    text = re.sub(r"(<br>|^)# ([^<]*)", r"\1**\2.**", text)
    return re.sub(r"\s+", " ", text).replace("|", "\\|")


def in_clauses(call):
    """The clauses of a call: what it requires behind what it ensures."""
    told = []
    for word, name, found, said, whole in sorted(call.clauses, key=lambda clause: clause[0]):
        cited = ", ".join(dict.fromkeys(f"`{name}`" for _, _, name in found))
        if not cited and len(whole) <= SHORT and "|" not in whole and "`" not in whole:
            cited = f"`{' '.join(whole.split())}`"
        text = (f"`{name}`" if name else "") + (": " if name and cited else "") + cited
        text = ("requires " if word == "requires" else "") + (text or ("the clause" if word == "ensures" else "one fact"))
        told.append(text + (f" ({in_words([said])})" if said else ""))
    return "; ".join(told)


BLOCK = re.compile(r"module .* where$|(unfoldable )?mutual$")


def dedented(lines):
    """The lines of a file of specs/, with what stands within a block moved to the front."""
    told, depth = [], 0
    for line in lines:
        depth = min(depth, len(line) - len(line.lstrip())) if line.strip() else depth
        told.append(line[depth:])
        depth += 2 if BLOCK.match(told[-1]) else 0
    return told


def definitions_of(name):
    """The words that a crate's specs/ defines and comments: each with its file and its comment, those of a record's members behind it."""
    for path in sorted((TOP / "crates" / name / "specs").glob("*.antt")):
        lines = dedented(path.read_text(encoding="utf-8").splitlines())
        for at, line in enumerate(lines):
            word = re.match(r"(?:abbrev |unfoldable )*pub (?:record |data )?(\w[\w'-]*)", line)
            if word and not line.startswith("pub mod"):
                said = in_words(antt_comment(lines, at))
                for place in range(at + 1, len(lines)):
                    if not lines[place].startswith(" "):
                        break
                    member = re.match(r"  pub (\w[\w'-]*)", lines[place])
                    about = in_words(antt_comment(lines, place)) if member else ""
                    said += f"<br>- `{member[1]}`: {about}" if about else ""
                if said:
                    yield word[1], path.stem, said


def antt_comment(lines, at):
    """The `--` in front of a line."""
    first = at
    while first > 0 and re.match(r"\s*-- (?!----)", lines[first - 1]):
        first -= 1
    return [line.strip().removeprefix("--").strip() for line in lines[first:at]]


def page_of(crate, cited):
    """The page of a crate, or nothing where it has neither calls nor types of its own."""
    if not crate.calls and not crate.types:
        return None
    about = re.sub(r"\[(`[^`]+`)\](?:\([^)]*\))?", r"\1", "\n".join(crate.about))
    lines = [f"# `{crate.name}`", "", "_For who calls this crate, as much of it as is called. `checks/reference/promises.py` makes this page of the sources._", "", about, ""]
    if crate.types:
        lines += ["## Types", "", "| Type | What its comment says |", "|---|---|"]
        lines += [f"| `{name}` | {in_words(said)} |" for name, said in crate.types] + [""]
    for title, is_law in (("Calls", False), ("Laws", True)):
        calls = [call for call in crate.calls if call.is_law == is_law]
        if calls:
            lines += [f"## {title}", "", f"| {title[:-1]} | What its comment says | Its clauses, and the definitions that they cite |", "|---|---|---|"]
            lines += [f"| `{call.path}` | {in_words(call.comment)} | {in_clauses(call)} |" for call in calls] + [""]
    own = [(word, file, said) for word, file, said in definitions_of(crate.name) if (crate.name, word) in cited]
    if own:
        lines += ["## Definitions", "", "| Word | What its comment says | File of `specs/` |", "|---|---|---|"]
        lines += [f"| `{word}` | {said} | [{file}](../../crates/{crate.name}/specs/{file}.antt) |" for word, file, said in own] + [""]
    others = {}
    for word, (owner, _) in sorted(crate.words.items()):
        if owner != crate.name:
            others.setdefault(owner, []).append(f"`{word}`")
    if others:
        lines += ["Words of other crates: " + "; ".join(f"of [`{owner}`]({owner}.md) {', '.join(words)}" for owner, words in sorted(others.items())) + ".", ""]
    return "\n".join(lines)


def held_pages(write):
    """How many pages there are, and how many of them are not what the sources give."""
    folders = [folder for folder in sorted((TOP / "crates").iterdir()) if (folder / "src").is_dir() and not folder.name.endswith("_tests")]
    crates = [Crate(folder) for folder in folders]
    cited = {(owner, word) for crate in crates for word, (owner, _) in crate.words.items()}
    pages = {f"{crate.name}.md": page_of(crate, cited) for crate in crates}
    pages = {name: text for name, text in pages.items() if text}
    faults = 0
    MADE.mkdir(exist_ok=True)
    for path in sorted(MADE.iterdir()):
        if path.name not in pages and write:
            path.unlink()
        elif path.name not in pages:
            print(f"docs/promises/{path.name}: no crate has it")
            faults += 1
    for name, text in pages.items():
        path = MADE / name
        if write:
            path.write_text(text, encoding="utf-8")
        elif not path.is_file() or path.read_text(encoding="utf-8") != text:
            print(f"docs/promises/{name}: is not what the sources give: checks/reference/promises.py write makes it anew")
            faults += 1
    return len(pages), faults


def main():
    made, faults = held_pages(sys.argv[1:] == ["write"])
    sources, cited = Sources(), 0
    for page in PAGES:
        for number, line in enumerate((TOP / page).read_text(encoding="utf-8").splitlines(), 1):
            row = re.match(r"\|.*\| ([^|]*) \|$", line)
            if row:
                cited += len(CITED.findall(row[1]))
                for fault in faults_of(sources, row[1]):
                    faults += 1
                    print(f"{page}:{number}: {fault}: {row[1].strip()}")
    print(f"docs/promises/ has {made} pages, and {' and '.join(PAGES)} cite {cited} names; {faults} faults")
    return 1 if faults else 0


if __name__ == "__main__":
    sys.exit(main())

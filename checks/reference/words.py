#!/usr/bin/env python3
"""Counts the words that were written by hand on each page, and ends with status 1 if a page has more than its budget, does not begin with
who reads it and how long that takes, or does not link to the glossary; and if the table of docs/README.md gives a page other minutes than
the page says, or sums them wrongly.

Clarity comes before brevity: `LONGER` has the pages that have more words than the budget of their kind, each with the reason. sentences.py
holds the sentences.

A word is what stands between blanks and has a letter or a digit. Blocks of code do not count: commands with what they write, formats and
programs. Nor does what a script makes: it stands between `<!-- made by NAME -->` and `<!-- end -->`. The scripts that make such parts take
`Part` from here: each compares what stands on the page with what the sources give, and with the word `write` writes it anew.
"""

import re
import sys
from pathlib import Path

TOP = Path(__file__).resolve().parents[2]

# Where pages stand that are written by hand.
PAGES = ["*.md", "docs/*.md", "checks/**/*.md", "distributed/*.md", "examples/**/*.md", "python/*.md", "c/*.md", "second_opinion/*.md", "bindings/*.md"]
# Pages, and the words that they have together at most; each other page has OTHER.
OTHER = 1406
BUDGETS = [
    (1563, ["README.md"]),
    (625, ["docs/README.md"]),
    (3125, ["docs/ARCHITECTURE.md"]),
    (7031, ["docs/PROMISES.md"]),
    (2344, ["docs/DEFINITIONS.md"]),
    (5469, ["docs/DECISIONS.md"]),
    (2344, ["docs/PROVING.md"]),
    (1938, ["distributed/README.md"]),
    (14063, ["docs/FORMATS.md", "docs/PROGRAMS.md", "docs/OPERATORS.md", "docs/AUDITORS.md", "CONTRIBUTING.md"]),
    # BENCHMARKS also says what can't be had, so that nobody looks for it again, and TESTS where each test is that became lines. A machine for
    # images is measured and tried there too, and restarts.
    (6300, ["docs/BENCHMARKS.md", "docs/GATE.md", "docs/TESTS.md", "examples/README.md"]),
]
# Pages that have more: how many words, and why.
LONGER = {
    "README.md": (1700, "it shows a proved program that takes minutes, beside the one that takes hours"),
    "docs/DECISIONS.md": (5900, "a reason that is not written down is sought again, and each format or crate that goes leaves one"),
    "docs/DEPLOYING.md": (1875, "what an operator does after each kind of fault is looked up in one place, and in need"),
}
GLOSSARY = "GLOSSARY.md"

MADE = re.compile(r"<!-- made by [^>]*-->\n.*?<!-- end -->\n", re.S)
CODE = re.compile(r"^```.*?^```$|^    [^\n]*$", re.M | re.S)
TIME = re.compile(r"^_.*\b(minutes?|hours?|evening)\b.*_$", re.M)
NUMBERS = "zero one two three four five six seven eight nine ten eleven twelve thirteen fourteen fifteen sixteen seventeen eighteen nineteen twenty".split()


class Part:
    """A part of a page that a script makes, by the words that stand in its mark."""

    def __init__(self, page, mark):
        self.path, self.mark = TOP / page, mark
        self.whole = re.compile(rf"(<!-- made by {re.escape(mark)} -->\n)(.*?)(<!-- end -->\n)", re.S)

    def held_to(self, text, write=False):
        """Whether the part is this text. With `write` it becomes it."""
        page = self.path.read_text(encoding="utf-8")
        found = self.whole.search(page)
        if found is None:
            print(f"{self.path.relative_to(TOP)}: lacks '<!-- made by {self.mark} -->'")
            return False
        if found[2] != text and write:
            self.path.write_text(page[: found.start(2)] + text + page[found.end(2) :], encoding="utf-8")
        elif found[2] != text:
            print(f"{self.path.relative_to(TOP)}: what is made by {self.mark} is out of date: write it anew by its word `write`")
            return False
        return True


def words_of(text):
    """How many words were written by hand."""
    return sum(any(letter.isalnum() for letter in word) for word in CODE.sub("", MADE.sub("", text)).split())


def head_of(text):
    """What a page says of its readers and their time."""
    found = TIME.search("\n".join(text.splitlines()[:6]))
    return found[0] if found else ""


def faults_of(budget, pages):
    """What is wrong with pages that have a budget together."""
    counts = {}
    for page in pages:
        path = TOP / page
        if not path.is_file():
            yield f"{page}: is not there"
            continue
        text = path.read_text(encoding="utf-8")
        counts[page] = words_of(text)
        if not head_of(text):
            yield f"{page}: its first lines do not say, in italics, who reads it and how long that takes"
        if path.name != GLOSSARY and f"{GLOSSARY})" not in text:
            yield f"{page}: does not link to the glossary"
    if sum(counts.values()) > budget:
        yield f"{', '.join(f'{page} {count}' for page, count in counts.items())}: {sum(counts.values())} words, {budget} at most"


def faults_of_the_way_in():
    """What is wrong with the minutes of docs/README.md: those of whole pages, and the sums."""
    page = TOP / "docs/README.md"
    for who, reading, minutes in re.findall(r"^\| (.*?) \| (.*) \| (.*?) \|$", page.read_text(encoding="utf-8"), re.M):
        parts = [int(part) for part in re.findall(r", (\d+)", reading)]
        if parts and sum(parts) != sum(map(int, re.findall(r"\d+", minutes))):
            yield f"docs/README.md: {who}: the parts take {sum(parts)} minutes, and the last column says {minutes}"
        for link, taken in re.findall(r"\]\(([^)#]+\.md)\), (\d+)", reading):
            if NUMBERS[int(taken)] not in re.findall(r"\w+", head_of((page.parent / link).read_text(encoding="utf-8"))):
                yield f"docs/README.md: {link} takes {taken} minutes, and does not say so itself"


def main():
    known = {page for _, pages in BUDGETS for page in pages}
    pages = sorted(path.relative_to(TOP).as_posix() for pattern in PAGES for path in TOP.glob(pattern))
    budgets = [(budget, [page for page in pages if page not in LONGER]) for budget, pages in BUDGETS]
    budgets += [(OTHER, [page]) for page in pages if page not in known and page not in LONGER]
    budgets = [(budget, pages) for budget, pages in budgets if pages] + [(budget, [page]) for page, (budget, _) in LONGER.items()]
    faults = [fault for budget, pages in budgets for fault in faults_of(budget, pages)] + list(faults_of_the_way_in())
    print(*faults, sep="\n", end="\n" if faults else "")
    if not faults:
        total = sum(words_of((TOP / page).read_text(encoding="utf-8")) for _, pages in budgets for page in pages)
        print(f"{sum(len(pages) for _, pages in budgets)} pages have {total} words by hand, of {sum(budget for budget, _ in budgets)} at most")
    return 1 if faults else 0


if __name__ == "__main__":
    sys.exit(main())

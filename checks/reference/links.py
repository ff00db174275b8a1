#!/usr/bin/env python3
"""Tells whether what the pages link to is there: each file or folder, and of a page each heading that is named behind `#`. Where one is
not, it says where and ends with status 1.

A heading is named as pages on the web name it: in lower case, with a dash for each blank, and without other signs.
"""

import re
import subprocess
import sys
from pathlib import Path

TOP = Path(__file__).resolve().parents[2]
LINK = re.compile(r"\]\(([^()\s]+)\)")


def without_code(text):
    """The text without what stands as code."""
    text = re.sub(r"^```.*?^```$", "", text, flags=re.M | re.S)
    text = re.sub(r"^    .*$", "", text, flags=re.M)
    return re.sub(r"`[^`\n]*`", "", text)


def anchors(path):
    """How a page's headings are named."""
    names = []
    for title in re.findall(r"^#+ (.+)$", path.read_text(encoding="utf-8"), re.M):
        title = re.sub(r"\]\([^)]*\)", "]", title)
        name = re.sub(r"[^\w\- ]", "", title.lower()).replace(" ", "-")
        names.append(name + (f"-{names.count(name)}" if name in names else ""))
    return names


def faults_of(page):
    """The links of a page that lead nowhere, and how many there are."""
    text = (TOP / page).read_text(encoding="utf-8")
    links, faults = LINK.findall(without_code(text)) + LINK.findall(" ".join(re.findall(r"\[`[^`]*`\]\([^()\s]+\)", text))), []
    for link in sorted(set(links)):
        if re.match(r"[a-z]+:", link):
            continue
        file, _, anchor = link.partition("#")
        to = (TOP / page).parent / file if file else TOP / page
        if not to.exists():
            faults.append(f"{page}: {link} is not there")
        elif anchor and (to.suffix != ".md" or anchor not in anchors(to)):
            faults.append(f"{page}: {link}: {file or page} has no such heading")
    return faults, len(links)


def main():
    listed = subprocess.run(["git", "ls-files", "-co", "--exclude-standard", "*.md"], cwd=TOP, capture_output=True, text=True, check=True)
    pages = [page for page in listed.stdout.splitlines() if (TOP / page).is_file()]
    found = [faults_of(page) for page in pages]
    faults = [fault for some, _ in found for fault in some]
    print(*faults, sep="\n", end="\n" if faults else "")
    if not faults:
        print(f"{len(pages)} pages have {sum(count for _, count in found)} links, and each leads somewhere")
    return 1 if faults else 0


if __name__ == "__main__":
    sys.exit(main())

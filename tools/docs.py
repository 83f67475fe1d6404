"""What tools take from the documents: the blocks of code, the links, and the version."""

import re
from pathlib import Path
from typing import NamedTuple

ROOT = Path(__file__).resolve().parent.parent


class Block(NamedTuple):
    """A fenced block: its document, its line, the word after its fence, and its text."""

    document: str
    line: int
    language: str
    text: str

    def __str__(self):
        return f"{self.document}:{self.line}"

    def commands(self):
        """The commands of a console block, each with what it prints."""
        found = []
        for line in self.text.splitlines():
            if line.startswith("$ "):
                found.append((line[2:], []))
            else:
                found[-1][1].append(line)
        return [(command, "".join(it + "\n" for it in lines)) for command, lines in found]


def version():
    """The newest version that CHANGELOG.md names, which is the one source for it."""
    return re.search(r"^## \[(\d[^\]]*)\]", (ROOT / "CHANGELOG.md").read_text(encoding="utf-8"), re.M)[1]


def blocks(document):
    """The blocks of a document, by its path in the repository."""
    text = (ROOT / document).read_text(encoding="utf-8")
    for match in re.finditer(r"^```(\w*)\n(.*?)^```$", text, re.M | re.S):
        yield Block(document, text.count("\n", 0, match.start()) + 1, match[1], match[2])


def documents():
    """The paths of all documents in the repository."""
    found = [*ROOT.glob("*.md")]
    for place in ("docs/*", "tools/*", "crates/*/*", "bindings/*/*"):
        found += ROOT.glob(f"{place}.md")
    return [str(it.relative_to(ROOT)) for it in sorted(found)]


def anchors(path):
    """The anchors of a document's headings, as hosts of repositories make them."""
    text = re.sub(r"^```.*?^```$", "", path.read_text(encoding="utf-8"), flags=re.M | re.S)
    return {re.sub(r"[^\w\- ]", "", it.lower()).replace(" ", "-") for it in re.findall(r"^#+ +(.*?) *$", text, re.M)}


def dead_links(document):
    """The links of a document, by its path in the repository, that lead to no file or to no heading of it."""
    path = ROOT / document
    for link in dict.fromkeys(re.findall(r"\]\(([^)\s]+)\)", path.read_text(encoding="utf-8"))):
        if "://" not in link:
            name, _, anchor = link.partition("#")
            file = path.parent / name if name else path
            if not file.exists() or anchor and anchor not in anchors(file):
                yield link

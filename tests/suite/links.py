"""Looks up each link of the documents: that its file is there, and the heading or anchor that it
names. The headings of a document give anchors as code hosts make them. Links to other hosts aren't
looked up."""
import re
from pathlib import Path

from harness import ROOT, each, read, same, want


def documents() -> list[str]:
    """README.md, CONTRIBUTING.md, CHANGELOG.md and docs/*.md."""
    paths = sorted((ROOT / "docs").glob("*.md"))
    return ["README.md", "CONTRIBUTING.md", "CHANGELOG.md", *(str(path.relative_to(ROOT)) for path in paths)]


def text_of(path: Path) -> str:
    """A document without its blocks of code."""
    return re.sub(r"^(`{3,}).*?^\1$", "", read(path), flags=re.M | re.S)


def anchors_of(path: Path) -> set[str]:
    text = text_of(path)
    anchors = set(re.findall(r'<a id="([^"]+)">', text))
    for heading in re.findall(r"^#+ +(.+)$", text, flags=re.M):
        heading = re.sub(r"\[([^\]]*)\]\([^)]*\)", r"\1", heading)
        name = re.sub(r"[^\w\- ]", "", heading.lower()).replace(" ", "-")
        number = 0
        while name + (f"-{number}" if number else "") in anchors:
            number += 1
        anchors.add(name + (f"-{number}" if number else ""))
    return anchors


@each(documents)
def test_document(name: str) -> None:
    path = ROOT / name
    # code in a line has no links
    text = re.sub(r"`[^`\n]*`", "", text_of(path))
    named = set(re.findall(r"^\[([^\]]+)\]: ", text, flags=re.M))
    for link in re.findall(r"\]\[([^\]]+)\]", text):
        want(link in named, f"[{link}] is no link")
    for target in re.findall(r"\]\(([^)\s]+)\)", text) + re.findall(r"^\[[^\]]+\]: (\S+)$", text, flags=re.M):
        if re.match(r"[a-z]+:", target):
            continue
        file, _, anchor = target.partition("#")
        to = (path.parent / file) if file else path
        want(to.exists(), f"{target}: there is no such file")
        is_there = not anchor or to.suffix != ".md" or anchor in anchors_of(to)
        want(is_there, f"{target}: there is no such heading")


def test_trust_lists_each_module() -> None:
    tested = read(ROOT / "docs/TRUST.md").partition("\n## Tested\n")[2]
    modules = {path.stem for path in (ROOT / "tests/suite").glob("*.py")} - {"__init__", "cases"}
    same("modules that the table doesn't name", [], sorted(it for it in modules if f"`{it}`" not in tested))

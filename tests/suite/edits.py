"""Looks up the texts of edits and of wrong bodies: each `old` stands in its file exactly once, as the edits before it left
that. One that isn't there tries nothing, which tests/edits/run and tests/bodies/run tell only once they are run."""
from pathlib import Path

from harness import ROOT, each, read, same, want


def folders() -> list[str]:
    """The folders that have edits, and the one of wrong bodies, whose files are named from the top."""
    found = {edit.parent for pattern in ("tests/edits/*/*", "crates/*/must-fail/*") for edit in ROOT.glob(f"{pattern}.edit")}
    return sorted(str(folder.relative_to(ROOT)) for folder in found) + ["tests/bodies"]


def top_of(folder: str) -> Path:
    """Returns the folder from which an edit's files are named."""
    if folder == "tests/bodies":
        return ROOT
    path = Path(folder)
    return ROOT / "crates" / (path.parent.name if path.name == "must-fail" else path.name)


def wrong_in(edit: Path, top: Path) -> list[str]:
    """Returns what is wrong with an edit's texts."""
    texts: dict[Path, str] = {}
    wrong, file, old = [], None, None
    for line in read(edit).splitlines():
        key, _, value = line.partition(": ")
        if key == "file":
            file = top / value
            if not file.is_file():
                return [f"{edit.name}: there is no {value}"]
            texts.setdefault(file, read(file))
        elif key == "old":
            old = value
        elif key == "new":
            count = texts[file].count(old)
            if count != 1:
                wrong.append(f"{edit.name}: {count} times in {file.name}: {old}")
            texts[file] = texts[file].replace(old, value)
    return wrong if old is not None else [f"{edit.name}: it changes nothing"]


@each(folders)
def test_texts(folder: str) -> None:
    top = top_of(folder)
    want(top.is_dir(), f"there is no {top.relative_to(ROOT)}")
    wrong = [it for edit in sorted((ROOT / folder).glob("*.edit")) for it in wrong_in(edit, top)]
    same("texts that aren't there once", [], wrong)

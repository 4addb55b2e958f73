#!/usr/bin/env python3
"""Checks the documents: every link and file name resolves, every rule that is cited is in the profile, every
must-fail edit names a rule and is named by a promise, every crate has a row in the map, and no paragraph of
README is too long. Prints what is wrong, and ends with status 1 if anything is."""

import re
import sys
from pathlib import Path

TOP = Path(__file__).resolve().parent.parent
DOCS = [TOP / "README.md", *sorted((TOP / "docs").glob("*.md")), TOP / "bench" / "FIGURES.md"]
CRATES = sorted(path for path in (TOP / "crates").iterdir() if path.is_dir())
EDITS = sorted(TOP.glob("crates/*/must-fail/*.edit"))
FILE_NAME = re.compile(r"(?<![\w./-])([\w.-]+(?:/[\w.-]+)*\.(?:rt|antt|edit|md|json|site|http|answer|py|txt))\b")
RULE = re.compile(r"^(?:- )?\[([a-z][a-z-]*)\] ", re.M)
LONGEST = 600

faults = []


def fault(path, number, text):
    faults.append(f"{path.relative_to(TOP)}:{number}: {text}")


def slug(heading):
    """The anchor of a heading."""
    kept = re.sub(r"[^\w\- ]", "", heading.strip().lower())
    return kept.replace(" ", "-")


def anchors(path):
    return {slug(line.lstrip("#")) for line in path.read_text().splitlines() if line.startswith("#")}


def lines_of(path):
    """The lines of a document outside its blocks of code, with their numbers."""
    inside = False
    for number, line in enumerate(path.read_text().splitlines(), 1):
        if line.lstrip().startswith("```"):
            inside = not inside
        elif not inside:
            yield number, line


def check_links(path):
    for number, line in lines_of(path):
        for target in re.findall(r"\]\(([^)\s]+)\)", line):
            name, _, anchor = target.partition("#")
            to = (path.parent / name).resolve() if name else path
            if target.startswith("http"):
                continue
            if not to.exists():
                fault(path, number, f"the link {target} leads nowhere")
            elif anchor and anchor not in anchors(to):
                fault(path, number, f"{name or path.name} has no heading {anchor}")


def is_there(path, name):
    """A name is there from the top, beside the document, in crates/, or within some crate."""
    if "/" not in name:
        if any(TOP.glob(f"{folder}/{name}") for folder in (".", "docs", "examples", "bench")):
            return True
        return any(next(crate.rglob(name), None) for crate in CRATES)
    places = [TOP / name, path.parent / name, TOP / "crates" / name]
    return any(place.exists() for place in places) or any((crate / name).exists() for crate in CRATES)


def check_file_names(path):
    for number, line in lines_of(path):
        for name in FILE_NAME.findall(re.sub(r"\]\([^)]*\)", "]", line)):
            if name not in EXAMPLES and not is_there(path, name):
                fault(path, number, f"there is no file {name}")


# File names that stand for a user's own, or for one that an example would add.
EXAMPLES = {"hidden_ancestors_are_not_looked_at.edit"}


def cells(line):
    """The cells of a row of a table."""
    return [cell.strip() for cell in re.split(r"(?<!\\)\|", line.strip())[1:-1]]


def check_rules():
    profile = TOP / "docs" / "PROFILE.md"
    promises = TOP / "docs" / "PROMISES.md"
    names = RULE.findall(profile.read_text())
    for name in {name for name in names if names.count(name) > 1}:
        fault(profile, 0, f"two rules have the name {name}")
    text = promises.read_text()
    for number, line in lines_of(promises):
        if line.startswith("| ") and not line.startswith("| Rule "):
            for rule in cells(line)[0].split(", "):
                if rule not in names:
                    fault(promises, number, f"there is no rule {rule}")
    for edit in EDITS:
        rules = re.findall(r"^# rule: (\S+)$", edit.read_text(), re.M)
        if len(rules) != 1 or rules[0] not in names:
            fault(edit, 0, "it names no rule of the profile")
        if f"`{edit.stem}`" not in text:
            fault(edit, 0, "no promise names it")


def check_edits_named():
    """In a promise's columns of edits there is no other name."""
    promises = TOP / "docs" / "PROMISES.md"
    stems = {edit.stem for edit in EDITS}
    column = None
    for number, line in lines_of(promises):
        if line.startswith("| Rule "):
            heads = cells(line)
            column = heads.index("Must-fail edit")
        elif line.startswith("| ") and column is not None:
            for name in re.findall(r"`([a-z0-9_]+)`", cells(line)[column]):
                if name not in stems:
                    fault(promises, number, f"there is no must-fail edit {name}")


def check_map():
    path = TOP / "docs" / "ARCHITECTURE.md"
    named = set(re.findall(r"`(\w+)`", "\n".join(line.split(" | ")[0] for line in path.read_text().splitlines() if line.startswith("| `"))))
    for crate in CRATES:
        if crate.name not in named:
            fault(path, 0, f"the crate {crate.name} has no row")


def check_paragraphs():
    path = TOP / "README.md"
    for number, line in lines_of(path):
        if len(line) > LONGEST and not line.startswith("|"):
            fault(path, number, f"a paragraph of {len(line)} characters")


for document in DOCS:
    check_links(document)
    check_file_names(document)
check_rules()
check_edits_named()
check_map()
check_paragraphs()
print("\n".join(faults) if faults else "the documents' links, file names, rules and edits resolve")
sys.exit(1 if faults else 0)

"""Reads the worked rows of the definitions and the outputs of the examples."""

import re
from pathlib import Path

FOLDER = Path(__file__).resolve().parent
ROOT = FOLDER.parent.parent
CRATES = ROOT / "crates"
MACHINE_TEXT = ROOT / "docs" / "MACHINE.md"


def function(path, name):
    """The contract of a function without a body, which the clauses of a worked row are."""
    found = re.search(rf"^pub fn {name}\(\)\n(.*?)^\{{\}}", (CRATES / path).read_text(), re.M | re.S)
    return " ".join(found.group(1).split())


def clause(path, name, label):
    """One clause of such a function, by its name."""
    return re.search(rf"ensures {label} \{{ (.*?) \}}(?= ensures|$)", function(path, name)).group(1)


def definition(path, name):
    """The right side of a definition that takes nothing."""
    found = re.search(rf"^{name} = (.*?)(?=\n\n|\n--|\Z)", (CRATES / path).read_text(), re.M | re.S)
    return " ".join(found.group(1).split())


def elements(text):
    """The elements of a list that is written with ∷ and ends with []."""
    return [part.strip() for part in text.split("∷")][:-1]


def plain(text):
    """The words of an event or a reply, without brackets and quotes."""
    return re.sub(r'codes|[()"]', " ", text).split()


def events(text):
    """The events of a list, each as its words."""
    return [plain(part) for part in elements(text)]


def numbers(text):
    """The numbers of a list."""
    return [int(part) for part in elements(text)]


def quoted_lines(text):
    """The lines of a text that is written as codes."""
    return re.findall(r'codes "([^"]*)"', text)

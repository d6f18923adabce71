"""Reads the table of forms of crates/forms as Python has it: tuples, lists, texts and numbers."""
import os
import re

TOP = os.path.dirname(os.path.dirname(os.path.abspath(__file__)))
FORMS = f"{TOP}/crates/forms/src"
TOKEN = re.compile(r'\s+|//[^\n]*|"(?:[^"\\]|\\.)*"|[A-Za-z_]\w*(?:::\w+)*|\d[\d_]*|[&()\[\]{},:]')


def read(path):
    """The text of a file."""
    with open(path, encoding="utf-8") as file:
        return file.read()


def tokens(text):
    """The tokens of an expression; a name is told without its path."""
    place, found = 0, []
    while place < len(text):
        token = TOKEN.match(text, place)
        if not token:
            raise ValueError(f"not understood: {text[place:place + 40]!r}")
        place = token.end()
        if token.group().strip() and not token.group().startswith("//"):
            found.append(token.group())
    return found


def parsed(found, names):
    """An expression as tuples, lists, texts, numbers and words; `names` has the values of constants."""
    token = found.pop(0)
    if token == "&":
        return parsed(found, names)
    if token in "([{":
        items, end = [], {"(": ")", "[": "]", "{": "}"}[token]
        while found[0] != end:
            items.append(parsed(found, names))
            if found[0] == ":":
                found.pop(0)
                items[-1] = (items[-1], parsed(found, names))
            if found[0] == ",":
                found.pop(0)
        found.pop(0)
        return tuple(items) if token == "(" else dict(items) if token == "{" else items
    if token[0] == '"':
        return token[1:-1]
    if token[0].isdigit():
        return int(token.replace("_", ""))
    if found and found[0] == "as":
        del found[:2]
    if token in names:
        return names[token]
    word = token.split("::")[-1]
    return (word, parsed(found, names)) if found and found[0] in "({" else names.get(word, word)


def constants(text, names):
    """Adds the constants of a file, in their order, each under its name."""
    for name, value in re.findall(r"^(?:pub )?(?:const|static) (\w+): [^=]*= (.*?);$", text, re.M | re.S):
        names[name] = parsed(tokens(value), names)
    return names


def numbers():
    """The limits that slots name: each constant of a number in the sources of the crates."""
    found = {"u32::MAX": 2**32 - 1}
    for crate in ("limits", "biphase", "label_columns", "luma_field", "luma_row", "pcm_front", "tc_job", "vitc_reader"):
        folder = f"{TOP}/crates/{crate}/src"
        for file in sorted(os.listdir(folder)):
            for name, value in re.findall(r"^pub const (\w+): (?:u|i)\w+ = ([\d_]+);$", read(f"{folder}/{file}"), re.M):
                found[name] = int(value.replace("_", ""))
    return found


def table():
    """The limits, the choices, the forms, and the names of the values of each form."""
    limits = numbers()
    choices = constants(read(f"{FORMS}/choices.rt"), dict(limits))
    known = {**limits, **{f"choices::{name}": value for name, value in choices.items()}}
    forms = constants(read(f"{FORMS}/table.rt"), known)["FORMS"]
    return limits, choices, forms, constants(read(f"{FORMS}/names.rt"), {})["NAMES"]

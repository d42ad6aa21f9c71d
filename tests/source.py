"""What tests/contracts and tests/rounds read of a crate: its functions, and the wrong answers under its must-fail/."""
import os
import re
from collections import namedtuple

Function = namedtuple("Function", "name public head file body end")  # body and end: from where to where in its file
Wrong = namedtuple("Wrong", "name functions why edits")  # edits: (file, old text, new text)

HEAD = re.compile(r'^( *)(pub )?(?:pub\(crate\) )?(?:extern "C" )?fn (\w+)', re.M)
BLOCK = re.compile(r"^(?:impl(?:<[^>]*>)? (?:\w+::)*(\w+)(?:<(\w*)>)?(?: for (\w+))?|(?:pub(?:\(crate\))? )?trait )", re.M)


def text_of(path):
    with open(path, encoding="utf-8") as file:
        return file.read()


def owner(trait, argument, type_):
    """What the check calls an impl: `Walk`, or `MarkFromU8` where a trait is implemented for a type."""
    return type_[:1].upper() + type_[1:] + trait + argument[:1].upper() + argument[1:] if type_ else trait


def functions(crate):
    """Each function of a crate's src/, by its name within the crate, as `step` or `Walk::step` or `MarkFromU8::from`.

    A function that implements a trait of another crate for or from a public type is public, and its head begins with the
    impl's, where the trait's ghost members say what it promises."""
    found, texts = {}, {file: text_of(f"{crate}/src/{file}") for file in sorted(os.listdir(f"{crate}/src"))}
    types = {name for text in texts.values() for name in re.findall(r"^pub (?:struct|enum) (\w+)", text, re.M)}
    traits = {name for text in texts.values() for name in re.findall(r"\btrait (\w+)", text)}
    for file, text in texts.items():
        for head in HEAD.finditer(text):
            indent, public, begins = head.group(1), bool(head.group(2)), head.start()
            block = [b for b in BLOCK.finditer(text) if b.start() < head.start()][-1] if indent else None
            if block and not block[1]:  # a trait's function, which each impl gives a body
                continue
            if block and block[3] and block[1] not in traits and types & {block[2], block[3]}:
                public, begins = True, block.start()
            body = re.compile(rf"^(?:{indent}|.* ){{\n", re.M).search(text, head.start()).end()
            end = text.index(f"\n{indent}}}\n", body)
            name = (owner(block[1], block[2] or "", block[3]) + "::" if block else "") + head.group(3)
            found[name] = Function(name, public, text[begins:body], f"src/{file}", body, end)
    return found


def rounds(crate):
    """The rounds of a crate by their names, each with its wrong answers in their order."""
    folder = f"{crate}/must-fail"
    names = sorted(os.listdir(folder)) if os.path.isdir(folder) else []
    return {name.removesuffix(".edit"): read_round(f"{folder}/{name}") for name in names}


def read_round(path):
    found, file, old = [], None, None
    for line in text_of(path).split("\n"):
        word, _, rest = line.partition(": ")
        if word == "wrong":
            found.append(Wrong(rest, [], [], []))
        elif word == "in":
            found[-1].functions.extend(rest.split())
        elif word == "why":
            found[-1].why.append(rest)
        elif word == "file":
            file = rest
        elif word == "old":
            old = rest
        elif line.startswith("new:"):
            found[-1].edits.append((file, old, line.removeprefix("new:").removeprefix(" ")))
    return found

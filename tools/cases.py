#!/usr/bin/env -S python3 -B
"""Lays out the cases of cases/ and examples/ as files of a folder, which is made anew.

    tools/cases.py FOLDER

cases/README.md has the form of a file of cases. Of each case there is FOLDER/NAME.resil, its input, NAME.out, and NAME.how: its
status, its address space or -, and its words, one a line; NAME.told, its lines on standard error, if it has some; and a line
'NAME PLACE' of FOLDER/names. What isn't of that form ends it, with its place.
"""
import re
import shutil
import sys
from pathlib import Path

ROOT = Path(__file__).resolve().parent.parent
FILE = r"[a-z0-9_]+\.[a-z]+"
NO_MARK = rf"(?! [<>!] | \$\ resil(\ |$) | (space|status)\ [1-9]\d*$ | (input|output)\ {FILE}$ )"
# The first lines of a part, and a case: as far as they match they are of the form. Lines may have empty ones between them.
PART = re.compile(rf"(\#\ .*\n)? ( <<.*\n | {NO_MARK}.*\n )*", re.X | re.M)
CASE = re.compile(
    rf"""\#\#\ (?P<name>[a-z0-9_]+)\n+
    ( {NO_MARK}.+\n+ )*
    ( \$\ resil(?P<words>(\ .*)?)\n+
      ( space\ (?P<space>[1-9]\d*)\n+ )?
      ( input\ (?P<input_file>{FILE})\n+ | (?P<input>(<(?!<).*\n+)*) )
      ( ( output\ (?P<output_file>{FILE})\n+ | (?P<output>(>.*\n+)+) )
        (?P<told>(!.*\n+)*)
        ( status\ (?P<status>[1-9]\d*)\n+ )?
      )?
    )?""",
    re.X | re.M,
)
ORDER = "a case has a name, words, an address space where it needs one, an input, an output, standard error, a status, in this order"
TOKEN = re.compile(r"\\x[0-9a-f]{2}|\\\{[1-9][0-9]*:|\\.?|\}|[^\\}]+")
ESCAPES = {r"\\": "\\", r"\r": "\r", r"\t": "\t"}


class Refused(Exception):
    """What isn't of the form, and where it is in its block if that isn't all of it."""


def read(file):
    return file.read_bytes().decode("latin-1")


def expand(text, counter=None):
    """What a text stands for, with the number that \\# is, and whether the next line continues it."""
    repetitions = [(1, [])]  # how often each one that is open comes, and what it has so far
    for token in TOKEN.findall(text):
        parts = repetitions[-1][1]
        if re.match(r"\\\{\d", token):
            repetitions.append((int(token[2:-1]), []))
        elif token == "}" and len(repetitions) > 1:
            count, again = repetitions.pop()
            repetitions[-1][1].append("".join(again) * count)
        elif re.match(r"\\x.", token):
            parts.append(chr(int(token[2:], 16)))
        elif token == r"\#" and counter is not None:
            parts.append(str(counter))
        elif token == "\\" and len(repetitions) == 1:
            return "".join(parts), True
        elif token.startswith("\\") and token not in ESCAPES:
            raise Refused(f"there is no escape {token}; \\x has two digits, of 0 to 9 and a to f: {text}")
        else:
            parts.append(ESCAPES.get(token, token))
    if len(repetitions) > 1:
        raise Refused(f"a repetition without an end: {text}")
    return "".join(repetitions[0][1]), False


def expand_lines(text, mark):
    """What the lines with a mark stand for, each for one line, or for one with each number of a range."""
    made = []
    for line in re.findall(rf"^{mark}(.*)", text, re.M):
        found = re.fullmatch(r"(?:(\d+)\.\.(\d+))? (.+)|", line)
        if not found:
            raise Refused(f"there is no blank after the mark: {mark}{line}")
        first, last = int(found[1] or 0), int(found[2] or 0)
        for number in range(first, last + 1) if first <= last else range(first, last - 1, -1):
            shown, goes_on = expand(found[3] or "", number if found[1] else None)
            made.append(shown if goes_on else shown + "\n")
    return "".join(made)


def expand_words(text):
    if not re.fullmatch(r"( ('[^']*'|[^ ']+))*", text):
        raise Refused("words have one blank between them; one that is empty or has blanks is written in '..'")
    words = [expand(quoted or bare) for quoted, bare in re.findall(r" (?:'([^']*)'|([^ ']+))", text)]
    if any(goes_on for _, goes_on in words):
        raise Refused("a word without an end")
    return [word for word, _ in words]


def read_case(found, shared, folder):
    """The files of a case, by their endings. Its file lies in a folder, and its part has lines that its inputs share."""
    if found["words"] is None or not (found["output"] or found["output_file"]):
        raise Refused(f"the case has no {'words' if found['words'] is None else 'output'}")
    if found["input_file"] and shared:
        raise Refused("a file is the whole input, and this part has lines that its inputs share")
    how = [found["status"] or "0", found["space"] or "-", *expand_words(found["words"])]
    return {
        "resil": read(folder / found["input_file"]) if found["input_file"] else shared + expand_lines(found["input"], "<"),
        "out": read(folder / found["output_file"]) if found["output_file"] else expand_lines(found["output"], ">"),
        "told": expand_lines(found["told"], "!") or None,
        "how": "".join(line + "\n" for line in how),
    }


def read_cases(file):
    """The cases of a file: (name, place, files)."""
    place, number, shared = str(file.relative_to(ROOT)), 1, ""
    try:
        for block in re.split("^(?=##? )", read(file).removesuffix("\n") + "\n", flags=re.M):
            found, wrong = (CASE if block.startswith("## ") else PART).match(block), re.search("[^ -~\n]| $", block, re.M)
            if wrong:
                raise Refused("a byte that isn't printable, or a blank at the end, which is written \\x20", wrong.start())
            if not found:
                raise Refused("a name is of a to z, 0 to 9 and _")
            if found.end() < len(block):
                raise Refused(f"this is no part of a case, or not here: {ORDER}", found.end())
            if found.re is PART:
                shared = expand_lines(block, "<<")
            else:
                yield f"{file.parent.name}/{found['name']}", f"{place}:{number}", read_case(found, shared, file.parent)
            number += block.count("\n")
    except Refused as refused:
        what, at = (*refused.args, 0)[:2]
        sys.exit(f"{place}:{number + block.count(chr(10), 0, at)}: {what}")
    except OSError as error:
        sys.exit(f"{place}:{number}: {error}")


def read_example(file):
    """An input of examples/, beside which are its output, and its status, address space and words where it has them: as above."""
    defaults = {".status": "0", ".space": "-", ".args": file.parent.name}
    how = [read(file.with_suffix(end)) if file.with_suffix(end).exists() else default for end, default in defaults.items()]
    texts = {"resil": read(file), "out": read(file.with_suffix(".out")), "how": "".join(text.removesuffix("\n") + "\n" for text in how)}
    return f"{file.parent.name}/{file.stem}", str(file.relative_to(ROOT)), texts


def lay_out_cases(folder):
    """Lays out all cases in a folder. What isn't of the form ends the program."""
    shutil.rmtree(folder, ignore_errors=True)
    cases = [case for file in sorted(ROOT.glob("cases/*/*.cases")) for case in read_cases(file)]
    places = {}
    for name, place, texts in [*cases, *map(read_example, sorted(ROOT.glob("examples/*/*.resil")))]:
        if name in places:
            sys.exit(f"{place}: {name} is the name of the case at {places[name]} too")
        places[name] = place
        for ending, text in texts.items():
            file = folder / f"{name}.{ending}"
            file.parent.mkdir(parents=True, exist_ok=True)
            if text is not None:
                file.write_bytes(text.encode("latin-1"))
    (folder / "names").write_text("".join(sorted(f"{name} {place}\n" for name, place in places.items())))


if __name__ == "__main__":
    lay_out_cases(Path(sys.argv[1]))

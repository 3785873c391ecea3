#!/usr/bin/env python3
"""Reads the texts of the bench's `read` lines a second time, by docs/language.md alone, and compares the answers.

usage: python3 tools/read_again.py        at the top of the repository

It shares no code with the crates `scanner` and `reader`. Status 0 where each line of crates/cases/stdout agrees.
"""
import sys

LEAST, GREATEST = -8388608, 8388607
OPERATORS = (b"+", b"-", b"=", b"<", b">")
DEFINITIONS = (b"def", b"let", b"enum")
OPEN, CLOSE, NAME, NUMBER, FORM = "(", ")", "name", "number", "form"


class Refused(Exception):
    """A refusal: number, place and pass."""


def kind_of(byte):
    if byte in (9, 13, 32):
        return "blank"
    if byte == 10:
        return "line feed"
    if byte in (40, 41):
        return "parenthesis"
    if byte == 59:
        return "semicolon"
    return "word" if 0x21 <= byte <= 0x7E and byte != 0x22 else "foreign"


def is_number(word):
    digits = word[1:] if word[:1] == b"-" else word
    return len(digits) > 0 and all(48 <= c <= 57 for c in digits)


def tokens_of(text):
    """Pass 2: the tokens, each a kind, a place and its bytes."""
    tokens, faults, state, start = [], [], "between", 0

    def end_word(end):
        word = text[start:end]
        if len(word) > 16:
            faults.append((start, 3))
        elif is_number(word) and not LEAST <= int(word) <= GREATEST:
            faults.append((start, 4))
        tokens.append((NUMBER if is_number(word) else NAME, start, word))

    for i, byte in enumerate(text):
        kind = kind_of(byte)
        if state == "comment":
            if kind == "line feed":
                state = "between"
            elif kind == "foreign":
                faults.append((i, 2))
            continue
        if kind == "word":
            if state == "between":
                state, start = "word", i
            continue
        if state == "word":
            end_word(i)
            state = "between"
        if kind == "parenthesis":
            tokens.append((chr(byte), i, b""))
        elif kind == "semicolon":
            state = "comment"
        elif kind == "foreign":
            faults.append((i, 2))
    if state == "word":
        end_word(len(text))
    if faults:
        place, number = min(faults)
        raise Refused(number, place, 2)
    return tokens


def one_form(tokens, end):
    """Pass 3: one closed form, at most 32 parentheses open."""
    depth, closed = 0, False
    for kind, place, _ in tokens:
        if closed or (depth == 0 and kind != OPEN):
            raise Refused(5, place, 3)
        if kind == OPEN:
            if depth == 32:
                raise Refused(6, place, 3)
            depth += 1
        elif kind == CLOSE:
            depth -= 1
            closed = depth == 0
    if not closed:
        raise Refused(5, end, 3)


def tree_at(tokens, i):
    """The element at token i, and the token behind it."""
    kind, place, word = tokens[i]
    if kind != OPEN:
        return (kind, place, word), i + 1
    elements, i = [], i + 1
    while tokens[i][0] != CLOSE:
        element, i = tree_at(tokens, i)
        elements.append(element)
    return (FORM, place, elements), i + 1


def expressions(head, rest):
    """The expressions among the elements behind a head, or None where the form fits no shape."""
    count = len(rest)
    named = count > 0 and rest[0][0] == NAME
    if head in DEFINITIONS:
        return None
    if head == b"if":
        return rest if count == 3 else None
    if head == b"while" or head in OPERATORS:
        return rest if count == 2 else None
    if head in (b"set", b"vec"):
        return rest[1:] if count == 2 and named else None
    if head == b"setv":
        return rest[1:] if count == 3 and named else None
    if head == b"new":
        return rest if count == 1 else None
    if head == b"sys":
        return rest[1:] if count == 2 and rest[0][0] == NUMBER and 1 <= int(rest[0][2]) <= 3 else None
    return rest


def misfits(element):
    """The places of the forms that fit no shape; what stands inside of one has no further faults."""
    kind, place, elements = element
    if kind != FORM:
        return []
    if not elements or elements[0][0] != NAME:
        return [place]
    inner = expressions(elements[0][2], elements[1:])
    if inner is None:
        return [place]
    return [p for e in inner for p in misfits(e)]


def all_names(elements):
    return all(kind == NAME for kind, _, _ in elements)


def enumeration(place, rest):
    if len(rest) < 2 or rest[0][0] != NUMBER or not all_names(rest[1:]):
        raise Refused(7, place, 4)
    if int(rest[0][2]) + len(rest) - 2 > GREATEST:
        raise Refused(4, rest[0][1], 4)


def function(place, rest):
    if [e[0] for e in rest[:3]] != [NAME, FORM, FORM] or len(rest) != 4:
        raise Refused(7, place, 4)
    formals, local = rest[1][2], rest[2][2]
    places = misfits(rest[3])
    if not all_names(formals) or len(formals) > 15:
        places.append(rest[1][1])
    if not all_names(local) or len(formals) + len(local) > 64:
        places.append(rest[2][1])
    if places:
        raise Refused(7, min(places), 4)


def definition_of(text):
    """The kind of the definition that the text holds."""
    if len(text) > 8192:
        raise Refused(1, 0, 1)
    tokens = tokens_of(text)
    one_form(tokens, len(text))
    (_, place, elements), _ = tree_at(tokens, 0)
    head = elements[0][2] if elements and elements[0][0] == NAME else None
    if head == b"let" and len(elements) == 2 and elements[1][0] == NAME:
        return "let"
    if head == b"enum":
        enumeration(place, elements[1:])
        return "enum"
    if head == b"def":
        function(place, elements[1:])
        return "def"
    raise Refused(7, place, 4)


def answer(line):
    words = line.split(" ")
    if len(words) != 2 or words[1] == "":
        return "? " + line
    try:
        text = b"" if words[1] == "-" else bytes.fromhex(words[1])
    except ValueError:
        return "? " + line
    try:
        return "ok " + definition_of(text)
    except Refused as refusal:
        return "refused {} {} {}".format(*refusal.args)


def main():
    with open("crates/cases/stdin") as asked, open("crates/cases/stdout") as told:
        pairs = [(a, t) for a, t in zip(asked.read().split("\n"), told.read().split("\n")) if a.split(" ")[0] == "read"]
    wrong = [(a, t) for a, t in pairs if answer(a) != t]
    for asked, told in wrong:
        print(f"{asked[:100]}: the bench has {told}, the rules give {answer(asked)}")
    print(f"{len(pairs)} lines, {len(wrong)} differ")
    sys.exit(1 if wrong or not pairs else 0)


main()

"""Small edits of the code of a crate: where they can be made, and which. Called by tools/mutants."""

import os
import random
import re
from collections import Counter
from dataclasses import dataclass, replace

TOKEN = re.compile(
    r"(?P<comment>//[^\n]*)"
    r'|(?P<text>b?"(?:[^"\\]|\\.)*")'
    r"|(?P<sign>b?'(?:[^'\\\n]|\\[^\n]{1,10}?)')"
    r"|(?P<life>'\w+)"
    r"|(?P<number>\b\d[\w]*)"
    r"|(?P<name>\w+)"
    r"|(?P<mark>=>|->|::|\.\.=|\.\.|<<|>>|<=|>=|==|!=|&&|\|\||[-+*/%]=|\S)"
    r"|(?P<blank>\s+)",
    re.S,
)
CLAUSES = ("requires", "ensures", "decreases")
OPEN, CLOSE = "([{", ")]}"

# What stands in the place of a mark between two operands, or of a method.
OTHER_MARK = {
    "<": ["<=", ">"],
    "<=": ["<", ">="],
    ">": [">=", "<"],
    ">=": [">", "<="],
    "==": ["!="],
    "!=": ["=="],
    "+": ["-"],
    "-": ["+"],
    "*": ["+"],
    "/": ["*"],
    "%": ["/"],
    "+=": ["-="],
    "-=": ["+="],
    "^": ["|"],
    "&": ["|"],
    "|": ["&"],
    "<<": [">>"],
    ">>": ["<<"],
    "&&": ["||"],
    "||": ["&&"],
    "..=": [".."],
}
OTHER_NAME = {
    "true": "false",
    "false": "true",
    "min": "max",
    "max": "min",
    "saturating_add": "saturating_sub",
    "saturating_sub": "saturating_add",
    "first": "last",
    "last": "first",
    "is_none": "is_some",
    "is_some": "is_none",
}
# Calls that hand on what they are called on, or something near it: each can be left out.
STEPS = ("max", "min", "clamp", "saturating_add", "saturating_sub", "saturating_mul", "rev", "skip", "take")
NUMBERS = ("u8", "u32", "u64", "usize")
# Names for which no other value is put: what is given only to be used up, and words of the language.
KEPT = ("alloc", "f", "out", "let", "for", "if", "in", "mut", "ref", "move", "true", "false", "self", "match", "while", "return")


@dataclass(frozen=True)
class Token:
    kind: str
    text: str
    at: int

    @property
    def end(self):
        return self.at + len(self.text)


@dataclass(frozen=True)
class Edit:
    """In a file of src/, the text from `at` to `end` becomes `new`."""

    file: str
    line: int
    function: str
    is_public: bool
    at: int
    end: int
    old: str
    new: str
    around: str
    # which one it is of those that would be told in the same words
    which: int = 1
    is_stored = False

    def change(self):
        """Where it is and what it changes, on one line."""
        old, new = (" ".join(it.split()) for it in (self.old, self.new))
        which = f" (no. {self.which})" if self.which > 1 else ""
        return f"{self.function}: {short(old)} -> {short(new)} in: {self.around}{which}"

    def place(self):
        return f"{self.file} {self.function}"

    def name(self):
        """By this docs/PROMISES.md knows it; line numbers would not last."""
        return f"{self.file} {self.change()}"

    def told(self, crate):
        return f"crates/{crate}/src/{self.file}:{self.line}: {self.change()}"

    def has(self, word):
        return word in f"{self.file} {self.function} {self.old} {self.new}"

    def made(self, text):
        return text[: self.at] + self.new + text[self.end :]

    def texts(self, folder):
        """The file that it changes, by its path in the crate's folder, as it then reads."""
        with open(f"{folder}/src/{self.file}", encoding="utf-8") as it:
            return {f"src/{self.file}": self.made(it.read())}


def short(text):
    return (text if len(text) <= 60 else f"{text[:40]} .. {text[-15:]}") or "nothing"


@dataclass(frozen=True)
class Function:
    """Where a function stands, by the numbers of its lines, and what it calls."""

    file: str
    name: str
    is_public: bool
    first: int
    last: int
    calls: frozenset


@dataclass(frozen=True)
class Body:
    """The tokens of a function's body, or of a constant's value."""

    function: str
    is_public: bool
    tokens: list
    # where its attributes begin, or its signature where it has none; no constant has such a place
    start: object
    # the types of what it is given, by name
    given: dict
    # whether it is given its own value, and not lent it
    takes_self: bool = False


def closing(tokens, start):
    """The number of the token that closes what the token `start` opens."""
    depth = 0
    for number in range(start, len(tokens)):
        depth += (tokens[number].text in OPEN) - (tokens[number].text in CLOSE)
        if not depth:
            return number
    return len(tokens) - 1


class Source:
    """A file of src/: its text and its tokens with neither comments nor blanks."""

    def __init__(self, folder, file):
        self.file = file
        with open(f"{folder}/src/{file}", encoding="utf-8") as it:
            self.text = it.read()
        self.tokens = [
            Token(it.lastgroup, it.group(), it.start())
            for it in TOKEN.finditer(self.text)
            if it.lastgroup not in ("comment", "blank")
        ]

    def closing(self, start):
        return closing(self.tokens, start)

    def bodies(self):
        """The bodies of functions, and the values of constants."""
        number = 0
        while number < len(self.tokens):
            word = self.tokens[number].text
            if word == "fn" and self.tokens[number + 1].kind == "name":
                start = self.body_of(number)
                stop = self.closing(start) if self.tokens[start].text == "{" else start
                if stop > start:
                    tokens, given = self.tokens[start : stop + 1], self.given(number, start)
                    name, begins = self.tokens[number + 1].text, self.beginning(number)
                    yield Body(name, self.is_public(number), tokens, begins, given, self.takes_self(number))
                number = stop
            elif word == "const" and self.tokens[number + 1].text != "fn" and self.tokens[number + 2].text == ":":
                start = stop = next(it for it in range(number, len(self.tokens)) if self.tokens[it].text == "=")
                while self.tokens[stop].text != ";" or self.is_inside(start, stop):
                    stop += 1
                yield Body(self.tokens[number + 1].text, False, self.tokens[start + 1 : stop], None, {})
                number = stop
            number += 1

    def functions(self):
        for body in self.bodies():
            if body.start is not None:
                first, last = (self.text.count("\n", 0, it) + 1 for it in (body.start, body.tokens[-1].at))
                calls = frozenset(it.text for it in body.tokens if it.kind == "name")
                yield Function(self.file, body.function, body.is_public, first, last, calls)

    def takes_self(self, number):
        return "self" in [it.text for it in self.tokens[number + 3 : number + 5]] and self.tokens[number + 3].text != "&"

    def given(self, number, start):
        """The names of what a function is given, with their types."""
        opened = next(it for it in range(number, start) if self.tokens[it].text == "(")
        inside = self.text[self.tokens[opened].end : self.tokens[self.closing(opened)].at]
        return dict(re.findall(r"(\w+): ([^,]+)", inside))

    def beginning(self, number):
        """Where the function begins whose `fn` has the number: a refusal is told at its attributes, if it has any."""
        while number and self.tokens[number - 1].text not in ("{", "}", ";"):
            number -= 1
        return self.tokens[number].at

    def is_inside(self, start, stop):
        """Whether something is open between two tokens."""
        return sum((it.text in OPEN) - (it.text in CLOSE) for it in self.tokens[start:stop]) > 0

    def body_of(self, number):
        """The number of the brace that opens the body, or of the semicolon of a function of a trait that has none. Clauses
        have braces of their own, and types may have semicolons."""
        while self.tokens[number].text not in ("{", ";"):
            if self.tokens[number].text in CLAUSES:
                while self.tokens[number].text != "{":
                    number += 1
            if self.tokens[number].text in OPEN:
                number = self.closing(number)
            number += 1
        return number

    def is_public(self, number):
        """Whether `pub` stands before `fn`: not `pub(crate)`, and not in a trait, where nothing stands."""
        before = [it.text for it in self.tokens[max(0, number - 4) : number]]
        return "pub" in before and "crate" not in before


class Editor:
    """Collects the edits of a body."""

    def __init__(self, source, body, cases):
        self.source, self.body, self.cases = source, body, cases
        self.tokens = body.tokens
        self.patterns = self.in_patterns()
        self.locals = {it: body.given.get(it, "") for it in [*body.given, *self.bound()] if it not in KEPT}
        self.found = []

    def in_patterns(self):
        """The numbers of the tokens that are matched against: between `let` and `=`, `for` and `in`, and before `=>`."""
        found = set()
        for number, token in enumerate(self.tokens):
            if token.text in ("let", "for"):
                stop = number
                while stop < len(self.tokens) - 1 and self.tokens[stop].text not in ("=", "in", ";"):
                    stop = self.closing(stop) if self.tokens[stop].text in OPEN else stop
                    stop += 1
                found |= set(range(number, stop))
            elif token.text == "match":
                start = self.arms_of(number)
                begin = start + 1
                for first, last in self.answers(start):
                    guard = next((it for it in range(begin, first) if self.tokens[it].text == "if"), first)
                    found |= set(range(begin, guard))
                    begin = last + 1
        return found

    def bound(self):
        """The names that patterns bind."""
        for number in sorted(self.patterns):
            token, after = self.tokens[number], self.tokens[number + 1].text
            if token.kind == "name" and token.text[0].islower() and after not in (":", "::", "(", "{", "!", "."):
                yield token.text

    def arms_of(self, number):
        """The number of the brace that opens the arms of a match."""
        start = number + 1
        while self.tokens[start].text != "{":
            start = self.closing(start) if self.tokens[start].text in OPEN else start
            start += 1
        return start

    def add(self, at, end, new):
        text = self.source.text
        old = text[at:end]
        if old == new:
            return
        start = text.rfind("\n", 0, at) + 1
        around = text[start : text.find("\n", at)].strip()
        line = text.count("\n", 0, at) + 1
        self.found.append(Edit(self.source.file, line, self.body.function, self.body.is_public, at, end, old, new, around))

    def edits(self):
        for number, token in enumerate(self.tokens):
            self.of_token(number, token)
            if token.text in ("(", "[", "{"):
                self.of_list(number)
            if token.text in ("if", "while") and self.tokens[number + 1].text != "let":
                self.of_branch(number)
            if token.text == "match":
                self.of_match(number)
        self.of_statements()
        return self.found

    def of_token(self, number, token):
        before = self.tokens[number - 1] if number else None
        after = self.tokens[number + 1] if number + 1 < len(self.tokens) else None
        if token.kind == "number":
            self.of_number(token, before)
        elif token.kind == "text" and len(token.text) > 3:
            self.of_text(token)
        elif token.kind == "name":
            self.of_name(number, token, before, after)
        elif token.text in OTHER_MARK and self.is_between_operands(token):
            for other in OTHER_MARK[token.text]:
                self.add(token.at, token.end, other)
            if token.text in ("-", "/", "%", "<", "<="):
                self.swapped(number)
        elif token.text == "!" and before and before.kind != "name" and before.text not in CLOSE:
            self.add(token.at, token.end, "")

    def is_between_operands(self, token):
        text = self.source.text
        return token.text in ("..=", "..") or text[token.at - 1] == " " and text[token.end] in " \n"

    def of_number(self, token, before):
        digits = re.match(r"0x[\da-fA-F_]+|[\d_]+", token.text).group()
        rest = token.text[len(digits) :]
        if before and before.text == "." and not rest:
            return self.add(token.at, token.end, "1" if token.text == "0" else "0")
        value = int(digits.replace("_", ""), 0)
        for other in sorted({value + 1, max(value - 1, 0), 0} - {value}):
            self.add(token.at, token.end, f"{other}{rest}")

    def of_text(self, token):
        # the first letter of its words is left out, and the last
        for letters in [re.compile(r'(?<=")[A-Za-z]'), re.compile(r'[A-Za-z](?=")')]:
            found = letters.search(token.text)
            if found:
                self.add(token.at + found.start(), token.at + found.end(), "")

    def of_name(self, number, token, before, after):
        follows = before is not None and before.text == "."
        if token.text in OTHER_NAME and (follows or token.text in ("true", "false")):
            self.add(token.at, token.end, OTHER_NAME[token.text])
        if token.text == "Some" and after and after.text == "(" and not self.is_pattern(number):
            self.add(token.at, self.tokens[self.closing(number + 1)].end, "None")
        if token.text in ("Ok", "Err") and after and after.text == "(":
            self.of_outcome(number, token)
        if token.text == "MAX" and before.text == "::" and self.tokens[number - 2].text in NUMBERS:
            self.add(self.tokens[number - 2].at, token.end, "0")
        if token.text == "new" and before.text == "::" and self.body.takes_self:
            self.add(self.tokens[number - 2].at, self.tokens[self.closing(number + 1)].end, "self")
        if after and after.text == "(" and token.text != self.body.function:
            for other in self.cases.functions_like(token.text)[:2]:
                self.add(token.at, token.end, other)
            if token.text in self.cases.refusing and "Refusal" in self.source.text:
                start = number
                while self.tokens[start - 1].text == "." and self.tokens[start - 2].kind == "name":
                    start -= 2
                self.add(self.tokens[start].at, self.tokens[self.closing(number + 1)].end, "Err(Refusal::SpeedTooHigh)")
        if follows and token.text in STEPS and after and after.text == "(":
            self.add(before.at, self.tokens[self.closing(number + 1)].end, "")
        if before is not None and before.text in ("::", ".") and not (after and after.text == "("):
            owner = self.tokens[number - 2].text if before.text == "::" else ""
            for other in self.cases.others(owner, token.text)[:2]:
                self.add(token.at, token.end, other)
        elif self.is_operand(number, token, before, after):
            self.of_operand(token)

    def is_operand(self, number, token, before, after):
        """Whether it is a value that is used where it stands, and not a pattern, a type or a call."""
        if token.text not in self.locals or before is None or after is None or number in self.patterns:
            return False
        is_first = before.text in ("(", ",", "=", "==", "<", "<=", ">", ">=", "+", "-", "*", "/", "%", "+=", "-=", "{", ";", "=>", "return", "!", "&")
        return is_first and after.text in (")", ",", ";", "==", "<", "<=", ">", ">=", "+", "-", "*", "/", "%", "}", "{", "]")

    def of_operand(self, token):
        """One more than a number, one less, and 0; the other answer; nothing of a list; and another value of the function."""
        of = self.locals[token.text]
        if of in ("", *NUMBERS):
            self.add(token.at, token.end, f"{token.text}.saturating_add(1)")
        if of in NUMBERS:
            self.add(token.at, token.end, f"{token.text}.saturating_sub(1)")
            self.add(token.at, token.end, "0")
        if of == "bool":
            self.add(token.at, token.end, f"!{token.text}")
        if of.startswith("&["):
            self.add(token.at, token.end, "&[]")
        for other, other_of in self.locals.items():
            if other != token.text and (not of or not other_of or of == other_of):
                self.add(token.at, token.end, other)

    def of_outcome(self, number, token):
        """A refusal for a yes, and a yes for a refusal."""
        end = self.tokens[self.closing(number + 1)].end
        if token.text == "Err" and not self.is_pattern(number):
            self.add(token.at, end, "Ok(())")
        elif self.source.text[token.at : end] == "Ok(())" and "Refusal" in self.source.text:
            self.add(token.at, end, "Err(Refusal::SpeedTooHigh)")

    def is_pattern(self, number):
        """Whether it is matched against, and not made."""
        stop = self.closing(number + 1)
        after = self.tokens[stop + 1].text if stop + 1 < len(self.tokens) else ""
        return after in ("=>", "=", "|")

    def closing(self, start):
        return closing(self.tokens, start)

    def swapped(self, number):
        """The operands change places, where each is one word."""
        left, right = self.tokens[number - 1], self.tokens[number + 1]
        if left.kind in ("name", "number") and right.kind in ("name", "number"):
            start, stop = number - 1, number + 1
            while self.tokens[start - 1].text in (".", "::") and self.tokens[start - 2].kind == "name":
                start -= 2
            while stop + 2 < len(self.tokens) and self.tokens[stop + 1].text in (".", "::") and self.tokens[stop + 2].kind == "name":
                stop += 2
            if stop + 1 < len(self.tokens) and self.tokens[stop + 1].text in ("(", "["):
                return
            text = self.source.text
            first = text[self.tokens[start].at : left.end]
            second = text[right.at : self.tokens[stop].end]
            self.add(self.tokens[start].at, self.tokens[stop].end, f"{second} {self.tokens[number].text} {first}")

    def of_list(self, number):
        """Two neighbours in a list of arguments change places; in one of named values, two values."""
        stop = self.closing(number)
        parts = self.split(number + 1, stop, ",")
        if number and self.tokens[number].text == "{":
            self.of_named(number, parts)
            return
        for one, other in zip(parts, parts[1:]):
            self.exchange(one, other)

    def split(self, start, stop, by):
        """The stretches of tokens between commas."""
        parts, depth, begin = [], 0, start
        for number in range(start, stop):
            text = self.tokens[number].text
            depth += (text in OPEN) - (text in CLOSE)
            if text == by and not depth:
                parts.append((begin, number))
                begin = number + 1
        return [it for it in [*parts, (begin, stop)] if it[0] < it[1]]

    def of_named(self, number, parts):
        if self.tokens[number - 1].kind != "name" or not self.tokens[number - 1].text[0].isupper():
            return
        named = []
        for begin, end in parts:
            if end - begin == 1 and self.tokens[begin].kind == "name":
                named.append((self.tokens[begin].text, (begin, end)))
            elif end - begin > 2 and self.tokens[begin + 1].text == ":":
                named.append((self.tokens[begin].text, (begin + 2, end)))
            elif self.tokens[begin].text != "..":
                return
        after = self.closing(number) + 1
        if after < len(self.tokens) and self.tokens[after].text in ("=>", "=", "|"):
            return
        text = self.source.text
        for (one, first), (other, second) in zip(named, named[1:]):
            values = [text[self.tokens[it[0]].at : self.tokens[it[1] - 1].end] for it in (first, second)]
            if values[0] == values[1]:
                continue
            start = self.tokens[first[0] if first[1] - first[0] == 1 and self.tokens[first[0]].text == one else first[0] - 2].at
            self.add(start, self.tokens[second[1] - 1].end, f"{one}: {values[1]}, {other}: {values[0]}")

    def exchange(self, one, other):
        text = self.source.text
        first = text[self.tokens[one[0]].at : self.tokens[one[1] - 1].end]
        second = text[self.tokens[other[0]].at : self.tokens[other[1] - 1].end]
        between = text[self.tokens[one[1] - 1].end : self.tokens[other[0]].at]
        if first != second:
            self.add(self.tokens[one[0]].at, self.tokens[other[1] - 1].end, f"{second}{between}{first}")

    def of_branch(self, number):
        """A condition that always holds, and one that never does."""
        start = number + 1
        stop, depth = start, 0
        while self.tokens[stop].text not in ("{", "=>") or depth:
            depth += (self.tokens[stop].text in OPEN) - (self.tokens[stop].text in CLOSE)
            stop += 1
        at, end = self.tokens[start].at, self.tokens[stop - 1].end
        for value in ["false"] if self.tokens[number].text == "while" else ["true", "false"]:
            self.add(at, end, value)

    def of_match(self, number):
        """The answer of one arm is that of the next."""
        answers = self.answers(self.arms_of(number))
        text = self.source.text
        for one, other in zip(answers, answers[1:] + answers[:1]):
            first, second = (text[self.tokens[it[0]].at : self.tokens[it[1]].end] for it in (one, other))
            if first != second:
                self.add(self.tokens[one[0]].at, self.tokens[one[1]].end, second)

    def answers(self, start):
        """The first and the last token of each arm's answer."""
        stop, number, found = self.closing(start), start + 1, []
        while number < stop:
            text = self.tokens[number].text
            if text == "=>":
                last = number + 1
                while last < stop and self.tokens[last].text != ",":
                    opened = self.tokens[last].text in OPEN
                    is_block = self.tokens[last].text == "{" and last == number + 1
                    last = self.closing(last) if opened else last
                    last += 1
                    if is_block:
                        break
                found.append((number + 1, last - 1))
                number = last
            elif text in OPEN:
                number = self.closing(number)
            number += 1
        return found

    def of_statements(self):
        """A statement that hands nothing on is dropped."""
        begin, depth = None, 0
        for number, token in enumerate(self.tokens):
            before = self.tokens[number - 1].text if number else ""
            if before in ("{", "}", ";") and token.text not in (")", "]", ",", "}"):
                begin = number
            if token.text == ";" and begin is not None:
                words = [it.text for it in self.tokens[begin:number]]
                balanced = sum((it in OPEN) - (it in CLOSE) for it in words) == 0
                if balanced and words and words[0] not in ("let", "use", "const", "}", "else"):
                    self.add(self.tokens[begin].at, token.end, "")


class Cases:
    """The cases of enums, the fields of structs and the functions, by those of one form: each can stand for another."""

    def __init__(self, folders):
        self.alike, self.forms = [], {}
        # the functions that may answer a refusal
        self.refusing = set()
        for folder in folders:
            for file in sorted(os.listdir(f"{folder}/src")):
                if file.endswith(".rt"):
                    with open(f"{folder}/src/{file}", encoding="utf-8") as it:
                        self.read(it.read())

    def functions_like(self, name):
        """Functions that are given the same and hand back the same."""
        forms = {form for form, names in self.forms.items() if name in names}
        return [it for form in sorted(forms) for it in self.forms[form] if it != name]

    def read(self, text):
        text = re.sub(r"//[^\n]*", "", text)
        for name, given, back in re.findall(r"\bfn (\w+)\(([^)]*)\)([^{]*?)(?:\brequires\b|\bensures\b|\{)", text):
            types = [it.split(":")[-1].strip() for it in given.split(",") if it.strip()]
            if re.match(r"-> Result<.*\bRefusal>", " ".join(back.split())):
                self.refusing.add(name)
            names = self.forms.setdefault((*types, " ".join(back.split())), [])
            if name not in names:
                names.append(name)
        for kind, name, inside in re.findall(r"\b(enum|struct) (\w+)[^{;]*\{(.*?)\n\}", text, re.S):
            forms = {}
            if kind == "enum":
                for case, form in re.findall(r"\n    (\w+)(\s*\{[^}]*\}|\([^)]*\))?,", inside):
                    forms.setdefault(" ".join(form.split()), []).append(case)
            else:
                for field, form in re.findall(r"\n    (?:pub )?(\w+): ([^\n]*),", inside):
                    forms.setdefault(form, []).append(field)
            self.alike += [(name if kind == "enum" else "", it) for it in forms.values() if len(it) > 1]

    def others(self, owner, name):
        """What can stand for this case or field: those after it come first."""
        for of, names in self.alike:
            if of == owner and name in names:
                at = names.index(name)
                return names[at + 1 :] + names[:at]
        return []


def of_crate(folders):
    """All edits of the code of the first crate, in the order of its files; the others are those below it."""
    cases = Cases(folders)
    found = {}
    for file in sorted(os.listdir(f"{folders[0]}/src")):
        if file.endswith(".rt") and file != "tests.rt":
            source = Source(folders[0], file)
            for body in source.bodies():
                for edit in Editor(source, body, cases).edits():
                    found.setdefault((file, edit.made(source.text)), edit)
    seen = Counter()
    for key, edit in found.items():
        seen[edit.name()] += 1
        found[key] = replace(edit, which=seen[edit.name()])
    return list(found.values())


def public_functions(found):
    return {it.place() for it in found if it.is_public}


class Order:
    """The edits in the order in which they are tried: first those that are stored, then edits of each public function until one
    counts, then of all functions in turn."""

    def __init__(self, stored, found, seed):
        chance = random.Random(seed)
        self.stored = list(stored)
        self.left = {}
        for edit in found:
            self.left.setdefault(edit.place(), []).append(edit)
        for edits in self.left.values():
            chance.shuffle(edits)
        self.wanting = sorted(public_functions(found))
        self.turns = sorted(self.left)
        chance.shuffle(self.turns)
        self.running = set()

    def next(self):
        """The next edit, or none if none is left, or if a public function that still wants one has it under way."""
        if self.stored:
            return self.stored.pop(0)
        self.turns = [it for it in self.turns if self.left[it]]
        self.wanting = [it for it in self.wanting if self.left[it] or it in self.running]
        place = next((it for it in self.wanting if it not in self.running), None)
        if place is None and self.turns:
            place = self.turns.pop(0)
            self.turns.append(place)
        if place is None or not self.left[place]:
            return None
        self.running.add(place)
        return self.left[place].pop()

    def ended(self, edit, counts):
        self.running.discard(edit.place())
        if counts and edit.place() in self.wanting:
            self.wanting.remove(edit.place())

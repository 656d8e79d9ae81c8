#!/usr/bin/env python3
"""Finds further refusals of a source that is refused: guesses, each a line LINE:COL KIND.

    tools/refusals.py PROGRAM TEXT LINE COL KIND

PROGRAM is the analyser, which refuses TEXT at LINE and COL as KIND. The external declaration or the statement that is
refused is taken out: blanks of the same length and lines stand for it, and of a statement one `;`. The program is
asked again, and so on, at most 50 times. Everything that has a name which was declared in what was taken out, or which
was told to be undeclared or without a body, is taken out too, and where something is refused only because a part of it
was taken out, that is no guess. Where it is not sure which names are declared in what is refused, as in one that is no
declaration in form, its function is taken out, or the search ends. Nothing is found in a text whose brackets do not match.

The last line is `end N` where the program accepted what was left, or refused nothing that can be taken out, after N
times, and `more N` where 50 did not do."""
import bisect
import re
import subprocess
import sys

MOST = 50
TOKEN = re.compile(
    rb"(?P<skip>[ \t\v\f\r\n]+|/\*.*?(?:\*/|\Z)|//[^\n]*)"
    rb"|(?P<word>[A-Za-z_][A-Za-z_0-9]*)"
    rb"|(?P<number>\.?[0-9](?:[eEpP][+-]|[A-Za-z_0-9.])*)"
    rb"|(?P<literal>\"(?:\\.|[^\"\\\n])*\"|'(?:\\.|[^'\\\n])*')"
    rb"|(?P<sign>->|[^A-Za-z_0-9])", re.DOTALL)
DIRECTIVE = re.compile(rb"^[ \t\v\f\r]*#[^\n]*", re.MULTILINE)
OPERAND = re.compile(rb"\.?[A-Za-z_0-9].*|\]", re.DOTALL)
# Specifiers, and declarators: S for a word of a type, N for a name.
CLEAR = re.compile(r"(?:N?S+\{?|N)(?:N[(\[]*=?(?:,N[(\[]*=?)*)?;|S+\{?;")
CLOSING = {b"(": b")", b"[": b"]", b"{": b"}"}
NAME = re.compile(rb"[A-Za-z_]")
TYPE_WORDS = set(
    b"auto char const double enum extern float inline int long register restrict short signed static struct typedef union "
    b"unsigned void volatile _Bool _Complex _Imaginary __mutex __inline __inline__ __volatile__ __const __extension__ "
    b"__attribute__ _Alignas _Atomic _Thread_local _Noreturn _Static_assert __task typeof __typeof__".split())
OTHER_WORDS = set(
    b"break case continue default do else for goto if return sizeof switch while asm __asm __asm__ _Alignof "
    b"__input __lock __unlock __yield __islocked".split())
QUALIFIERS = set(
    b"auto const extern inline register restrict static typedef volatile __inline __inline__ __volatile__ __const "
    b"__extension__ _Noreturn _Thread_local".split())
STRUCTURES = (b"struct", b"union", b"enum")
ATTRIBUTES = (b"__attribute__", b"__attribute", b"_Alignas", b"__declspec")


class Cannot(Exception):
    """No part can be told here."""


class Part:
    """An external declaration or a statement: the tokens from `first` to before `end`. Those to before `head` stand
    before the first statement in it: all of them where there is none."""

    def __init__(self, first, kind):
        self.first = self.head = self.end = first
        self.kind = kind
        self.parts = []
        self.is_out = False

    def every(self):
        """The part and all in it, each before those in it."""
        yield self
        for part in self.parts:
            yield from part.every()


class Text:
    """A text, its tokens and its parts. `types` are its typedef names, `lost` the names of which nothing is known any
    more: in the whole text, or in a function."""

    def __init__(self, content):
        self.content = bytearray(content)
        masked = DIRECTIVE.sub(lambda found: b"\n" * len(found[0]), content)
        self.stays = [byte == 10 for byte in masked]
        self.words, self.begins, self.ends = [], [], []
        for found in TOKEN.finditer(masked):
            if found.lastgroup != "skip":
                self.words.append(found[0])
                self.begins.append(found.start())
                self.ends.append(found.end())
        self.closing, self.opening = {}, {}
        self.match()
        self.types, self.lost = set(), {None: set()}
        self.parts = []
        at = 0
        while at < len(self.words):
            self.parts.append(self.external(at))
            at = self.parts[-1].end

    def match(self):
        """Finds for each bracket the one that closes or opens it."""
        opened = []
        for at, word in enumerate(self.words):
            if word in CLOSING:
                opened.append(at)
            elif word in CLOSING.values():
                if not opened or CLOSING[self.words[opened[-1]]] != word:
                    raise Cannot
                self.opening[at] = opened[-1]
                self.closing[opened.pop()] = at
        if opened:
            raise Cannot

    def word(self, at):
        return self.words[at] if 0 <= at < len(self.words) else b""

    def behind(self, at):
        """The token behind the brackets that open here, or behind the token."""
        return self.closing.get(at, at) + 1

    # ----- The parts -----

    def external(self, first):
        """The external declaration that begins here."""
        part = Part(first, "external")
        at = first
        while at < len(self.words):
            word = self.words[at]
            if word == b"{" and self.is_body(first, at):
                part.kind, part.head = "function", at
                part.parts.append(self.statement(at))
                part.end = part.parts[0].end
                return part
            at = self.behind(at)
            if word == b";":
                break
        part.head = part.end = at
        if self.word(first) == b"typedef":
            self.types |= self.declared(part, self.types)
        return part

    def is_body(self, first, at):
        """Whether the brace opens the body of a function: it stands behind parameters, or attributes behind these."""
        before = at - 1
        if at == first:
            return True
        while self.word(before) == b")":
            if b"=" in self.words[first:at]:
                return False
            before = self.opening[before] - 1
            if self.word(before) not in ATTRIBUTES:
                return True
            before -= 1
        return False

    def statement(self, first):
        """The statement that begins here."""
        part = Part(first, "statement")
        word = self.word(first)
        if word == b"{":
            part.kind, part.head = "block", first + 1
            at = first + 1
            while at < self.closing[first]:
                part.parts.append(self.statement(at))
                at = part.parts[-1].end
            part.end = self.closing[first] + 1
        elif word in (b"if", b"while", b"for", b"switch"):
            if self.word(first + 1) != b"(":
                raise Cannot
            part.kind, part.head = "statement", self.behind(first + 1)
            part.parts.append(self.statement(part.head))
            if word == b"if" and self.word(part.parts[0].end) == b"else":
                part.parts.append(self.statement(part.parts[0].end + 1))
            part.end = part.parts[-1].end
        elif word == b"do":
            part.head = first + 1
            part.parts.append(self.statement(first + 1))
            at = part.parts[0].end
            if self.word(at) != b"while" or self.word(at + 1) != b"(" or self.word(self.behind(at + 1)) != b";":
                raise Cannot
            part.end = self.behind(at + 1) + 1
        elif word in (b"case", b"default"):
            part.head = self.behind_label(first)
            if self.word(part.head) != b"}":
                part.parts.append(self.statement(part.head))
            part.end = part.parts[0].end if part.parts else part.head
        else:
            part.head = part.end = self.behind_simple(first)
        return part

    def behind_label(self, at):
        """The token behind the label of a `switch`."""
        open_choices = 0
        while self.word(at) not in (b"", b";", b"{", b"}"):
            if self.word(at) == b":" and not open_choices:
                return at + 1
            open_choices += {b"?": 1, b":": -1}.get(self.word(at), 0)
            at = self.behind(at)
        raise Cannot

    def behind_simple(self, first):
        """The token behind a statement without further ones in it, or a declaration."""
        at = first
        while self.word(at) not in (b"", b")", b"]", b"}"):
            is_last = self.word(at) == b";" or self.word(at) == b"{" and self.is_body(first, at)
            at = self.behind(at)
            if is_last:
                return at
        raise Cannot

    # ----- The names -----

    def is_declaration(self, part):
        """Whether the part declares names, as far as its words tell: where they do not, it does."""
        word = self.word(part.first)
        if part.kind in ("external", "function") or word in TYPE_WORDS:
            return True
        if part.kind == "block" or part.parts or not NAME.match(word) or word in OTHER_WORDS:
            return False
        at = part.first + 1
        while self.word(at) in (b"*", b"const", b"volatile"):
            at += 1
        return NAME.match(self.word(at)) is not None

    def declared(self, part, types):
        """The names that a part declares for what stands behind it, or some more: neither parameters nor members, which
        nothing can name but by such a name."""
        names, braces = set(), []
        at, last = part.first, part.head
        while at < last and self.is_declaration(part):
            word, before, behind = self.word(at), self.word(at - 1), self.word(at + 1)
            if word == b"{":
                braces.append(b"enum" in self.words[max(part.first, at - 2):at])
            elif word == b"}" and braces:
                braces.pop()
            elif word == b"=":
                ends = (b",", b";", b"}")
                while at < last and self.word(at) not in ends:
                    at = self.behind(at)
                continue
            elif word == b"(" and behind not in (b"*", b"(") and self.closing[at] != at + 2:
                at = self.closing[at]
            elif NAME.match(word) and word not in TYPE_WORDS and word not in OTHER_WORDS:
                is_tag = before in STRUCTURES and behind in (b"{", b";")
                is_new = behind in (b",", b";", b"=", b"[", b"(", b")", b":", b"}", b"") or behind in ATTRIBUTES
                if is_tag or is_new and word not in types and (not braces or braces[-1]):
                    names.add(word)
            at += 1
        return names

    def is_clear(self, part):
        """Whether it is sure which names a part declares for what stands behind it."""
        if part.kind in ("external", "function") or self.is_declaration(part):
            return self.is_clear_declaration(part)
        word = self.word(part.first)
        if part.kind == "block" or part.parts or word in OTHER_WORDS:
            return word != b"goto" or part.end == part.first + 3
        if not (NAME.match(word) or word in (b"*", b"(", b"++", b"--", b";", b"+", b"-")):
            return False
        inner = range(part.first + 1, part.end)
        return not any(NAME.match(self.words[at]) and OPERAND.fullmatch(self.words[at - 1]) or
                       self.words[at] in TYPE_WORDS and self.words[at - 1] == b")" for at in inner)

    def is_clear_declaration(self, part):
        """Whether a declaration has the form of one: specifiers, and declarators with commas between them."""
        kinds, at = "", part.first
        while at < part.head:
            word = self.word(at)
            if word == b"enum" and not self.is_clear_enumeration(at, part.head):
                return False
            if word in STRUCTURES:
                kinds += "S"
                while self.word(at + 1) in ATTRIBUTES:
                    at = self.closing.get(at + 2, at + 1)
                at += NAME.match(self.word(at + 1)) is not None
            elif word == b"__task" or word in ATTRIBUTES:
                at = self.closing.get(at + 1, at)
            elif word in TYPE_WORDS:
                kinds += "" if word in QUALIFIERS else "S"
            elif word == b"=":
                while at + 1 < part.head and self.word(at + 1) not in (b",", b";"):
                    at = self.behind(at + 1) - 1
                kinds += "="
            elif word in OTHER_WORDS or not (NAME.match(word) or word in (b"*", b",", b";", b"(", b"[", b"{")):
                return False
            elif word == b"(" and self.word(at + 1) == b"*":
                kinds += "N"
            else:
                kinds += {b"(": "(", b"[": "[", b"{": "{", b",": ",", b";": ";", b"*": ""}.get(word, "N")
            at = self.behind(at)
        kinds += ";" if part.kind == "function" else ""
        return CLEAR.fullmatch(kinds) is not None

    def is_clear_enumeration(self, at, last):
        """Whether an enumeration has the form of one: constants, each with a value or none."""
        while at < last and self.word(at) not in (b"{", b";", b",", b"("):
            at += 1
        if self.word(at) != b"{":
            return True
        text = b" ".join(self.words[at + 1:self.closing[at]])
        return re.fullmatch(rb"(?:[A-Za-z_]\w*(?: =[^,;=]+)?(?: ,|$) ?)+", text) is not None

    def own(self, part):
        """The words of a part that are in no part of it."""
        at = part.first
        for inner in part.parts:
            yield from self.words[at:inner.first]
            at = inner.end
        yield from self.words[at:part.end]

    def lose(self, names, outer):
        """Knows nothing of names any more, in the whole text or in a function."""
        self.lost.setdefault(outer, set()).update(names)

    # ----- What is taken out -----

    def take_out(self, part, outer):
        """Takes a part out, in an external declaration or as one, and loses the names that it declares."""
        begin, end = self.begins[part.first], self.ends[part.end - 1]
        for at in range(begin, end):
            if not self.stays[at]:
                self.content[at] = 32
        if part is not outer:
            self.content[begin] = 59
        part.is_out = True
        known = self.types if self.word(part.first) != b"typedef" else set()
        self.lose(self.declared(part, known), None if part is outer else outer)

    def take_lost(self):
        """Takes out what has a name of which nothing is known any more."""
        before = None
        while before != sum(map(len, self.lost.values())):
            before = sum(map(len, self.lost.values()))
            for outer in self.parts:
                self.take_lost_of(outer, outer)

    def take_lost_of(self, part, outer):
        if part.is_out:
            return
        lost = self.lost[None] | self.lost.get(outer, set())
        if not lost.isdisjoint(self.own(part)):
            self.take_out(part, outer)
        for inner in part.parts:
            self.take_lost_of(inner, outer)

    def find(self, line, column):
        """The token at a place, or the first one behind it."""
        begin = 0
        for _ in range(line - 1):
            begin = self.content.find(b"\n", begin) + 1
        at = bisect.bisect_right(self.ends, begin + column - 1)
        if at == len(self.ends):
            raise Cannot
        return at

    def refused_part(self, token):
        """The innermost part of a token that can be taken out, the external declaration in which it stands, and whether
        it may be refused for what was taken out of it."""
        outer = next(it for it in self.parts if it.first <= token < it.end)
        if outer.is_out:
            raise Cannot
        found, inner, is_touched = outer, outer, False
        while inner is not None and not is_touched:
            if inner.is_out:
                is_touched = True
            elif inner is outer or inner is not outer.parts[0]:
                found = inner
            inner = next((it for it in inner.parts if it.first <= token < it.end), None)
        if token >= found.head and any(it.is_out for it in found.every()):
            is_touched = True
        return found, outer, is_touched


def refused(program, content):
    """The place at which the program refuses a text, and the kind; nothing where it does not, or at no place. It is asked
    for a run, for which no choices stand in the text: so it looks whether it is refused, and no further."""
    told = subprocess.run([program, "replay"], input=bytes(content), stdout=subprocess.PIPE, check=False).stdout
    found = re.fullmatch(rb"([0-9]+):([0-9]+) refused ([A-Za-z]+)\n", told)
    return found and (int(found[1]), int(found[2]), found[3].decode())


def guesses(program, text, place):
    """The further refusals behind the one at this place, and then how often the program was asked."""
    asked = 0
    while place:
        line, column, kind = place
        try:
            token = text.find(line, column)
            part, outer, is_touched = text.refused_part(token)
        except Cannot:
            break
        if asked and not is_touched:
            yield f"{line}:{column} {kind}"
        if asked == MOST:
            yield f"more {asked}"
            return
        if not text.is_clear(part):
            # (what it declares is not known: nothing is told of what stands behind it in its function, or at all)
            part = outer
            if not text.is_clear(outer):
                break
        text.take_out(part, outer)
        if kind in ("Undeclared", "NoBody"):
            text.lose({text.words[token]}, outer if kind == "Undeclared" else None)
        text.take_lost()
        place = refused(program, text.content)
        asked += 1
    yield f"end {asked}"


def main():
    program, path, line, column, kind = sys.argv[1:]
    with open(path, "rb") as source:
        # (of what stands behind such a line the program would make a run)
        content = re.sub(rb"^#replay$", b"#      ", source.read(), flags=re.MULTILINE)
    try:
        text = Text(content)
    except (Cannot, RecursionError):
        print("end 0")
        return
    for told in guesses(program, text, (int(line), int(column), kind)):
        print(told)


if __name__ == "__main__":
    main()

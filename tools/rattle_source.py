"""Reads what the crates of a repository declare: functions, their clauses and calls, and which of them are public.

It reads names, not types: a call `x.has(..)` is one of each method `has` of the crate. That is enough to say which
public functions may reach another one.
"""

from __future__ import annotations

import re
from dataclasses import dataclass, field, replace
from functools import lru_cache
from pathlib import Path
from typing import Dict, Iterator, Tuple

# What hides braces and names: comments, strings and characters. A lifetime is none of them.
HIDDEN = re.compile(
    r"//[^\n]*|/\*.*?\*/|b?r(#*)\".*?\"\1|b?\"(?:[^\"\\]|\\.)*\"|b?'(?:[^'\\\n]|\\[^\n][^'\n]*)'",
    re.S,
)
ITEM = re.compile(r"\b(?P<word>fn|impl|trait|mod|use)\b|(?P<open>[{(\[])|(?P<end>[;}])")
HEAD = re.compile(
    r"\b(?P<word>requires|ensures)\b\s*\*?\s*(?P<name>\w+)?\s*\{|(?P<body>\{)|(?P<open>[(\[])|(?P<end>;)"
)
CALL = re.compile(r"(?P<lead>\.|::)?\s*\b(?P<name>[a-z_]\w*)\s*(?:::\s*<[^<>()]*>)?\s*\(")
PASSED = re.compile(r"(?<=[(,])\s*(?P<name>[a-z_]\w*)\s*(?=[),])")
PARAMETER = re.compile(r"\b(?P<name>\w+)\s*:\s*&?\s*(?:'\w+\s+)?(?:mut\s+)?(?P<type>[A-Z]\w+)")
RECEIVER = re.compile(r"(?<![\w.)\]?])(\w+)\s*$")
CLOSING = {"{": "}", "(": ")", "[": "]"}


@dataclass(frozen=True)
class Clause:
    """A clause of a contract: its word, its name or "", and the offsets between which it stands."""

    word: str
    name: str
    start: int
    end: int


@dataclass(frozen=True)
class Function:
    """A function of a crate, with the file in which it stands, as `src/walks.rt`, and its offsets there."""

    name: str
    owner: str  # the type or the trait whose method it is, or ""
    trait: str  # the trait that the method is written for, or ""
    file: str
    start: int
    end: int
    head: str  # its parameters and clauses; as the body, without comments and strings
    body: str
    clauses: tuple[Clause, ...]
    has_pub: bool
    is_test: bool

    @property
    def title(self) -> str:
        """Its name as a reader calls it."""
        return f"{self.owner}::{self.name}" if self.owner else self.name

    @property
    def types(self) -> dict[str, str]:
        """The types of its parameters that have names of their own; one letter is a type parameter, and left out."""
        named = {it["name"]: it["type"] for it in PARAMETER.finditer(self.head)}
        return {**named, "self": self.owner}

    @property
    def is_law(self) -> bool:
        """Whether it does nothing, so that its contract alone counts."""
        return not self.body.strip("{} \n")

    @property
    def is_getter(self) -> bool:
        """Whether it only hands out a field."""
        return bool(
            re.fullmatch(
                r"\{\s*&?(mut )?self(\.\w+)+(\.as_slice\(\)|\.as_str\(\))?\s*\}", self.body
            )
        )


# the clauses of methods, by the trait's name and theirs
Promised = Dict[Tuple[str, str], Tuple[Clause, ...]]


@lru_cache(maxsize=None)
def blanked(text: str) -> str:
    """The text of the same length with spaces in the place of comments, strings and characters."""
    return HIDDEN.sub(lambda it: re.sub(r"[^\n]", " ", it[0]), text)


def closed(text: str, at: int) -> int:
    """The offset behind the bracket that closes the one at `at`."""
    stack = [CLOSING[text[at]]]
    while stack:
        at += 1
        if text[at] in CLOSING:
            stack.append(CLOSING[text[at]])
        elif text[at] == stack[-1]:
            stack.pop()
    return at + 1


def declared_functions(text: str, file: str) -> Iterator[Function]:
    """All functions of a file's text but those inside other functions."""
    plain = blanked(text)
    yield from _items(plain, 0, len(plain), file, "", "", False)


def _items(
    text: str, at: int, end: int, file: str, owner: str, trait: str, is_open: bool
) -> Iterator[Function]:
    """The functions between two offsets; `is_open` says that the trait around them makes them public."""
    since = at
    while at < end and (found := ITEM.search(text, at, end)):
        at = found.end()
        if found["word"] == "fn":
            made = _function(text, since, at, file, owner, trait, is_open)
            if made is None:  # a type, as `fn(u32)`
                continue
            yield made
            at = made.end
        elif found["word"] in ("impl", "trait", "mod"):
            opened = min(it for it in (text.find("{", at), text.find(";", at), end) if it >= 0)
            if opened < end and text[opened] == "{":
                behind = closed(text, opened)
                if found["word"] == "mod":
                    inner = ("", "", False)
                elif found["word"] == "trait":
                    name = re.match(r"\s*(\w+)", text[at:opened])
                    inner = (name[1] if name else "", "", "pub" in text[since:at].split())
                else:
                    inner = (*_target(text[at:opened]), False)
                yield from _items(text, opened + 1, behind - 1, file, *inner)
                at = behind
        elif found["word"] == "use":
            at = text.find(";", at) + 1
        elif found["open"]:
            at = closed(text, found.start())
            if found["open"] != "{":
                continue  # an attribute or a part of a type: the item goes on
        since = at


def _target(head: str) -> tuple[str, str]:
    """The type and the trait of an impl's head, as `<R: Files> Shelf for DiskShelf<R> `."""
    head = head.strip()
    if head.startswith("<"):
        depth = 0
        for at, sign in enumerate(head):
            depth += (sign == "<") - (sign == ">")
            if depth == 0:
                behind = at + 1
                head = head[behind:].strip()
                break
    trait, has_trait, owner = head.rpartition(" for ")
    name = re.match(r"[\w:]*?(\w+)\s*(?:<|$)", owner.strip())
    of = re.match(r"[\w:]*?(\w+)\s*(?:<|$)", trait.strip()) if has_trait else None
    return (name[1] if name else owner.strip()), (of[1] if of else "")


def _function(
    text: str, since: int, at: int, file: str, owner: str, trait: str, is_open: bool
) -> Function | None:
    """The function whose keyword `fn` ends at `at`, and whose attributes may begin at `since`."""
    name = re.compile(r"\s*(\w+)").match(text, at)
    if name is None:
        return None
    before, begins, clauses = text[since:at], name.end(), []
    at = begins
    while found := HEAD.search(text, at):
        if found["word"]:
            at = closed(text, found.end() - 1)
            clauses.append(Clause(found["word"], found["name"] or "", found.start(), at))
        elif found["open"]:
            at = closed(text, found.start())
        else:
            break
    if found is None:
        return None
    opened = found.start()
    end = closed(text, opened) if found["body"] else found.end()
    return Function(
        name=name[1],
        owner=owner,
        trait=trait,
        file=file,
        start=since + len(before) - len(before.lstrip()),
        end=end,
        head=text[begins:opened],
        body=text[opened:end],
        clauses=tuple(clauses),
        has_pub=is_open or bool(re.search(r"\bpub(?!\s*\()", before)),
        is_test=bool(re.search(r"#\s*\[\s*test\s*\]", before)),
    )


@dataclass
class Crate:
    """A crate: the texts of its sources by their path below its folder, and what they declare."""

    name: str
    texts: dict[str, str]
    functions: list[Function] = field(default_factory=list)
    # a module of it, and a name that it makes public, or "*"
    exports: set[tuple[str, str]] = field(default_factory=set)
    test_files: set[str] = field(default_factory=set)
    # what each function may call, in this crate and in others, by their names
    calls: dict[Function, set[Function]] = field(default_factory=dict)
    calls_out: dict[str, dict[Function, set[Function]]] = field(default_factory=dict)

    @classmethod
    def read(cls, folder: Path) -> Crate:
        """Reads the crate in a folder. It has src/lib.rt, or src/main.rt and nothing public."""
        texts = {
            f"src/{it.name}": it.read_text(encoding="utf-8")
            for it in sorted(folder.glob("src/*.rt"))
        }
        made = cls(folder.name, texts)
        for file, text in texts.items():
            made.functions += declared_functions(text, file)
        made._read_exports("lib", set())
        root = texts.get("src/lib.rt", texts.get("src/main.rt", ""))
        made.test_files = {
            f"src/{it}.rt" for it in re.findall(r"#\[cfg\(test\)\]\s*mod (\w+);", root)
        }
        made.inherit({})
        return made

    def _read_exports(self, module: str, known: set[str]) -> None:
        """Adds what a module makes public, and what its public modules do."""
        text = blanked(self.texts.get(f"src/{module}.rt", ""))
        known.add(module)
        for path in re.findall(r"\bpub use ([^;]+);", text):
            head, _, names = path.rpartition("::") if "{" not in path else path.partition("::{")
            of = head.replace("crate::", "").replace("self::", "").strip()
            for name in re.findall(r"\w+(?!\w*\s+as\b)|\*", re.sub(r"\w+\s+as\s+", "", names)):
                self.exports.add((of, name))
        for inner in re.findall(r"\bpub mod (\w+);", text):
            self.exports.add((inner, "*"))
            if inner not in known:
                self._read_exports(inner, known)

    def inherit(self, promised: Promised) -> None:
        """Gives each method of a trait that has no clauses of its own those of the trait."""
        self.functions = [
            it
            if it.clauses or not it.trait
            else replace(it, clauses=promised.get((it.trait, it.name), ()))
            for it in self.functions
        ]
        self.calls = {it: self._called(it, self) for it in self.functions}

    def promised(self) -> Promised:
        """The clauses of each method of the traits that the crate declares."""
        traits = {
            it for text in self.texts.values() for it in re.findall(r"\btrait (\w+)", blanked(text))
        }
        return {(it.owner, it.name): it.clauses for it in self.functions if it.owner in traits}

    def public_functions(self, traits: set[str]) -> list[Function]:
        """What the crates above can call: functions, methods of public types, and methods of these traits."""
        names = {name for _, name in self.exports}
        open_modules = {module for module, name in self.exports if name == "*"}
        found = []
        for it in self.functions:
            module = Path(it.file).stem
            if it.file in self.test_files or it.is_test or not it.body.startswith("{"):
                continue
            if it.owner:
                is_public = (it.owner in names or module in open_modules) and (
                    it.trait in traits if it.trait else it.has_pub
                )
            else:
                is_public = it.has_pub and (
                    module in open_modules or (module, it.name) in self.exports
                )
            if is_public:
                found.append(it)
        return found

    def calls_into(self, other: Crate) -> dict[Function, set[Function]]:
        """The functions of another crate that each function of this one may call."""
        if other.name not in self.calls_out:
            named = {file for file, text in self.texts.items() if other.name in blanked(text)}
            self.calls_out[other.name] = {
                it: self._called(it, other) for it in self.functions if it.file in named
            }
        return self.calls_out[other.name]

    def _called(self, by: Function, of_crate: Crate) -> set[Function]:
        """The functions of a crate, this one or another, that a function of this one may call, by their names."""
        own = {it.owner for it in of_crate.functions if it.owner}
        types = by.types
        found: set[Function] = set()
        for call in CALL.finditer(by.body):
            before = by.body[: call.start()]
            named = [it for it in of_crate.functions if it.name == call["name"]]
            if call["lead"] == ".":
                receiver = RECEIVER.search(before)
                of = types.get(receiver[1], "") if receiver else ""
                found |= {it for it in named if it.owner and of in ("", it.owner)}
                continue
            path = re.search(r"(\w+)\s*(?:<[^<>]*>\s*)?$", before) if call["lead"] else None
            of = path[1] if path else ""
            of = by.owner if of == "Self" else of
            if of in own:
                found |= {it for it in named if it.owner == of}
            elif not of[:1].isupper():
                found |= {
                    it for it in named if not it.owner and self._is_seen(it, by.file, of, of_crate)
                }
        for passed in PASSED.finditer(by.body):
            found |= {
                it
                for it in of_crate.functions
                if it.name == passed["name"]
                and not it.owner
                and self._is_named(it, by.file, of_crate)
            }
        return found - {by}

    def handed_on(self, by: Function) -> set[Function]:
        """The methods that a type named by a function has for a trait: whoever is given its value may call them."""
        words = set(re.findall(r"\b[A-Z]\w*", by.body))
        return {it for it in self.functions if it.trait and it.owner in words}

    def _is_named(self, it: Function, file: str, of_crate: Crate) -> bool:
        """Whether the name of a free function of a crate is brought into a file of this one, or stands there."""
        if of_crate is self and it.file == file:
            return True
        path = "" if of_crate is self else rf"\s+{of_crate.name}::"
        return bool(re.search(rf"\buse\b{path}[^;]*\b{it.name}\b[^;]*;", blanked(self.texts[file])))

    def _is_seen(self, it: Function, file: str, module: str, of_crate: Crate) -> bool:
        """Whether a call in a file may mean a free function: it is brought in there, or named with its module."""
        root = "crate" if of_crate is self else of_crate.name
        if module and module != root:
            return module == Path(it.file).stem
        return self._is_named(it, file, of_crate) or module == root

"""What mir.json does not have, from the text of the source: names, comments, what is inlined, what callers must ensure.

A wrong name or comment is never a wrong value. What cannot be placed stops the printer.
"""
from __future__ import annotations

import pathlib
import re
from dataclasses import dataclass, field
from itertools import accumulate

HEAD = re.compile(r"^( *)(?:[\w()\" ]+ )?fn (\w+)")
IMPL = re.compile(r"^(?:impl(?:<[^>]*>)?|pub trait) (?:(\w+)(?:<.*>)? for )?(\w+)")
BINDING = re.compile(
    r"\blet (?:mut )?(?P<let>(?:\w+)?(?:[(\[].*?[)\]])?)(?:: [^=;]+)? = "
    r"|\bfor (?P<each>\w+) in (?P<over>[^\n]*?) \{"
    r"|(?P<arms>[\w:]+\((?:\w+|\(\))\)) =>"
    r"|(?P<try>\?)(?=[;.)])", re.M)
CALL = re.compile(r"\b([a-z]\w*)(?:::<[^>]*>)?\(")
STATEMENT_END = re.compile(r"[;{]\n|\n\n|\Z")
SIGNATURE = re.compile(r"\bfn \w+(?:<.*?>)?\((.*?)\)[ ;]")
MEMBER = re.compile(r"^ +(?:pub(?:\(\w+\))? )?(\w+):", re.M)


@dataclass
class Comment:
    text: str
    binding: int | None  # the index of the name that its statement binds first,
    calls: list[tuple[str, int]]  # or the names of what it calls, each with how many calls of it are before


@dataclass
class Source:
    parameters: list[str] = field(default_factory=list)
    bound: list[str | None] = field(default_factory=list)  # in the order of the locals; None for one without a name
    about: list[str] = field(default_factory=list)  # paragraphs
    comments: list[Comment] = field(default_factory=list)
    inline: str = ""
    requires: str = ""


def paragraphs(lines: list[str]) -> list[str]:
    """Those of a comment before its first title."""
    text = "\n".join(re.sub(r"^\s*//[/!]? ?", "", line).strip() for line in lines)
    plain = re.sub(r"\[(`[^`]*`)\](?:\([^)]*\))?", r"\1", re.split(r"(?m)^# ", text)[0])
    return [" ".join(own.split("\n")).strip() for own in re.split(r"\n\n+", plain) if own.strip()]


def bindings(text: str) -> list[tuple[int, list[str | None]]]:
    """The place of each pattern, and the names that it binds, None for a local without a name."""
    out: list[tuple[int, list[str | None]]] = []
    for match in BINDING.finditer(text):
        names: list[str | None] = re.findall(r"\b(?!mut\b)[a-z]\w*(?!\w|::|\()", match["let"] or match["arms"] or "")
        if match["each"]:
            names = [None] * (".." not in match["over"]) + [match["each"]]
        out.append((match.start(), [None, None] if match["try"] else names))
    return out


def read_body(own: Source, body: list[str]) -> None:
    code = "\n".join(re.sub(r"//.*", lambda found: " " * len(found[0]), line) for line in body)
    bound = bindings(code)
    starts = list(accumulate((len(line) + 1 for line in body), initial=0))
    is_comment = [line.lstrip().startswith("//") for line in body] + [False]
    for first in (at for at in range(len(body)) if is_comment[at] and not is_comment[at - 1]):
        last = is_comment.index(False, first)
        begin, end = starts[last], STATEMENT_END.search(code, starts[last]).end()
        names = [(begin <= where < end, name) for where, each in bound for name in each]
        binding = next((i for i, (is_here, name) in enumerate(names) if is_here and name), None)
        calls = CALL.findall(code[begin:end]) if binding is None else []
        before = CALL.findall(code[:begin])
        own.comments.append(Comment(" ".join(paragraphs(body[first:last])), binding,
                                    [(name, before.count(name)) for name in dict.fromkeys(calls)]))
    own.bound += [name for _, names in bound for name in names]


def read_function(lines: list[str], at: int, start: int, end: int) -> Source:
    """The one whose head begins at a line, and its body at another."""
    own, above = Source(), at - 1
    while lines[above].strip().startswith(("//", "#[")):
        above -= 1
    head, signature = lines[above + 1:at], "\n".join(lines[at:start + 1])
    own.about = paragraphs([line for line in head if line.strip().startswith("//")])
    own.inline = "".join(re.findall(r"#\[inline\((\w+)\)\]", "\n".join(head)))
    own.requires = "\n".join(re.findall(r"requires \w* ?(\{.*?\})$", signature, re.M))
    inside = SIGNATURE.search(re.sub(r"\n\s*", " ", signature).replace("( ", "(").replace(", )", ")"))
    for each in re.split(r", (?![^\[(<]*[\])>])", inside[1]) if inside and inside[1] else []:
        own.parameters.append(each.split(":")[0].replace("mut ", "").replace("&", "").strip())
    read_body(own, lines[start + 1:end])
    return own


class Sources:
    """The functions of crates by their paths in mir.json."""

    def __init__(self, crates: pathlib.Path, names: list[str]):
        self.functions: dict[str, Source] = {}
        self.members: dict[str, list[str]] = {}
        self.constants: dict[str, int] = {}
        for name in names:
            root = crates / name / "src"
            for file in sorted(root.rglob("*.rt")):
                path = [name, *file.relative_to(root).with_suffix("").parts]
                if "tests" not in path:
                    self.read("::".join(path[:-1] if path[-1] == "lib" else path), file.read_text())

    def read(self, module: str, text: str) -> None:
        for name, fields in re.findall(r"\bstruct (\w+) \{\n(.*?)\n\}", text, re.S):
            self.members[f"{module}::{name}"] = MEMBER.findall(fields)
        self.constants |= {name: int(value, 16) for name, value in re.findall(r"\bconst (\w+): u(?:32|64) = (0x[\w]+);", text)}
        for name, values in re.findall(r"\bconst (\w+): \[u32; \d+\] = \[(.*?)\];", text, re.S):
            self.constants |= {f"{name}{i}": int(value, 16) for i, value in enumerate(re.findall(r"0x\w+", values))}
        lines, owner, at = text.split("\n"), "", 0
        while at < len(lines):
            impl, head, start = IMPL.match(lines[at]), HEAD.match(lines[at]), at
            if impl or lines[at] == "}":
                owner = f"{impl[2]}{impl[1] or ''}::" if impl else ""
            if head:
                while lines[start] != head[1] + "{" and not lines[start].endswith((" {", ";", "{}")):
                    start += 1
                end = lines.index(head[1] + "}", start) if lines[start].endswith("{") else start
                self.functions[f"{module}::{owner}{head[2]}"] = read_function(lines, at, start, end)
                at = end
            at += 1

    def of(self, path: str) -> Source:
        """A method may stand in another file than its type."""
        crate, (owner, name) = path.split("::")[0], path.split("::")[-2:]
        if path not in self.functions:
            found = [own for other, own in self.functions.items()
                     if other.startswith(crate) and other.endswith(f"::{owner}::{name}")]
            return found[0] if len(found) == 1 else Source()
        return self.functions[path]

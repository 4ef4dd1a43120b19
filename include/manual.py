#!/usr/bin/env python3
"""Writes the manual pages of section 3 from the header's comments: one for each function, and
libstar.3 for what holds of all.

usage: manual.py HEADER FOLDER
"""
import os
import re
import sys
import textwrap
from collections import namedtuple

# A function: its name, its prototype, its own comment, and the comment that stands above its group.
Function = namedtuple("Function", "name prototype comment above")

COMMENT = re.compile(r"/\*(.*?)\*/", re.S)
TOP = re.compile(r"/\*.*?\*/|#[^\n]*(?:\\\n[^\n]*)*|extern \"C\" \{|\}(?=\n#endif)"
                 r"|[^;{/#]+?(?:;|\{)", re.S)
NAME = re.compile(r"\b(star_[a-z0-9_]+)\(")


def words_of(comment):
    """A comment's text without its frame."""
    text = COMMENT.fullmatch(comment.strip()).group(1)
    lines = [re.sub(r"^ ?\*? ?", "", line.rstrip()) if k else line.strip()
             for k, line in enumerate(text.split("\n"))]
    return "\n".join(lines).strip()


def body_end(source, at):
    """The index behind the brace that closes the one before `at`."""
    depth = 1
    while depth:
        depth += {"{": 1, "}": -1}.get(source[at], 0)
        at += 1
    return at


def parse(source):
    """The functions, structs and enums of a header, and its opening comment."""
    opening = COMMENT.search(source)
    at = opening.end()
    functions, types, above, own = [], {}, "", None
    while True:
        found = TOP.match(source, at) or re.compile(r"\s+").match(source, at)
        if not found:
            break
        piece, at = found.group(0), found.end()
        if piece.lstrip().startswith("/*"):
            above = own = words_of(piece)
        elif piece.isspace() or piece.lstrip().startswith(("#", "extern", "}")):
            continue
        else:
            declared = " ".join(piece.rstrip("{;").split())
            if piece.endswith("{"):
                end = body_end(source, at)
                whole, at = piece + source[at:end], end
                if not NAME.search(declared):
                    at = source.index(";", at) + 1
                    types[declared] = whole.strip() + ";"
                    continue
            name = NAME.search(declared).group(1)
            prototype = re.sub(r"^STAR_INLINE ", "", declared) + ";"
            functions.append(Function(name, prototype, own or "", above))
            own = None
    if source[at:].strip():
        raise SystemExit("manual.py: not understood: " + source[at:at + 60])
    return words_of(opening.group(0)), functions, types


def summaries(opening):
    """What the opening comment says of each function in a line."""
    found = {}
    for line in re.split(r"\n(?=\S)", opening):
        match = re.match(r"(star_[a-z0-9_]+) +(.*)", line, re.S)
        if match:
            found[match.group(1)] = " ".join(match.group(2).split())
    return found


def first_clause(text):
    text = re.split(r"[.;:](?:\s|$)", " ".join(text.split()))[0]
    return text[:1].lower() + text[1:]


def roff(text):
    text = text.replace("\\", "\\e").replace("-", "\\-")
    return re.sub(r"^([.'])", r"\\&\1", text, flags=re.M)


def code(text):
    return ".PP\n.nf\n" + roff(text) + "\n.fi\n"


def paragraphs(text):
    """Paragraphs filled; what is indented stands as it is."""
    out = []
    for block in re.split(r"\n\s*\n", text):
        lines = block.split("\n")
        filled, kept = [], []
        for line in lines:
            (kept if line.startswith("  ") else filled).append(line)
            if kept and not line.startswith("  "):
                out.append(code("\n".join(kept)))
                kept = []
            elif kept and filled:
                out.append(".PP\n" + roff(textwrap.fill(" ".join(filled), 90)) + "\n")
                filled = []
        if filled:
            out.append(".PP\n" + roff(textwrap.fill(" ".join(filled), 90)) + "\n")
        if kept:
            out.append(code("\n".join(kept)))
    return "".join(out)


def refusal_names(types):
    """The enum's names and comments, by number."""
    entry = re.compile(r"(STAR_\w+) = (\d+),?\s*(?:/\*(.*?)\*/)?", re.S)
    entries = entry.findall(types["enum star_refusal"])
    return {int(number): (name, " ".join(re.sub(r"\n\s*\*?", " ", text).split()))
            for name, number, text in entries}


def refusals(comment, named):
    """The numbers that 'A refusal is ..' lists, with their names."""
    listed = re.search(r"A refusal is ([0-9, or\n]+)", " ".join(comment.split()))
    if not listed:
        return ""
    lines = [".SH REFUSALS\n"]
    for number in map(int, re.findall(r"\d+", listed.group(1))):
        name, text = named[number]
        lines.append(".TP\n.BR %s \" (%d)\"\n%s\n" % (name, number, roff(textwrap.fill(text, 90))))
    return "".join(lines)


def used_types(prototype, types):
    """The structs that a prototype names, with those that these name."""
    used, wait = [], re.findall(r"struct star_\w+", prototype)
    while wait:
        name = wait.pop(0)
        if name in types and name not in used:
            used.append(name)
            wait += re.findall(r"struct star_\w+", types[name])
    return used


class Manual:
    def __init__(self, source):
        self.opening, self.functions, self.types = parse(source)
        self.summaries = summaries(self.opening)
        self.by_name = {f.name: f for f in self.functions}
        self.refusals = refusal_names(self.types)
        self.version = re.search(r'#define STAR_VERSION "(.*)"', source).group(1)

    def plain(self, f):
        """The door that a working door answers as, or None."""
        if "_work_" not in f.name:
            return None
        return self.by_name.get(f.name.replace("star_work_", "star_", 1))

    def summary(self, f):
        plain = self.plain(f)
        if plain:
            return self.summary(plain) + ", over the rows in use of a working table"
        return first_clause(self.summaries.get(f.name) or f.comment or f.above)

    def description(self, f):
        plain = self.plain(f)
        if plain:
            general = next(g.above for g in self.functions if "_work_" in g.name)
            own = f.comment if f.comment != general else ""
            answers = "As star_X, " + plain.name + ": " + plain.comment
            return "\n\n".join(text for text in (general, own, answers) if text)
        summary = self.summaries.get(f.name, "")
        texts = (summary[:1].upper() + summary[1:], f.comment or f.above)
        return "\n\n".join(text for text in texts if text)

    def head(self, name, summary):
        return '.TH %s 3 "" "star %s" "Library Functions"\n.SH NAME\n%s \\- %s\n' % (
            name.upper(), self.version, name, roff(summary))

    def page(self, f):
        out = [self.head(f.name, self.summary(f)), ".SH SYNOPSIS\n.nf\n.B #include <star.h>\n\n"]
        fill = textwrap.fill(f.prototype, 78, subsequent_indent="    ", break_long_words=False)
        out += [roff(fill), "\n.fi\n.SH DESCRIPTION\n", paragraphs(self.description(f))]
        listed = self.plain(f).comment if self.plain(f) else f.comment
        out.append(refusals(listed, self.refusals))
        for name in used_types(f.prototype, self.types):
            out += [".SH %s\n" % name.upper(), code(self.types[name])]
        return "".join(out + [self.see_also(f)])

    def see_also(self, f):
        named = re.findall(r"star_[a-z0-9_]+", self.description(f))
        also = sorted({n for n in named if n in self.by_name and n != f.name})
        names = [".BR %s (3)" % n for n in also + ["libstar"]]
        return ".SH SEE ALSO\n" + ",\n".join(names) + "\n"

    def overview(self):
        out = [self.head("libstar", "checks and builds least networks, by proved procedures")]
        out += [".SH DESCRIPTION\n", paragraphs(self.opening), ".SH FUNCTIONS\n"]
        for f in self.functions:
            out.append(".TP\n.BR %s (3)\n%s\n" % (f.name, roff(self.summary(f))))
        return "".join(out)


def main(header, folder):
    with open(header, encoding="utf-8") as file:
        manual = Manual(file.read())
    os.makedirs(folder, exist_ok=True)
    pages = {f.name: manual.page(f) for f in manual.functions}
    pages["libstar"] = manual.overview()
    for name, text in pages.items():
        with open(os.path.join(folder, name + ".3"), "w", encoding="utf-8") as file:
            file.write(text)


if __name__ == "__main__":
    if len(sys.argv) != 3:
        raise SystemExit(__doc__)
    main(*sys.argv[1:])

"""Holds the manual pages of section 3 to the header: a page for each function that the library has,
with its prototype, a line for its name, and all that the header says of it.
usage: manual.py HEADER FOLDER NAMES   NAMES: a file with the library's functions, a line each
Ends in one line 'N passed, M failed'."""
import os
import re
import sys

passed = failed = 0


def holds(what, ok):
    global passed, failed
    if ok:
        passed += 1
    else:
        failed += 1
        print("manual: " + what)


def plain(page):
    """A page's words, without what only a formatter reads."""
    page = re.sub(r"^\.[A-Za-z]+ ?", "", page, flags=re.M)
    page = page.replace("\\-", "-").replace("\\&", "").replace("\\e", "\\")
    return "".join(page.split())


def main(header_file, folder, names_file):
    with open(header_file, encoding="utf-8") as file:
        header = file.read()
    with open(names_file, encoding="utf-8") as file:
        names = set(file.read().split())
    pages = {}
    for name in os.listdir(folder):
        with open(os.path.join(folder, name), encoding="utf-8") as file:
            pages[name[:-2]] = file.read()
    holds("the library has functions", len(names) > 40)
    holds("one page each and libstar.3", set(pages) == names | {"libstar"})
    everything = plain("".join(pages.values()))
    bare = "".join(re.sub(r"/\*.*?\*/", "", header, flags=re.S).split())
    for name in sorted(names & set(pages)):
        page = pages[name]
        prototype = re.search(r"[;}f0-9e\"](?:STAR_INLINE)?((?:conststruct|const|struct)?[a-z0-9_]+\**"
                              + name + r"\([^;{]*\))[;{]", bare)
        holds(name + ": its prototype", prototype and prototype.group(1) + ";" in plain(page))
        line = re.search(r"\.SH NAME\n" + name + r" \\- (\S+ .*)", page)
        holds(name + ": its line", line and len(line.group(1)) > 15)
        described = re.search(r"\.SH DESCRIPTION\n(.*?)\.SH ", page, re.S)
        holds(name + ": its description", described and len(described.group(1)) > 25)
        for number in re.findall(r"A refusal is ([0-9, or]+)", " ".join(page.split())):
            for one in re.findall(r"\d+", number):
                holds(name + ": refusal " + one, '" (%s)"' % one in page)
    comments = re.findall(r"^/\*(.*?)\*/", header, flags=re.S | re.M)
    functions = [c for c in comments if not re.match(r" The (version|largest|length|least|words|longest|most|room)|"
                                                     r" (How|Byte|A step|A record|A table with|What is said)", c)]
    for comment in functions:
        words = "".join(re.sub(r"\n ?\*?", "\n", comment).split())
        holds("a comment: " + comment.strip()[:60], words in everything)
    print("%d passed, %d failed" % (passed, failed))
    return failed != 0


if __name__ == "__main__":
    sys.exit(main(*sys.argv[1:]))

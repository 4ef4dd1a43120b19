"""Tests of the console's static pages: their parts, what each panel shows, that nothing comes from elsewhere; and in a browser, where one is installed.
How a table is put into the page's program, and what is done where there is none. The program itself is held by tests/page.
usage: page.py STAR   Ends in one line 'N passed, M failed'."""
import base64, html.parser, os, re, shutil, subprocess, sys, tempfile

STAR = sys.argv[1:]
counts = [0, 0]


def check(name, holds):
    counts[0 if holds else 1] += 1
    if not holds:
        print("page", name, "failed")


class Page(html.parser.HTMLParser):
    """The elements of a page: name, attributes, the section they are in, and their text."""

    def __init__(self, text):
        super().__init__(convert_charrefs=True)
        self.text, self.parts, self.open, self.section, self.balanced = text, [], [], None, True
        self.feed(text)
        self.balanced = self.balanced and not self.open

    def handle_starttag(self, tag, attributes):
        attributes = dict(attributes)
        if tag == "section":
            self.section = attributes.get("id")
        part = {"tag": tag, "text": "", "section": self.section, **attributes}
        self.parts.append(part)
        if tag not in ("meta", "br", "input"):
            self.open.append(part)

    def handle_startendtag(self, tag, attributes):
        self.parts.append({"tag": tag, "text": "", "section": self.section, **dict(attributes)})

    def handle_endtag(self, tag):
        if not self.open or self.open[-1]["tag"] != tag:
            self.balanced = False
            return
        self.open.pop()
        if tag == "section":
            self.section = None

    def handle_data(self, data):
        for part in self.open:
            part["text"] += data

    def all(self, tag, section=None, look=None):
        return [p for p in self.parts if p["tag"] == tag and (section is None or p["section"] == section) and (look is None or look in p.get("class", "").split())]

    def rows(self, section, look):
        """The trenches that are drawn so in a section."""
        return sorted(int(p["href"].rsplit("-t", 1)[1]) for p in self.all("use", section, look))

    def core(self, section=None):
        return [p["text"] for p in self.all("p", section, "core")]

    def refused(self, section=None):
        return [p["text"] for p in self.all("p", section, "refused")]

    def said(self, section):
        return " ".join(p["text"] for p in self.all("p", section))


def run(rows, n, work):
    path = os.path.join(work, "table.txt")
    with open(path, "w") as out:
        out.write("junctions %d\n" % n + "".join("%d %d %d %d\n" % row for row in rows))
    return subprocess.run(STAR + ["page", "--static", path], capture_output=True, text=True)


def rings(page, name, count, work):
    """Whether the page names the rings of the table that was run last as explain does."""
    told = subprocess.run(STAR + ["explain", "--all", os.path.join(work, "table.txt")], capture_output=True, text=True).stdout
    told = [line for line in told.splitlines() if line.startswith("A ring: ")]
    shown = [p["text"] for p in page.all("p", "ring") if p["text"].startswith("A ring: ")]
    check(name + ": named", shown == told and len(told) == count)


def light(colour):
    """The relative luminance of #rrggbb or #rgb."""
    digits = colour[1:] if len(colour) == 7 else "".join(2 * c for c in colour[1:])
    parts = [int(digits[k:k + 2], 16) / 255 for k in (0, 2, 4)]
    parts = [c / 12.92 if c <= 0.03928 else ((c + 0.055) / 1.055) ** 2.4 for c in parts]
    return 0.2126 * parts[0] + 0.7152 * parts[1] + 0.0722 * parts[2]


def differ(page, looks):
    """Whether the colours of lines that stand side by side differ in brightness."""
    style = "".join(p["text"] for p in page.all("style")[:1])
    stroke = {look: light(re.search(r"\.%s\{stroke:(#\w+)" % look, style).group(1)) + 0.05 for look in looks}
    ordered = sorted(stroke.values())
    return all(b / a > 1.25 for a, b in zip(ordered, ordered[1:]))


def sound(name, page):
    """What every page has."""
    ids = [p["id"] for p in page.parts if "id" in p]
    check(name + ": elements closed", page.balanced)
    check(name + ": names once", len(ids) == len(set(ids)))
    check(name + ": uses", all(p["href"][1:] in ids for p in page.all("use")))
    check(name + ": four panels", [p["id"] for p in page.all("section")] == ["ring", "detours", "equal", "limit"])
    check(name + ": nothing from elsewhere", not re.search(r"(?:src|href)\s*=\s*(?:\"(?!#)|'|[^\"'\s])|url\(|@import|https?:", page.text))
    pictures = [p for p in page.all("svg") if p.get("aria-hidden") != "true"]
    titles = {p["id"]: p["text"] for p in page.all("title") if "id" in p}
    check(name + ": words for each picture", pictures and all(len(titles.get(p.get("aria-labelledby"), "")) > 20 and p.get("role") == "img" for p in pictures))
    check(name + ": brightness", all(differ(page, looks) for looks in (("plan", "detour", "dearest", "left-out"), ("plan", "ring"), ("plan", "out", "in"))))
    footer = " ".join(p["text"] for p in page.all("footer"))
    check(name + ": footer", all(word in footer for word in ("proved core", "star_cst", "star_other", "star_paths", "not proved", "drawing")))
    check(name + ": limit", "code 0 is no junction" in page.said("limit") and "255: the last junction" in "".join(t["text"] for t in page.all("text", "limit")))
    networks = {p["href"].split("-")[0] for p in page.all("use") if p["href"].endswith("-lines")}
    check(name + ": drawn once", all(ids.count(g[1:] + "-lines") == 1 for g in networks) and len(page.all("path")) < 3000)


def labelled(name, page, rows, g):
    """The labels of a drawing: trench number and price."""
    labels = {p["id"]: p["text"] for p in page.all("g") if re.match(g + "-l\\d+$", p.get("id", ""))}
    check(name + ": labels", len(labels) >= 0.9 * len(rows) and all(text == "%s: %d" % (i.rsplit("-l", 1)[1], rows[int(i.rsplit("-l", 1)[1]) - 1][2]) for i, text in labels.items()))


YARD = [(1, 2, 5), (2, 3, 3), (3, 4, 5), (1, 4, 4), (1, 3, 6)]


def plan(marks):
    return [row + (int(str(k + 1) in marks),) for k, row in enumerate(YARD)]


def browse(name, text, work, browser):
    """Opens a page in a browser without a window: each picture has its size, the view chosen is shown, and a screenshot is not blank."""
    path = os.path.join(work, "page.html")
    probe = ("<script>var w=[];document.querySelectorAll('.stage>svg').forEach(function(s){var b=s.getBoundingClientRect();w.push(b.width>100&&b.height>100)});"
             "var v=0,u=0;document.querySelectorAll('.pick svg g[class]').forEach(function(g){var d=getComputedStyle(g).display!='none';if(d)v++;else u++});"
             "var c=document.querySelector('.pick input:checked'),b=document.querySelector('.pick svg g.'+c.id).getBoundingClientRect(),s=document.querySelector('.pick .stage').getBoundingClientRect();"
             "document.body.setAttribute('data-seen',[w.length,w.every(Boolean),v,b.left<s.right&&b.right>s.left&&b.top<s.bottom&&b.bottom>s.top,"
             "document.documentElement.scrollWidth<=window.innerWidth].join(' '))</script></body>")
    with open(path, "w") as out:
        out.write(text.replace("</body>", probe))
    shot = os.path.join(work, "page.png")
    words = [browser, "--headless=new", "--no-sandbox", "--disable-gpu", "--virtual-time-budget=5000", "--window-size=1200,2400", "--user-data-dir=" + os.path.join(work, "profile")]
    seen = subprocess.run(words + ["--dump-dom", "file://" + path], capture_output=True, text=True, timeout=120).stdout
    found = re.search(r'data-seen="(\d+) (\w+) (\d+) (\w+) (\w+)"', seen)
    check(name + ": in a browser", found and int(found.group(1)) >= 5 and found.group(2) == "true")
    check(name + ": the view chosen", found and found.group(3) == "2" and found.group(4) == "true")
    check(name + ": width", found and found.group(5) == "true")
    subprocess.run(words + ["--screenshot=" + shot, "file://" + path], capture_output=True, timeout=120)
    check(name + ": screenshot", os.path.exists(shot) and os.path.getsize(shot) > 20000)


def programs(work):
    """What is written with a program of the page, and without one."""
    folder = os.path.join(work, "usr", "bin")
    installed = os.path.join(work, "usr", "share", "star")
    os.makedirs(folder)
    os.makedirs(installed)
    star = shutil.copy(STAR[-1], folder)
    yard = "console/examples/yard.txt"
    with open(yard, "rb") as file:
        inside = base64.b64encode(file.read())
    version = subprocess.run([star, "--version"], capture_output=True).stdout.split()[-1]
    meta = b'<meta name="generator" content="star %s">'
    before, after = meta % version + b"<p>before</p>\0\xff\n", b"<p>after</p>"

    def page(*words):
        done = subprocess.run([star, "page", *words], capture_output=True)
        return done.returncode, done.stdout, done.stderr

    def put(where, place):
        with open(os.path.join(where, "star.html"), "wb") as out:
            out.write(before + place + after)

    def filled(name):
        return before + b'<div hidden id="table" data-name="%s">%s</div>' % (name, inside) + after

    static = page("--static", yard)
    check("program: static", static[0] == 0 and static[2] == b"" and b"<h1>yard.txt</h1>" in static[1])
    status, text, told = page(yard)
    check("program: not there", (status, text) == static[:2] and told.count(b"\n") == 1 and
          b"not installed" in told and b"make page" in told and b"--static" in told)
    put(folder, b"no place")
    check("program: without a place", page(yard) == (status, text, told))
    put(installed, b'<div hidden id="table" data-name=""></div>')
    check("program: installed", page(yard) == (0, filled(b"yard.txt"), b""))
    check("program: not asked for", page("--static", yard) == static)
    put(folder, b'<div hidden id="table" data-name=""></div>')
    os.remove(os.path.join(installed, "star.html"))
    check("program: beside it", page(yard) == (0, filled(b"yard.txt"), b""))
    for other in (meta % b"0.1.0", meta % (version + b"0"), meta % version[:-1], b"", meta[:-5]):
        with open(os.path.join(folder, "star.html"), "wb") as out:
            out.write(other + b'<div hidden id="table" data-name=""></div>')
        status, text, said = page(yard)
        check("program: version " + repr(other), (status, text) == (5, b"") and version in said and
              said.count(b"\n") == 1 and b"make page" in said and b"--static" in said)
    check("program: version not asked for", page("--static", yard) == static)
    put(folder, b'<div hidden id="table" data-name=""></div>')
    odd = os.path.join(work, "a\"b<c>&\n.txt")
    shutil.copy(yard, odd)
    check("program: name", page(odd)[1] == filled(b"a&#34;b&lt;c&gt;&amp;&#10;.txt"))
    for bad, number, written in (("1 2 5 1\n3 3 5 1\n", b"(4)", 0), ("junctions 256\n", b"(1)", 1),
                                 ("1 2 5 1\n2 3 5 0\n", b"(9)", 1)):
        with open(odd, "w") as out:
            out.write(bad)
        status, text, told = page(odd)
        check("program: refused " + bad, status == 2 and number in told and (text != b"") == written)
    with open(odd, "w") as out:
        out.write("1 2 x 1\n")
    check("program: no table", page(odd)[:2] == (3, b""))


with tempfile.TemporaryDirectory() as work:
    # The yard, claim 2, 3, 4: passed, another tree costs the same; the ring is shown on the yard with 1, 2, 5.
    done = run(plan("234"), 4, work)
    page = Page(done.stdout)
    yard = done.stdout
    sound("yard", page)
    labelled("yard", page, YARD, "own")
    check("yard: status", done.returncode == 0 and not done.stderr)
    check("yard: verdict", page.core()[0].startswith("Passed: ") and "Another network costs the same: take out trench 3 (3-4, price 5), put in trench 1 (1-2, price 5)." in page.core()[0])
    check("yard: ring", page.rows("ring", "ring") == [1, 2, 5] and [p["href"] for p in page.all("use", "ring", "cut")] == ["#yard-j4"])
    check("yard: count", any(p["text"] == "3 marked, 4 junctions: 4 - 1 = 3" for p in page.all("p", "ring", "count")))
    check("yard: ring refused", page.refused("ring") == ["Refused (10): the marked trenches do not reach junction 4 from junction 1."])
    check("yard: views", [p["id"] for p in page.all("input", "detours")] == ["v1", "v5"] and len([p for p in page.all("input") if "checked" in p]) == 1)
    check("yard: detours", page.rows("detours", "detour") == [2, 4, 4] and page.rows("detours", "dearest") == [3, 3] and page.rows("detours", "left-out") == [1, 5])
    check("yard: sum struck", [p["text"] for p in page.all("s", "detours")] == ["sum 12", "sum 9"])
    check("yard: compared", "5 = 5: the exchange gives another network of 12, equal, no contradiction" in page.said("detours") and "6 > 5: " in page.said("detours"))
    check("yard: equal", page.rows("equal", "out") == [3] and page.rows("equal", "in") == [1] and page.rows("equal", "plan") == [2, 2, 4, 4])
    check("yard: equal verdicts", page.core("equal") == ["Passed. Total 12. Not the only cheapest network."] * 2)
    check("yard: where", [p["text"].startswith("On this table") for p in page.all("p", None, "where")] == [False, True, True, True])
    # The yard with a ring: the panel is about this table, the others are about the yard.
    done = run(plan("125"), 4, work)
    page = Page(done.stdout)
    sound("ring", page)
    check("ring: status", done.returncode == 2 and "Refused (10)" in done.stderr)
    check("ring: drawn", page.rows("ring", "ring") == [1, 2, 5] and [p["href"] for p in page.all("use", "ring", "cut")] == ["#own-j4"])
    check("ring: box", page.refused()[0].startswith("Refused (10): ") and
          page.core()[0] == "Refused (10): the marked rows do not join all junctions.")
    check("ring: groups", "Groups that stand apart: junctions 1, 2, 3; junction 4." in page.said("ring"))
    check("ring: where", [p["text"].startswith("On this table") for p in page.all("p", None, "where")] == [True, False, False, True])
    # Two rings, as explain names them; more than twenty of them, the others where they are asked for.
    two = [(1, 2, 1, 1), (2, 3, 1, 1), (1, 3, 1, 1), (3, 4, 1, 1), (4, 5, 1, 1), (5, 6, 1, 1), (4, 6, 1, 1), (1, 6, 1, 0)]
    page = Page(run(two, 6, work).stdout)
    sound("two rings", page)
    check("two rings: drawn", page.rows("ring", "ring") == [1, 2, 3, 5, 6, 7])
    rings(page, "two rings", 2, work)
    far = [(v, v + 1, 5, 1) for v in range(1, 200)] + [(1, 3, 2, 1), (150, 152, 2, 1)]
    page = Page(run(far, 200, work).stdout)
    sound("far rings", page)
    check("far rings: drawn", page.rows("ring", "ring") == sorted(2 * [1, 2, 150, 151, 200, 201]))
    rings(page, "far rings", 2, work)
    page = Page(run([(u, v, 1, 1) for u in range(1, 10) for v in range(u + 1, 10)], 9, work).stdout)
    sound("all marked", page)
    check("all marked: drawn", page.rows("ring", "ring") == list(range(1, 37)))
    check("all marked: more", [p["text"] for p in page.all("summary")] == ["8 more rings"])
    rings(page, "all marked", 28, work)
    # Junction 1 is the lonely one: it is the one that is shown so.
    page = Page(run([(2, 3, 5, 1), (3, 4, 3, 1), (2, 4, 5, 1), (1, 4, 4, 0)], 4, work).stdout)
    check("lonely: drawn", [p["href"] for p in page.all("use", "ring", "cut")] == ["#own-j1"])
    check("lonely: groups", "Groups that stand apart: junction 1; junctions 2, 3, 4." in page.said("ring"))
    # The only cheapest network: two equal ones are shown on the yard.
    page = Page(run([(1, 2, 2, 1), (2, 3, 2, 1), (1, 3, 3, 0)], 3, work).stdout)
    sound("only", page)
    check("only: verdict", "It is the only cheapest network." in page.core()[0])
    check("only: where", [p["text"].startswith("On this table") for p in page.all("p", None, "where")] == [False, True, False, True])
    # A dearer plan, with prices below 0.
    page = Page(run([(1, 2, 5, 1), (2, 3, -3, 1), (3, 4, -1, 0), (1, 4, -4, 1), (1, 3, -2, 0)], 4, work).stdout)
    sound("dearer", page)
    check("dearer: totals", page.core()[0].endswith("The plan's total is -2, and -9 after this exchange. The least total is -9."))
    check("dearer: own sum", not any("At most" in text for text in page.core()) and page.all("p")[1]["text"] ==
          "At most 7 is saved, and this exchange saves all of it.")
    check("dearer: saves", "-1 < 5: the exchange gives a network of -8, for 6 less" in page.said("detours"))
    # 256 junctions: no picture of the table, and the number line has it.
    done = run([(1, 2, 5, 1)], 256, work)
    page = Page(done.stdout)
    sound("256", page)
    check("256: status", done.returncode == 2 and "Refused (1)" in done.stderr and "Refused (1)" in page.refused()[0])
    check("256: line", any(t["text"] == "this table: 256" for t in page.all("text", "limit")) and not any("own-" in p.get("href", "") for p in page.all("use")))
    page = Page(run([(1, 2, 5, 1)], 4000000000, work).stdout)
    check("4000000000: line", any(t["text"] == "this table: 4000000000" for t in page.all("text", "limit")))
    # Other refusals give no page; no marks give one; names with letters of HTML are written as they are.
    done = run([(1, 2, 5, 1), (3, 3, 5, 1)], 3, work)
    check("refused: no page", done.returncode == 2 and done.stdout == "" and "Refused (4)" in done.stderr)
    done = run([(1, 2, 5, 1), (2, 3, 5, 1), (2, 1, 5, 0)], 3, work)
    check("repeated: no page", done.returncode == 2 and done.stdout == "" and "Refused (15)" in done.stderr)
    done = run([(1, 2, 5, 0), (2, 3, 5, 0)], 3, work)
    page = Page(done.stdout)
    sound("unmarked", page)
    check("unmarked: status", done.returncode == 0 and page.all("p")[0]["text"] == "No trench is marked." and page.all("p")[0].get("class") == "plain")
    odd = os.path.join(work, "a<b>&c.txt")
    with open(odd, "w") as out:
        out.write("1 2 5 1\n")
    page = Page(subprocess.run(STAR + ["page", "--static", odd], capture_output=True, text=True).stdout)
    sound("name", page)
    check("name: written", page.all("h1")[0]["text"] == page.all("title")[0]["text"] == os.path.basename(odd))
    # Thirty junctions and a city: each trench that is left out has its view, and the page stays small.
    sizes = {}
    for name, n, path in (("thirty", 30, None), ("city", 255, "console/examples/city.txt")):
        if path:
            with open(path) as city:
                rows = [tuple(int(w) for w in line.split()) for line in city if line[0].isdigit()]
        else:
            rows = [(v, v + 1, 10 * v % 17, 1) for v in range(1, 30)] + [(v, v + 5, 40 + v, 0) for v in range(1, 25)]
        done = run(rows, n, work)
        sizes[name] = done.stdout
        page = Page(done.stdout)
        sound(name, page)
        labelled(name, page, rows, "own")
        left = sum(1 for row in rows if row[3] == 0)
        check(name + ": views", len(page.all("input", "detours")) == left and len(page.rows("detours", "left-out")) == left and len(page.rows("detours", "dearest")) == left)
        check(name + ": size", len(done.stdout) < 3000000)
    browser = next((path for path in map(shutil.which, ("chromium", "chromium-browser", "google-chrome")) if path), None)
    if browser:
        browse("yard", yard, work, browser)
        browse("thirty", sizes["thirty"], work, browser)
        browse("city", sizes["city"], work, browser)
    # The page's program beside the console, where it is installed, without a place, and not there.
    programs(work)

print("%d passed, %d failed" % tuple(counts))
sys.exit(counts[1] > 0)

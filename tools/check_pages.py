#!/usr/bin/env python3
"""Reads the pages of `ask page` as a browser does, and compares them with what the other words of `ask` print.

check_pages.py [FILE..]: of the filters in the files, of which each holds one in hexadecimal digits, and else of those of
examples/filters, and of each neighbouring pair of them: the page is nested as HTML has it, has no script, and refers to nothing
outside. What a reviewer comes to by the keyboard stands in its order: the link past the links, the links, the sections. Each row of
`ask when` is in the table of one group, with the same verdicts and conditions; the changes are those of `ask diff`, looser ones
first; and the documents are those of --json to the byte. What a file is named is no markup. Trouble leaves no page. Where Chromium
is installed, it draws a page that is not blank, and keeps the order of the sections.

Prints each problem, and at last 'N passed, M failed'."""
import html.parser
import json
import os
import shutil
import struct
import subprocess
import sys
import tempfile
import zlib
from dataclasses import dataclass, field

from check_calls import ROOT, judge, results
from check_json import FILTERS, KINDS, ask, head

VOID = {"meta", "br", "hr", "img", "link", "input"}
ANSWERS = ["refused", "conditional", "allowed", "arches", "lint", "documents"]
CHANGES = ["looser", "stricter", "other"]
CONCERNS = ["looser", "signed", "stricter"]
PERFORMED = {"allow", "log"}
BROWSER = next(filter(None, map(shutil.which, ("chromium", "chromium-browser", "google-chrome"))), None)
# A name that would be markup, were it not escaped.
HOSTILE = "<b>&\"'x.hex"
# Words that are trouble, and what stands on standard error.
TROUBLE = [
    (["page"], "ask: page: no FILE is given"),
    (["page", "no such file"], "ask: no such file: "),
    (["page", "--old", "no such file", "{}"], "ask: no such file: "),
    (["page", "--old", "{}"], "ask: page: expected two FILEs, OLD and NEW"),
    (["page", "--old", "{}", "{}", "{}"], "ask: page: expected two FILEs, OLD and NEW"),
    (["page", "--old"], "ask: page: expected a FILE behind --old"),
    (["page", "--old", "{}", "--old", "{}", "{}"], "ask: page: given twice: --old"),
    (["page", "--json", "{}"], "ask: page: no option is named --json"),
    (["page", "--arch", "i386", "{}"], "ask: page: no option is named --arch"),
    (["page", "README.md"], "ask: README.md: "),
]


@dataclass
class Element:
    """An element with its attributes, and what is in it: elements and texts."""

    name: str
    attributes: dict[str, str | None]
    inner: list["Element | str"] = field(default_factory=list)

    def text(self) -> str:
        return "".join(it if isinstance(it, str) else it.text() for it in self.inner)

    def all(self, name: str) -> list["Element"]:
        """Those of a name that are in it, in their order."""
        found = []
        for it in self.inner:
            if isinstance(it, Element):
                found += [it] * (it.name == name) + it.all(name)
        return found


class Tree(html.parser.HTMLParser):
    """The elements of a page, and where they are not nested."""

    def __init__(self, page: str) -> None:
        super().__init__(convert_charrefs=True)
        self.top = Element("", {})
        self.open, self.problems = [self.top], []
        self.feed(page)
        self.close()
        self.problems += [f"<{it.name}> is not ended" for it in self.open[1:]]

    def handle_starttag(self, tag: str, attrs: list[tuple[str, str | None]]) -> None:
        it = Element(tag, dict(attrs))
        self.open[-1].inner.append(it)
        if tag not in VOID:
            self.open.append(it)

    def handle_endtag(self, tag: str) -> None:
        if self.open[-1].name == tag:
            self.open.pop()
        else:
            self.problems.append(f"</{tag}> ends <{self.open[-1].name}>")

    def handle_data(self, data: str) -> None:
        self.open[-1].inner.append(data)


def squeezed(text: str) -> str:
    return " ".join(text.split())


def verdict(values: list[dict] | None, it: dict | None) -> str:
    return it["text"] if it else " | ".join(value["text"] for value in values or [])


def group_of(row: dict) -> str:
    """The group of a row: by seccomp(2) allow and log perform a call, and nothing else does."""
    told = [row["otherwise"], *(line["verdict"] for line in row["lines"])]
    performs = [it is None or it["action"] in PERFORMED for it in told]
    if not any(performs):
        return "refused"
    return "allowed" if not row["lines"] and performs[0] else "conditional"


def told_row(row: dict) -> tuple[str, list[str]]:
    """A row of `ask when`: its head, and what it says of verdicts and conditions."""
    last = verdict(row["verdicts"], row["otherwise"])
    cases = [f"{verdict(row['verdicts'], it['verdict'])} where {it['condition']}" for it in row["lines"]]
    return head(row), [*cases, f"{last} else"] if cases else [last]


def shown_row(row: Element) -> tuple[str, list[str]]:
    """The same of a row of a page."""
    cell = row.all("td")[0]
    return squeezed(row.all("th")[0].text()), [squeezed(it.text()) for it in cell.all("li")] or [squeezed(cell.text())]


def told_change(it: dict) -> list[str]:
    return [head(it), it["old"]["text"], it["new"]["text"], f"{it['condition'] or 'every call'} such as {it['call']['text']}"]


def told_lint(it: dict) -> list[str]:
    *cells, shown = told_change(it)
    return [*cells, squeezed(f"{shown} which Linux takes for {it['taken']['text']} {it['remark']}")]


def shown_cells(section: Element) -> list[list[str]]:
    text = lambda cell: squeezed(" ".join(it if isinstance(it, str) else it.text() for it in cell.inner))
    return [[text(it) for it in row.inner if isinstance(it, Element)] for body in section.all("tbody") for row in body.all("tr")]


def shape_problems(tree: Tree, page: str, compares: bool) -> list[str]:
    """What a page of this form may not have, and what it must."""
    problems = list(tree.problems)
    every = [it for name in {it for it in page.replace(">", " ").replace("<", " <").split() if it.startswith("<")} for it in tree.top.all(name[1:])]
    problems += [f"an element {it.name}" for it in every if it.name in ("script", "iframe", "object", "img", "form", "link")]
    problems += [f"{it.name} has {key}" for it in every for key in it.attributes if key.startswith("on") or key in ("src", "style")]
    references = [it.attributes.get("href") for it in tree.top.all("a")]
    named = [it.attributes["id"] for it in every if "id" in it.attributes]
    problems += [f"a link to {it}" for it in references if not it or it[0] != "#" or it[1:] not in named]
    problems += [f"the name {it} twice" for it in set(named) if named.count(it) > 1]
    wanted = CHANGES * compares + ANSWERS
    if references != ["#answers", *(f"#{it}" for it in wanted)]:
        problems.append(f"the links are {references}")
    sections = [it.attributes.get("aria-labelledby") for it in tree.top.all("section")]
    if sections != wanted or [it.attributes.get("id") for it in tree.top.all("h2")] != wanted:
        problems.append(f"the sections are {sections}")
    if len(tree.top.all("h1")) != 1 or tree.top.all("html")[0].attributes.get("lang") != "en":
        problems.append("no heading, or no language")
    problems += ["a table without caption or columns" for it in tree.top.all("table") if not it.all("caption") or not it.all("thead")]
    return problems


def answer_problems(sections: dict[str, Element], when: dict, arches: dict, lint: dict) -> list[str]:
    """Where a page tells other answers than the other words do."""
    problems = []
    for group in ANSWERS[:3]:
        told = [told_row(row) for row in when["rows"] if group_of(row) == group]
        shown = [shown_row(row) for body in sections[group].all("tbody") for row in body.all("tr")]
        counted = sections[group].all("h2")[0].text().rpartition(": ")[2]
        if told != shown or counted != str(len(told)):
            problems.append(f"{group}, {counted}: {next(((a, b) for a, b in zip(told, shown) if a != b), (len(told), len(shown)))}")
    told_arches = [[it["name"], it["verdict"]["text"] if it["verdict"] else "judged call by call"] for it in arches["architectures"]]
    if shown_cells(sections["arches"])[:-1] != told_arches or len(sections["arches"].all("p")) != len(arches["warnings"]):
        problems.append(f"architectures: {shown_cells(sections['arches'])}")
    if shown_cells(sections["lint"]) != [told_lint(it) for kind in CONCERNS for it in lint["differences"] if it["concern"] == kind]:
        problems.append(f"lint: {shown_cells(sections['lint'])[:2]}")
    return problems


def change_problems(sections: dict[str, Element], diff: dict) -> list[str]:
    """Where a page tells other changes than `ask diff` does."""
    problems = []
    for kind in CHANGES:
        told = [told_change(it) for it in diff["differences"] if it["kind"] == kind]
        if shown_cells(sections[kind]) != told:
            problems.append(f"{kind}: {len(told)} told, {len(shown_cells(sections[kind]))} shown")
    return problems


def page_problems(page: str, files: list[str], options: list[str]) -> list[str]:
    """What is wrong with the page of these files: of one, or of an old one and a new one."""
    tree = Tree(page)
    problems = shape_problems(tree, page, len(files) == 2)
    sections = {it.attributes.get("aria-labelledby") or "": it for it in tree.top.all("section")}
    words = [["diff", *options, *files]] * (len(files) == 2) + [["when", *options, files[-1]], ["arches", files[-1]], ["lint", *options, files[-1]]]
    documents = [ask([it[0], "--json", *it[1:]])[1] for it in words]
    shown = [it.all("pre")[0].text() for it in sections["documents"].all("details")]
    if shown != documents:
        problems.append("other documents than those of --json")
    title = "ask page: " + " to ".join(files)
    if [it.text() for it in [*tree.top.all("title"), *tree.top.all("h1")]] != [title, title]:
        problems.append(f"the title is {tree.top.all('title')[0].text()!r}")
    told = [json.loads(it) for it in documents]
    problems += answer_problems(sections, *told[-3:])
    return problems + (change_problems(sections, told[0]) if len(files) == 2 else [])


def tried(files: list[str], options: list[str]) -> str:
    """The page of these files, which is looked at."""
    status, page, notes = ask(["page", *options, *(["--old"] * (len(files) == 2)), *files])
    wanted = "".join(ask([word, *options, file])[2] for file in files[-1:] for word in ("lint",))
    problems = [] if status == 0 and notes == wanted else [f"status {status}, {notes[:300]!r} and not {wanted[:300]!r}"]
    judge(problems or page_problems(page, files, options), f"page of {' to '.join(files)}")
    return page


def is_left_open(file: str) -> bool:
    """Whether some verdict on a filter's calls is not known, or not compared: then there is no page."""
    when = json.loads(ask(["when", "--json", file])[1] or '{"rows": []}')
    lint = json.loads(ask(["lint", "--json", file])[1] or '{"differences": [{"call": null}]}')
    told = [it for row in when["rows"] for it in (row["otherwise"], *(line["verdict"] for line in row["lines"]))]
    return None in told or any(it["call"] is None for it in lint["differences"])


def tried_hostile(file: str) -> None:
    """A file with a name that could be markup."""
    with tempfile.TemporaryDirectory() as folder:
        named = os.path.join(folder, HOSTILE)
        shutil.copyfile(file, named)
        page = tried([named], [])
        judge([] if HOSTILE not in page and "<b>&amp;" not in page else ["the name of a file is markup"], "a name with <")


# ---- a browser


def colours(picture: bytes) -> int:
    """How many different lines a PNG picture has: a blank one has one."""
    width, height, depth, colour = struct.unpack(">IIBB", picture[16:26])
    place, packed = 8, b""
    while place < len(picture):
        length, kind = struct.unpack(">I4s", picture[place : place + 8])
        packed += picture[place + 8 : place + 8 + length] if kind == b"IDAT" else b""
        place += length + 12
    line = 1 + width * {2: 3, 6: 4, 0: 1, 3: 1, 4: 2}[colour] * depth // 8
    rows = zlib.decompress(packed)
    return len({rows[i * line : (i + 1) * line] for i in range(height)})


def browse(page: str, words: list[str], folder: str) -> bytes:
    path = os.path.join(folder, "page.html")
    with open(path, "w", encoding="utf-8") as file:
        file.write(page)
    options = ["--headless", "--no-sandbox", "--disable-gpu", f"--user-data-dir={folder}/profile", "--window-size=1280,1600"]
    ran = subprocess.run([BROWSER, *options, *words, f"file://{path}"], capture_output=True, timeout=120, check=False, cwd=folder)
    return ran.stdout


def tried_browser(page: str) -> None:
    """A page as a browser has it."""
    if not BROWSER:
        print("left out: how a browser draws a page: Chromium is not installed")
        return
    with tempfile.TemporaryDirectory() as folder:
        dumped = Tree(browse(page, ["--dump-dom"], folder).decode())
        kept = [it.attributes.get("aria-labelledby") for it in dumped.top.all("section")]
        wanted = [it.attributes.get("aria-labelledby") for it in Tree(page).top.all("section")]
        judge([] if kept == wanted and len(dumped.top.all("tr")) == len(Tree(page).top.all("tr")) else [f"sections {kept}"], "a page in a browser")
        browse(page, ["--screenshot=page.png"], folder)
        with open(os.path.join(folder, "page.png"), "rb") as picture:
            lines = colours(picture.read())
        judge([] if lines > 100 else [f"{lines} different lines"], "a picture of a page")


def main() -> int:
    files = sys.argv[1:] or sorted(f"{FILTERS}/{it}" for it in os.listdir(FILTERS) if it.endswith(".hex"))
    closed = [it for it in files if not is_left_open(it)]
    pages = [tried([file], []) for file in closed]
    tried([closed[0]], ["--numbers"])
    for old, new in zip(closed, closed[1:]):
        status, _, said = ask(["page", "--old", old, new])
        open_there = any(it["kind"] == KINDS[3] for it in json.loads(ask(["diff", "--json", old, new])[1] or '{"differences": [{"kind": "undecided"}]}')["differences"])
        if open_there:
            judge([] if status == 2 else [f"status {status}, {said[:100]!r}"], f"no page of {old} to {new}")
        else:
            pages.append(tried([old, new], []))
    for file in set(files) - set(closed):
        status, text, said = ask(["page", file])
        judge([] if (status, text) == (2, "") and said.startswith("ask: page: the filters could not be followed") else [f"status {status}"], f"no page of {file}")
    tried_hostile(closed[0])
    for words, line in TROUBLE:
        status, text, said = ask([it.format(files[0]) for it in words])
        judge([] if (status, text) == (2, "") and said.startswith(line) else [f"status {status}, {text[:100]!r}, {said!r}"], f"ask {' '.join(words)}")
    tried_browser(pages[-1])
    print(f"{results['passed']} passed, {results['failed']} failed")
    return 1 if results["failed"] else 0


if __name__ == "__main__":
    sys.exit(main())

#!/usr/bin/env python3
"""Looks whether each link of the pages leads somewhere, in Markdown and in the HTML that a release makes of it.

    bench/links.py

The pages are README.md, docs/*.md, bench/*.md and what a release has besides (release/pages.py). A link leads somewhere
if its file is there, and behind `#` there is a heading of that anchor. Addresses of other hosts are not looked at. A
line is printed for each link that leads nowhere, and one at the end; the status is then 1.
"""

import functools
import html.parser
import pathlib
import sys
import tempfile

TOP = pathlib.Path(__file__).resolve().parent.parent
sys.path.insert(0, str(TOP))
sys.dont_write_bytecode = True

from release.markdown import Page
from release.pages import OUTSIDE, Site


@functools.lru_cache(maxsize=None)
def anchors_in(file):
    """The anchors of a page in Markdown."""
    return {it.anchor for it in Page(file.read_text(encoding="utf-8")).headings}


def fault_of(file, target):
    """What is wrong with a link in a page, or None."""
    path, mark, place = target.partition("#")
    there = (file.parent / path).resolve() if path else file
    if not there.exists():
        return "there is no such file"
    if mark and (there.suffix != ".md" or place not in anchors_in(there)):
        return "there is no such heading"
    return None


def line_of(text, target):
    """The number of the first line that has a link to the target."""
    return text.count("\n", 0, text.index(f"({target})") if f"({target})" in text else 0) + 1


def check_page(file):
    """The number of the links of a page in Markdown, and a line for each that leads nowhere."""
    text, faults = file.read_text(encoding="utf-8"), []
    links = [it for it in Page(text).links if not OUTSIDE.match(it)]
    for target in links:
        fault = fault_of(file, target)
        if fault:
            faults.append(f"{file.relative_to(TOP)}:{line_of(text, target)}: {target}: {fault}")
    return len(links), faults


class Seen(html.parser.HTMLParser):
    """The anchors and the links of a page in HTML."""

    def __init__(self, text):
        super().__init__()
        self.anchors, self.links = [], []
        self.feed(text)

    def handle_starttag(self, tag, attrs):
        for name, value in attrs:
            if name == "id":
                self.anchors.append(value)
            if name in ("href", "src"):
                self.links.append(value)


def check_html(folder):
    """The same of the HTML in a folder; an anchor that stands twice in a page is a fault, too."""
    seen = {file.resolve(): Seen(file.read_text(encoding="utf-8")) for file in sorted(folder.glob("*.html"))}
    count, faults = 0, []
    for file, page in seen.items():
        twice = {it for it in page.anchors if page.anchors.count(it) > 1}
        faults += [f"{file.name}: #{it}: stands twice" for it in sorted(twice)]
        for target in page.links:
            if OUTSIDE.match(target):
                continue
            count += 1
            path, mark, place = target.partition("#")
            there = (folder / path).resolve() if path else file
            if not there.exists() or (mark and (there not in seen or place not in seen[there].anchors)):
                faults.append(f"{file.name}: {target}: leads nowhere")
    return count, faults


def main():
    if len(sys.argv) > 1:
        print(__doc__.strip())
        return 0 if sys.argv[1] in ("-h", "--help") else 2
    with tempfile.TemporaryDirectory(prefix="wanda-links-") as room:
        room = pathlib.Path(room)
        (room / "examples").symlink_to((TOP / "examples").resolve())
        site = Site(TOP, "../examples")
        site.write(room / "html")
        found = [check_page(TOP / source) for source in site.sources] + [check_html(room / "html")]
    faults = [line for _, lines in found for line in lines]
    print(*faults, sep="\n", end="\n" if faults else "")
    print(f"{sum(count for count, _ in found)} links, {len(faults)} lead nowhere")
    return 1 if faults else 0


if __name__ == "__main__":
    sys.exit(main())

"""A picture of one frame of a run, as SVG: what the page's program draws in Chromium, below the line of the frame."""
from __future__ import annotations

import html
import os
import re
import tempfile

from strm_tools.browser import Browser, Failed, chromium
from strm_tools.view.page import source, write_page

# The width of a picture, which makes three columns; its margin at each side; the height of the line above.
WIDTH, SIDE, HEAD = 1046, 16, 36
# Leaves the drawing of a frame in the page, as text, without what only a page has.
DRAWN = """<script>
byId("picture").parentNode.style.width = "WIDTHpx";
byId("all").checked = true;
measure();
show(FRAME);
for (const title of document.querySelectorAll("#picture title")) title.remove();
for (const node of document.querySelectorAll("#picture [role]")) for (const name of ["role", "aria-label", "tabindex"]) node.removeAttribute(name);
const told = document.createElement("pre");
told.id = "drawn";
told.textContent = new XMLSerializer().serializeToString(byId("picture"));
document.body.append(told);
</script>
"""
SVG = """<svg xmlns="http://www.w3.org/2000/svg" width="{width}" height="{height}" viewBox="0 0 {width} {height}" role="img">
<title>{line}</title>
<desc>{words}</desc>
<style>
{style}
</style>
<rect width="{width}" height="{height}" fill="var(--paper)"/>
<text id="line" x="{side}" y="24">{line}</text>
<g transform="translate({side} {head})">
{drawn}
</g>
</svg>
"""


def style() -> str:
    """The page's colours, and its style for pictures."""
    css = source("page.css")
    return "\n".join([*re.findall(r"^(?::root|@media \(pref).*?^}", css, re.MULTILINE | re.DOTALL), css.split("\n\n")[1].strip()])


def found(pattern: str, dom: str) -> str:
    text: str = re.findall(pattern, dom, re.DOTALL)[0]
    return html.unescape(text)


def drawn(title: str, script: str, text: str | None, frame: int) -> tuple[str, str, int]:
    """The line of a frame with its reply, the drawing of the frame, and its height."""
    with tempfile.TemporaryDirectory() as room:
        path = os.path.join(room, "page.html")
        with open(path, "w", encoding="utf-8", errors="replace") as file:
            film = write_page(file, title, script, text)
            file.write(DRAWN.replace("WIDTH", str(WIDTH - 2 * SIDE)).replace("FRAME", str(frame)))
        if frame not in range(film.frame + 1):
            raise Failed(f"there is no frame {frame}, and the last one is {film.frame}")
        dom = Browser(chromium(), room).dom(path)
    height, inner = re.findall(r'\A<svg [^>]*height="([\d.]+)"[^>]*>(.*)</svg>\Z', found(r'<pre id="drawn">(.*?)</pre>', dom), re.DOTALL)[0]
    command, reply = (found(rf'<code id="{name}">([^<]*)</code>', dom) for name in ("command", "reply"))
    place = found(r'<span id="where">[^<]*: ([^<]*)</span>', dom)
    # A tenth of a point is exact enough, and a line for each group has less of a change to a line.
    inner = re.sub(r"\d+\.\d+", lambda number: re.sub(r"\.0$", "", f"{float(number[0]):.1f}"), inner)
    line = f"{':'.join(re.findall('[0-9]+', place)[:2])} {command} → {reply}" if frame else place
    return line, inner.replace("</g><g", "</g>\n<g"), round(float(height))


def picture(title: str, script: str, text: str | None, frame: int, words: str) -> str:
    """The picture, which has in it by which words it is drawn again."""
    line, inner, height = drawn(title, script, text, frame)
    line = html.escape(f"{title}, {line}")
    size = {"width": WIDTH, "height": height + HEAD + SIDE, "side": SIDE, "head": HEAD}
    return SVG.format(**size, line=line, words=html.escape(words), style=style(), drawn=inner)

#!/usr/bin/env python3
"""Opens a drawing in Chromium and looks at it as a reader would.

    tools/drawings.py race.svg
    tools/drawings.py --dark --paper '#15171a' race.html

No words may lie over others, be crossed by a line, a dot or a cross, be wider than 8 pixels a letter, or leave the picture. Where the
drawing is gone to a row, that row and those above it are as they were, and all below are faded, in further sheets too. A page also answers
its keys: arrows, PageDown and PageUp go to the next and the previous row and stop at the ends, Esc shows the whole run, and the line at
the foot tells the row, if there is one. With Alt, Ctrl, Meta or Shift they are the browser's, and none leaves a step that Back goes to.
The row is in view then, sideways what happens there too, and so are the names of the columns, over those of the sheets. With --paper the ground has this colour; with --dark the browser says that its reader likes it dark. Prints each mistake, and ends
with 1 if there is one. The browser is $CHROMIUM, or else chromium.
"""
import argparse
import html
import json
import os
import pathlib
import re
import subprocess
import sys
import tempfile

# Of each sheet the boxes of words (from a letter's top to its foot) and of marks: all lines, dots, crosses and squares.
WORDS = r"""
const found = [];
const meet = (one, other) => one.left < other.right && other.left < one.right && one.top < other.bottom && other.top < one.bottom;
const around = (x1, y1, x2, y2, by) => ({left: Math.min(x1, x2) - by, top: Math.min(y1, y2) - by, right: Math.max(x1, x2) + by, bottom: Math.max(y1, y2) + by});
function marks(path) {
  const numbers = path.getAttribute("d").match(/-?\d+/g).map(Number), d = path.getAttribute("d").replace(/-?\d+/g, "#");
  if (d === "M# #L# #") return [around(numbers[0], numbers[1], numbers[2], numbers[3], 1)];
  if (d === "M# #H#M# #l# #v#z") return [around(numbers[0], numbers[1], numbers[2], numbers[1], 1), around(numbers[3], numbers[4], numbers[3] + numbers[5], numbers[4], 4)];
  if (d === "M# #l# #m# #l# #") return [around(numbers[0], numbers[1], numbers[0] + 8, numbers[1] + 8, 1)];
  found.push("a path of another kind: " + path.getAttribute("d"));
  return [];
}
if (!document.querySelector("svg")) found.push("there is no picture");
for (const svg of document.querySelectorAll("svg:not(#names)")) {
  const picture = {left: 0, top: 0, right: svg.viewBox.baseVal.width, bottom: svg.viewBox.baseVal.height};
  const words = [...svg.querySelectorAll("text")].map(text => {
    const box = text.getBBox(), foot = Number(text.getAttribute("y"));
    return {words: text.textContent, left: box.x, right: box.x + box.width, top: foot - 9, bottom: foot + 3};
  });
  const lines = [...svg.querySelectorAll("path")].flatMap(marks);
  lines.push(...[...svg.querySelectorAll("circle")].map(dot => around(dot.cx.baseVal.value, dot.cy.baseVal.value, dot.cx.baseVal.value, dot.cy.baseVal.value, 5)));
  lines.push(...[...svg.querySelectorAll(".ask,.done")].map(box => around(box.x.baseVal.value, box.y.baseVal.value, box.x.baseVal.value + 7, box.y.baseVal.value + 7, 0)));
  if (!words.length || !lines.length) found.push("nothing is drawn");
  for (const word of words) {
    const where = `'${word.words}' at ${word.left},${word.bottom - 3}`;
    if (word.left < 0 || word.top < 0 || word.right > picture.right || word.bottom > picture.bottom) found.push(`${where} leaves the picture`);
    if (word.right - word.left > 8 * word.words.length) found.push(`${where} is wider than 8 a letter`);
  }
  const all = [...words, ...lines].sort((one, other) => one.top - other.top);
  const open = [];
  for (const box of all) {
    for (let place = open.length; place--;) {
      const other = open[place];
      if (other.bottom <= box.top) open.splice(place, 1);
      else if ((box.words || other.words) && meet(box, other)) found.push(`'${box.words || other.words}' at ${(box.words ? box : other).left},${(box.words ? box : other).bottom - 3} meets ${box.words && other.words ? `'${other.words}'` : "a line"}`);
    }
    open.push(box);
  }
}
"""
# A row that is gone to.
ROWS = r"""
const all = [...document.querySelectorAll("a[id]")];
const later = () => new Promise(done => setTimeout(done, 100));
function expect(place, why) {
  const faded = all.map(row => getComputedStyle(row).opacity === "0.12").map(String).join();
  const wanted = all.map((_, other) => place !== null && other > place).map(String).join();
  if (faded !== wanted) found.push(`${why}: not just the rows below row ${place} are faded`);
}
expect(null, "at first");
for (const place of [0, Math.min(2, all.length - 1), all.length - 1]) {
  if (!all.length) break;
  location.hash = all[place].id;
  expect(place, "a row that is gone to");
}
location.hash = "all";
expect(null, "at last");
await later();
"""
KEYS = r"""
const press = (key, held = {}) => {
  const event = new KeyboardEvent("keydown", {key, cancelable: true, ...held});
  dispatchEvent(event);
  return event.defaultPrevented;
};
const notes = () => document.querySelector("pre").textContent, hint = notes(), visited = history.length;
const heads = svg => [...svg.querySelectorAll(":scope > text")].filter(text => Number(text.getAttribute("y")) < 56)
  .map(text => `${text.textContent} at ${text.getBoundingClientRect().left.toFixed(1)}`).join("; ");
function look(place, why) {
  const bar = document.querySelector("#names"), top = bar.getBoundingClientRect(), wide = document.documentElement.clientWidth;
  const row = all[place].querySelector(".y").getBoundingClientRect(), foot = document.querySelector("pre").getBoundingClientRect();
  if (Math.abs(top.top) > 1 || top.height < 48) found.push(`${why}: the names stand from ${top.top} to ${top.bottom}`);
  for (const svg of document.querySelectorAll("svg:not(#names)")) {
    if (heads(svg) !== heads(bar)) found.push(`${why}: the names are '${heads(bar)}' over '${heads(svg)}'`);
  }
  if (row.top < top.bottom || row.bottom > foot.top) found.push(`${why}: the row from ${row.top} to ${row.bottom} is not in view`);
  const events = [...all[place].children].filter(part => /^[oaixpgv]$/.test(part.getAttribute("class"))).map(part => part.getBoundingClientRect());
  const left = Math.min(...events.map(box => box.left)), right = Math.max(...events.map(box => box.right));
  const starts = [...bar.querySelectorAll(".t"), all[place].querySelectorAll("text")[2]].map(text => text.getBoundingClientRect().left);
  const panel = Math.max(...starts.filter(x => x <= left)), end = Math.min(...starts.filter(x => x > left));
  if (events.length && end - panel <= wide && (panel < -1 || end > wide + 1)) found.push(`${why}: the panel, from ${panel} to ${end}, is not in view`);
  if (events.length && (left < 0 || left > wide || right > wide && right - left + 96 <= wide)) found.push(`${why}: what happens, from ${left} to ${right}, is not in view`);
}
async function at(place, why) {
  expect(place, why);
  if (location.hash !== "#" + all[place].id) found.push(`${why}: the row gone to is ${location.hash}`);
  await later();
  if (notes() !== all[place].querySelector("title").textContent) found.push(`${why}: the line at the foot is '${notes()}'`);
  look(place, why);
}
if (!all.length) {
  if (press("ArrowDown")) found.push("a key of a page without rows is taken");
} else {
  const last = all.length - 1;
  for (let place = 0; place <= Math.min(29, last); place++) {
    if (!press(["ArrowDown", "ArrowRight", "PageDown"][place % 3])) found.push("the page is scrolled, too");
    await at(place, "a key forward");
  }
  for (const held of ["altKey", "ctrlKey", "metaKey", "shiftKey"]) {
    if (press("ArrowUp", {[held]: true})) found.push(`an arrow with ${held} is taken`);
  }
  await at(Math.min(29, last), "an arrow with another key");
  press("Escape");
  expect(null, "Esc");
  await later();
  if (notes() !== hint) found.push(`Esc: the line at the foot is '${notes()}'`);
  if (history.length !== visited) found.push("a key makes a step that the browser goes back to");
  press("ArrowDown");
  await at(0, "a key after Esc");
  press("ArrowUp");
  await at(0, "a key before the first row");
  location.hash = all[last].id;
  press("ArrowRight");
  await at(last, "a key behind the last row");
  press("ArrowLeft");
  await at(Math.max(last - 1, 0), "a key back");
  press("PageUp");
  await at(Math.max(last - 2, 0), "another key back");
  all[0].dispatchEvent(new MouseEvent("click", {bubbles: true, cancelable: true}));
  await later();
  await at(0, "a click");
  if (press("x")) found.push("another key is taken");
}
"""
PAPER = r"""
for (const paper of document.querySelectorAll(".paper")) {
  if (getComputedStyle(paper).fill !== WANTED) found.push(`the ground is ${getComputedStyle(paper).fill}`);
}
"""


def script(is_page, paper):
    """What the browser does, and where it leaves what it found."""
    body = WORDS + ROWS + (KEYS if is_page else "")
    if paper:
        red, green, blue = (int(paper[place:place + 2], 16) for place in (1, 3, 5))
        body += PAPER.replace("WANTED", f'"rgb({red}, {green}, {blue})"')
    return f"""<script>(async () => {{ try {{ {body}
leave(found); }} catch (error) {{ leave(["the script fails: " + error]); }}
function leave(found) {{ const at = document.createElement("samp"); at.textContent = JSON.stringify(found); document.body.append(at); }}
}})();</script>"""


def look(path, paper, is_dark):
    """The mistakes that are seen in a drawing."""
    drawing = pathlib.Path(path).read_text(encoding="utf-8")
    is_page = drawing.startswith("<!DOCTYPE html>")
    if not is_page:
        drawing = f'<!DOCTYPE html>\n<html><head><meta charset="utf-8"></head><body>\n{drawing}</body></html>\n'
    with tempfile.TemporaryDirectory() as folder:
        page = pathlib.Path(folder, "page.html")
        page.write_text(drawing.replace("</body>", script(is_page, paper) + "</body>"), encoding="utf-8")
        words = [os.environ.get("CHROMIUM", "chromium"), "--headless=new", "--no-sandbox", "--disable-gpu", "--window-size=1000,700", f"--user-data-dir={folder}/profile",
                 f"--blink-settings=preferredColorScheme={0 if is_dark else 1}", "--virtual-time-budget=10000", "--dump-dom", page.as_uri()]
        done = subprocess.run(words, stdin=subprocess.DEVNULL, capture_output=True, text=True, check=False, timeout=120)
    left = re.search(r"<samp>(.*?)</samp>", done.stdout, re.S)
    return json.loads(html.unescape(left[1])) if left else [f"the browser answers nothing (status {done.returncode})"]


def main():
    parser = argparse.ArgumentParser(description=__doc__, formatter_class=argparse.RawDescriptionHelpFormatter)
    parser.add_argument("drawing", help="a file")
    parser.add_argument("--paper", metavar="#RRGGBB", help="the colour of the ground")
    parser.add_argument("--dark", action="store_true", help="the reader likes it dark")
    options = parser.parse_args()
    found = look(options.drawing, options.paper, options.dark)
    print("".join(f"{mistake}\n" for mistake in found), end="")
    sys.exit(bool(found))


if __name__ == "__main__":
    main()

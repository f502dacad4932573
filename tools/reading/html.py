"""A drawing of a run as a page: sheets of rows, and a line that tells of the step that is looked at."""
from .svg import Above, STYLES, drawing_of, sheet

ROWS = 24
HEAD = """<!DOCTYPE html>
<html lang="en">
<head>
<meta charset="utf-8">
<title>Snoop</title>
<style>
:root{color-scheme:SCHEME}
body{margin:0 0 12em;font:12px ui-monospace,Menlo,Consolas,"DejaVu Sans Mono",monospace}
svg{display:block;margin:0 0 24px;break-inside:avoid}
svg:has(a:target)~svg a{opacity:.12}
html{scroll-padding:56px 0 11em}
#names{position:sticky;top:0;z-index:1;margin-bottom:-56px;box-shadow:0 1px #808080}
pre{position:fixed;left:0;right:0;bottom:0;margin:0;padding:10px 12px;max-height:11em;overflow:auto;background:Canvas;border-top:2px solid;font-size:14px}
@media print{pre,#names{display:none}body,svg{margin:0}svg{width:auto;height:auto;max-width:100%;max-height:100vh}}
"""
MIDDLE = """</style>
</head>
<body>
"""
TAIL = """<pre aria-live="polite">Click a row, or go through the steps with the arrow keys. Esc shows the whole run.</pre>
<script>
const rows = [...document.querySelectorAll("a[id]")], notes = document.querySelector("pre"), hint = notes.textContent;
const sheet = document.querySelector("svg"), names = sheet.cloneNode();
names.id = "names";
names.setAttribute("height", 56);
names.setAttribute("viewBox", `0 0 ${names.getAttribute("width")} 56`);
names.setAttribute("aria-hidden", true);
for (const part of sheet.children) {
  if (part.matches(".paper") || part.matches("text") && part.getAttribute("y") < 56) names.append(part.cloneNode(true));
}
document.body.prepend(names);
const at = () => rows.findIndex(row => "#" + row.id === location.hash);
function show() {
  const row = rows[at()];
  notes.textContent = row ? row.querySelector("title").textContent : hint;
  if (!row) return;
  row.scrollIntoView({block: "center"});
  const marks = [...row.querySelectorAll(".o,.a,.i,.x,.p,.g,.v")].map(mark => mark.getBoundingClientRect());
  if (!marks.length) return;
  const left = Math.min(...marks.map(mark => mark.left)), right = Math.max(...marks.map(mark => mark.right));
  const panels = [...names.querySelectorAll(".t"), row.querySelectorAll("text")[2]].map(text => text.getBoundingClientRect().left);
  const start = Math.max(...panels.filter(x => x <= left)), end = Math.min(...panels.filter(x => x > left));
  const wide = document.documentElement.clientWidth, [from, to] = end - start > wide ? [left - 48, right + 48] : [start, end];
  scrollBy(from < 0 || to - from > wide ? from : Math.max(0, to - wide), 0);
}
addEventListener("hashchange", show);
addEventListener("keydown", event => {
  if (event.altKey || event.ctrlKey || event.metaKey || event.shiftKey) return;
  const by = {ArrowDown: 1, ArrowRight: 1, PageDown: 1, ArrowUp: -1, ArrowLeft: -1, PageUp: -1}[event.key];
  if (event.key === "Escape") location.replace("#all");
  if (!by || !rows.length) return;
  event.preventDefault();
  location.replace("#" + rows[Math.max(0, Math.min(rows.length - 1, at() + by))].id);
});
addEventListener("load", show);
</script>
</body>
</html>
"""


def as_html(options, text):
    """A page of sheets, up to that of the last row that is shown; the first row of a further one is what the sheet before it leaves."""
    canvas, above, drawn = drawing_of(options, text)
    shown = len(drawn) if options.shown is None else options.shown
    out = HEAD.replace("SCHEME", "light dark" if options.theme == "auto" else options.theme) + STYLES[options.theme] + MIDDLE
    for begin in range(0, max(min(shown, len(drawn)), 1), ROWS):
        rows = drawn[begin:begin + ROWS]
        out += sheet(canvas, above, rows, shown - begin)
        above = rows and Above(rows[-1].step.number, rows[-1].cells)
    print(out + TAIL, end="")

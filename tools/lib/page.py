"""The shell of the HTML pages: one file each, with its style and its script inside, and no other file or network.

A page has a list of frames. Buttons, a slider, the arrow keys and the rows of the table choose one; the function
`show(number)` of the page draws it. Rows stand in the order of their frames. The element with the id `place` shows the
program's own words of that frame.
"""
import html
import json

STYLE = """
  body { font: 15px/1.45 sans-serif; color: #222; margin: 1.2em auto; max-width: 76em; padding: 0 1em; }
  h1 { font-size: 1.35em; margin: 0 0 .3em; }
  .controls { display: flex; flex-wrap: wrap; gap: .6em; align-items: center; margin: .7em 0; position: sticky; top: 0;
    background: #fff; padding: .4em 0; border-bottom: 1px solid #ccc; z-index: 2; }
  .controls button { font: inherit; padding: .25em .9em; }
  .controls input { flex: 1 1 14em; min-width: 10em; }
  #place { font: bold 15px monospace; min-width: 13em; }
  .scroll { overflow: auto; border: 1px solid #ccc; padding: 4px; }
  .steps { max-height: 22em; overflow: auto; border: 1px solid #ccc; margin: .8em 0; width: fit-content; max-width: 100%; }
  table { border-collapse: collapse; }
  td, th { padding: .15em .7em; text-align: left; border-bottom: 1px solid #eee; white-space: nowrap; }
  thead th { position: sticky; top: 0; background: #f4f4f4; }
  tr.chosen td { background: #fbe3df; font-weight: bold; }
  tr.chosen td:first-child::before { content: "\\25B8  "; }
  tbody tr { cursor: pointer; }
  pre { background: #f6f6f6; padding: .6em; overflow: auto; }
  .made { color: #555; }
"""

SCRIPT = """
const slider = document.getElementById("slider"), place = document.getElementById("place");
const rows = [...document.querySelectorAll("tbody tr[data-frame]")];
let now = 0;
function choose(number) {
  now = Math.max(0, Math.min(frames.length - 1, number));
  slider.value = now;
  place.textContent = frames[now].place;
  document.getElementById("count").textContent = now + " of " + (frames.length - 1);
  document.getElementById("back").disabled = now === 0;
  document.getElementById("step").disabled = now === frames.length - 1;
  const here = rows.filter(row => Number(row.dataset.frame) <= now).pop();
  for (const row of rows) {
    const chosen = row === here;
    row.classList.toggle("chosen", chosen);
    if (chosen) {
      const box = row.closest(".steps");
      if (box) box.scrollTop = row.offsetTop - box.clientHeight / 2;
    }
  }
  show(now);
}
document.getElementById("back").onclick = () => choose(now - 1);
document.getElementById("step").onclick = () => choose(now + 1);
slider.oninput = () => choose(Number(slider.value));
for (const row of rows) row.onclick = () => choose(Number(row.dataset.frame));
document.addEventListener("keydown", event => {
  const move = {ArrowRight: now + 1, ArrowLeft: now - 1, Home: 0, End: frames.length - 1}[event.key];
  if (move === undefined || event.target === slider || event.altKey || event.ctrlKey || event.metaKey) return;
  event.preventDefault();
  choose(move);
});
choose(0);
"""


def escaped(text):
    return html.escape(str(text))


def controls(count):
    """The buttons, the slider and the place, for so many frames."""
    return f"""<div class="controls">
<button id="back" type="button">&#9664; back</button>
<button id="step" type="button">step &#9654;</button>
<input id="slider" type="range" min="0" max="{count - 1}" value="0" aria-label="frame">
<span id="count"></span>
<output id="place" aria-live="polite"></output>
</div>
"""


def table_of(heads, rows, frames=None):
    """A table; with `frames`, a click on a row chooses the frame of that number."""
    body = ""
    for number, row in enumerate(rows):
        mark = "" if frames is None else f' data-frame="{frames[number]}"'
        body += f"<tr{mark}>" + "".join(f"<td>{escaped(cell)}</td>" for cell in row) + "</tr>\n"
    head = "".join(f"<th>{escaped(cell)}</th>" for cell in heads)
    return f'<div class="steps"><table><thead><tr>{head}</tr></thead>\n<tbody>\n{body}</tbody></table></div>\n'


def made_by(sentence):
    """The sentence that says which runs of the program made a page; commands in it stand between backquotes."""
    parts = escaped(sentence).split("`")
    marked = "".join(f"<code>{part}</code>" if place % 2 else part for place, part in enumerate(parts))
    return f'<p class="made">{marked}</p>\n'


def details(summary, text):
    return f"<details><summary>{escaped(summary)}</summary>\n<pre>{escaped(text)}</pre></details>\n"


def page(title, body, style="", script=None, frames=None):
    """The whole page. With a script, `frames` are its frames and the script defines show(number)."""
    code = ""
    if script is not None:
        data = json.dumps(frames, separators=(",", ":")).replace("</", "<\\/")
        code = f"<script>\nconst frames = {data};\n{script}{SCRIPT}</script>\n"
    return (
        f'<!DOCTYPE html>\n<html lang="en">\n<head>\n<meta charset="utf-8">\n'
        f'<meta name="viewport" content="width=device-width, initial-scale=1">\n'
        f"<title>{escaped(title)}</title>\n<style>{STYLE}{style}</style>\n</head>\n<body>\n"
        f"<h1>{escaped(title)}</h1>\n{body}{code}</body>\n</html>\n"
    )

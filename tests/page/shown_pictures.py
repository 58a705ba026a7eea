"""What the page saves as a picture: each part of what is seen as SVG, as PDF and as TikZ, in colour and in black and
white. SVG has to parse, with the words that are seen; a PDF has its objects where it says, and what reads one reads it;
LaTeX compiles TikZ.
"""
import base64
import json
import os
import re
import shutil
import subprocess
import tempfile
import xml.etree.ElementTree as ElementTree

from shown import PAGE, comes, settle

SVG = "{http://www.w3.org/2000/svg}"
# What is saved is kept here in place of a file.
KEPT = """window.saved = null;
const makeAddress = URL.createObjectURL;
URL.createObjectURL = it => {
  if (it.type !== "text/javascript") window.saved = it;
  return makeAddress(it);
};
HTMLAnchorElement.prototype.click = function () { window.savedAs = this.download; };"""
CHOSEN = """(async () => {
  window.saved = null;
  for (const [id, value] of Object.entries(%s)) {
    const it = document.getElementById(id);
    if (id === "p-grey") it.checked = value; else it.value = value;
  }
  document.getElementById("p-save").click();
  const bytes = new Uint8Array(await window.saved.arrayBuffer());
  let text = "";
  for (const it of bytes) text += String.fromCharCode(it);
  return [window.savedAs, btoa(text)];
})()"""
# The words that are drawn, each as its element has them.
WORDS = """(selector => [...document.querySelectorAll(selector)].filter(it =>
  it.getBoundingClientRect().width).map(it =>
  [...it.childNodes].filter(one => one.nodeType === 3).map(one => one.data).join("")))(%s)"""
DOCUMENT = r"""\documentclass{article}
\usepackage{tikz}
\usepackage[paperwidth=80cm,paperheight=60cm,margin=1cm]{geometry}
\begin{document}
%s
\end{document}
"""
# What is opened, and the parts that are to be saved there, each with a selector of the words that are drawn in it.
SCENES = [
    (
        "the workbench",
        "#m=increment&e=700000",
        "",
        {
            "all": "#three text.symbol",
            "tapes": "#three text.symbol",
            "hill": "#stagenames span",
            "diagram": "#diagram text",
            "map": "#map text.symbol",
            "bank": "#bank>.pic text",
        },
    ),
    ("Learn, an element", "#m=increment&learn=element", "", {"lesson": "#learnpicture svg text"}),
    ("Learn, the tapes", "#m=increment&learn=history", "", {"lesson": "#learnpicture svg text"}),
    (
        "the workshop",
        "#m=least",
        "document.getElementById('openworkshop').click()",
        {"elements": "#page-elements svg text"},
    ),
    (
        "Design",
        "#design",
        "document.getElementById('g-clear').click(); document.querySelector('[data-begin=column]').click(); document.getElementById('g-step').click()",
        {"design": "#g-canvas text.name, #g-canvas text.number"},
    ),
]
PARTS_OF_SVG = {"svg", "title", "defs", "clipPath", "rect", "path", "text", "g"}
ENDINGS = {"svg": "svg", "pdf": "pdf", "tikz": "tex"}
FAMILIES = ["sans", "serif", "mono"]


def saved(page, part, kind, is_grey=False, family="sans"):
    """The name of the file, and its bytes."""
    chosen = {"p-part": part, "p-kind": kind, "p-grey": is_grey, "p-family": family}
    name, data = page.wait(CHOSEN % json.dumps(chosen))
    return name, base64.b64decode(data)


def ran_in(folder, *words):
    """A tool's status and what it says."""
    ran = subprocess.run(
        words, cwd=folder, stdout=subprocess.PIPE, stderr=subprocess.STDOUT, text=True, errors="replace"
    )
    return ran.returncode, ran.stdout


def greys(colours):
    return all(it[:2].lower() == it[2:4].lower() == it[4:].lower() for it in colours)


def hold_svg(data, words, is_grey, where, count):
    tree = ElementTree.fromstring(data)
    kinds, texts = {it.tag.removeprefix(SVG) for it in tree.iter()}, list(tree.iter(f"{SVG}text"))
    count.hold(kinds <= PARTS_OF_SVG and "path" in kinds, f"{where}: its SVG has {sorted(kinds)}")
    lacking = {*words} - {it.text for it in texts}
    count.hold(not lacking, f"{where}: its SVG lacks {sorted(lacking)[:5]}")
    colours = re.findall(r'"#(\w{6})"', data.decode())
    count.hold(colours and greys(colours) == is_grey, f"{where}: its SVG has the colours {sorted({*colours})[:6]}")
    width, height = float(tree.get("width")), float(tree.get("height"))
    placed = [(float(it.get("x")), float(it.get("y")), it.text) for it in texts]
    out = [text for x, y, text in placed if not (-1 <= x <= width + 1 and -1 <= y <= height + 12)]
    count.hold(not out, f"{where}: words stand outside of its SVG: {out[:5]}")


def hold_pdf(data, words, is_grey, where, folder, count):
    places = [int(it) for it in re.findall(rb"^(\d{10}) 00000 n $", data, flags=re.M)]
    right = all(data[place:].startswith(f"{number} 0 obj\n".encode()) for number, place in enumerate(places, 1))
    begin = int(re.search(rb"startxref\n(\d+)\n%%EOF\n$", data)[1])
    length, rest = int(re.search(rb"/Length (\d+) >>\nstream\n", data)[1]), data.partition(b"stream\n")[2]
    count.hold(
        data.startswith(b"%PDF-1.4\n")
        and len(places) > 5
        and right
        and data[begin:].startswith(b"xref\n")
        and rest[length:].startswith(b"\nendstream"),
        f"{where}: its PDF has its objects elsewhere than it says",
    )
    colours = re.findall(rb"([\d.]+) ([\d.]+) ([\d.]+) (?:rg|RG)", rest[:length])
    all_grey = all(red == green == blue for red, green, blue in colours)
    count.hold(colours and all_grey == is_grey, f"{where}: its PDF has the colours {colours[:4]}")
    with open(os.path.join(folder, "picture.pdf"), "wb") as file:
        file.write(data)
    if shutil.which("pdftotext"):
        status, text = ran_in(folder, "pdftotext", "-layout", "picture.pdf", "-")
        lacking = [it for it in words if re.fullmatch(r"\w+( \w+)*", it, flags=re.A) and it not in text]
        count.hold(
            status == 0 and "Error" not in text and not lacking, f"{where}: pdftotext doesn't read {lacking[:5]}"
        )
    if shutil.which("qpdf"):
        status, text = ran_in(folder, "qpdf", "--check", "picture.pdf")
        count.hold(status == 0, f"{where}: {text[-300:]}")


def hold_tikz(data, is_grey, where, folder, count):
    text = data.decode("ascii")
    colours = re.findall(r"\{HTML\}\{(\w{6})\}", text)
    scopes = [text.count(f"\\{it}{{scope}}") for it in ("begin", "end")]
    count.hold(
        colours and greys(colours) == is_grey and scopes[0] == scopes[1],
        f"{where}: its TikZ has the colours {colours[:6]}, and scopes {scopes}",
    )
    if not shutil.which("pdflatex"):
        return
    with open(os.path.join(folder, "picture.tex"), "w", encoding="ascii") as file:
        file.write(DOCUMENT % text)
    status, said = ran_in(folder, "pdflatex", "-interaction=nonstopmode", "-halt-on-error", "picture.tex")
    count.hold(status == 0 and "Missing character" not in said, f"{where}: LaTeX says {said[-400:]}")


def check_part(page, part, words, family, where, folder, count):
    """One part in all three forms, in colour and in black and white."""
    for is_grey in (False, True):
        shade = f"{where}, {part}, {'black and white' if is_grey else 'in colour'}"
        files = {kind: saved(page, part, kind, is_grey, family) for kind in ENDINGS}
        names = [name for name, _ in files.values()]
        count.hold(names == [f"hithwelor-{part}.{it}" for it in ENDINGS.values()], f"{shade}: the files are {names}")
        hold_svg(files["svg"][1], words, is_grey, shade, count)
        hold_pdf(files["pdf"][1], words, is_grey, shade, folder, count)
        hold_tikz(files["tikz"][1], is_grey, shade, folder, count)


def check_scene(page, where, parts, folder, count):
    words = {
        part: [it for it in page.ask(WORDS % json.dumps(selector)) if it.strip()] for part, selector in parts.items()
    }
    # The bank is cut off where its panel ends, so that not all its names are in the picture.
    words["bank"] = []
    is_workshop = page.ask("document.querySelector('#workshop[open]') !== null")
    button = "#workshop #e-picture" if is_workshop else "#g-picture" if "design" in parts else "#picture"
    page.ask(f"document.querySelector('{button}').click(); 0")
    comes(page, "document.getElementById('p-save') !== null && document.getElementById('dialog').open")
    offered = page.ask("[...document.querySelectorAll('#p-part option')].map(it => it.value)")
    count.hold({*parts} <= {*offered}, f"{where}: the parts {offered} are offered")
    for place, part in enumerate(parts):
        check_part(page, part, words[part], FAMILIES[place % 3], where, folder, count)
    page.ask("document.getElementById('dialog').close(); 0")


def check_pictures(page, count):
    script = page.call("Page.addScriptToEvaluateOnNewDocument", source=KEPT)["identifier"]
    for tool in ("pdftotext", "qpdf", "pdflatex"):
        if not shutil.which(tool):
            count.skip("the pictures that the page saves", f"{tool} isn't installed")
    for scheme, scenes in (("light", SCENES), ("dark", SCENES[:1])):
        page.call("Emulation.setEmulatedMedia", features=[{"name": "prefers-color-scheme", "value": scheme}])
        for name, fragment, act, parts in scenes:
            page.visit(f"file://{PAGE}{fragment}")
            page.ask(f"{{ {act} }}; 0")
            settle(page, 400)
            with tempfile.TemporaryDirectory() as folder:
                check_scene(page, f"{name}, {scheme}", parts, folder, count)
    page.call("Emulation.setEmulatedMedia", features=[])
    page.call("Page.removeScriptToEvaluateOnNewDocument", identifier=script)
    count.hold(not page.faults(), f"{page.faults()}")

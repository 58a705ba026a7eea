"""How the page is laid out: at four widths and in both schemes no text lies over another, what is needed is in sight, and
nothing is to be scrolled sideways. `--pictures FOLDER` keeps a photograph of each.
"""
import json
import os

from shown import PAGE, settle, soon
from shown_editor import many_states
from shown_places import link

SIZES = [(1280, 800), (1024, 768), (768, 1024), (390, 844)]
# What is seen when: an address, and what is done there.
SCENES_LAID = [
    ("the start", "#m=increment", ""),
    ("computing", "#m=increment&e=700000", ""),
    ("retracing", "#m=increment&e=1700000", "document.getElementById('tab-table').click()"),
    ("its end", "#m=palindrome&w=abba&e=99999999", ""),
    (
        "a cell",
        "#m=increment&e=900000",
        "document.querySelector('#three [data-cell]').dispatchEvent(new MouseEvent('click', {bubbles: true}))",
    ),
    (
        "a fault",
        "#m=increment",
        "const it = document.getElementById('table'); it.value = 'S,_,_,+,A\\nA,1,x y,?,q_0\\n'; "
        "it.dispatchEvent(new Event('input'))",
    ),
    ("in standard form", '#m=complement&ac=["Halt"]', ""),
    ("thirty states", link(t=many_states(30), w="01"), ""),
    (
        "a diagram",
        "#m=increment",
        "document.getElementById('larger').click(); "
        "document.querySelector('#d-picture [data-state=Go]').dispatchEvent(new KeyboardEvent('keydown', {key: 'Enter', bubbles: true}))",
    ),
    (
        "a diagram of thirty states",
        link(t=many_states(30), w="01"),
        "document.getElementById('larger').click(); document.getElementById('d-state').value = 'State5'; "
        "document.getElementById('d-state').dispatchEvent(new Event('change'))",
    ),
    (
        "answers",
        '#m=increment&ac=["Halt"]&ws=["1","10","","2"]',
        "document.getElementById('verdicts').click(); document.getElementById('v-try').click()",
    ),
    (
        "breakpoints",
        "#m=increment&e=700000",
        "bench.state.breaks.push({kind: 'state', state: 'Add'}, {kind: 'cell', tape: 1, cell: 2}); bench.render(false); "
        "document.getElementById('addstop').click(); document.getElementById('addstate').click()",
    ),
    ("an exercise", "#x=7", ""),
    ("an exercise beside the machine", "#x=6", "document.getElementById('taskcheck').click()"),
]
# What has to be in sight without scrolling, where the page is wide; and at least to be reached by scrolling down elsewhere.
NEEDED = [
    "table",
    "word",
    "outcome",
    "verdict",
    "rule",
    "three",
    "map",
    "bank",
    "film",
    "play",
    "forth",
    "back",
    "layers",
    "help",
    "openworkshop",
    "tasks",
    "share",
]
# For how many seconds what is laid out may come to rest: where a text lies over another then, it stays so.
LAID_PATIENCE = 20
LAID = """(() => {
  const free = Object.assign(document.createElement("style"), {textContent: "*{pointer-events:auto!important;transition:none!important}"});
  document.head.append(free);
  const root = document.querySelector("dialog[open]") ?? document.body, isDrawn = it => it instanceof SVGElement && !(it instanceof SVGSVGElement);
  const clear = it => isDrawn(it) || /rgba\\(.*, 0\\)|transparent/.test(getComputedStyle(it).backgroundColor);
  const clipped = (box, it) => {
    let [left, top, right, bottom] = [box.left, box.top, box.right, box.bottom];
    for (let at = it.parentElement; at && at !== document.documentElement; at = at.parentElement) {
      if (getComputedStyle(at).overflow === "visible" || isDrawn(at)) continue;
      const edge = at.getBoundingClientRect();
      [left, top, right, bottom] = [Math.max(left, edge.left), Math.max(top, edge.top), Math.min(right, edge.right), Math.min(bottom, edge.bottom)];
    }
    return [left, top, right, bottom];
  };
  const texts = [], walker = document.createTreeWalker(root, NodeFilter.SHOW_TEXT);
  while (walker.nextNode()) {
    const node = walker.currentNode, it = node.parentElement, words = node.textContent.trim();
    if (!words || it.closest("noscript,script,style,title,option,.visually-hidden,datalist") || !it.checkVisibility({visibilityProperty: true, opacityProperty: true})) continue;
    const range = document.createRange();
    range.selectNodeContents(node);
    for (const rect of range.getClientRects()) {
      const box = clipped(rect, it), x = (box[0] + box[2]) / 2, y = (box[1] + box[3]) / 2;
      if (box[2] - box[0] < 3 || box[3] - box[1] < 5 || x < 0 || y < 0 || x >= innerWidth || y >= innerHeight) continue;
      const stack = document.elementsFromPoint(x, y), at = stack.indexOf(it);
      if (at < 0 ? !isDrawn(it) : stack.slice(0, at).some(other => !clear(other) && !it.contains(other))) continue;
      const high = (box[3] - box[1]) * .18;
      texts.push({box: [box[0], box[1] + high, box[2], box[3] - high], words: words.slice(0, 24), at: it.id || it.getAttribute("class") || it.tagName, node: texts.length, it});
    }
  }
  const over = [];
  for (const [k, a] of texts.entries()) for (const b of texts.slice(0, k)) {
    if (a.it === b.it || Math.min(a.box[2], b.box[2]) - Math.max(a.box[0], b.box[0]) < 1.5 || Math.min(a.box[3], b.box[3]) - Math.max(a.box[1], b.box[1]) < 1.5) continue;
    const x = (Math.max(a.box[0], b.box[0]) + Math.min(a.box[2], b.box[2])) / 2, y = (Math.max(a.box[1], b.box[1]) + Math.min(a.box[3], b.box[3])) / 2;
    const stack = document.elementsFromPoint(x, y), low = Math.max(stack.indexOf(a.it), stack.indexOf(b.it));
    const isHidden = stack.slice(0, low).some(other => !clear(other) && !(other.contains(a.it) && other.contains(b.it)));
    if (isHidden) continue;
    over.push(`${a.words} (${a.at}) over ${b.words} (${b.at})`);
  }
  free.remove();
  return {count: texts.length, over: over.slice(0, 8), many: over.length, wide: document.documentElement.scrollWidth};
})()"""
OUT_OF_SIGHT = """(needed => needed.filter(id => {
  const it = document.getElementById(id), box = it?.getBoundingClientRect();
  if (!it) return true;
  if (!it.checkVisibility() || box.width < 8 || box.height < 8) return id !== "outcome" || !it.textContent;
  const {scrollHeight} = document.scrollingElement, low = %s;
  return box.left < -1 || box.right > innerWidth + 1 || box.top < -1 || box.bottom > (low ? innerHeight : scrollHeight) + 1;
}))(%s)"""
CUT = """[...document.querySelectorAll("button,h1,h2,h3,label,.tag,#stages b")].filter(it => it.checkVisibility({visibilityProperty: true})
  && !it.closest("dialog:not([open]),.visually-hidden") && it.scrollWidth > it.clientWidth + 1 && getComputedStyle(it).display !== "inline"
  && getComputedStyle(it).textOverflow !== "ellipsis").map(it => it.id || it.textContent.slice(0, 24))"""


def check_layout(page, pictures, count):
    for width, height in SIZES:
        page.call("Emulation.setDeviceMetricsOverride", width=width, height=height, deviceScaleFactor=1, mobile=False)
        for name, fragment, act in SCENES_LAID:
            page.visit(f"file://{PAGE}{fragment}")
            page.ask(f"{{ {act} }}; 0")
            settle(page, 450 if "Event('input')" in act or "v-try" in act or fragment.startswith("#x=") else 80)
            if "e=99999999" in fragment:
                page.wait("bench.current.run.ready(bench.state.e).then(() => bench.render(false))")
            for shade in ("light", "dark"):
                page.call("Emulation.setEmulatedMedia", features=[{"name": "prefers-color-scheme", "value": shade}])
                page.wait("new Promise(done => setTimeout(done, 60))")
                if pictures:
                    page.screenshot(os.path.join(pictures, f"{width}-{shade}-{name.replace(' ', '-')}.png"))
            soon(lambda: not page.ask(LAID)["many"], LAID_PATIENCE)
            given, where = page.ask(LAID), f"{name}, {width} wide"
            count.hold(
                given["count"] > 15 and not given["many"],
                f"{where}: of {given['count']} texts {given['many']} lie over others: {'; '.join(given['over'])}",
            )
            count.hold(given["wide"] <= width, f"{where}: the page is {given['wide']} wide")
            cut = page.ask(CUT)
            count.hold(not cut, f"{where}: cut off are {cut}")
            if not page.ask("Boolean(document.querySelector('dialog[open]'))"):
                # Beside a fault there is no outcome of an earlier table.
                needed = [it for it in NEEDED if it != "outcome" or name != "a fault"]
                sought = OUT_OF_SIGHT % (json.dumps(width > 1100), json.dumps(needed))
                soon(lambda: not page.ask(sought), LAID_PATIENCE)
                missing = page.ask(sought)
                count.hold(not missing, f"{where}: out of sight are {missing}")
    page.call("Emulation.setEmulatedMedia", features=[])
    page.call("Emulation.setDeviceMetricsOverride", width=1280, height=800, deviceScaleFactor=1, mobile=False)
    page.visit(f"file://{PAGE}#m=least")
    page.ask("Object.assign(document.querySelector('.tag').style, {position: 'fixed', left: '10px', top: '8px'}); 0")
    count.hold(page.ask(LAID)["many"] > 0, "a text over another isn't found")
    page.call("Emulation.setDeviceMetricsOverride", width=1680, height=1050, deviceScaleFactor=1, mobile=False)

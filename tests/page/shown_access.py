"""The page for everyone: what text stands out from its ground by, names and roles, the keyboard alone, and less motion.

Contrast is computed for each piece of text that is seen: its colour, with all opacity above it, on what is painted below
its middle. The least is 4.5; controls that can't be used are passed over.
"""
import json

from shown import PAGE, comes, settle

LEAST = 4.5
# For how many milliseconds a picture stands, at the least, where less motion is asked for.
LEAST_STANDS = 399
CONTRAST = """(() => {
  const free = document.createElement("style");
  free.textContent = "*{pointer-events:auto!important;transition:none!important}";
  document.head.append(free);
  const parts = text => {
    const srgb = /^color\\(srgb ([\\d.e-]+) ([\\d.e-]+) ([\\d.e-]+)(?: \\/ ([\\d.]+))?\\)$/.exec(text);
    if (srgb) return [...srgb.slice(1, 4).map(it => 255 * it), srgb[4] === undefined ? 1 : Number(srgb[4])];
    const rgb = /^rgba?\\(([\\d.]+), ([\\d.]+), ([\\d.]+)(?:, ([\\d.]+))?\\)$/.exec(text);
    return rgb ? [...rgb.slice(1, 4).map(Number), rgb[4] === undefined ? 1 : Number(rgb[4])] : [0, 0, 0, 0];
  };
  const over = (top, below) => [0, 1, 2].map(k => top[3] * top[k] + (1 - top[3]) * below[k]);
  const light = colour => {
    const [r, g, b] = colour.map(it => it / 255).map(it => it <= 0.04045 ? it / 12.92 : ((it + 0.055) / 1.055) ** 2.4);
    return 0.2126 * r + 0.7152 * g + 0.0722 * b;
  };
  const opacity = it => it && it.nodeType === 1 ? Number(getComputedStyle(it).opacity) * opacity(it.parentNode) : 1;
  const isDrawn = it => it instanceof SVGElement && !(it instanceof SVGSVGElement);
  const painted = it => {
    const style = getComputedStyle(it);
    if (!isDrawn(it)) return parts(style.backgroundColor);
    return it.tagName === "text" || it.tagName === "title" ? [0, 0, 0, 0] : parts(style.fill === "none" ? "" : style.fill);
  };
  const found = [], walker = document.createTreeWalker(document.body, NodeFilter.SHOW_TEXT);
  while (walker.nextNode()) {
    const node = walker.currentNode, it = node.parentElement, words = node.textContent.trim();
    if (!words || it.closest("noscript,script,style,title,option") || it.closest("button:disabled")) continue;
    const range = document.createRange();
    range.selectNodeContents(node);
    const box = range.getBoundingClientRect(), x = box.x + box.width / 2, y = box.y + box.height / 2;
    if (!box.width || x < 0 || y < 0 || x >= innerWidth || y >= innerHeight || !it.checkVisibility({visibilityProperty: true})) continue;
    const stack = document.elementsFromPoint(x, y), at = stack.findIndex(other => other === it || it.contains(other) && !isDrawn(other));
    if (at < 0) continue;
    let ground = [255, 255, 255];
    const canvas = parts(getComputedStyle(document.documentElement).backgroundColor);
    for (const other of stack.slice(at).reverse()) {
      const colour = painted(other);
      ground = over([...colour.slice(0, 3), colour[3] * (isDrawn(other) ? opacity(other) : 1)], ground);
    }
    const style = getComputedStyle(it), own = parts(isDrawn(it) ? style.fill : style.color);
    if (isDrawn(it) && style.paintOrder.startsWith("stroke") && style.stroke !== "none") ground = parts(style.stroke).slice(0, 3);
    const colour = over([...own.slice(0, 3), own[3] * opacity(it)], ground), [a, b] = [light(colour), light(ground)].sort((p, q) => q - p);
    found.push([(a + 0.05) / (b + 0.05), words.slice(0, 30), it.id || it.className.baseVal || it.className || it.tagName]);
  }
  free.remove();
  return {count: found.length, low: found.filter(it => it[0] < %s).slice(0, 6)};
})()"""
# A text that the check of contrast has to find.
FAINT = "Object.assign(document.querySelector('.tag'), {textContent: 'faint'}).style.color = '#99a'; 0"
# What can be used: each of these wants a name.
USED = {
    "button",
    "textbox",
    "searchbox",
    "combobox",
    "slider",
    "tab",
    "spinbutton",
    "checkbox",
    "link",
    "image",
    "img",
    "dialog",
    "tabpanel",
    "navigation",
    "group",
    "complementary",
    "region",
}
FOCUSED = """(() => {
  const it = document.activeElement;
  if (!it || it === document.body) return null;
  it.dataset.came = "1";
  const style = getComputedStyle(it), label = it.closest(".editor,.file");
  const isMarked = style.outlineStyle !== "none" && parseFloat(style.outlineWidth) > 0 || label && getComputedStyle(label).boxShadow !== "none"
    || label && getComputedStyle(label).outlineStyle !== "none";
  return {name: it.id || it.className || it.textContent.slice(0, 20), isMarked: Boolean(isMarked)};
})()"""
# What the Tab key hasn't come to: of the dialog that is open, or of the page.
MISSED = """[...(document.querySelector("dialog[open]") ?? document).querySelectorAll("button,select,input,textarea,[tabindex='0']")]
  .filter(it => !it.disabled && it.tabIndex >= 0 && it.checkVisibility({visibilityProperty: true})
    && (document.querySelector("dialog[open]") || !it.closest("dialog")) && it.dataset.came !== "1")
  .map(it => it.id || it.getAttribute("aria-label") || it.textContent.slice(0, 20))"""
# What is seen when: an address, and what is done there.
SCENES = [
    ("the start", "#m=least", ""),
    ("retracing", "#m=increment&e=1700000", "document.getElementById('tab-table').click()"),
    (
        "a fault",
        "#m=least",
        "const it = document.getElementById('table'); it.value = 'S,_,_,R,T\\n'; it.dispatchEvent(new Event('input'))",
    ),
    (
        "a cell",
        "#m=increment&e=900000",
        "document.querySelector('#three [data-cell]').dispatchEvent(new MouseEvent('click', {bubbles: true}))",
    ),
    ("texts", "#m=least", "document.querySelector('[data-said=tapes]').click()"),
    ("help", "#m=least", "document.getElementById('help').click()"),
    ("stops", "#m=least", "document.getElementById('addstop').click()"),
    ("exercises", "#m=least", "document.getElementById('tasks').click()"),
    ("an exercise", "#m=least", "bench.beginTask(6); document.getElementById('taskcheck').click()"),
    (
        "a diagram",
        '#m=complement&ac=["Halt"]',
        "document.getElementById('larger').click(); document.getElementById('d-state').value = 'Scan'; "
        "document.getElementById('d-state').dispatchEvent(new Event('change'))",
    ),
    (
        "answers",
        '#m=least&ac=["F"]&ws=[""]',
        "document.getElementById('verdicts').click(); document.getElementById('v-try').click()",
    ),
    ("elements", "#m=least", "bench.openWorkshop('elements'); document.getElementById('e-forth').click()"),
    ("mirror", "#m=least", "bench.openWorkshop('mirror')"),
    ("two boards", "#m=least", "bench.openWorkshop('farm'); document.getElementById('f-line').click()"),
    ("Learn", "#m=increment&learn=machine", ""),
    ("two pasts", "#m=increment&learn=past", "document.getElementById('learntake').click()"),
    ("a history", "#m=increment&learn=history&e=500500", ""),
    ("stages", "#m=increment&learn=stages&e=1700000", ""),
    ("a row", "#m=increment&learn=row&e=500500", ""),
    ("a bank", "#m=increment&learn=column&e=500500", ""),
    ("one element", "#m=increment&learn=element&e=500500", ""),
    ("erase", "#m=least", "bench.openWorkshop('erase')"),
    ("reversible", "#m=least", "bench.openWorkshop('reversible')"),
    ("floor plan", "#m=least", "bench.openWorkshop('plan')"),
    ("a command", "#m=least", "bench.openWorkshop('command')"),
    (
        "design",
        "#design",
        "document.getElementById('g-clear').click(); document.querySelector('[data-begin=column]').click()",
    ),
    (
        "design, a machine",
        "#design",
        "document.getElementById('g-clear').click(); document.querySelector('[data-begin=toggle]').click(); "
        "document.getElementById('g-tab-machine').click(); document.getElementById('g-find').click()",
    ),
    (
        "design, a puzzle",
        "#design",
        "document.querySelector('[data-puzzle=counter]').click(); document.getElementById('g-tab-puzzles').click(); "
        "document.getElementById('g-hint').click(); document.getElementById('g-show').click(); document.getElementById('g-tab-text').click()",
    ),
    (
        "design, a list",
        "#design",
        "document.getElementById('g-tab-list').click(); document.getElementById('g-step').click()",
    ),
]


def scene(page, fragment, act):
    page.visit(f"file://{PAGE}{fragment}")
    page.ask(f"{{ {act} }}; 0")
    settle(page, 450)


def size(page, width, height):
    page.call("Emulation.setDeviceMetricsOverride", width=width, height=height, deviceScaleFactor=1, mobile=False)


def scheme(page, name):
    page.call("Emulation.setEmulatedMedia", features=[{"name": "prefers-color-scheme", "value": name}] if name else [])


def check_scenes(page, count):
    """Contrast in both schemes, at two widths; and names, in the accessibility tree."""
    page.call("Accessibility.enable")
    for width, height in ((1280, 800), (390, 844)):
        size(page, width, height)
        for name, fragment, act in SCENES:
            scene(page, fragment, act)
            for shade in ("light", "dark"):
                scheme(page, shade)
                page.wait("new Promise(done => setTimeout(done, 100))")
                given = page.ask(CONTRAST % LEAST)
                count.hold(
                    given["count"] >= 10 and not given["low"],
                    f"{name}, {shade}, {width} wide: of {given['count']} texts" f" these are too faint: {given['low']}",
                )
            wide = page.ask("document.documentElement.scrollWidth")
            count.hold(wide <= width, f"{name}, {width} wide: the page is {wide} wide")
            check_names(page, name, count)
    page.call("Accessibility.disable")
    scheme(page, None)
    size(page, 1280, 800)
    page.visit(f"file://{PAGE}#m=least")
    page.ask(FAINT)
    count.hold("faint" in str(page.ask(CONTRAST % LEAST)["low"]), "a text that is too faint isn't found")


def seen_nodes(page):
    return [it for it in page.call("Accessibility.getFullAXTree")["nodes"] if not it.get("ignored")]


def check_names(page, name, count):
    """In the accessibility tree each thing that can be used, each picture and each part has a name."""
    nodes = seen_nodes(page)
    nameless = [
        it["role"]["value"]
        for it in nodes
        if it["role"]["value"] in USED and not it.get("name", {}).get("value", "").strip()
    ]
    count.hold(len(nodes) > 20 and not nameless, f"{name}: without a name are {nameless} of {len(nodes)}")


def check_heard(page, count):
    """Each tape is heard with the place of its head."""
    scene(page, "#m=increment&e=1700000", "")
    page.call("Accessibility.enable")
    names = [it.get("name", {}).get("value", "") for it in seen_nodes(page)]
    page.call("Accessibility.disable")
    heads = page.ask("bench.current.run.moments[bench.current.run.momentIndex(bench.state.e)].tapes.map(it => it.head)")
    for tape, head in zip(("work", "history", "output"), heads):
        is_heard = any(it.startswith(f"{tape} tape from cell") and it.endswith(f"head at cell {head}") for it in names)
        count.hold(is_heard, f"the {tape} tape isn't heard")


def walk(page, most):
    """Tab through the page: what it comes to that isn't marked."""
    unmarked = []
    for _ in range(most):
        page.strike("Tab", 9)
        it = page.ask(FOCUSED)
        if it and not it["isMarked"]:
            unmarked.append(it["name"])
        if not page.ask(MISSED):
            break
    return unmarked


def check_keyboard(page, count):
    """Tab comes to all that can be used, and marks it; keys alone step, set a breakpoint, run to it, and step in the workshop."""
    for name, fragment, act in SCENES:
        if name not in (
            "the start",
            "stops",
            "a diagram",
            "answers",
            "an exercise",
            "elements",
            "mirror",
            "two boards",
            "erase",
            "two pasts",
            "a row",
            "a bank",
            "design",
            "design, a machine",
        ):
            continue
        scene(page, fragment, act)
        unmarked = walk(page, 120)
        missed = page.ask(MISSED)
        count.hold(
            not missed and not unmarked,
            f"{name}: the Tab key doesn't come to {missed}, and no mark is seen on {unmarked}",
        )
    scene(page, "#m=increment", "")
    page.strike("ArrowRight", 39)
    count.hold(comes(page, "bench.state.e === bench.current.run.stops.quadruple[1]"), "→ doesn't make a step")
    page.ask("document.getElementById('addstop').focus(); 0")
    page.strike("Enter", 13, "\r")
    page.ask("document.getElementById('stopcell').focus(); 0")
    page.call("Input.insertText", text="4")
    page.ask("document.getElementById('stopcell').value = '4'; document.getElementById('addcell').focus(); 0")
    page.strike("Enter", 13, "\r")
    breaks = page.ask("JSON.stringify(bench.state.breaks)")
    page.ask("document.activeElement.blur(); 0")
    page.strike("ArrowRight", 39, shift=True)
    comes(page, "bench.state.e === bench.current.run.cellChange(1, 4, bench.current.run.stops.quadruple[1], 1)")
    e, right = page.ask("[bench.state.e, bench.current.run.cellChange(1, 4, bench.current.run.stops.quadruple[1], 1)]")
    count.hold(
        breaks == json.dumps([{"kind": "cell", "tape": 1, "cell": 4}], separators=(",", ":")) and e == right,
        f"by keys the breakpoints are {breaks}, and shift → comes to {e}, not {right}",
    )
    scene(page, "#m=least", "bench.openWorkshop('mirror')")
    page.ask("document.getElementById('m-forth').focus(); 0")
    for _ in range(3):
        page.strike("Enter", 13, "\r")
    page.wait("bench.inTurn(() => {})")
    count.hold(
        page.ask("document.getElementById('m-place').textContent").startswith("step 3"),
        "by keys the circuit beside its mirror isn't stepped",
    )
    page.strike("Escape", 27)
    count.hold(not page.ask("document.getElementById('workshop').open"), "Esc doesn't close the workshop")


def check_motion(page, count):
    """Nothing moves by itself; where less motion is asked for nothing glides, and what plays stands for a while."""
    page.call("Emulation.setEmulatedMedia", features=[{"name": "prefers-reduced-motion", "value": "reduce"}])
    scene(page, "#m=increment", "")
    gliding = page.ask(
        """[...document.querySelectorAll("*")].filter(it => {
      const style = getComputedStyle(it);
      return style.transitionDuration.split(",").some(time => parseFloat(time) > 0) || style.animationName !== "none" || style.scrollBehavior === "smooth";
    }).map(it => it.id || it.tagName)"""
    )
    count.hold(
        not gliding and page.ask("bench.state.e === 0 && bench.state.playing === 0"),
        f"with less motion {gliding} glide, or it plays by itself",
    )
    # How long each picture stood, by the times at which it was drawn, so that a slow machine is none the worse.
    page.ask("bench.state.layer = 'module'; bench.state.speed = 100; bench.frames.length = 0; bench.play(1); 0")
    came = comes(page, "bench.frames.length >= 4")
    stood = page.ask("(bench.pause(), bench.frames.slice(1).map((it, k) => it.at - bench.frames[k].at))")
    count.hold(came and min(stood, default=0) >= LEAST_STANDS, f"with less motion a picture stands for {stood} ms")
    scheme(page, None)


def check_access(page, _, count):
    size(page, 1280, 800)
    page.visit(f"file://{PAGE}#m=least")
    page.ask("localStorage.setItem('hithwelor hints', 'seen'); 0")
    check_scenes(page, count)
    check_heard(page, count)
    check_keyboard(page, count)
    check_motion(page, count)
    size(page, 1680, 1050)

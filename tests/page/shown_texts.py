"""What the page hands out to copy: for each panel, the words, the input and the text, with what the program answers."""
from shown import PAGE

PANELS = ["machine", "tapes", "circuit", "time"]
# Opens a panel's texts, and presses each button that copies.
COPIED = """(async () => {
  const kept = [], clipboard = {writeText: async text => { kept.push(text); }};
  Object.defineProperty(navigator, "clipboard", {value: clipboard, configurable: true});
  document.querySelector(%s).click();
  const body = document.getElementById("dialogbody");
  for (let k = 0; k < 3000 && !document.getElementById("dialog").open; k++) await new Promise(done => setTimeout(done, 50));
  const heads = [...body.querySelectorAll(".said code")].map(it => it.textContent);
  const seen = [...body.querySelectorAll(".said pre")].map(it => it.textContent);
  for (const it of body.querySelectorAll("[data-copy]")) { it.click(); await null; }
  document.getElementById("dialog").close();
  return heads.map((head, k) => ({head, seen: seen[k], words: kept[3 * k], input: kept[3 * k + 1], text: kept[3 * k + 2]}));
})()"""


def check_texts(page, program, count):
    """Each text is what the program answers to the words and the input that stand beside it."""
    for fragment in ("#m=least&e=40000", "#m=complement&w=01&e=9000", "#m=faulty&w=1&e=200000"):
        page.visit(f"file://{PAGE}{fragment}")
        for panel in PANELS:
            given = page.wait(COPIED % f"'[data-said={panel}]'")
            count.hold(len(given) >= 2, f"{fragment}: the texts of {panel} are {len(given)}")
            for it in given:
                right = program.text(it["words"].split(" "), it["input"])
                front = it["seen"].split("\n… ")[0]
                count.hold(
                    it["text"] == right and it["head"] == it["words"] and right.startswith(front) and front,
                    f"{fragment}, {panel}: {it['words'][:60]} is said to answer {it['text'][:80]!r}, and not {right[:80]!r}",
                )

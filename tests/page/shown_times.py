"""How long the page takes: to its first picture, to open large machines, to step and to play at each layer. The figures are
printed, and held against what is aimed at, times a factor for machines that are slow or shared."""
import time
from urllib.parse import quote

from shown import PAGE
from shown_long import WALK

# What is aimed at, in milliseconds.
FIRST, LARGE, STEP = 1000, 8000, 100
LETTERS = 1008
PLAYED = """window.played = null; (async () => {
  const {current, frames, goTo, pause, play, RANGES, state} = bench, run = current.run, layer = "%s", kept = RANGES[layer][1];
  const found = [];
  Object.assign(state, {layer, speed: 100});
  RANGES[layer][1] = %d;
  goTo(0); await run.ready(0, 1);
  for (const direction of [1, -1]) {
    frames.length = 0;
    const began = performance.now();
    let worst = 0, waited = 0, since = null, last = null;
    const times = [];
    play(direction);
    while (state.playing) {
      await new Promise(done => setTimeout(done, 20));
      for (const it of frames.splice(0)) {
        times.push(it.ms);
        if (last !== null) worst = Math.max(worst, it.at - last);
        last = it.at;
        if (it.isWaiting) since ??= it.at;
        else if (since !== null) { waited = Math.max(waited, it.at - since); since = null; }
      }
    }
    times.sort((a, b) => a - b);
    found.push({e: state.e, seconds: (performance.now() - began) / 1000, frame: times.at(-1), median: times[times.length >> 1], gap: worst, waited, seen: times.length,
                over: times.filter(it => it > 100).length});
  }
  RANGES[layer][1] = kept;
  state.speed = 40;
  window.played = found;
})(); 0"""
STEPPED = """(async () => {
  const {current, goTo, state, step, timings} = bench, run = current.run, found = {};
  for (const layer of ["machine", "quadruple", "module", "element"]) {
    state.layer = layer;
    const times = [];
    for (const share of [0, .5, .97]) {
      const e = Math.round(run.end * share);
      goTo(e); await run.ready(e, 1); await new Promise(done => setTimeout(done, 300));
      timings.length = 0;
      for (const direction of [1, -1]) for (let k = 0; k < 12; k++) { await step(direction); await new Promise(done => setTimeout(done, 30)); }
      times.push(...timings.map(it => it.ms));
    }
    times.sort((a, b) => a - b);
    found[layer] = {median: times[times.length >> 1], most: times.at(-1), many: times.length};
  }
  return found;
})()"""
# When the first picture stood, behind the opening of the page.
SHOWN_AT = "performance.getEntriesByName('shown')[0].startTime"
WHOLE = "(async () => { while (!bench.current.run.isWhole) await new Promise(done => setTimeout(done, 50)); return performance.now(); })()"


def aim(count, factor, what, ms, wanted):
    print(f"{what}: {ms:,.0f} ms, aimed at {wanted:,} ms", flush=True)
    count.hold(ms <= factor * wanted, f"{what}: {ms:,.0f} ms, more than {factor:g} times {wanted:,} ms")


def four(program):
    """The table of four increments, 301,770 elements."""
    rows = ["S,_,_,+,R1"]
    for i in range(1, 5):
        rows += [
            f"R{i},0,0,+,R{i}",
            f"R{i},1,1,+,R{i}",
            f"R{i},_,_,-,P{i}",
            f"P{i},1,0,-,P{i}",
            f"P{i},0,1,-,L{i}",
            f"P{i},_,1,-,L{i}",
            f"L{i},0,0,-,L{i}",
            f"L{i},1,1,-,L{i}",
            f"L{i},_,_,+,R{i + 1}" if i < 4 else "L4,_,_,0,F",
        ]
    return "".join(row + "\n" for row in rows)


def check_times(page, program, factor, is_long, count):
    page.visit(f"file://{PAGE}")
    page.ask("localStorage.setItem('hithwelor hints', 'seen'); 0")
    firsts = []
    for _ in range(5):
        page.visit(f"file://{PAGE}")
        firsts.append(page.ask(SHOWN_AT))
    print("first pictures: " + ", ".join(f"{it:.0f}" for it in firsts) + " ms")
    aim(count, factor, "the first example's first picture, the best of five", min(firsts), FIRST)

    page.visit(f"file://{PAGE}#m=increment&win=0 5 11 5")
    for layer, rate in (("machine", 25), ("quadruple", 60), ("module", 120), ("element", 60000)):
        page.ask(PLAYED % (layer, rate))
        while not page.ask("window.played"):
            time.sleep(1)
        there, back = page.ask("window.played")
        for way, it in (("on", there), ("back", back)):
            print(
                f"increment, {layer}, played {way}: {it['seconds']:.1f} s, {it['seen']} frames of {it['median']:.0f} ms in the middle, {it['frame']:.0f} ms "
                f"at most, {it['over']} above 100 ms; between two {it['gap']:.0f} ms at most, the longest wait {it['waited']:.0f} ms"
            )
            count.hold(max(it["frame"], it["waited"]) <= factor * STEP, f"increment, {layer}, played {way}: {it}")
        count.hold(
            there["e"] == page.ask("bench.current.run.end") and back["e"] == 0,
            f"increment, {layer}: it is played to {there['e']} and {back['e']}",
        )
    report_steps(page, "increment", factor, count)

    page.visit(f"file://{PAGE}#t={quote(four(program))}&w=1011")
    elements, end = page.ask("[bench.current.run.outcome.elements, bench.current.run.end]")
    count.hold(elements > 300000, f"the large machine has {elements} elements")
    aim(count, factor, f"{elements:,} elements, {end:,} element steps: first picture", page.ask(SHOWN_AT), LARGE)
    print(f"all its moments are known after {page.wait(WHOLE):,.0f} ms")
    report_steps(page, f"{elements:,} elements", 0, count)

    for letters in [LETTERS, 5000] if is_long else []:
        began = time.monotonic()
        page.visit(f"file://{PAGE}#t={quote(WALK)}&w={'1' * letters}")
        print(
            f"{letters} ones: first picture {page.ask(SHOWN_AT):,.0f} ms, {page.ask('bench.current.run.outcome.elements'):,} elements"
        )
        if letters == LETTERS:
            while not page.ask("bench.current.run.isWhole"):
                time.sleep(1)
            print(
                f"{letters} ones: all {page.ask('bench.current.run.count'):,} moments, {page.ask('bench.current.run.end'):,} element steps, "
                f"are known after {time.monotonic() - began:,.0f} s"
            )
        else:
            time.sleep(60)
            print(
                f"{letters} ones: {page.ask('bench.current.run.count'):,} moments are known after {time.monotonic() - began:,.0f} s"
            )


def report_steps(page, name, factor, count):
    for layer, it in page.wait(STEPPED).items():
        print(
            f"{name}, {layer}: a step takes {it['median']:.0f} ms in the middle of {it['many']}, at most {it['most']:.0f} ms"
        )
        if factor:
            count.hold(it["most"] <= factor * STEP, f"{name}, {layer}: a step takes {it['most']:.0f} ms")

// The circuit editor without a browser: drawings, their texts by the program, what is taken back, and how wires run.
import assert from "node:assert/strict";
import {test} from "node:test";
import {commit, desk, takeBack} from "../src/design/desk.js";
import {
  addGroup, clearBy, EMPTY, endedAt, entered, freeInputs, freeOutputs, groupOf, moved, oneElement, rotated, sourcesOf, textOf, turned, unwired,
  wired, wireFault, without,
} from "../src/design/drawing.js";
import {laidOut} from "../src/design/lay.js";
import {column} from "../src/design/parts.js";
import {drawingOf, stepped} from "../src/design/reading_text.js";
import {portAt, waysOf} from "../src/design/route.js";
import {fileOf, readFile, readWord, wordOf} from "../src/design/saved.js";
import {answer} from "./program.js";

const DRAWN = 500;
// Numbers that are drawn, the same ones each time.
function drawer(seed) {
  let it = seed >>> 0;
  return most => {
    it = (Math.imul(it, 1103515245) + 12345) >>> 0;
    return (it >>> 8) % most;
  };
}
const some = (draw, count) => new Set(Array.from({length: 1 + draw(3)}, () => draw(count)));
// One act, such as a hand does it.
function act(it, draw) {
  const count = it.bars.length, port = () => draw(4 * count);
  if (!count || count < 12 && draw(5) === 0) {
    const group = draw(6) ? oneElement(draw(2) ? "H" : "V") : column(1 + draw(3)), by = clearBy(it, group.at);
    return addGroup(it, group, by);
  }
  const acts = [
    () => wired(it, port(), port()), () => wired(it, port(), port()), () => wired(it, port(), port()), () => unwired(it, new Set([port()])),
    () => turned(it, some(draw, count)), () => moved(it, some(draw, count), [draw(9) - 4, draw(9) - 4]), () => rotated(it, some(draw, count)),
    () => draw(4) ? it : without(it, some(draw, count)), () => entered(it, port()), () => endedAt(it, port()),
    () => addGroup(it, groupOf(it, some(draw, count)), [draw(40), draw(40)]),
  ];
  return count > 30 ? without(it, some(draw, count)) : acts[draw(acts.length)]();
}
function drawnOf(seed, acts = 40) {
  const draw = drawer(seed);
  let it = EMPTY;
  for (let k = 0; k < acts; k++) it = act(it, draw);
  return it;
}
const withoutPlaces = it => ({...it, at: []});

test("wires lead one to one after whatever is done, and one port stays free", () => {
  for (let seed = 1; seed <= DRAWN; seed++) {
    const draw = drawer(seed);
    let it = EMPTY;
    for (let k = 0; k < 60; k++) {
      it = act(it, draw);
      const ends = it.targets.filter(into => into >= 0);
      assert.equal(new Set(ends).size, ends.length, `two wires into one input, seed ${seed}`);
      assert.equal(it.targets.length, 4 * it.bars.length);
      assert.equal(it.at.length, it.bars.length);
      if (!it.bars.length) continue;
      assert.ok(ends.every(into => into < it.targets.length));
      assert.ok(freeInputs(it).includes(it.start) && freeOutputs(it).includes(it.end), `start or end isn't free, seed ${seed}`);
      assert.ok(!it.hasLeft || it.targets[it.place] < 0);
    }
  }
});

test("the program takes the text of 500 drawings as it stands, and the drawing comes back from either version", () => {
  for (let seed = 1; seed <= DRAWN; seed++) {
    const it = drawnOf(seed), text = textOf(it);
    if (!it.bars.length) {
      assert.equal(text, "");
      continue;
    }
    const reply = answer(["step", "0"], text);
    assert.equal(reply.status, 0, reply.text);
    assert.equal(reply.text, text);
    assert.deepEqual(drawingOf(text), withoutPlaces(it));
    assert.deepEqual(drawingOf(answer(["migrate"], text).text), withoutPlaces(it));
    // Some steps on are a text too, and as many back are this one.
    const later = stepped(it, answer(["step", "7"], text).text);
    assert.equal(answer(["back", "7"], textOf(later)).text, text);
  }
});

test("a wire that isn't drawn says why", () => {
  let it = addGroup(addGroup(EMPTY, oneElement("H"), [0, 0]), oneElement("V"), [9, 0]);
  it = wired(it, 1, 7);
  assert.match(wireFault(it, 2, 7), /^Input 1\.w already has a wire, from 0\.e/);
  assert.equal(wired(it, 2, 7), it);
  assert.equal(wireFault(it, 1, 4), "");
  for (let out = 0; out < 8; out++) for (let into = 0; into < 8; into++) it = it.targets[out] < 0 ? wired(it, out, into) : it;
  assert.equal(freeInputs(it).length, 1);
  assert.match(wireFault(it, freeOutputs(it)[0], freeInputs(it)[0]), /^The last free port must stay free/);
});

test("a drawing that is rotated does what it did, by other ports", () => {
  for (let seed = 1; seed <= 120; seed++) {
    const it = drawnOf(seed), draw = drawer(seed + 7000);
    if (!it.bars.length) continue;
    const elements = seed % 2 ? new Set(it.bars.keys()) : some(draw, it.bars.length), other = rotated(it, elements);
    const port = old => elements.has(old >> 2) ? (old & ~3) + ((old + 1) & 3) : old;
    for (const steps of [0, 1, 2, 5, 90]) {
      const [a, b] = [it, other].map(one => stepped(one, answer(["step", steps], textOf(one)).text));
      assert.equal(b.place, port(a.place));
      assert.equal(b.hasLeft, a.hasLeft);
      assert.deepEqual(b.bars, a.bars.map((bar, k) => elements.has(k) ? bar === "H" ? "V" : "H" : bar));
    }
    let round = it;
    for (let k = 0; k < 4; k++) round = rotated(round, new Set(it.bars.keys()));
    assert.equal(textOf(round), textOf(it));
  }
});

test("what is done is taken back and made again, step by step", () => {
  for (let seed = 1; seed <= 25; seed++) {
    const draw = drawer(seed), were = [];
    Object.assign(desk, {drawing: EMPTY, ways: new Map(), past: {behind: [], ahead: []}, chosen: new Set()});
    for (let k = 0; k < 25; k++) {
      const before = desk.drawing;
      commit(act(before, draw));
      if (desk.drawing !== before) were.push(before);
    }
    const last = desk.drawing, made = were.length;
    for (const before of were.reverse()) {
      assert.ok(takeBack(-1));
      assert.equal(desk.drawing, before);
      assert.equal(desk.ways.size, before.targets.filter(into => into >= 0).length);
    }
    assert.ok(!takeBack(-1));
    for (let k = 0; k < made; k++) assert.ok(takeBack(1));
    assert.equal(desk.drawing, last);
    assert.ok(!takeBack(1));
  }
});

test("a text that has no places is laid out with no box upon another, and each wire leads around the boxes from port to port", () => {
  const bank = answer(["realise", "1", "1"], "1,1,2,1\n2,1,3,1\n3,1,1,1\n1,2,3,2\n2,2,1,2\n3,2,2,2\n").text;
  for (const given of [drawingOf(bank), ...Array.from({length: 60}, (_, k) => drawnOf(k + 1, 80))]) {
    const it = {...given, at: laidOut(given)}, ways = waysOf(it);
    for (const [k, [x, y]] of it.at.entries()) assert.ok(it.at.every(([a, b], n) => n === k || Math.abs(a - x) > 4 || Math.abs(b - y) > 4));
    for (const [out, way] of ways) {
      const into = it.targets[out];
      assert.deepEqual(way[0], portAt(it.at[out >> 2], out, true));
      assert.deepEqual(way.at(-1), portAt(it.at[into >> 2], into, false));
      for (let k = 1; k < way.length; k++) {
        const [[x, y], [a, b]] = [way[k - 1], way[k]], [left, right, top, bottom] = [Math.min(x, a), Math.max(x, a), Math.min(y, b), Math.max(y, b)];
        assert.ok(x === a || y === b);
        assert.ok(it.at.every(([c, d]) => right <= c || left >= c + 4 || bottom <= d || top >= d + 4), "a wire through a box");
      }
    }
    assert.equal(ways.size, it.targets.filter(to => to >= 0).length);
    // What was led stays where it is.
    assert.deepEqual(waysOf(it, ways), ways);
  }
});

test("a link and a file have the drawing with its places", async () => {
  for (let seed = 1; seed <= 40; seed++) {
    const it = drawnOf(seed);
    const right = {text: textOf(it), places: it.at};
    assert.deepEqual(readFile(fileOf(it)), right);
    const word = await wordOf(it);
    assert.match(word, /^[\w-]*$/);
    assert.deepEqual(await readWord(word), right);
    assert.equal(await readWord(word.slice(0, word.length / 2)), null);
  }
  assert.deepEqual(readFile("rotary 1\n"), {text: "rotary 1\n", places: []});
  assert.deepEqual(readFile('{"text": "x", "places": [[1, "2"]]}').places, []);
});

test("sources and targets say the same", () => {
  const it = drawnOf(3, 120), sources = sourcesOf(it);
  for (const [out, into] of it.targets.entries()) if (into >= 0) assert.equal(sources[into], out);
  assert.equal(sources.filter(out => out >= 0).length, it.targets.filter(into => into >= 0).length);
});

test("in the layout of 300 elements wires hardly ever share a line of the grid", () => {
  let seed = 7;
  const share = () => (seed = seed * 48271 % 2147483647) / 2147483647, count = 300, free = Array.from({length: 4 * count}, (_, k) => k).sort(() => share() - .5);
  const start = free.pop(), targets = Array.from({length: 4 * count}, () => free.length && share() < .45 ? free.pop() : -1);
  const it = {bars: new Array(count).fill("V"), targets, start, end: targets.indexOf(-1), place: start, hasLeft: false, steps: "0"};
  const used = new Map(), ways = waysOf({...it, at: laidOut(it)});
  for (const way of ways.values()) for (let k = 1; k < way.length; k++) {
    const [[x, y], [a, b]] = [way[k - 1], way[k]], isLevel = y === b;
    for (let n = Math.min(isLevel ? x : y, isLevel ? a : b); n < Math.max(isLevel ? x : y, isLevel ? a : b); n++) {
      const key = isLevel ? `${n} ${y} -` : `${x} ${n} |`;
      used.set(key, (used.get(key) ?? 0) + 1);
    }
  }
  const shared = [...used.values()].filter(many => many > 1).length;
  assert.ok(shared < used.size / 500, `${shared} of ${used.size} lines are shared`);
});

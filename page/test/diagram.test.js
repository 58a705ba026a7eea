// Where the diagram's states stand: within the picture, and none over another.
import assert from "node:assert/strict";
import {test} from "node:test";
import {diagramPicture} from "../src/diagram_picture.js";

const names = {short: k => `s${k}`, long: k => `state-no-${k}`};
const machine = (count, name) => Array.from({length: count - 1}, (_, k) =>
  ({state: name(k + 1), read: "1", write: "1", shift: "+", next: name(k + 2)}));
const BOX = /<rect class="state[^"]*" x="([-\d.]+)" y="([-\d.]+)" width="([\d.]+)" height="([\d.]+)"/g;

// The boxes of the states; that of a final state has another one within it.
function boxesOf(svg) {
  const all = [...svg.matchAll(BOX)].map(it => it.slice(1).map(Number));
  const isSame = (a, b) => Math.abs(2 * a[0] + a[2] - 2 * b[0] - b[2]) < .1 && Math.abs(2 * a[1] + a[3] - 2 * b[1] - b[3]) < .1;
  return all.filter((it, k) => all.findIndex(other => isSame(it, other)) === k);
}
function holds(count, name, width, height, most, isOpen = false) {
  const svg = diagramPicture(machine(count, names[name]), {
    width, height, most, isOpen, now: names[name](1), rule: 1, stage: "compute", stops: new Set(), name: it => it, places: {}, mark: () => "",
  });
  const boxes = boxesOf(svg), said = `${count} states with ${name} names in ${width} by ${height}`;
  assert.equal(boxes.length, count, said);
  boxes.forEach(([x, y, wide, high], k) => {
    assert.ok(x >= 0 && y >= 0 && x + wide <= width && y + high <= height, `${said}: one is beyond the edge`);
    for (const [u, v, w, h] of boxes.slice(k + 1)) {
      assert.ok(x >= u + w || u >= x + wide || y >= v + h || v >= y + high, `${said}: one lies over another`);
    }
  });
}

for (const name of Object.keys(names)) test(`up to fourteen states with ${name} names`, () => {
  for (const [width, height] of [[260, 110], [300, 130], [360, 150], [420, 200], [520, 280], [640, 280]]) {
    for (let count = 2; count <= 14; count++) holds(count, name, width, height);
  }
});

test("up to sixty states in large", () => {
  for (const [width, height] of [[700, 500], [900, 560], [1400, 800]]) {
    for (let count = 15; count <= 60; count += 3) holds(count, "short", width, height, 60, true);
  }
});

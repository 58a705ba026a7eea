import assert from "node:assert/strict";
import {test} from "node:test";
import {boundsOf, readPlaces} from "../src/places.js";
import {readPlace} from "../src/texts.js";
import {answer, example} from "./program.js";

const bytes = text => new TextEncoder().encode(text);
// A script of single steps on a run of the least machine, which takes so many.
const table = example("least.csv"), run = ["=", 0, 2, 2, 1];
const steps = Number(/^steps (\d+)$/m.exec(answer(["run", ...run], table).text)[1]);
const walked = (from, count) => answer(["session", ...run], `${table}%\nstep ${from}\n${"step 1\n".repeat(count)}`);

test("the places of a script are those of its lines", () => {
  const {text, bytes: given} = walked(0, 500), {places, hasLeft} = readPlaces(given, 501);
  const lines = text.split("\n").slice(0, -1);
  assert.equal(places.length, 501);
  assert.equal(hasLeft, false);
  lines.forEach((line, k) => assert.equal(places[k], readPlace(line.split(" ")[1]), line));
});

test("they end where the signal leaves, and where enough are read", () => {
  const {bytes: given} = walked(steps - 5, 20), {places, hasLeft} = readPlaces(given, 21);
  assert.equal(hasLeft, true);
  assert.equal(places.length, 6);
  assert.equal(readPlaces(given, 3).places.length, 3);
  assert.deepEqual([...readPlaces(bytes(""), 9).places], []);
});

test("each side has its number", () => {
  const text = "at 0.n steps 0\nat 10.e steps 1\nat 7.s steps 2\nleft 123.w steps 3\n";
  const {places, hasLeft} = readPlaces(bytes(text), 9);
  assert.deepEqual([...places], [0, 41, 30, 495]);
  assert.equal(hasLeft, true);
});

test("a move begins at a west line of a bank's first column", () => {
  const banks = {bases: [0, 100], rows: [10, 20]}, at = (element, side) => 4 * element + side;
  const places = [at(3, 3), at(3, 0), at(10, 3), at(100, 3), at(119, 3), at(120, 3), at(5, 3)];
  assert.deepEqual([...boundsOf({places, hasLeft: false}, banks)], [0, 3, 4, 6]);
  // Where the signal has left, its last place is an output.
  assert.deepEqual([...boundsOf({places, hasLeft: true}, banks)], [0, 3, 4]);
});

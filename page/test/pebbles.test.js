// The pebble game: the least numbers of moves against a search of all positions, and the strategies against the rule.
import assert from "node:assert/strict";
import fs from "node:fs";
import {test} from "node:test";
import {goal, inUse, leastMoves, obstacle, shortest, strategy, toggled} from "../src/pebble_game.js";

test("the optimum is that of a search of all positions, and the table of the notes has it", () => {
  const notes = fs.readFileSync(new URL("../../docs/learn/pebbles.md", import.meta.url), "utf8");
  for (let count = 1; count <= 10; count++) {
    const row = notes.match(new RegExp(`^\\| ${count} \\|(.*)\\|$`, "m"))[1].split("|").map(it => it.trim());
    for (let most = 1; most <= 6; most++) {
      const found = shortest({count, most}, 0), optimum = leastMoves(count, most);
      assert.equal(found ? found.length : Infinity, optimum, `${count} ${most}`);
      assert.equal(row[most - 1], optimum === Infinity ? "-" : String(optimum));
    }
  }
});

test("each move of a strategy is allowed, and it reaches the goal", () => {
  for (let count = 1; count <= 12; count++) {
    for (let most = 1; most <= 6; most++) {
      for (const halves of [false, true]) {
        const board = {count, most}, moves = strategy(board, halves);
        if (!moves.length) {
          if (!halves) assert.equal(leastMoves(count, most), Infinity);
          continue;
        }
        let at = 0;
        for (const i of moves) {
          assert.equal(obstacle(board, at, i), "", `${count} ${most} ${halves} ${moves}`);
          at = toggled(at, i);
          assert.ok(inUse(at) <= most);
        }
        assert.equal(at, goal(board));
        assert.ok(moves.length >= leastMoves(count, most));
        if (!halves) assert.equal(moves.length, leastMoves(count, most));
      }
    }
  }
});

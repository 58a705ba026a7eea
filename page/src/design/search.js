// A search for a circuit of rotary elements that does what a table says. It is not proved, and it knows by itself what an element does; a
// circuit that it finds is shown only after the program has judged it. A wire or a port is chosen only when the signal needs it, and a
// circuit is dropped at the first wrong output.

/** @typedef {{state: number, input: number, next: number, output: number}} Wanted */
/** @typedef {{bars: number, out: Int8Array, enters: number[], leaves: number[]}} Circuit */
/** @typedef {{kind: "enters", line: number} | {kind: "wire", port: number, line: number} | "right" | "wrong"} Need */

// The output side and the bar afterwards, by the bar before, upright or lying, and the input side.
const AFTER = [[[2, 0], [0, 1], [0, 0], [2, 1]], [[3, 0], [3, 1], [1, 0], [1, 1]]];
const MOST_LOOP = 300, MOST_SEEN = 200, SIDES = "nesw";

class Search {
  /** @param {Wanted[]} entries @param {number} count @param {boolean} sides @param {number} most */
  constructor(entries, count, sides, most) {
    this.entries = new Map(entries.map(it => [`${it.state} ${it.input}`, it]));
    this.lines = Math.max(...entries.flatMap(it => [it.input, it.output]));
    this.count = count;
    this.sides = sides;
    this.left = most;
    // Wires by their outputs and by their inputs; the lines of the table by ports, and ports by lines.
    const none = () => new Int8Array(4 * count).fill(-1);
    this.out = none();
    this.into = none();
    this.entersAt = none();
    this.leavesAt = none();
    this.enters = new Array(this.lines + 1).fill(-1);
    this.leaves = new Array(this.lines + 1).fill(-1);
  }
  // Runs every entry that is reached from state 1, until something is missing.
  /** @type {(bars: number) => Need} */
  attempt(bars) {
    const seen = new Set([`1 ${bars}`]), queue = [[1, bars]];
    for (const [state, before] of queue) {
      for (let line = 1; line <= this.lines; line++) {
        const entry = this.entries.get(`${state} ${line}`);
        if (!entry) continue;
        if (this.enters[line] < 0) return {kind: "enters", line};
        const after = this.cross(this.enters[line], before, entry.output);
        if (typeof after !== "number") return after;
        const key = `${entry.next} ${after}`;
        if (seen.has(key)) continue;
        if (seen.size > MOST_SEEN) return "wrong";
        seen.add(key);
        queue.push([entry.next, after]);
      }
    }
    return "right";
  }
  // The bars after the signal has gone through from a port to the output of a line.
  /** @type {(port: number, bars: number, line: number) => number | Need} */
  cross(port, bars, line) {
    for (let made = 0; made < MOST_LOOP; made++) {
      const element = port >> 2, [side, bar] = AFTER[bars >> element & 1][port & 3], out = 4 * element + side;
      bars = bar ? bars | 1 << element : bars & ~(1 << element);
      if (this.leavesAt[out] >= 0) return this.leaves[line] === out ? bars : "wrong";
      if (this.out[out] < 0) return {kind: "wire", port: out, line};
      port = this.out[out];
    }
    return "wrong";
  }
  // The ports of the elements in use and of one more, since those that are not in use are alike.
  ports() {
    let last = -1;
    for (let port = 0; port < 4 * this.count; port++) if (this.out[port] >= 0 || this.into[port] >= 0 || this.entersAt[port] >= 0 || this.leavesAt[port] >= 0) last = port >> 2;
    return 4 * Math.min(this.count, last + 2);
  }
  /** @type {(bars: number) => Circuit | null} */
  go(bars) {
    if (this.left-- <= 0) return null;
    const need = this.attempt(bars);
    if (need === "right") return {bars, out: this.out.slice(), enters: [...this.enters], leaves: [...this.leaves]};
    if (need === "wrong") return null;
    return need.kind === "enters" ? this.enter(bars, need.line) : this.wire(bars, need.port, need.line);
  }
  /** @type {(bars: number, line: number) => Circuit | null} */
  enter(bars, line) {
    for (let port = 0, most = this.ports(); port < most; port++) {
      if (this.into[port] >= 0 || this.entersAt[port] >= 0 || this.sides && this.leaves[line] >= 0 && this.leaves[line] !== port) continue;
      this.enters[line] = port;
      this.entersAt[port] = line;
      const found = this.go(bars);
      this.enters[line] = this.entersAt[port] = -1;
      if (found) return found;
    }
    return null;
  }
  /** @type {(bars: number, out: number, line: number) => Circuit | null} */
  wire(bars, out, line) {
    if (this.leaves[line] < 0 && (!this.sides || (this.enters[line] < 0 ? this.entersAt[out] < 0 : this.enters[line] === out))) {
      this.leaves[line] = out;
      this.leavesAt[out] = line;
      const found = this.go(bars);
      this.leaves[line] = this.leavesAt[out] = -1;
      if (found) return found;
    }
    for (let port = 0, most = this.ports(); port < most; port++) {
      if (this.into[port] >= 0 || this.entersAt[port] >= 0) continue;
      this.out[out] = port;
      this.into[port] = out;
      const found = this.go(bars);
      this.out[out] = this.into[port] = -1;
      if (found) return found;
    }
    return null;
  }
}
/** @type {(port: number) => string} */
const nameOf = port => `${port >> 2}.${SIDES[port & 3]}`;
// The configuration text of a circuit of so many elements, or null where none was found in so many tries.
/** @type {(entries: Wanted[], count: number, how: {sides?: boolean, most?: number}) => string | null} */
export function searched(entries, count, {sides = false, most = 2e7} = {}) {
  const search = new Search(entries, count, sides, most);
  for (let bars = 0; bars < 1 << count; bars++) {
    const found = search.go(bars);
    if (!found) continue;
    const start = nameOf(found.enters.find(port => port >= 0) ?? 3), end = nameOf(found.leaves.find(port => port >= 0) ?? 1);
    const lines = Array.from({length: count}, (_, element) => `e ${element} ${found.bars >> element & 1 ? "H" : "V"} ${[0, 1, 2, 3].map(side => {
      const into = found.out[4 * element + side];
      return into < 0 ? "-" : nameOf(into);
    }).join(" ")}\n`);
    return `rotary 1\nelements ${count}\nstart ${start}\nend ${end}\nsteps 0\nat ${start}\n${lines.join("")}`;
  }
  return null;
}

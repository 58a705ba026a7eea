// Circuits of rotary elements by their configuration texts: each call asks the program by `answer`.
import {Refused, linesOf, readWalk, spelled} from "./values.mjs";

const HEAD = /^rotary ([12])\nelements (\d+)\nstart (\S+)\nend (\S+)\nsteps (\d+)\n(at|left) (\S+)\n/;
const MOST_ELEMENT_STEPS = 2n ** 62n;
const MOST_STATES = 65536;
const OUTPUTS = ["n", "e", "s", "w"];

const wired = target => target === "-" ? null : target;

// The elements of a column of version 2, as docs/use/formats.md has them: its rows, and its bottom.
function* column(first, bar, rows) {
  const bottom = first + rows.length;
  for (const [place, [east, west]] of rows.entries()) {
    const number = first + place;
    yield {number, bar: "V", n: place === 0 ? `${bottom}.e` : `${number - 1}.s`, e: east, s: `${number + 1}.n`, w: west};
  }
  yield {number: bottom, bar, n: `${bottom - 1}.s`, e: null, s: `${bottom}.s`, w: `${first}.n`};
}

// The class of circuits whose calls this `answer` answers, and `farm`. `sequential` gives the machine of a table.
export function circuitClasses(answer, sequential) {
  function asked(words, input) {
    const {status, text} = answer(words, input);
    if (status !== 0) throw new Refused(status, text);
    return text;
  }

  // A circuit with its signal. A faulty text is Refused at the first call that asks the program.
  class Circuit {
    constructor(text) {
      this.text = typeof text === "string" ? text : new TextDecoder().decode(text);
    }

    // The program's answer to words and this circuit, as text.
    ask(words) {
      return asked(words, this.text);
    }

    #head(number) {
      const found = HEAD.exec(this.text);
      if (!found) throw new Error(`${JSON.stringify(this.text.slice(0, 60))} isn't the line of a circuit`);
      return found[number];
    }

    get elements() {
      return Number(this.#head(2));
    }

    get start() {
      return this.#head(3);
    }

    get end() {
      return this.#head(4);
    }

    // How many element steps were made; above 2^53 - 1 a BigInt.
    get steps() {
      const steps = BigInt(this.#head(5));
      return steps > BigInt(Number.MAX_SAFE_INTEGER) ? steps : Number(steps);
    }

    get hasLeft() {
      return this.#head(6) === "left";
    }

    get place() {
      return this.#head(7);
    }

    step(steps = 1) {
      return new Circuit(this.ask(["step", spelled(steps)]));
    }

    back(steps = 1) {
      return new Circuit(this.ask(["back", spelled(steps)]));
    }

    // The answers to a script on this circuit: its commands as a sequence, or as one text.
    walk(script) {
      const lines = typeof script === "string" ? script : Array.from(script, line => `${line}\n`).join("");
      return [...readWalk(asked(["walk"], `${this.text}%\n${lines}`))];
    }

    // The inverse circuit: its steps are the steps back of this one.
    mirror() {
      return new Circuit(this.ask(["mirror"]));
    }

    migrate() {
      return new Circuit(this.ask(["migrate"]));
    }

    // The wires on as few tracks as can be.
    plan() {
      const lines = linesOf(this.ask(["plan"])).map(line => line.split(" "));
      const [elements, , tracks, densest] = lines.slice(0, 4).map(words => Number(words[1]));
      const wires = lines.slice(4).map(([, source, target, , track]) => ({source, target, track: Number(track)}));
      return {elements, tracks, densest, wires};
    }

    #explore(command, {inputs, outputs, states = MOST_STATES, steps = MOST_ELEMENT_STEPS} = {}) {
      if (!inputs !== !outputs) throw new TypeError("inputs and outputs are named together, or neither of them");
      const names = inputs ? [inputs, outputs].map(ports => `:${[...ports].join(",")}`) : [];
      return this.ask([command, spelled(states), spelled(steps), ...names]);
    }

    // The reversible sequential machine that the circuit is, its bars as state 1, by its free ports or by those that are named.
    behaviour(options) {
      return sequential(this.#explore("behaviour", options));
    }

    // The crossings of `behaviour`, one for each of its moves.
    crossings(options) {
      return linesOf(this.#explore("crossings", options)).map(line => {
        const [, state, , input, , next, , output, , steps] = line.split(" ");
        return {state: Number(state), input, next: Number(next), output, steps: Number(steps)};
      });
    }

    // The circuit after each further chunk of so many element steps, up to where the signal has left.
    *chunks(size = 1000000) {
      if (!(size > 0)) throw new RangeError(`a chunk has 1 element step or more, and not ${size}`);
      for (let circuit = this; !circuit.hasLeft && BigInt(circuit.steps) < MOST_ELEMENT_STEPS;) yield circuit = circuit.step(size);
    }

    // The elements in their order; a column of version 2 as its elements.
    *[Symbol.iterator]() {
      const lines = linesOf(this.text).slice(6).values();
      for (const line of lines) {
        const [kind, ...fields] = line.split(" ");
        if (kind === "c") {
          const rows = Array.from({length: Number(fields[1])}, () => lines.next().value.split(" ").slice(1).map(wired));
          yield* column(Number(fields[0]), fields[2], rows);
        } else {
          const [n, e, s, w] = fields.slice(2).map(wired);
          yield {number: Number(fields[0]), bar: fields[1], n, e, s, w};
        }
      }
    }

    // Nodes and links, as drawing libraries take them.
    graph() {
      const nodes = [], links = [];
      for (const element of this) {
        nodes.push({id: element.number, bar: element.bar});
        for (const output of OUTPUTS) {
          if (element[output] === null) continue;
          const [target, input] = element[output].split(".");
          links.push({source: element.number, target: Number(target), output, input});
        }
      }
      return {nodes, links};
    }

    equals(other) {
      return other instanceof Circuit && other.text === this.text;
    }

    toString() {
      return this.text;
    }
  }

  // Several circuits under a schedule: each entry is a circuit's number, from 1, and its steps, below 0 for back.
  function farm(circuits, schedule) {
    const boards = Array.from(circuits, it => `${it.text}%\n`).join("");
    const lines = Array.from(schedule, ([number, steps]) => {
      return `${steps < 0 ? "-" : "+"} ${spelled(number)} ${spelled(steps < 0 ? -steps : steps)}\n`;
    });
    const parts = asked(["farm"], boards + lines.join("")).split("%\n");
    const undo = linesOf(parts.pop()).map(line => line.split(" "));
    return {circuits: parts.map(it => new Circuit(it)), undo: undo.map(([sign, number, steps]) => [Number(number), Number(sign + steps)])};
  }

  return {Circuit, farm};
}

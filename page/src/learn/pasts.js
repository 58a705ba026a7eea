// What may have been before: the rules of a machine whose step leads to what stands there. Nothing is run for it; a rule fits
// where its next state is the state, and where what it wrote stands in the cell that the head has come from.
/** @type {Record<string, number>} */
const BACK = {"+": -1, "-": 1, "0": 0};

// The pasts of a moment: each has the rule's number, the state, and the work tape.
/** @type {(rules: Rule[], moment: {state: string | null, tapes: Tape[] | null}) => {rule: number, state: string, tape: Tape}[]} */
export function pastsOf(rules, {state, tapes}) {
  const tape = tapes?.[0];
  if (!tape || tape.head === null || state === null) return [];
  const {head, first, symbols} = tape;
  return rules.flatMap((rule, k) => {
    if (rule.next !== state) return [];
    const cell = head + BACK[rule.shift], at = cell - first;
    if ((symbols[at] ?? "_") !== rule.write || at < 0 || at >= symbols.length) return [];
    return [{rule: k + 1, state: rule.state, tape: {...tape, head: cell, symbols: symbols.map((it, k) => k === at ? rule.read : it)}}];
  });
}
// The moment nearest to one at which two rules fit, or null where there is none among those that are known.
/** @type {(run: {rules: Rule[], moments: Moment[], hasView(q: number): boolean}, q: number) => number | null} */
export function forkNear(run, q) {
  /** @param {number} k */
  const isFork = k => run.moments[k].stage === "compute" && run.moments[k].rule === null && run.hasView(k) && pastsOf(run.rules, run.moments[k]).length > 1;
  for (let far = 0; far < run.moments.length; far++) {
    for (const k of [q - far, q + far]) if (k > 0 && k < run.moments.length && isFork(k)) return k;
  }
  return null;
}

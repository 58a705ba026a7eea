// A file that is opened: a table, or a machine of turingmachine.io, JFLAP, Morphett's simulator or bbchallenge, which
// becomes one. It only turns spellings; whether the table is one, the program says.
import {isTable, kindOf, readMachine, tableOf} from "./formats.js";

// The states that accept, of a machine of another program: JFLAP's final ones, and of the others those whose names say
// so; and those that reject.
const accepts = (machine, name) => machine.program === "JFLAP" || /accept|^yes$/i.test(name);
const rejects = (machine, name) => machine.program !== "JFLAP" && /reject|^no$/i.test(name);

// The table with the states' names as the file has them, where a table's line can have them, and for each other
// spelling its name.
function withOwnNames(table, names) {
  const fits = name => name !== "" && name.trim() === name && !/[,"\r\n]/.test(name);
  const kept = [...names].filter(([name, made]) => name !== made && fits(name));
  const own = new Map(kept.map(([name, made]) => [made, name]));
  const text = table.split("\n").map(line => {
    const fields = line.split(",");
    for (const place of [0, 4]) if (own.has(fields[place])) fields[place] = own.get(fields[place]);
    return fields.join(",");
  }).join("\n");
  return {text, names: Object.fromEntries(own)};
}

// What is opened of a file. Where several states halt, the table's last rule leads to the first of those that accept,
// or to the first; in the others the machine is stuck. A text that is of none of the four is taken as a table, unless
// its name says what it should be; so are lines of five words none of which is a state that halts in Morphett's
// simulator.
export function openFile(name, text) {
  const kind = kindOf(text), isOther = kind === null || kind === "morphett" && !/(^|\s)halt/im.test(text);
  if (!/\.(jff|ya?ml)$/i.test(name) && (isTable(text) || isOther)) return {table: text, about: `From ${name}.`};
  const machine = readMachine(text, name), {halting} = machine;
  const several = halting.length > 1 && !machine.haltsAlike;
  const chosen = several ? halting.find(it => accepts(machine, it)) ?? halting[0] : null;
  const made = tableOf(machine, name, chosen), {text: table, names} = withOwnNames(made.table, made.names);
  const spelling = it => made.names.get(it) ?? it, told = it => names[spelling(it)] ?? spelling(it);
  const stuck = chosen === null ? [] : halting.filter(it => it !== chosen);
  const about = [`From ${name}, a machine of ${machine.program}.`, "It starts on the first letter of its word.",
                 ...(stuck.length ? [`It halts in ${chosen}; in ${stuck.join(", ")} it is stuck.`] : [])].join(" ");
  const those = which => [...new Set(halting.filter(it => which(machine, it)).map(told))];
  return {table, names, accept: those(accepts), reject: those(rejects), letter: true, about};
}

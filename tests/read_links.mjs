// What links into the page give, as the page's own reader reads them. Standard input has an array of what stands from # on,
// as JSON; standard output has for each its title, with the machine, the word and the moment, the step of Learn, or the
// exercise, and what the page takes of it.
import {readdirSync, readFileSync} from "node:fs";
import {dirname, join} from "node:path";
import {fileURLToPath} from "node:url";

const top = dirname(dirname(fileURLToPath(import.meta.url)));
const folder = join(top, "examples", "machines");
const {readLink} = await import(join(top, "page", "src", "links.js"));
const {STEPS} = await import(join(top, "page", "src", "learn", "steps.js"));

// The names of the tables that stand in examples/machines.
const names = new Map(readdirSync(folder).filter(it => it.endsWith(".csv"))
  .map(it => [readFileSync(join(folder, it), "utf8"), it.slice(0, -4)]));
// The exercises' titles by their numbers, as the page's lists of tasks have them.
const tasks = new Map(["circuits", "machines"].flatMap(it => {
  const text = readFileSync(join(top, "page", "src", `tasks_${it}.js`), "utf8");
  return [...text.matchAll(/\{number: (\d+), title: "([^"]*)"/g)].map(([, number, title]) => [Number(number), title]);
}));

function titleOf(hash) {
  const asked = new URLSearchParams(hash.slice(1)), parts = [];
  if (asked.has("x")) return `exercise ${asked.get("x")}: ${tasks.get(Number(asked.get("x"))) ?? "none"}`;
  if (asked.has("pebbles")) return "the pebble game";
  const link = readLink(hash);
  if (link) {
    const name = link.example || names.get(link.text) || "no machine that is known";
    parts.push(`${name} on ${link.word || "the empty word"}`);
    if (link.window) parts.push(`window ${link.window.join(" ")}`);
    if (link.e) parts.push(`element step ${link.e}`);
  }
  if (asked.has("learn")) parts.push(`Learn: ${STEPS.find(it => it.key === asked.get("learn"))?.title ?? "none"}`);
  return parts.join(", ") || "nothing";
}
let text = "";
for await (const part of process.stdin) text += part;
process.stdout.write(JSON.stringify(JSON.parse(text).map(hash => ({title: titleOf(hash), link: readLink(hash)}))));

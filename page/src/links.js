// The link of what is seen: machine, word, window and step stand behind its #.
import {EXAMPLES} from "./examples.js";
import {isEarly, LAYERS, state} from "./state.js";

// What stands in a link as JSON, where it isn't empty.
const IN_LINK = [["n", "names"], ["ac", "accept"], ["rj", "reject"], ["ws", "tried"], ["p", "places"]];

export function linkOf() {
  const it = new URLSearchParams({t: state.text, w: state.word, e: String(isEarly() ? 0 : state.e), l: state.layer});
  // An example that stands as it is keeps its name.
  const example = EXAMPLES.find(other => other.key === state.example);
  if (example && example.table === state.text && Boolean(example.letter) === state.asStandard) it.set("m", example.key);
  if (state.asStandard) it.set("s", "1");
  if (state.asTyped) it.set("u", "1");
  if (state.window) it.set("win", state.window.join(" "));
  for (const [key, name] of IN_LINK) {
    if (Object.keys(state[name]).length) it.set(key, JSON.stringify(state[name]));
  }
  if (state.lesson !== null) it.set("learn", state.lesson);
  return "#" + it.toString();
}
function keptIn(it) {
  return Object.fromEntries(IN_LINK.map(([key, name]) => {
    const empty = Array.isArray(state[name]) ? [] : {};
    try {
      const found = JSON.parse(it.get(key) ?? "null") ?? empty;
      return [name, Array.isArray(found) === Array.isArray(empty) && typeof found === "object" ? found : empty];
    } catch {
      return [name, empty];
    }
  }));
}

// What a link asks for, or null where it asks for nothing.
export function readLink(hash) {
  const it = new URLSearchParams(hash.slice(1));
  if (!it.has("t") && !it.has("m")) return null;
  const example = EXAMPLES.find(other => other.key === it.get("m"));
  const layer = it.get("l") ?? "";
  const window = it.get("win")?.split(" ").map(Number) ?? null;
  return {
    text: it.get("t") ?? example?.table ?? "", word: it.get("w") ?? example?.word ?? "", e: Number(it.get("e")) || 0,
    layer: LAYERS.some(it => it === layer) ? layer : "quadruple", asStandard: it.has("s") || Boolean(example?.letter), asTyped: it.has("u"),
    ...keptIn(it), window: window?.length === 4 && window.every(Number.isInteger) ? window : null, example: example?.key ?? "",
  };
}

// The search of the site: every word that is typed has to stand in a part of a page. Parts whose head has it come first.
const field = document.getElementById("search"), box = document.getElementById("found");
const MOST_FOUND = 30, AROUND = 90;
const escaped = text => text.replace(/[&<>"]/g, it => `&#${it.charCodeAt(0)};`);

// How well a part answers: 0 where a word is lacking. What teaches comes before what is made of the sources.
const FIRST = ["docs/learn/", "docs/use/", "docs/trust/headline.", "docs/"];
const rank = place => [...FIRST, ""].reverse().findLastIndex(it => place.startsWith(it));
function score([place, title, text], words) {
  const head = title.toLowerCase(), body = text.toLowerCase();
  if (!words.every(it => head.includes(it) || body.includes(it))) return 0;
  return 1 + 2 * rank(place) + words.filter(it => head.includes(it)).length * 10 + (head === words.join(" ") ? 50 : 0);
}
// The text around the first word, with the words marked.
function around(text, words) {
  const places = words.map(it => text.toLowerCase().indexOf(it)).filter(it => it >= 0);
  const at = Math.max(0, Math.min(...places, text.length) - AROUND / 2);
  const parts = words.map(it => it.replace(/[.*+?^${}()|[\]\\]/g, "\\$&"));
  const pieces = text.slice(at, at + 2 * AROUND).split(new RegExp(`(${parts.join("|")})`, "gi"));
  const marked = pieces.map((it, place) => place % 2 ? `<mark>${escaped(it)}</mark>` : escaped(it));
  return (at ? "…" : "") + marked.join("") + "…";
}
function search() {
  const words = field.value.toLowerCase().split(/\s+/).filter(Boolean);
  box.hidden = !words.length;
  if (!words.length) return;
  const found = ENTRIES.map(it => [score(it, words), it]).filter(([worth]) => worth).sort(([a], [b]) => b - a);
  const rows = found.slice(0, MOST_FOUND).map(([, [place, title, text, page]]) =>
    `<li><a href="${BASE}/${place}">${escaped(title)}</a> <small>${page === title ? "" : escaped(page)}</small>
      <p>${around(text, words)}</p></li>`);
  box.innerHTML = found.length ? `<p>${found.length} found</p><ol>${rows.join("")}</ol>` : "<p>Nothing is found.</p>";
}
field.addEventListener("input", search);
addEventListener("keydown", event => {
  if (event.key === "/" && document.activeElement !== field) {
    event.preventDefault();
    field.focus();
  } else if (event.key === "Escape") {
    field.value = "";
    search();
  }
});

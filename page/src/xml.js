// XML as machines are written in it, without a browser's own reader, so that node reads the same: elements with
// attributes, the text before the first part of each, comments, and the five entities. No document type and no
// namespace is read.

const NAME = "[\\p{L}_][\\p{L}\\p{N}_.-]*", VALUE = "\"[^\"<]*\"|'[^'<]*'";
const ATTRIBUTE = new RegExp(`\\s+(${NAME})\\s*=\\s*(${VALUE})`, "gu");
// A comment, a text as it stands, an instruction, the end of an element, its beginning, words; or what is none of them.
// (The mark of a comment has another form here, since as it is it would end the script of a page.)
const PIECES = new RegExp("<!-{2}(?:(?!--)[^])*-->|<!\\[CDATA\\[(?<data>[^]*?)\\]\\]>"
  + `|<\\?(?<target>${NAME})(?:\\s[^]*?)?\\?>|</(?<closed>${NAME})\\s*>`
  + `|<(?<opened>${NAME})(?<attributes>(?:\\s+${NAME}\\s*=\\s*(?:${VALUE}))*)\\s*(?<ends>/?)>`
  + "|(?<words>[^<]+)|(?<other><)", "gu");
/** @type {Record<string, string>} */
const ENTITIES = {lt: "<", gt: ">", amp: "&", quot: '"', apos: "'"};
const NO_CHARACTER = /[\x00-\x08\x0b\x0c\x0e-\x1f\ufffe\uffff]/;
export class NoXml extends Error {}

// The character of a number, or a fault where there is none.
/** @type {(code: number) => string} */
function character(code) {
  if (code > 0x10ffff || code >= 0xd800 && code < 0xe000 || NO_CHARACTER.test(String.fromCodePoint(code)))
    throw new NoXml();
  return String.fromCodePoint(code);
}
// A text with its entities as what they stand for.
/** @type {(text: string) => string} */
function plain(text) {
  return text.replace(/&([^;&]*)(;?)/g, (/** @type {string} */ _, /** @type {string} */ name, /** @type {string} */ end) => {
    const code = /^#x([0-9A-Fa-f]{1,6})$/.exec(name)?.[1], number = /^#(\d{1,7})$/.exec(name)?.[1];
    if (!end || !(code || number || Object.hasOwn(ENTITIES, name))) throw new NoXml();
    return code ? character(parseInt(code, 16)) : number ? character(Number(number)) : ENTITIES[name];
  });
}
/** @type {(text: string) => Map<string, string>} */
function attributesOf(text) {
  const found = new Map();
  for (const [, name, value] of text.matchAll(ATTRIBUTE)) {
    if (found.has(name)) throw new NoXml();
    found.set(name, plain(value.slice(1, -1).replace(/[\t\n]/g, " ")));
  }
  return found;
}

// The first element of a text, with all below it.
/** @type {(text: string) => XmlElement} */
export function readXml(text) {
  /** @type {XmlElement} */
  const top = {tag: "", attributes: new Map(), parts: [], text: ""};
  const open = [top];
  /** @param {string} words */
  const add = words => {
    const at = open[open.length - 1];
    if (at === top && /[^ \t\n]/.test(words)) throw new NoXml();
    if (!at.parts.length) at.text += words;
  };
  if (NO_CHARACTER.test(text)) throw new NoXml();
  for (const {groups} of text.replace(/\r\n?/g, "\n").matchAll(PIECES)) {
    const {data, target, closed, opened, attributes, ends, words, other} = groups ?? {};
    if (other || target?.toLowerCase() === "xml" || words?.includes("]]>")) throw new NoXml();
    if (words !== undefined) add(plain(words));
    else if (data !== undefined) {
      if (open.length === 1) throw new NoXml();
      add(data);
    } else if (closed !== undefined) {
      if (open.length < 2 || open[open.length - 1].tag !== closed) throw new NoXml();
      open.pop();
    } else if (opened !== undefined) {
      if (open.length === 1 && top.parts.length || open.length > 100) throw new NoXml();
      /** @type {XmlElement} */
      const it = {tag: opened, attributes: attributesOf(attributes), parts: [], text: ""};
      open[open.length - 1].parts.push(it);
      if (!ends) open.push(it);
    }
  }
  if (open.length > 1 || top.parts.length !== 1) throw new NoXml();
  return top.parts[0];
}

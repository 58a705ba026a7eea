// A small part of YAML, as machines are written in it: mappings by indentation with spaces; keys and values that are
// plain words, words in quotes, or flow lists and mappings, which may go on over several lines; a key behind `?`; a
// text behind `|` or `>`; comments; `---` before it. All values are text. tools/yaml_text.py is the same reader.

// What stands behind a backslash in a word in double quotes.
const ESCAPES = {0: "\0", t: "\t", n: "\n", r: "\r", e: "\x1b", _: "\xa0", " ": " ", '"': '"', "\\": "\\", "/": "/"};
const CODES = {x: 2, u: 4, U: 8};
// How deep lists and mappings may stand within each other.
const DEEPEST = 50;

const isNothing = word => ["", "~", "null"].includes(word);
const unblanked = text => text.replace(/^ +/, "");
const unended = text => text.replace(/ +$/, "");

// A list in brackets.
export class List {
  constructor(items) { this.items = items; }
}
// A mapping: its entries with a key, a value, and the number of the text line, or null in braces.
export class Mapping {
  constructor(entries) { this.entries = entries; }
}

// Reads the words, lists and mappings of one text line, and of those on which its lists and mappings go on.
class YamlLine {
  constructor(text, place) {
    this.text = text;
    this.place = place;
    this.at = this.depth = 0;
  }

  fault(what) { return new Error(`${this.place}: ${what} at column ${[...this.text.slice(0, this.at)].length + 1}`); }
  get here() { return this.text[this.at] ?? ""; }
  get after() { return this.text[this.at + 1] ?? ""; }
  skip() { while (this.here === " ") this.at++; }
  isAt(characters) { return this.here !== "" && characters.includes(this.here); }
  // Whether only blanks or a comment are left.
  isOver() {
    this.skip();
    return this.here === "" || this.here === "#" && (this.at === 0 || this.text[this.at - 1] === " ");
  }
  // Whether this mark stands here as a word of its own.
  isMark(mark) { return this.here === mark && ["", " "].includes(this.after); }
  // Whether a colon that ends a key stands here.
  isColon() { return this.here === ":" && (this.after === "" || " ,}]".includes(this.after)); }

  // A word, a list or a mapping; null where there is none.
  node(inFlow = false) {
    this.skip();
    if (this.isAt("[{")) return this.flow();
    if (this.isAt("'\"")) return this.quoted();
    if (this.isAt("&*!|>%@`") || this.isMark("-") || this.isMark("?"))
      throw this.fault(`'${this.here}' begins nothing that is read here`);
    const begin = this.at;
    while (this.here !== "" && !this.isColon()) {
      if (inFlow && this.isAt(",[]{}") || this.here === "#" && this.text[this.at - 1] === " ") break;
      this.at++;
    }
    const word = unended(this.text.slice(begin, this.at));
    return isNothing(word) ? null : word;
  }

  // A word in quotes; in single ones a quote is doubled, in double ones a backslash stands before what is meant.
  quoted() {
    const quote = this.here;
    let word = "";
    this.at++;
    while (this.here !== "") {
      const {here} = this;
      if (here === quote && quote === "'" && this.after === "'") {
        word += "'";
        this.at += 2;
      } else if (here === "\\" && quote === '"') word += this.escaped();
      else {
        this.at++;
        if (here === quote) return word;
        word += here;
      }
    }
    throw this.fault("a quote that isn't closed");
  }

  // What a backslash and the character behind it mean.
  escaped() {
    const mark = this.after, size = CODES[mark];
    if (size) {
      const code = this.text.slice(this.at + 2, this.at + 2 + size);
      if (code.length === size && /^[0-9A-Fa-f]+$/.test(code) && parseInt(code, 16) < 0x110000) {
        this.at += 2 + size;
        return String.fromCodePoint(parseInt(code, 16));
      }
    } else if (Object.hasOwn(ESCAPES, mark)) {
      this.at += 2;
      return ESCAPES[mark];
    }
    throw this.fault("a backslash with nothing that is read here behind it");
  }

  // A list in brackets or a mapping in braces.
  flow() {
    const isList = this.here === "[", closing = isList ? "]" : "}", items = [];
    if (++this.depth > DEEPEST) throw this.fault("lists and mappings stand too deep within each other");
    this.at++;
    this.skip();
    while (this.here !== closing) {
      if (!isList && this.isMark("?")) this.at++;
      const item = this.node(true);
      if (isList) items.push(item);
      else {
        this.skip();
        let value = null;
        if (this.isColon()) {
          this.at++;
          value = this.node(true);
        }
        items.push({key: item, value, line: null});
      }
      this.skip();
      if (this.here === ",") {
        this.at++;
        this.skip();
      } else if (this.here !== closing) throw this.fault(`no '${closing}' or comma`);
    }
    this.at++;
    this.depth--;
    return isList ? new List(items) : new Mapping(items);
  }
}

// Whether a list or mapping that begins in this text isn't closed in it. A bracket counts where a word may begin.
function isOpen(text) {
  let depth = 0, quote = "", begins = true;
  for (let at = 0; at < text.length; at++) {
    const here = text[at];
    if (quote) {
      if (here === "\\" && quote === '"') at++;
      else if (here === quote) quote = "";
    } else if (here === "#" && (at === 0 || text[at - 1] === " ")) break;
    else if ("'\"".includes(here) && begins) quote = here;
    else if ("[{".includes(here) && (begins || depth)) depth++;
    else if ("]}".includes(here) && depth) depth--;
    begins = !quote && ("[{,:".includes(here) || " ?".includes(here) && begins);
  }
  return depth > 0;
}
// A text line without the comment behind it, which in quotes is none.
function withoutComment(text) {
  let quote = "";
  for (let at = 0; at < text.length; at++) {
    const here = text[at], before = at === 0 ? " " : text[at - 1];
    if (quote) {
      if (here === "\\" && quote === '"') at++;
      else if (here === quote) quote = "";
    } else if ("'\"".includes(here) && " [{,:".includes(before)) quote = here;
    else if (here === "#" && before === " ") return unended(text.slice(0, at));
  }
  return text;
}
// Lines joined by blanks: an empty line is an end of line, and one that stands deeper, or beside such a one, keeps its
// own.
function folded(lines) {
  let text = "", empty = 0;
  lines.forEach((line, number) => {
    if (!line) { empty++; return; }
    if (number - empty > 0) {
      const before = lines[number - empty - 1], isKept = " \t".includes(line[0]) || " \t".includes(before[0]);
      text += isKept ? "\n".repeat(empty + 1) : empty ? "\n".repeat(empty) : " ";
    } else text += "\n".repeat(empty);
    text += line;
    empty = 0;
  });
  return text;
}

// Makes the entries of a text. A part is what a text line has: how deep it stands, a key with a colon behind it, and a
// value.
class YamlText {
  constructor(text, where) {
    this.where = where;
    this.at = 0;
    this.lines = text.replace(/^\ufeff/, "").split(/\r\n|\r|\n/);
  }

  place(line) { return `${this.where}: line ${line}`; }

  // What each text line has that is neither empty nor a comment.
  parts() {
    const found = [];
    while (this.at < this.lines.length) {
      const line = this.lines[this.at++], number = this.at, bare = unblanked(line);
      if (bare.startsWith("\t")) throw new Error(`${this.place(number)}: a tab stands before the first word`);
      if (!bare || bare.startsWith("#")) continue;
      if (/^(---|\.\.\.)( .*)?$/.test(line) || line.startsWith("%")) {
        if (found.length && !line.startsWith("..."))
          throw new Error(`${this.place(number)}: a second text begins, and one is read`);
        if (!["", "#"].includes(unblanked(line.slice(3)).slice(0, 1)) && !line.startsWith("%"))
          throw new Error(`${this.place(number)}: words behind '${line.slice(0, 3)}'`);
        continue;
      }
      found.push(this.part(line, line.length - bare.length, number));
    }
    return found;
  }

  // What one text line has, with those on which it goes on.
  part(line, depth, number) {
    const reader = new YamlLine(this.whole(line), this.place(number));
    const it = {depth, line: number, key: null, hasKey: false, value: null, hasValue: false};
    reader.skip();
    if (reader.isMark("?")) {
      reader.at++;
      it.key = reader.node();
      it.hasKey = true;
      if (!reader.isOver()) throw reader.fault("words behind the key");
      this.valueOfKey(it);
      return it;
    }
    const node = reader.node();
    reader.skip();
    if (reader.isColon()) {
      reader.at++;
      it.key = node;
      it.hasKey = true;
      this.value(reader, it);
    } else {
      it.value = node;
      it.hasValue = true;
      if (!reader.isOver()) throw reader.fault("no colon behind the key");
    }
    return it;
  }

  // The value of a key behind `?`: behind a colon on the next line.
  valueOfKey(it) {
    while (this.at < this.lines.length && ["", "#"].includes(unblanked(this.lines[this.at]).slice(0, 1))) this.at++;
    const line = this.lines[this.at] ?? "";
    if (unblanked(line.slice(0, it.depth)) || !/^:( |$)/.test(line.slice(it.depth))) return;
    const reader = new YamlLine(this.whole(this.lines[this.at++]), this.place(this.at));
    reader.at = it.depth + 1;
    this.value(reader, it);
  }

  // A text line with those on which its lists and mappings go on.
  whole(line) {
    while (isOpen(line) && this.at < this.lines.length)
      line = `${withoutComment(line)} ${unended(unblanked(this.lines[this.at++]))}`;
    return line;
  }

  // The value behind a colon, which may be a text that stands deeper.
  value(reader, it) {
    reader.skip();
    if (reader.isAt("|>")) {
      const head = /^([|>])([1-9]?[-+]?|[-+][1-9])(?: +#.*| *)$/.exec(reader.text.slice(reader.at));
      if (!head) throw reader.fault(`'${reader.here}' begins nothing that is read here`);
      it.value = this.scalar(head[1], head[2], it.depth);
      it.hasValue = true;
    } else if (!reader.isOver()) {
      it.value = reader.node();
      it.hasValue = true;
      if (!reader.isOver()) throw reader.fault("words behind the value");
    }
  }

  // The text behind `|`, or behind `>`, which joins lines.
  scalar(style, marks, depth) {
    const lines = [], digits = marks.replace(/[-+]/g, "");
    let width = digits ? depth + Number(digits) : null;
    for (; this.at < this.lines.length; this.at++) {
      const line = this.lines[this.at], bare = unblanked(line), stands = line.length - bare.length;
      if (bare && width === null) width = Math.max(stands, depth + 1);
      if (bare && stands < width) break;
      lines.push(bare || width !== null && line.length > width ? line.slice(width) : "");
    }
    const kept = [...lines];
    while (kept.length && !kept[kept.length - 1]) kept.pop();
    const text = style === "|" ? kept.join("\n") : folded(kept);
    if (marks.includes("-") || !kept.length) return text;
    return text + "\n".repeat(marks.includes("+") ? lines.length - kept.length + 1 : 1);
  }

  entries() {
    const parts = this.parts(), {found, at} = this.nested(parts, 0, 1);
    if (at < parts.length) throw new Error(`${this.place(parts[at].line)}: less deep than the first line`);
    return found;
  }

  // The entries from this one on that stand as deep, with those deeper below them.
  nested(parts, at, level) {
    const found = [], depth = at < parts.length ? parts[at].depth : 0;
    if (level > DEEPEST)
      throw new Error(`${this.place(parts[at].line)}: lists and mappings stand too deep within each other`);
    while (at < parts.length && parts[at].depth === depth) {
      const it = parts[at++], entry = {key: it.key, value: it.value, line: it.line};
      if (!it.hasKey) throw new Error(`${this.place(it.line)}: no colon behind the key`);
      if (at < parts.length && parts[at].depth > depth) {
        if (it.hasValue)
          throw new Error(`${this.place(parts[at].line)}: deeper than a line that has its value already`);
        if (parts[at].hasKey) {
          const below = this.nested(parts, at, level + 1);
          entry.value = new Mapping(below.found);
          at = below.at;
        } else entry.value = parts[at++].value;
      }
      found.push(entry);
    }
    if (at < parts.length && (parts[at].depth > depth || depth === 0))
      throw new Error(`${this.place(parts[at].line)}: as deep as no line above it`);
    return {found, at};
  }
}

// The entries of a text, as a tree: each with its key, its value and its text line.
export const readYamlText = (text, where) => new YamlText(text, where).entries();

// The entry of the page that tests/page opens: the page, and then what the checks take of it.
import "../src/entry.js";
import "./bench.js";

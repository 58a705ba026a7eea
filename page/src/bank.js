// The circuit's panel: the map of all modules, and the module in which the signal is as a bank of elements.
import {bankPicture, overviewPicture, TOP, WIDE} from "./bank_picture.js";
import {mapPicture} from "./map_picture.js";
import {controlSaid} from "./control.js";
import {cellState, lineInto, markedIn, placeIn} from "./layout.js";
import {lineSaid} from "./module_words.js";
import {redraw} from "./notices.js";
import {forgetSizes, heightOf, put, widthOf} from "./sizes.js";
import {byId, current, escaped, nameOf, state} from "./state.js";
import {bankName, exitWords, number} from "./words.js";

// How wide the second part is, at least, and the room before its column.
const LEAST_SLICE = 64, SLICE_LEFT = 6;
const NAMES_WIDTH = 58, LEAST_PITCH = 14.5, MOST_TRAIL = 600, MAP_HEIGHT = 118;
// The part of the bank that is seen: its first column and row, and how many.
/** @type {{view: Seen | null}} */
export const seen = {view: null};

export function renderBank(f) {
  const {run} = current, hasLeft = Boolean(f.at?.hasLeft);
  put("map", mapPicture(run, {bank: f.bank, row: f.row, moment: f.moment, hasLeft, width: widthOf("map"), height: MAP_HEIGHT}));
  put("controlsaid", sayControl(controlSaid(run, f)));
  if (!f.bank) {
    put("what", "Loading the path of the signal …");
    return;
  }
  // A module that was opened by hand, or the one in which the signal is.
  const opened = state.module === null || state.module === f.bank.number ? null : run.layout.banks[state.module], bank = opened ?? f.bank, bars = run.bankBars(bank, f.e);
  const size = `${bank.columns} columns of ${bank.rows} rows, ${number(bank.count)} elements`;
  put("where", escaped(bankName(bank)[0].toUpperCase() + bankName(bank).slice(1))
    + ` <span class="quiet state" title="${size}">${escaped(markSaid(bank, bars))}</span>`);
  put("what", opened ? `Opened by hand; the signal is in ${escaped(bankName(f.bank))}. ⊡ follows it again.` : moveWords(f, hasLeft));
  const trail = opened ? [] : f.move.from !== null ? run.trail(f.e, f.move.from, MOST_TRAIL) : [f.at.place], place = opened ? -1 : f.at.place;
  const middle = 4 * (bank.base + Math.max(0, bars ? markedIn(bank, bars) : 0) * (bank.rows + 1));
  const view = viewOf({bank, at: opened ? {place: middle} : f.at}), width = widthOf("bankbox");
  if (view.needsMap) {
    const height = Math.min(58, Math.max(34, bank.rows * 1.6));
    put("overview", overviewPicture(run, {bank, bars, place, trail, width, height, seen: view}));
  }
  const {pitch, wide, x, y} = view, height = heightOf("bankbox");
  const slice = sliceOf(run, {bank, bars, place, hasLeft, trail, height, pitch, wide, y}, view);
  put("bank", bankPicture(run, {bank, bars, place, hasLeft, trail, width, height, pitch, wide, x, y, left: NAMES_WIDTH}) + slice);
}
// A second part of the bank, with the marked column, where that is out of sight: at the side to which it is. The signal keeps
// farther from the edges than it is wide.
function sliceOf(run, how, {x, columns}) {
  const {bank, pitch, wide} = how, marked = run.markedColumn(bank, current.run === run ? state.e : 0);
  if (marked === null || marked < 0 || marked >= x - .2 && marked <= x + columns - .8) return "";
  const isLeft = marked < x, width = Math.round(Math.max(LEAST_SLICE, pitch * wide * 1.5)), share = (width - SLICE_LEFT) / (pitch * wide);
  const picture = bankPicture(run, {...how, width, x: marked + .5 - share / 2, left: SLICE_LEFT, clip: "sliced"});
  return `<div class="slice" style="${isLeft ? `left:${NAMES_WIDTH - 8}px` : "right:0"}" title="the marked column, ${marked + 1} of ${bank.columns}">${picture}</div>`;
}

const sayControl = ({short, full}) => short ? `<span title="${escaped(full)}"><b>Control</b> ${escaped(short)}</span>` : "";
// The line by which the signal came in, in words, and how far its move is.
function moveWords(f, hasLeft) {
  const {run} = current;
  if (hasLeft) return escaped(exitWords(run.outcome.exit, nameOf));
  const entry = f.move.from !== null ? run.placeAt(f.move.from)?.place : f.row >= 0 ? f.at.place : null;
  const row = entry === null || entry === undefined ? -1 : lineInto(run.layout, entry);
  if (row < 0) return "passing through";
  const line = `<b>${escaped(lineSaid(run.layout, f.bank, row).words)}</b>`;
  if (f.row >= 0) return line + " · signal entering";
  if (f.move.from === null || f.move.to === null) return line;
  return line + ` · step ${number(f.e - f.move.from)} of ${number(f.move.to - f.move.from)}`;
}

// The state of a module: its marked column.
function markSaid(bank, bars) {
  if (!bars) return "";
  const column = markedIn(bank, bars);
  if (column < 0) return "no marked column: the signal is inside";
  if (bank.kind === "control") return `state ${column + 1} of ${bank.columns}`;
  const {letter, hasHead} = cellState(current.run.layout, bank, column);
  return `holds ${letter === "_" ? "a blank" : letter}${hasHead ? ", and the head is here" : ""}`;
}

// Which part of the bank is seen, how large; and whether the whole in little is wanted beside it.
function viewOf({bank, at}) {
  const width = widthOf("bankbox"), whole = (width - NAMES_WIDTH - 10) / (bank.columns * WIDE);
  const fitting = height => Math.min(whole, (height - TOP - 6) / (bank.rows + 1));
  const needsMap = Boolean(state.zoom) || fitting(heightOf("bankbox") + (byId("overview").hidden ? 0 : 50)) < LEAST_PITCH;
  if (byId("overview").hidden === needsMap) {
    byId("overview").hidden = !needsMap;
    forgetSizes("bankbox");
  }
  const height = heightOf("bankbox"), fit = fitting(height);
  const pitch = state.zoom?.pitch ?? (fit >= LEAST_PITCH ? Math.min(fit, 40) : Math.max(25, Math.min(34, height / 16)));
  const stretched = Math.max(WIDE, Math.min(2.7, (width - NAMES_WIDTH - 10) / (bank.columns * pitch)));
  const wide = state.zoom || fit < LEAST_PITCH ? WIDE : stretched;
  const columns = (width - NAMES_WIDTH) / (pitch * wide), rows = (height - TOP - 8) / pitch;
  let {x, y} = state.zoom && !state.zoom.follows && state.zoom.bank === bank.number ? state.zoom
    : followed(bank, at.place, pitch, columns, rows);
  x = Math.max(0, Math.min(bank.columns - columns, x));
  y = Math.max(0, Math.min(bank.rows + 1 - rows, y));
  const view = {bank: bank.number, pitch, wide, x, y, columns, rows, needsMap};
  seen.view = view;
  if (state.zoom) Object.assign(state.zoom, {x, y, bank: bank.number});
  return view;
}
// The window moves only where the signal would leave its inner part, so that the picture stays calm.
function followed(bank, place, pitch, columns, rows) {
  const {column: c, row: r} = placeIn(bank, place >> 2);
  const {view} = seen, isSame = view !== null && view.bank === bank.number && view.pitch === pitch;
  const kept = isSame ? view : {x: c - columns / 2, y: r - rows / 2};
  const edge = Math.min(2.2, columns / 4);
  let {x, y} = kept;
  if (c - x < edge) x = c - Math.min(columns * .6, columns - edge);
  else if (c - x > columns - edge - 1) x = c - Math.max(columns * .4 - 1, edge);
  if (r - y < Math.min(1.5, rows / 4)) y = r - rows * .55;
  else if (r - y > rows - 2.5) y = r - rows * .4;
  return {x, y};
}

// ---- another module

// Opens a module, or follows the signal again where it is open already.
/** @type {(number: number) => void} */
export function openModule(number) {
  state.module = state.module === number ? null : number;
  state.zoom = null;
  redraw(false);
}
// The module beside the one that is shown, or the first one of the next tape.
/** @type {(direction: number, isTape: boolean) => void} */
export function nextModule(direction, isTape) {
  const {run} = current, bank = run.layout.banks[state.module ?? seen.view?.bank ?? 0];
  const near = isTape ? run.layout.banks.find(it => (it.tape ?? 0) === (bank.tape ?? 0) + direction) : run.layout.banks[bank.number + direction];
  if (near && near.number !== state.module) openModule(near.number);
}

// ---- larger, smaller, another part

export function zoomBy(factor) {
  if (!seen.view) return;
  const {pitch, bank, x, y, columns, rows} = seen.view, made = Math.max(4, Math.min(64, pitch * factor)), share = 1 - pitch / made;
  state.zoom = {pitch: made, bank, follows: state.zoom?.follows ?? true, x: x + columns / 2 * share, y: y + rows / 2 * share};
  redraw(false);
}
// The bank is dragged from where it was seen by so many pixels.
export function dragBy(view, dx, dy) {
  state.zoom = {pitch: view.pitch, bank: view.bank, follows: false, x: view.x - dx / (view.pitch * view.wide), y: view.y - dy / view.pitch};
  redraw(false);
}
// The part of the bank that is seen, by so many thirds of it to the right and down.
export function moveBy(right, down) {
  if (!seen.view) return;
  const {pitch, bank, x, y, columns, rows} = seen.view;
  state.zoom = {pitch, bank, follows: false, x: x + right * columns / 3, y: y + down * rows / 3};
  redraw(false);
}
// The part of the bank around a place of the whole in little, which is a share of its width and height.
export function lookAt(bank, across, down) {
  if (!seen.view) return;
  const {pitch, columns, rows} = seen.view;
  state.zoom = {pitch, bank: bank.number, follows: false, x: across * bank.columns - columns / 2, y: down * (bank.rows + 1) - rows / 2};
  redraw(false);
}

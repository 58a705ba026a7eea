// What tests/page takes of the page from within, as `bench`: the shipped page has nothing of it.
import {answer, log} from "../src/answer.js";
import {controlLabel, controlState} from "../src/control.js";
import {cellModule, lineInto, moduleWith} from "../src/layout.js";
import {comesTo} from "../src/marks.js";
import {limits} from "../src/moments.js";
import {lineSaid} from "../src/module_words.js";
import {frames, goTo, pause, play, RANGES, step, timings} from "../src/play.js";
import {beginTask} from "../src/sheet.js";
import {zoomTime} from "../src/span.js";
import {current, state} from "../src/state.js";
import {placeName} from "../src/texts.js";
import {inTurn} from "../src/turns.js";
import {render} from "../src/view.js";
import {longRuns} from "../src/window.js";
import {openWorkshop, pageOf} from "../src/workshop.js";

Object.assign(globalThis, {bench: {
  answer, beginTask, cellModule, comesTo, controlLabel, controlState, current, frames, goTo, inTurn, limits, lineInto, lineSaid, log,
  longRuns, moduleWith, openWorkshop, pageOf, pause, placeName, play, RANGES, render, state, step, timings, zoomTime,
}});

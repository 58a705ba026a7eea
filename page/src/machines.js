// What the readers of other programs' files share. A machine that was found in a file has its rules, its first state,
// its halting states, whether these may be taken for one, and the program's name. Symbols are as in the file; a blank
// is null.

export const NONE = "it is none of the four that are read: a machine of turingmachine.io, of JFLAP 4 to 8, "
  + "of Morphett's simulator, or one line of bbchallenge";
export const SHIFTS = {R: "+", L: "-", S: "0"};
// A value of a file as it is named in a fault.
/** @type {(value: any) => string} */
export const shown = value => typeof value === "string" ? `'${value}'`
  : value === null ? "nothing" : "a list or mapping";

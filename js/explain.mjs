// What a refusal means: its cause and a remedy, from the table that the Python package has too.
import {EXPLANATIONS, FORMS, MEANINGS} from "./explanations.mjs";

const USAGE = 2;

// A text with the groups of a pattern in their places.
function filled(text, groups, command) {
  return text.replace(/\{(\d|command)\}/g, (_, name) => name === "command" ? command : groups[Number(name)] ?? "");
}

// The forms of a command.
function formsOf(command) {
  return FORMS.filter(([form]) => form.split(" ")[0] === command);
}

// The help of a command, or of all.
export function helpOf(command) {
  const chosen = formsOf(command);
  return ["The exact forms:", ...(chosen.length ? chosen : FORMS).map(([form, what]) => `  ${form.padEnd(33)} ${what}`),
          "The input, if the command reads one, is standard input; =W is the byte = and the letters of the word.",
          "docs/use/formats.md of the repository states what each command reads and prints.", ""].join("\n");
}

// What is said of arguments that are no form.
function usage(command) {
  const shown = formsOf(command).map(([form]) => form);
  if (shown.length === 0) return [command ? `there is no command ${command}` : "no command is named", `the commands are ${
    [...new Set(FORMS.map(([form]) => form.split(" ")[0]))].join(", ")}`];
  return [`these arguments are no form of ${command}`, shown.join(" or ")];
}

// The lines for standard error of a status and the refusal's line; none where nothing is known.
export function explained(command, status, refusal) {
  let [cause, remedy] = [MEANINGS[status], ""];
  if (status === USAGE) [cause, remedy] = usage(command);
  for (const [pattern, why, what, only] of status === USAGE ? [] : EXPLANATIONS) {
    const found = refusal.match(new RegExp(`^(?:${pattern})$`));
    if (found && (!only || only.split(" ").includes(command))) {
      [cause, remedy] = [filled(why, found, command), filled(what, found, command)];
      break;
    }
  }
  return cause ? `error: ${cause}\n${remedy ? `help: ${remedy}\n` : ""}` : "";
}

// The types of what the lesson tells of: apart from the others, since a run is of a module's own type.

/** What is shown, as the steps of the lesson speak of it. */
interface Shown { run: import("./run.js").Run; found: Found; machine: Machine }
/** A step: its level, its two sentences, names that are seen there with what they mean, what is to be tried, and whether that was done. */
interface LessonStep {
  key: string; level: string; title: string; ask: string; words(shown: Shown): string[]; names?(shown: Shown, f: Frame): string[][];
  done(it: {seen: Set<string>; shown: Shown; e: number}): boolean;
}

// What "hithwelor/client" gives: the workbench in a worker, where each request is a promise.
import type {Client, ModuleSource} from "./types.cjs";

export type {Client, Options, Signal} from "./types.cjs";

/** A client whose workers answer by the module of the package, or by the one that is given. */
export function connect(options?: {module?: ModuleSource}): Promise<Client>;

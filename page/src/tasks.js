// All exercises, in their order.
import {CIRCUIT_TASKS} from "./tasks_circuits.js";
import {MACHINE_TASKS} from "./tasks_machines.js";

export const TASKS = [...CIRCUIT_TASKS, ...MACHINE_TASKS].sort((a, b) => a.number - b.number);

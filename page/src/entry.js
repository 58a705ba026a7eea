// The page's entry: what esbuild puts in beside the modules is handed to the door to the program, and the page begins.
// No other module imports what isn't a script, so that node and tsc read all of them as they stand.
import packed from "../../embed/out/module.txt";
import worker from "../../embed/out/worker.txt";
import {provide} from "./answer.js";
import {start} from "./app.js";
import {bytesOf} from "./base85.js";
import "./style.css";
import "./pictures.css";
import "./dialogs.css";
import "./learn.css";
import "./design.css";
import "./print.css";

const stream = new Blob([bytesOf(packed)]).stream().pipeThrough(new DecompressionStream("deflate"));
provide({module: new Response(stream).arrayBuffer(), worker});
start();

"""The package of JavaScript, js/: its tests under each node, its tarball, its types, and in a browser.

Where the proved program stands, answers are compared with its. `npm pack` gives the same bytes twice and installs without
a network in another folder, where the package and its command answer. `tsc` looks at the types. A headless Chromium and a
Firefox ask from a server on this machine, in the page and in a worker.
"""
import hashlib
import http.server
import json
import os
import re
import subprocess
import threading
import time

import pytest
from browser import Browser, browser_at_hand
from firefox import Firefox, firefox_at_hand
from places import TOP, text_of, told_program
from version import npm_version

JS = os.path.join(TOP, "js")
PATIENCE = 60
# How many tests js/test has, so that none is lost.
LEAST_TESTS = 16
ASK = """import {load} from "hithwelor";
const {Machine} = await load();
console.log(new Machine("S,_,_,+,T\\nT,_,_,0,F\\n").check());
"""
TABLE, SAID = "S,_,_,+,T\nT,_,_,0,F\n", "standard states 3 symbols 1 quintuples 2\n"
ASK_CJS = """const {load} = require("hithwelor"), {connect} = require("hithwelor/client");
load().then(({Machine, Refused}) => {
  console.log(new Machine("S,_,_,+,T\\nT,_,_,0,F\\n").check());
  if (!(new Refused(2, "usage") instanceof Error)) throw new Error("no error");
  return connect();
}).then(client => client.answer(["nonsense"])).then(({status, text}) => console.log(status, text.trim()));
"""
# What is bundled: the package and its client; the module is handed over as bytes, by a path that is given.
BUNDLED = """import {load} from "hithwelor";
import {connect} from "hithwelor/client";
const name = "fs", {readFileSync} = await import(name);
const {Machine} = await load({module: readFileSync(process.argv[2])});
if (typeof connect !== "function") throw new Error("no client");
console.log(new Machine("S,_,_,+,T\\nT,_,_,0,F\\n").check());
"""
# The bundlers, each with its words for a platform and a file.
BUNDLERS = {
    "esbuild": lambda platform, made: [
        *("bundled.mjs", "--bundle", "--format=esm", f"--platform={platform}", f"--outfile={made}"),
        "--log-level=warning",
    ],
    "rollup": lambda platform, made: ["bundled-rollup.mjs", "--format", "es", "--file", made, "--silent"],
}
# What the page of the server does: an answer by itself, and one by a worker.
PAGE = """<!doctype html><script type="module">
import {load} from "./hithwelor.mjs";
const {Machine, module} = await load(), table = "S,_,_,+,T\\nT,_,_,0,F\\n";
window.here = new Machine(table).run("").text;
const worker = new Worker("./worker.mjs", {type: "module"});
worker.onmessage = event => { window.there = event.data.text ?? event.data.fault; };
worker.postMessage({number: 1, words: ["run", "=", "auto"], input: table});
import {connect} from "./client.mjs";
const client = await connect(), aborted = client.answer(["run", "=", "auto"], table, {signal: AbortSignal.timeout(0)});
window.asked = await aborted.catch(() => client.answer(["run", "=", "auto"], table)).then(it => it.text, String);
</script>"""
BROWSERS = {
    "Chromium": (browser_at_hand, Browser, lambda it, address: it.call("Page.navigate", url=address)),
    "Firefox": (firefox_at_hand, Firefox, lambda it, address: it.go(address)),
}


def run(words, **more):
    return subprocess.run(words, stdout=subprocess.PIPE, stderr=subprocess.STDOUT, text=True, errors="replace", **more)


def digest_of(path):
    with open(path, "rb") as file:
        return hashlib.sha256(file.read()).hexdigest()


def test_its_version_is_the_one_that_is_told():
    assert json.loads(text_of("js", "package.json"))["version"] == npm_version()


def test_it_cant_be_published_without_a_licence():
    package = json.loads(text_of("js", "package.json"))
    assert package.get("private") is True or "license" in package


def test_its_module_is_that_of_the_page_and_the_command():
    assert f"{digest_of(os.path.join(JS, 'hithwelor.wasm'))}  the module" in text_of("page", "sources.sha256")


@pytest.mark.engine
def test_its_own_tests_pass(node):
    program = told_program()
    ran = run(
        [node, "--test", "test"], cwd=JS, env={**os.environ, **({"HITHWELOR_PROGRAM": program} if program else {})}
    )
    found = dict(re.findall(r"^# (pass|fail) (\d+)", ran.stdout, flags=re.M))
    assert ran.returncode == 0 and found["fail"] == "0" and int(found["pass"]) >= LEAST_TESTS, ran.stdout[-3000:]


@pytest.fixture(scope="module")
def home(tmp_path_factory):
    """The environment of npm without a network and without a home."""
    room = str(tmp_path_factory.mktemp("home"))
    return {
        **os.environ,
        "HOME": room,
        "npm_config_cache": os.path.join(room, "cache"),
        "npm_config_offline": "true",
        "npm_config_update_notifier": "false",
        "npm_config_audit": "false",
        "npm_config_fund": "false",
    }


def packed(to, home):
    """The tarball that `npm pack` makes in a folder."""
    ran = run(["npm", "pack", "--pack-destination", to], cwd=JS, env=home)
    made = [os.path.join(to, name) for name in os.listdir(to)]
    assert len(made) == 1, ran.stdout[-1000:]
    return made[0]


def test_the_tarball_has_the_same_bytes_twice(tmp_path_factory, home, needs):
    needs("npm")
    first, second = (packed(str(tmp_path_factory.mktemp(name)), home) for name in ("first", "second"))
    assert digest_of(first) == digest_of(second)


@pytest.fixture(scope="module")
def installed(tmp_path_factory, home, needs):
    """A folder in which the tarball is installed."""
    needs("npm")
    folder = tmp_path_factory.mktemp("other")
    for name, text in {
        "package.json": '{"private": true}\n',
        "ask.mjs": ASK,
        "ask.cjs": ASK_CJS,
        "bundled.mjs": BUNDLED,
        "bundled-rollup.mjs": BUNDLED.replace('"hithwelor', '"./node_modules/hithwelor/hithwelor.mjs').replace(
            "hithwelor.mjs/client", "client.mjs"
        ),
        "types.mts": text_of("js", "test", "types.ts"),
        "types.cts": text_of("js", "test", "types.cts"),
    }.items():
        (folder / name).write_text(text, encoding="utf-8")
    ran = run(["npm", "install", packed(str(tmp_path_factory.mktemp("tarball")), home)], cwd=folder, env=home)
    assert ran.returncode == 0, ran.stdout[-1000:]
    return folder


def test_the_installed_package_answers(installed, node):
    assert run([node, "ask.mjs"], cwd=installed).stdout == SAID


def test_the_installed_command_answers(installed, node):
    assert (
        run([node, os.path.join("node_modules", ".bin", "hithwelor"), "check"], cwd=installed, input=TABLE).stdout
        == SAID
    )


@pytest.mark.parametrize("kind", ["mts", "cts"])
@pytest.mark.parametrize("libraries", ["es2022", "es2022,dom"])
def test_the_types(installed, needs, libraries, kind):
    """Of a user's program, for modules and for CommonJS, with the DOM's types and without any."""
    needs("tsc")
    strict = ["--noEmit", "--strict", "--skipLibCheck", "false", "--target", "es2022", "--lib", libraries]
    ran = run(["tsc", *strict, "--module", "node16", "--moduleResolution", "node16", f"types.{kind}"], cwd=installed)
    assert ran.returncode == 0, ran.stdout


def test_commonjs_has_the_package_and_its_client(installed, node):
    ran = run([node, "ask.cjs"], cwd=installed)
    assert ran.stdout == SAID + "2 usage\n"


@pytest.mark.parametrize("bundler, platform", [("esbuild", "browser"), ("esbuild", "node"), ("rollup", "browser")])
def test_it_is_bundled(installed, needs, any_node, bundler, platform):
    """By what a user has, without a warning; for browsers with nothing of Node.js in it."""
    needs(bundler)
    made = f"made-{bundler}-{platform}.mjs"
    ran = run([bundler, *BUNDLERS[bundler](platform, made)], cwd=installed)
    text = (installed / made).read_text(encoding="utf-8")
    assert ran.returncode == 0 and "arning" not in ran.stdout, ran.stdout
    assert bool(re.search(r"""["']node:""", text)) == (platform == "node")
    module = os.path.join("node_modules", "hithwelor", "hithwelor.wasm")
    assert run([any_node, made, module], cwd=installed).stdout == SAID


def test_an_old_node_is_refused_by_its_version(any_node):
    command = os.path.join(JS, "command.mjs")
    ran = run([any_node, "--input-type=module", "-e", f"import {{refuseOld}} from {command!r}; refuseOld('16.20.2')"])
    assert (ran.returncode, ran.stdout) == (1, "hithwelor: this is Node.js 16.20.2, and 18 or later is needed\n")


class Handler(http.server.SimpleHTTPRequestHandler):
    """The package as a server has it, and the page that asks."""

    extensions_map = {
        **http.server.SimpleHTTPRequestHandler.extensions_map,
        ".mjs": "text/javascript",
        ".wasm": "application/wasm",
    }

    def do_GET(self):
        if self.path == "/":
            self.send_response(200)
            self.send_header("Content-Type", "text/html")
            self.end_headers()
            self.wfile.write(PAGE.encode())
        else:
            super().do_GET()

    def log_message(self, *_):
        """Nothing is told."""


@pytest.fixture(scope="module")
def address():
    """A server on this machine."""
    server = http.server.ThreadingHTTPServer(("127.0.0.1", 0), lambda *it: Handler(*it, directory=JS))
    threading.Thread(target=server.serve_forever, daemon=True).start()
    yield f"http://127.0.0.1:{server.server_address[1]}/"
    server.shutdown()
    server.server_close()


@pytest.mark.browser
@pytest.mark.engine
@pytest.mark.parametrize("name", BROWSERS)
def test_it_answers_in_a_page_and_in_a_worker(name, address, any_node):
    at_hand, kind, go = BROWSERS[name]
    path = at_hand()
    if not path:
        pytest.skip(f"{name} isn't installed: tools/setup")
    wanted = run([any_node, os.path.join(JS, "bin.mjs"), "run", "=", "auto"], input=TABLE).stdout
    with kind(path) as browser:
        go(browser, address)
        until = time.monotonic() + PATIENCE
        while not (browser.ask("window.there") and browser.ask("window.asked")) and time.monotonic() < until:
            time.sleep(0.2)
        assert [browser.ask(f"window.{place}") for place in ("here", "there", "asked")] == [wanted] * 3

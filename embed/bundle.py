"""The page and the command, each as one file with the module inside: esbuild bundles their scripts and styles."""
import base64
import hashlib
import os
import shutil
import subprocess
import zlib

TOP = os.path.dirname(os.path.dirname(os.path.abspath(__file__)))
OUT = os.path.join(TOP, "embed", "out")
# What a browser may do with the page: run the one script that it has, and the module; draw. Nothing goes out.
POLICY = (
    "default-src 'none'; script-src 'sha256-{script}' 'wasm-unsafe-eval'; worker-src blob:; "
    "style-src 'unsafe-inline'; img-src data: blob:; base-uri 'none'; form-action 'none'"
)
# Modules are strict by themselves, what esbuild makes of them isn't.
STRICT = '"use strict";'
COMMAND_HEAD = (
    "#!/usr/bin/env node\n"
    "// Made by embed/build of js/core.mjs, js/command.mjs and js/hithwelor.wasm: change those.\n" + STRICT
)
# The page has no comments and line ends, and shorter syntax: an eighth of its bytes. Names stay, so that the page for the checks is the same
# script with more behind it.
SMALL = ("--minify-whitespace", "--minify-syntax")
COMMAND_END = "if (require.main === module) process.exitCode = module.exports.main();"


class Bundle(Exception):
    """Why the files can't be made one."""


def versions():
    """What decides the bytes beside the sources, with its version."""
    if not shutil.which("esbuild"):
        raise Bundle("esbuild isn't installed; Debian's package esbuild has it")
    told = subprocess.run(["esbuild", "--version"], stdout=subprocess.PIPE, text=True, check=True).stdout
    return [f"esbuild {told.strip()}", f"zlib {zlib.ZLIB_RUNTIME_VERSION}"]


def pack_module():
    """The module once more, deflated, as text in base 85, which page/src/base85.js reads: 300 kB in place of 800 kB."""
    with open(os.path.join(TOP, "js", "hithwelor.wasm"), "rb") as file:
        packed = base64.b85encode(zlib.compress(file.read(), 9))
    os.makedirs(OUT, exist_ok=True)
    with open(os.path.join(OUT, "module.txt"), "wb") as file:
        file.write(packed)


def esbuild(entry, made, head, *more):
    """The bundle of an entry. Both are given by their paths from the top, which are in it: so its bytes are the same
    wherever it is made. Whatever esbuild says, warnings too, is a fault."""
    words = [
        "esbuild",
        entry,
        "--bundle",
        "--target=es2022",
        "--charset=utf8",
        "--loader:.wasm=binary",
        "--loader:.txt=text",
        "--log-level=warning",
        "--log-limit=0",
        f"--banner:js={head}",
        # What no module takes stays: the page for the checks is then the same script with more behind it.
        "--tree-shaking=false",
        f"--outfile=embed/out/{made}",
        *more,
    ]
    ran = subprocess.run(words, cwd=TOP, stdout=subprocess.PIPE, stderr=subprocess.STDOUT, text=True)
    if ran.returncode or ran.stdout:
        raise Bundle(ran.stdout.strip())
    return text_of("embed", "out", made)


def text_of(*path):
    with open(os.path.join(TOP, *path), encoding="utf-8") as file:
        return file.read()


def page_text(entry="page/src/entry.js", made="page"):
    """The page: one file of HTML with its style, its script, the worker's script and the module."""
    pack_module()
    esbuild("page/src/worker.js", "worker.txt", STRICT, "--format=iife", *SMALL)
    script = esbuild(entry, f"{made}.js", STRICT, "--format=iife", *SMALL)
    if any(it in script.lower() for it in ("</script", "<!--")):
        raise Bundle("the script has text that ends a script")
    policy = POLICY.format(script=base64.b64encode(hashlib.sha256(script.encode()).digest()).decode())
    style = text_of("embed", "out", f"{made}.css")
    head = f'<meta http-equiv="Content-Security-Policy" content="{policy}">\n<style>\n{style}</style>'
    page = text_of("page", "src", "index.html")
    still = text_of("page", "src", "still.svg").strip()
    for place, made in (("STYLE", head), ("STILL", still), ("SCRIPT", f"<script>{script}</script>")):
        before, found, behind = page.partition(f"<!-- {place} -->")
        if not found:
            raise Bundle(f"index.html has no place {place}")
        page = before + made + behind
    return page


def checked_text():
    """The same page with a hook for tests/page behind it."""
    return page_text("page/test/checked.js", "checked")


def command_text():
    """The command: one script of node with the module."""
    return esbuild(
        "embed/single.mjs", "command.cjs", COMMAND_HEAD, "--format=cjs", "--platform=node", f"--footer:js={COMMAND_END}"
    )

"""The shared library, linked of the static library that the toolchain makes of the proved crate."""
import os
import shutil
import subprocess
import tempfile

from sources import CRATE, TOP

STATIC = os.path.join(TOP, "crates", CRATE, "out", f"lib{CRATE}.a")
SHARED = os.path.join(TOP, "embed", "out", "libhithwelor.so")
EXPORT = "hithwelor_answer"


def compiler():
    """The path of a C compiler, or None."""
    return shutil.which(os.environ.get("CC", "cc"))


def toolchain():
    """The folder of the toolchain, or None where it isn't here."""
    if not shutil.which("rt"):
        return None
    return os.path.dirname(subprocess.run(["rt", "doc"], stdout=subprocess.PIPE, text=True, check=True).stdout.strip())


def is_current():
    """Whether the static library stands, and was built of the code that stands."""
    return subprocess.run([os.path.join(TOP, "tools", "program"), CRATE], stdout=subprocess.DEVNULL).returncode == 0


def link(kit, path, *words, exports=(EXPORT,)):
    """Links the shared library to a path, with further words for the compiler; what the compiler says where it fails."""
    os.makedirs(os.path.dirname(path), exist_ok=True)
    with tempfile.TemporaryDirectory() as work:
        listed = os.path.join(work, "exports.map")
        with open(listed, "w", encoding="utf-8") as file:
            file.write(f"{{ global: {'; '.join(exports)}; local: *; }};\n")
        ran = subprocess.run(
            [
                compiler(),
                "-shared",
                "-o",
                path,
                f"-Wl,--version-script={listed}",
                "-Wl,--whole-archive",
                STATIC,
                "-Wl,--no-whole-archive",
                os.path.join(kit, "c", "liblibc_c.a"),
                "-Wl,-z,defs",
                *words,
            ],
            stdout=subprocess.PIPE,
            stderr=subprocess.STDOUT,
            text=True,
            errors="replace",
        )
    return ran.stdout if ran.returncode else None

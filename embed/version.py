"""The version of this state: that of the archive of sources it was unpacked from, else the first one that CHANGELOG.md tells, in
its line `This state is ..` or as the head of a release. A release that tools/release makes as `dev` has +dev behind it, which
the variable HITHWELOR_DEV asks for. pyproject.toml, tools/release, tools/install and the tests read it here.
"""
import os
import re

TOP = os.path.dirname(os.path.dirname(os.path.abspath(__file__)))
MADE, CHANGES = os.path.join(TOP, "PKG-INFO"), os.path.join(TOP, "CHANGELOG.md")
TOLD = r"^(?:This state is |## )(\d+\.\d+\.\d+(?:\.dev\d+)?)"


def version():
    """As pip has it, for example 0.6.0 or 0.6.0.dev0."""
    is_made = os.path.exists(MADE)
    with open(MADE if is_made else CHANGES, encoding="utf-8") as file:
        told = re.search(r"^Version: (\S+)" if is_made else TOLD, file.read(), flags=re.M)[1]
    return told + ("+dev" if os.environ.get("HITHWELOR_DEV") and not is_made and ".dev" not in told else "")


def npm_version():
    """As npm has it, for example 0.6.0 or 0.6.0-dev.0."""
    return re.sub(r"\.dev(\d+)", r"-dev.\1", version()).replace("+dev", "-dev")

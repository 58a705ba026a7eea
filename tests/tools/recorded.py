#!/usr/bin/env python3
"""A stand-in for the program in tests: it gives the answers that the program gave, from recorded.json.

With WORKBENCH_RECORD=PATH it runs the program at PATH and keeps its answers. So `WORKBENCH_RECORD=PATH python3 -m pytest
tests/tools` writes the recordings that the tests need. An answer that isn't there is told on standard
error, with status 1.
"""
import json
import os
import subprocess
import sys

FILE = os.path.join(os.path.dirname(os.path.abspath(__file__)), "recorded.json")


def answers():
    """The recorded answers: words, input, output and status of each."""
    if not os.path.exists(FILE):
        return []
    with open(FILE, encoding="utf-8") as file:
        return json.load(file)


def keep(entry):
    """Writes a new answer into the file, in place of an older one to the same words and input."""
    others = [it for it in answers() if (it["words"], it["input"]) != (entry["words"], entry["input"])]
    entries = sorted([*others, entry], key=lambda it: (it["words"], it["input"]))
    with open(FILE, "w", encoding="utf-8") as file:
        json.dump(entries, file, indent=0, ensure_ascii=True)
        file.write("\n")


def main():
    words, data = sys.argv[1:], sys.stdin.read()
    program = os.environ.get("WORKBENCH_RECORD")
    if program:
        ran = subprocess.run([program, *words], input=data.encode(), stdout=subprocess.PIPE)
        keep({"words": words, "input": data, "output": ran.stdout.decode(), "status": ran.returncode})
    found = next((it for it in answers() if it["words"] == words and it["input"] == data), None)
    if found is None:
        print(f"recorded.py: no answer is recorded to {' '.join(words)}", file=sys.stderr)
        return 1
    sys.stdout.write(found["output"])
    return found["status"]


if __name__ == "__main__":
    sys.exit(main())

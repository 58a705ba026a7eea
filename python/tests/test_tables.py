"""Tables of a sweep in pandas: words stay text, counts are whole numbers, and an empty field is no number."""
import os
import subprocess
import tempfile
import unittest

from sweeping import PACKAGES, needs, python_with
from hithwelor.sweep.rows import COLUMNS

ROWS = [
    ["m.csv", "machine", "", "", "0", "halted", "2", "", "", "", "0.000100"],
    ["m.csv", "machine", "0", "", "0", "halted", "3", "", "", "00", "0.000100"],
    ["m.csv", "machine", "00", "", "0", "halted", "4611686018427387904", "", "", "1e5", "0.000100"],
    ["m.csv", "run", "NA", "1 2 3 4", "", "time", "", "", "", "", "2.500000"],
    ["generate:2", "run", "nan", "1 2 3 4", "11", "window 1 left", "9", "", "14136", "", ""],
]
SCRIPT = """
import sys
import hithwelor
frame = hithwelor.read_table(sys.argv[1])
print(frame.word.tolist(), frame.output.tolist(), frame.word.nunique())
print({name: str(kind) for name, kind in frame.dtypes.items() if str(kind) != "object"})
print(frame.steps.tolist(), frame.steps.max(), frame.status.isna().tolist(), frame.groupby("outcome").steps.count().to_dict())
try:
    hithwelor.read_table(sys.argv[2])
except ValueError as fault:
    print(str(fault).replace(sys.argv[2], "PATH"))
"""
TOLD = """['', '0', '00', 'NA', 'nan'] ['', '00', '1e5', '', ''] 5
{'status': 'Int64', 'steps': 'Int64', 'quadruple steps': 'Int64', 'elements': 'Int64', 'seconds': 'float64'}
[2, 3, 4611686018427387904, <NA>, 9] 4611686018427387904 [False, False, False, True, False] {'halted': 3, 'time': 0, 'window 1 left': 1}
PATH is not the table of a sweep: its columns are a, b
"""


class Tables(unittest.TestCase):
    @needs("pandas")
    def test_words_are_text_and_counts_are_whole_numbers(self):
        with tempfile.TemporaryDirectory() as folder:
            paths = [os.path.join(folder, name) for name in ("table.csv", "other.csv")]
            for path, rows in zip(paths, ([list(COLUMNS), *ROWS], [["a", "b"], ["1", "2"]])):
                with open(path, "w", encoding="utf-8") as file:
                    file.writelines(",".join(row) + "\n" for row in rows)
            ran = subprocess.run(
                [python_with("pandas"), "-B", "-c", SCRIPT, *paths],
                env={**os.environ, "PYTHONPATH": PACKAGES},
                capture_output=True,
                text=True,
            )
        self.assertEqual(ran.stdout, TOLD, ran.stderr)


if __name__ == "__main__":
    unittest.main()

"""Tables of a sweep in pandas."""
from __future__ import annotations

import os
from typing import TYPE_CHECKING

from .optional import needs

if TYPE_CHECKING:
    import pandas


def read_table(path: str | os.PathLike[str]) -> pandas.DataFrame:
    """The table of a sweep as a DataFrame: words, outputs and names as text, so that `0`, `00` and the empty word stay
    apart; `status`, `steps`, `quadruple steps` and `elements` as Int64, with <NA> for an empty field; `seconds` as float64.

    It needs pandas. A file that is no table of a sweep is a ValueError.
    """
    with needs("pandas", "tables"):
        import pandas

    from .sweep.rows import COLUMNS, ELEMENTS, QUADRUPLE, SECONDS, STATUS, STEPS

    frame = pandas.read_csv(path, dtype=str, keep_default_na=False, na_filter=False, encoding_errors="surrogateescape")
    if tuple(frame.columns) != COLUMNS:
        raise ValueError(f"{os.fspath(path)} is not the table of a sweep: its columns are {', '.join(frame.columns)}")
    for name in (COLUMNS[it] for it in (STATUS, STEPS, QUADRUPLE, ELEMENTS)):
        frame[name] = pandas.array([int(it) if it else None for it in frame[name]], dtype="Int64")
    frame[COLUMNS[SECONDS]] = [float(it) if it else float("nan") for it in frame[COLUMNS[SECONDS]]]
    return frame

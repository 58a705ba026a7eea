"""Machines of four other programs (turingmachine.io, JFLAP, Morphett's simulator, bbchallenge), read as tables of quintuples."""
from .machine_files import kind_of, read_machine, table_of

__all__ = ["kind_of", "read_machine", "table_of"]

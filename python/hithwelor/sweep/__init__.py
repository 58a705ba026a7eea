"""Tables of counts over many words, machines and windows: `python3 -m hithwelor sweep`.

`cases` has the cases by their numbers, `rows` makes rows of what the program answers and compares them, `workers` hands
batches of cases to processes, `table` writes, resumes and joins tables, and `command` puts them together.
"""

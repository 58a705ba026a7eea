# %% [markdown]
# # Sheet 1: to compute without forgetting
#
# You need to know what a Turing machine is, and nothing else. Run the cells one after another. **Your turn** marks what you do by yourself. Each answer is one of the proved program, by the package `hithwelor`; the cells make no step of their own.
# %%
import pictures
import hithwelor


def ask(*words, on):
    """The program's answer as a text; a refusal is shown."""
    status, text = hithwelor.answer(words, on)
    return text.decode() if status == 0 else f"refused, status {status}: {text.decode()}"
# %% [markdown]
# ## 1 One element
#
# A **rotary element** is a box with a bar that can turn, and four lines: north, east, south, west. A signal that comes in **along** the bar goes straight on. One that comes in **across** it turns right, and turns the bar. This is one as a text: the bar lies (`H`), and the signal is about to enter by the north line.
# %%
across = """rotary 1
elements 1
start 0.n
end 0.w
steps 0
at 0.n
e 0 H - - - -
"""
after = ask("step", "1", on=across)
print(after)
pictures.beside(pictures.element(across), pictures.element(after))
# %% [markdown]
# ## 2 A step back
#
# `back` takes a step back. Not only the signal returns: the bar lies as it lay, and the text is the first one again, to the byte.
# %%
again = ask("back", "1", on=after)
print(again == across)
pictures.beside(*map(pictures.element, (across, after, again)))
# %% [markdown]
# All eight cases: two bars, four lines.
# %%
results = []
for bar in "HV":
    for line in "nesw":
        text = across.replace("e 0 H", f"e 0 {bar}").replace("at 0.n", f"at 0.{line}")
        lines = ask("step", "1", on=text).splitlines()
        results.append((lines[5], lines[6].split(" ")[2]))
        print(f"{bar}, in by {line}:  out by {results[-1][0][-1]}, {results[-1][1]}")
print(len(set(results)), "different results")
# %% [markdown]
# No two end alike, and this is why a step can be undone.
#
# **Your turn 1.** Write a text in which the signal goes through two elements. In `e E S X X X X` the four `X` say where the outputs n, e, s, w lead, as `1.n`, or `-` where no wire leads away. Before you ask: by which line does the signal go out, and how do the bars lie? Then take all steps back.
# %%
mine = """rotary 1
elements 2
start 0.n
end 0.n
steps 0
at 0.n
e 0 V - - - -
e 1 H - - - -
"""
print(ask("step", "10", on=mine))
# %% [markdown]
# ## 3 A machine
#
# A machine is a table of quintuples, one a line: state, letter that is read, letter that is written, move of the head, next state. A blank is `_`. This one adds 1 to a number in binary.
# %%
machine = hithwelor.Machine("""S,_,_,+,Go
Go,0,0,+,Go
Go,1,1,+,Go
Go,_,_,-,Add
Add,1,0,-,Add
Add,0,1,-,Home
Add,_,1,-,Home
Home,0,0,-,Home
Home,1,1,-,Home
Home,_,_,0,Halt
""")
print(machine.check())
machine
# %%
outcome = machine.by_itself("1011")
print(outcome.kind, "after", outcome.steps, "steps, with the output", outcome.output)
pictures.moments(machine.ask(["trace", "=1011", 20]))
# %% [markdown]
# 1011 + 1 = 1100. Now look at step 9, and cover the rows above it. In state `Home` there is a 1 right of the head: was it a 0 before, a blank, or the same 1? Three rules lead there, and the machine has forgotten which one it was. A step that forgets can't be undone.
#
# The same in the least table that shows it. Two **quadruples**: whatever was read, 1 is written, and the next state is R.
# %%
print(ask("reversible", on="P,0,/,/,1,0,0,R\nP,1,/,/,1,0,0,R\n"))
# %% [markdown]
# The second line names the first two quadruples that overlap in range: both can lead to one configuration.
#
# ## 4 Its reversible machine
#
# Bennett (1973) writes each step's quintuple on a second tape, the **history**, copies the output to a third tape, and then takes all steps back. `bennett` makes that machine of any machine in standard form.
# %%
table = machine.bennett()
print(table.count("\n"), "quadruples; the first ones:")
print("".join(table.splitlines(keepends=True)[:4]))
print(ask("reversible", on=table))
# %% [markdown]
# That machine is made into one circuit of rotary elements, and one signal runs it. At the end the input is on tape 1 again, the history is blank, and the output alone is on tape 3.
# %%
run = machine.run("1011")
run
# %%
pictures.hill(machine, "1011", run.window)
# %% [markdown]
# Where the machine halts after *i* steps with an output of *L* letters, the reversible machine halts after 4*i* + 4*L* + 5 steps. That is proved for every machine in standard form; here is one case.
# %%
print(4 * outcome.steps + 4 * len(outcome.output) + 5, "=", run.quadruple_steps)
# %% [markdown]
# ## 5 There and back
#
# In the middle of the run the history is full. `session` plays a script: on to the middle, a look at every layer, and back to the beginning.
# %%
half = run.steps // 2
session = machine.session("1011", run.window, [f"go {half}", "view", f"rev {half}", "view"])
session
# %% [markdown]
# **Your turn 2.** `go` to a step where the history has three numbers. What do they say? Each is the number of a quintuple in the table, from 1.
#
# **Your turn 3.** Change the table so that it takes 1 away. What does `check` say, and what does `reversible` say of the table that `bennett` makes of it?
#
# **Your turn 4.** Why isn't the history simply made blank at the end, cell by cell? Write two quadruples that do it for the numbers 1 and 2, and ask `reversible`.

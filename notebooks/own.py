# %% [markdown]
# # Sheet 3: a machine of one's own
#
# Its reversible machine, its circuit, its mirror. The sheet stands for a machine that turns a number in binary into Gray's code. Put your own table in the first cell and run all cells: nothing below names this machine, but for the machine that undoes it, in section 6.
# %%
import pictures
import hithwelor

own = hithwelor.Machine("""P0,0,0,+,P0
P0,1,1,+,P1
P1,0,1,+,P0
P1,1,0,+,P1
P0,_,_,-,Halt
P1,_,_,-,Halt
""")
word, words = "1011", ["", "0", "1", "10", "11", "100", "101", "110", "111"]


def ask(*given, on):
    """The program's answer as a text; a refusal is shown."""
    status, text = hithwelor.answer(given, on)
    return text.decode() if status in (0, 10, 12) else f"refused, status {status}: {text.decode()}"


own
# %% [markdown]
# ## 1 In standard form
#
# Bennett's construction wants a machine that starts on the blank before the word, by a rule that nothing else uses, and ends so too. `check` says which demand fails; `standard` makes an equivalent machine of one that starts on the first letter.
# %%
print(ask("check", on=own.table))
machine = own if own.is_standard else own.standard()
print(machine.check())
machine
# %%
for it in words:
    outcome = machine.by_itself(it)
    print(f"{it or '(no letter)':>12}  {outcome.kind} after {outcome.steps}: {outcome.output or '(no letter)'}")
pictures.moments(machine.ask(["trace", f"={word}", 100]))
# %% [markdown]
# **Your turn 1.** Test your machine on the words of which you know the answer. Where is it stuck, and should it be?
#
# ## 2 What it forgets
#
# Where two quintuples lead to one state, and write what the next one can't tell apart, a step has two pasts. Here are the states into which several quintuples lead.
# %%
into = {}
for number, line in enumerate(machine.table.splitlines(), 1):
    into.setdefault(line.split(",")[4], []).append(number)
for state, numbers in into.items():
    if len(numbers) > 1:
        print(f"into {state}: quintuples {', '.join(map(str, numbers))}")
# %% [markdown]
# **Your turn 2.** Choose two of them and write down two configurations of your machine that have one successor. If there are none, your machine is reversible by itself.
#
# ## 3 Its reversible machine
# %%
table = machine.bennett()
print(table.count("\n"), "quadruples")
print(ask("reversible", on=table))
print("the first of them, and the last of the inverse machine:")
print(table.splitlines()[0])
print(ask("inverse", on=table).splitlines()[-1])
# %% [markdown]
# `inverse` turns each quadruple round. Turned round twice, the table is the first one again.
# %%
print(ask("inverse", on=ask("inverse", on=table)) == table)
# %% [markdown]
# ## 4 Its circuit
# %%
run = machine.run(word)
run
# %%
pictures.hill(machine, word, run.window)
# %%
own_run = machine.by_itself(word)
print("quadruple steps:", run.quadruple_steps, "=", 4 * own_run.steps + 4 * len(own_run.output or "") + 5)
print("in this window:", f"{run.elements:,} elements,", f"{run.steps:,} element steps")
# %% [markdown]
# **Your turn 3.** Find the least window in which the run comes to its end. Make one number smaller at a time; `machine.run(word, window).exit` tells which end was too near.
#
# ## 5 Its mirror
#
# A step back of a rotary element is a step forward of one with east and west exchanged. So the circuit is undone by a circuit of the same element, its **mirror**. Only steps forward: the circuit, to its exit; the mirror, as many steps; and the mirror of that is the first text, to the byte. To walk every element takes a moment, so the word is short.
# %%
short = word[:1]
small = machine.run(short)
start = machine.compile(short, small.window)
left = start.step(small.steps)
home = left.mirror().step(small.steps)
print(f"{small.elements:,} elements, {small.steps:,} steps there and {small.steps:,} steps of the mirror")
print("the first text again:", home.mirror() == start)
# %% [markdown]
# ## 6 Without its word
#
# The reversible machine leaves word and output. Where another machine finds the word again from the output, the word can go too: `erase` joins the two, and the second one is run backward.
# %%
undoing = hithwelor.Machine("""P0,0,0,+,P0
P0,1,1,+,P1
P1,0,1,+,P1
P1,1,0,+,P0
P0,_,_,-,Halt
P1,_,_,-,Halt
""").standard()
print(ask("erase", f"={word}", "100000", on=machine.table + "%\n" + undoing.table))
# %% [markdown]
# **Your turn 4.** Is there a machine that undoes yours? If two words have one output there is none: show two such words. Otherwise write it, and let `erase` leave the output alone.

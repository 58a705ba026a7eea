# %% [markdown]
# # Sheet 2: counting
#
# How do steps and elements grow: with the word, with the states, with the window? Each number is one of the proved program. The cells gather them, draw them, and look for the power that comes nearest. Before each picture, guess.
# %%
import pictures
import hithwelor

# Sorts 0s before 1s: it finds a 1 with a 0 behind it, exchanges the two, and begins again there.
sort = hithwelor.Machine("""S,_,_,+,Scan
Scan,0,0,+,Scan
Scan,1,1,+,Seen
Scan,_,_,-,Home
Seen,1,1,+,Seen
Seen,0,1,-,Swap
Seen,_,_,-,Home
Swap,1,1,-,Swap
Swap,0,0,+,Put
Swap,_,_,+,Put
Put,1,0,+,Scan
Home,0,0,-,Home
Home,1,1,-,Home
Home,_,_,0,Halt
""")
# Divides a number in binary by 3; its states are the remainders. It starts on the first letter, so `standard` comes first.
third = hithwelor.Machine("""R0,0,0,+,R0
R0,1,0,+,R1
R1,0,0,+,R2
R1,1,1,+,R0
R2,0,1,+,R1
R2,1,1,+,R2
R0,_,_,-,Halt
R1,_,_,-,Halt
R2,_,_,-,Halt
""").standard()
print(sort.by_itself("1100"))
print(third.by_itself("1001"))
# %% [markdown]
# ## 1 Steps, by the letters of the word
#
# The words are 10, 1100, 111000 and so on for the sorting, and as many 1s for the division.
# %%
lengths = range(2, 25, 2)
steps = {"sort": [(n, sort.by_itself("1" * (n // 2) + "0" * (n // 2)).steps) for n in lengths],
         "third": [(n, third.by_itself("1" * n).steps) for n in lengths]}
for name, points in steps.items():
    print(name, points)
pictures.plot(steps, "letters of the word", "steps of the machine", is_log=True, fits=steps)
# %% [markdown]
# On two logarithmic scales a power is a straight line, and its exponent is the slope. **Your turn 1.** Which exponents do you expect for very long words, and why does the fit give less? Find both numbers of steps as formulas in *n*, from the tables of quintuples.
#
# ## 2 Steps of the reversible machine
#
# The machine halts after *i* steps with *L* letters, and its reversible machine after 4*i* + 4*L* + 5. So the exponent stays; only the factor grows. That is Bennett's price in time, and the next section has his price in cells.
# %%
words = ["1" * half + "0" * half for half in range(1, 6)]
table = [(len(word), sort.by_itself(word), sort.run(word)) for word in words]
print(f"{'letters':>8}{'steps':>7}{'reversible':>12}{'4i + 4L + 5':>13}{'element steps':>15}{'for each':>10}")
for n, own, run in table:
    told = 4 * own.steps + 4 * len(own.output) + 5
    each = run.steps / run.quadruple_steps
    print(f"{n:>8}{own.steps:>7}{run.quadruple_steps:>12}{told:>13}{run.steps:>15,}{each:>10,.0f}")
# %% [markdown]
# The last column has the element steps for each step of the reversible machine. It grows: a command goes from the control along the cells of a tape to the one with the head, and its answer comes back. The further the head, the longer the way.
# %%
element = {"element steps": [(n, run.steps) for n, _, run in table],
           "elements": [(n, run.elements) for n, _, run in table],
           "steps of the reversible machine": [(n, run.quadruple_steps) for n, _, run in table]}
pictures.plot(element, "letters of the word", is_log=True, fits=["element steps"])
# %% [markdown]
# **Your turn 2.** The elements don't lie on a line: they jump. Print the windows, `run.window`, and say why. Which of its four numbers jumps?
#
# ## 3 Elements, by the cells of the window
#
# The window is given now: three of its four numbers stay, and one grows.
# %%
def elements(machine, word, window):
    return machine.compile(word, window).elements


names = ["work tape, left", "work tape, right", "history", "output"]
windows = {name: [[4 + extra * (at == place) for place in range(4)] for extra in range(0, 13, 2)]
           for at, name in enumerate(names)}
growth = {name: [(sum(window) - 16, elements(sort, "1", window)) for window in told] for name, told in windows.items()}
for name, points in growth.items():
    print(f"{name:>17}: {(points[-1][1] - points[0][1]) // 12} elements for each cell")
pictures.plot(growth, "cells more than 4", "elements")
# %% [markdown]
# Straight lines, and two of them twice. A cell of a tape for *z* symbols, the blank among them, is a bank of 2*z* columns of 2*z* + 8 rows and their bottoms, so of 2*z* (2*z* + 9) elements.
# %%
for name, symbols in (("work and output", 3), ("history", 14 + 1)):
    print(f"{name}: {symbols} symbols, {2 * symbols * (2 * symbols + 9)} elements for each cell")
# %% [markdown]
# **Your turn 3.** Why has a cell of the history 15 symbols? Which tape would you make smaller, if elements cost money?
#
# ## 4 Elements, by the states
#
# A machine of *k* increments adds one *k* times, with fresh states each time: 9*k* + 1 quintuples and 3*k* + 2 states. The window stays.
# %%
def increments(k):
    rows = ["S,_,_,+,R1"]
    for i in range(1, k + 1):
        rows += [f"R{i},0,0,+,R{i}", f"R{i},1,1,+,R{i}", f"R{i},_,_,-,P{i}", f"P{i},1,0,-,P{i}", f"P{i},0,1,-,L{i}",
                 f"P{i},_,1,-,L{i}", f"L{i},0,0,-,L{i}", f"L{i},1,1,-,L{i}"]
        rows.append(f"L{i},_,_,+,R{i + 1}" if i < k else f"L{i},_,_,0,F")
    return hithwelor.Machine("".join(row + "\n" for row in rows))


window = (1, 4, 8, 4)
states = [(3 * k + 2, elements(increments(k), "1", window)) for k in range(1, 11)]
print(states)
pictures.plot({"elements": states}, "states of the machine", "elements", is_log=True, fits=["elements"])
# %% [markdown]
# **Your turn 4.** The exponent is near 2, with a window that doesn't grow. Where does the square come from? And how would the elements grow in the window that the program finds, where the history has a cell for each step?
#
# **Your turn 5.** A machine of your own: which of the three, word, states or window, costs most there?

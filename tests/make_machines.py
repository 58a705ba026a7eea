#!/usr/bin/env python3
"""Writes the files of tests/machines: machines in the forms in which four programs write them.

They were written by hand and by this script in those forms, from what is known of them; none was downloaded. Those of JFLAP 8 are
in the form of its structures as far as it is known here, and weren't compared with that program.
"""
import os

HERE = os.path.join(os.path.dirname(os.path.abspath(__file__)), "machines")

INCREMENT = """input: '1011'
blank: ' '
start state: right
table:
  # scan to the rightmost digit
  right:
    [1,0]: R
    ' '  : {L: carry}
  # then carry the 1
  carry:
    1      : {write: 0, L}
    [0,' ']: {write: 1, L: done}
  done:
"""
COMPLEMENT = """blank: _
start state: go
table:
  go:
    0: {write: 1, R: go}
    1: {write: 0, R: go}
    _: {L: done}
  done: {}
"""
POSITIONS = """positions:
  right: {x: 230, y: 250}
  carry: {x: 400, y: 250}
  done: {x: 570, y: 250, fixed: true}
"""


def indented(text, by=2):
    return "".join(f"{' ' * by}{line}\n" if line else "\n" for line in text.splitlines())


def quoted(text):
    return '"' + text.replace("\\", "\\\\").replace('"', '\\"').replace("\n", "\\n") + '"'


TURING = {
    "increment.yaml": INCREMENT,
    "complement.yaml": COMPLEMENT,
    "download.yaml": f"name: binary increment\nsource code: |\n{indented(INCREMENT)}{POSITIONS}",
    "download-stripped.yaml": f"name: binary increment\nsource code: |-\n{indented(INCREMENT.rstrip())}\n{POSITIONS}",
    "download-kept.yaml": f"source code: |+\n{indented(INCREMENT + chr(10) + chr(10))}{POSITIONS}",
    "download-folded.yaml": "name: folded\nsource code: >\n"
    + indented(COMPLEMENT.replace("\n", "\n\n").replace("\n\n  ", "\n  ").replace("\n\n    ", "\n    ")),
    "download-quoted.yaml": f"name: quoted\nsource code: {quoted(COMPLEMENT)}\npositions: {{}}\n",
    "download-indented.yaml": "source code: |2\n"
    + indented("  # a comment first\n" + COMPLEMENT).replace("    # a", "    # a", 1),
    "download-begins.yaml": f"---\n# from turingmachine.io\nname: 'it''s complement'\nsource code: |  # the machine\n{indented(COMPLEMENT, 4)}",
    "begins.yaml": f"---\n{COMPLEMENT}...\n",
    "windows.yaml": ("\ufeff" + INCREMENT).replace("\n", "\r\n"),
    "two-lines.yaml": """blank: ' '
start state: a
table:
  a: {0: {write: 1,
          R: a}, 1: {write: 0,
          R}, ' ': {L: b}}
  b:
""",
    "next-line.yaml": """blank: ' '
start state: a
table:
  a:
    0:
      {write: 1, R}   # the same state
    1:
      write: 0
      R: a
    ' ': { # over some lines
      L:
        b
    }
  b: {}
""",
    "keys.yaml": """blank: ' '
start state: a
table:
  a:
    ? [0, 1]
    : R
    ? ' '
    : {L: b}
  ? b
  : {}
""",
    "synonyms.yaml": """blank: ' '
start state: q0
synonyms:
  accept: {R: accept}
  back: {L: home}
table:
  q0:
    [a, b]: R
    ' ': back
  home:
    [a, b]: L
    ' ': accept
  accept:
""",
    "quotes.yaml": """"blank": "_"
'start state': "the start"
table:
  "the start":
    "0": {"write": '1', "R": "the start"}
    '1': {write: "0", R}
    "_": {L: 'it''s done'}
  'it''s done': {}
""",
    "table-first.yaml": """table:
  go: {0: R, 1: R, ' ': {L: stop}}
  stop: {}
start state: go
blank: ' '
input: 101
""",
    "flow.yaml": "{}\n".replace("{}", "table: {go: {0: R, 1: {write: 0, R: go}, ' ': {L: stop}}, stop: {}}")
    + "blank: ' '\nstart state: go\n",
    "names.yaml": """blank: ' '
start state: q_0
table:
  q_0:
    1: {R: q 0}
    ' ': {L: q-0}
  q 0:
    1: {R: q_0}
    ' ': {L: q-0}
  q-0:
""",
    "verdicts.yaml": """blank: ' '
start state: even
table:
  even:
    1: {R: odd}
    ' ': {R: accept}
  odd:
    1: {R: even}
    ' ': {R: reject}
  accept:
  reject:
""",
    "spaces.yaml": "\n\n"
    + COMPLEMENT.replace("\n", "   \n").replace("_: {L: done}", "_ :   { L :   done }  # the end"),
    "empty-state.yaml": COMPLEMENT.replace("done: {}", "done: ~"),
    # what is refused
    "no-halt.yaml": "blank: ' '\nstart state: a\ntable:\n  a:\n    ' ': R\n",
    "no-state.yaml": "blank: ' '\nstart state: a\ntable:\n  a:\n    ' ': {R: b}\n",
    "anchors.yaml": "blank: ' '\nstart state: a\ntable:\n  a: &x\n    ' ': R\n",
    "block-list.yaml": "blank: ' '\nstart state: a\ntable:\n  - a\n",
    "tab.yaml": "blank: ' '\nstart state: a\ntable:\n\ta:\n",
    "second.yaml": f"{COMPLEMENT}---\n{COMPLEMENT}",
    "unclosed.yaml": "blank: ' '\nstart state: a\ntable:\n  a: {0: R,\n",
    "letter.yaml": COMPLEMENT.replace("_: {L", "/: {L: done}\n    _: {L"),
    "deep.yaml": "blank: ' '\nstart state: a\ntable:\n  a: " + "[" * 60 + "]" * 60 + "\n",
    "top-list.yaml": "[a]: b\nblank: ' '\ntable:\n",
    "inner.yaml": "source code: |\n  blank: ' '\n  start state: a\n  table:\n    a:\n      12: R\n",
}


def jflap_7(
    states,
    rules,
    kind="block",
    between="",
    head='<?xml version="1.0" encoding="UTF-8" standalone="no"?>',
    more="",
    comment=True,
):
    """A file as JFLAP 7 writes it: states as (id, name, marks) and rules as (from, to, read, write, move)."""
    lines = [
        head + ("<!--Created with JFLAP 6.4.-->" if comment else "") + f"<structure>{between}",
        f"\t<type>turing</type>{between}",
        *more.splitlines(),
        f"\t<automaton>{between}",
        f"\t\t<!--The list of states.-->{between}",
    ]
    for number, name, marks in states:
        tag = f"\t\t\t<tag>Machine{number}</tag>{between}\n" if kind == "block" else ""
        lines += [
            f'\t\t<{kind} id="{number}" name="{name}">{between}',
            f"{tag}\t\t\t<x>{90 + 100 * number}.0</x>{between}",
            f"\t\t\t<y>98.0</y>{between}",
            *(f"\t\t\t<{it}/>{between}" for it in marks),
            f"\t\t</{kind}>{between}",
        ]
    lines.append(f"\t\t<!--The list of transitions.-->{between}")
    for start, end, read, write, move in rules:
        told = "".join(
            f"\t\t\t<{tag}>{text}</{tag}>{between}\n" if text else f"\t\t\t<{tag}/>{between}\n"
            for tag, text in (("from", start), ("to", end), ("read", read), ("write", write), ("move", move))
        )
        lines += [f"\t\t<transition>{between}", told.rstrip("\n"), f"\t\t</transition>{between}"]
    if kind == "block":
        lines += [f"\t\t<Machine{number}/>{between}" for number, _, _ in states]
    return "\n".join([*lines, f"\t</automaton>{between}", "</structure>", ""])


FLIP = (
    [(0, "q0", ["initial"]), (1, "q1", ["final"])],
    [("0", "0", "a", "b", "R"), ("0", "0", "b", "a", "R"), ("0", "1", "", "", "L")],
)
COUNT = (
    [(0, "q0", ["initial"]), (1, "q1", []), (2, "q2", ["final"])],
    [("0", "0", "1", "1", "R"), ("0", "1", "", "1", "L"), ("1", "1", "1", "1", "L"), ("1", "2", "", "", "S")],
)


def jflap_8(states, rules, kind="turing", tapes=None, blank="\u25a1"):
    """A file in the form of JFLAP 8: structures by their types."""
    state = lambda number, name: f"<state><name>{name}</name><id>{number}</id></state>"
    named = {str(number): name for number, name, _ in states}
    of = lambda mark: "".join(state(number, name) for number, name, marks in states if mark in marks)
    lines = [
        '<?xml version="1.0" encoding="UTF-8" standalone="no"?>',
        '<structure type="editor_panel">',
        '<structure type="transition_graph">',
        f'<structure type="{kind}">',
        f'<structure type="state_set">{"".join(state(*it[:2]) for it in states)}</structure>',
        f'<structure type="start_state">{of("initial")}</structure>',
        f'<structure type="final_states">{of("final")}</structure>',
        '<structure type="input_alph"><symbol>a</symbol><symbol>b</symbol></structure>',
        '<structure type="transition_set">',
    ]
    for start, end, read, write, move in rules:
        parts = [
            (f"{tag}{it}", text)
            for it in (range(tapes) if tapes else [""])
            for tag, text in (("read", read or blank), ("write", write or blank), ("move", move))
        ]
        lines.append(
            "<transition>"
            + "".join(
                f"<{end_}>{f'<name>{named[it]}</name><id>{it}</id>'}</{end_}>"
                for end_, it in (("from", start), ("to", end))
            )
            + "".join(f"<{tag}>{text}</{tag}>" for tag, text in parts)
            + "</transition>"
        )
    lines += [
        "</structure>",
        *([f"<tape_num>{tapes}</tape_num>"] if tapes else []),
        "</structure>",
        "<state_point_map/>",
        "</structure>",
        "</structure>",
        "",
    ]
    return "\n".join(lines)


def two_tapes():
    """As JFLAP 7 writes a machine of two tapes."""
    tape = lambda number: f'<read tape="{number}">a</read><write tape="{number}"/><move tape="{number}">R</move>'
    return jflap_7(FLIP[0], [], more="\t<tapes>2</tapes>").replace(
        "\t\t<Machine0/>", f"\t\t<transition><from>0</from><to>1</to>{tape(1)}{tape(2)}</transition>\n\t\t<Machine0/>"
    )


SAME = ([(0, "q", ["initial"]), (1, "q", []), (2, "q", ["final"])], COUNT[1])
JFLAP = {
    "flip-7.jff": jflap_7(*FLIP),
    "flip-7-returns.jff": jflap_7(*FLIP, between="&#13;"),
    "flip-4.jff": jflap_7(*FLIP, kind="state", comment=False),
    "flip-8.jff": jflap_8(*FLIP),
    "count-7.jff": jflap_7(*COUNT),
    "count-4.jff": jflap_7(*COUNT, kind="state"),
    "count-8.jff": jflap_8(*COUNT),
    "count-8-tm.jff": jflap_8(*COUNT, kind="multitape_tm"),
    "one-tape-8.jff": jflap_8(*COUNT, tapes=1),
    "empty-blank-8.jff": jflap_8(*FLIP, blank=""),
    "same-names.jff": jflap_7(*SAME),
    "same-names-8.jff": jflap_8(*SAME),
    "same-names-again.jff": jflap_7([(0, "q", ["initial"]), (1, "q.2", []), (2, "q", ["final"])], COUNT[1]),
    "square-blank.jff": jflap_7(*FLIP).replace("<read/>", "<read>\u25a1</read>"),
    "no-head.jff": jflap_7(*FLIP, head="", comment=False),
    "windows.jff": jflap_7(*FLIP).replace("\n", "\r\n"),
    "names.jff": jflap_7([(0, "go &amp; &lt;flip&gt;", ["initial"]), (1, "q_1", ["final"])], FLIP[1]),
    "no-names.jff": jflap_7(*FLIP, kind="state").replace(' name="q0"', "").replace(' name="q1"', ""),
    "single-quotes.jff": jflap_7(*FLIP).replace('id="0"', "id='0'"),
    "two-finals.jff": jflap_7([*COUNT[0], (3, "q3", ["final"])], [*COUNT[1], ("0", "3", "x", "x", "R")]),
    "tag.jff": jflap_7(*FLIP).replace("<tag>Machine0</tag>", "<tag>q[0</tag>").replace("<Machine0/>", ""),
    "one-tape-7.jff": jflap_7(*FLIP, more="\t<tapes>1</tapes>"),
    "cdata.jff": jflap_7(*FLIP).replace("<read>a</read>", "<read><![CDATA[a]]></read>"),
    # what is refused
    "two-tapes.jff": two_tapes(),
    "two-tapes-untold.jff": two_tapes().replace("<tapes>2</tapes>", ""),
    "two-tapes-8.jff": jflap_8(*COUNT, kind="multitape_tm", tapes=2),
    "two-tapes-8-untold.jff": jflap_8(*COUNT, tapes=2).replace("<tape_num>2</tape_num>", ""),
    "blocks-8.jff": jflap_8(*FLIP, kind="block_tm"),
    "finite-automaton.jff": jflap_7(*FLIP).replace(">turing<", ">fa<"),
    "finite-automaton-8.jff": jflap_8(*FLIP, kind="fsa"),
    "no-type.jff": jflap_7(*FLIP).replace("<type>turing</type>", ""),
    "block.jff": jflap_7(*FLIP).replace("<Machine1/>", '<Machine1><block id="0" name="q0"/></Machine1>'),
    "not-a.jff": jflap_7(*FLIP).replace("<read>a</read>", "<read>!a</read>"),
    "any.jff": jflap_7(*FLIP).replace("<write>a</write>", "<write>~</write>"),
    "move.jff": jflap_7(*FLIP).replace("<move>L</move>", "<move>U</move>"),
    "no-initial.jff": jflap_7(*FLIP).replace("<initial/>", ""),
    "twice.jff": jflap_7(FLIP[0], [*FLIP[1], ("0", "1", "a", "a", "R")]),
    "same-id.jff": jflap_7(*FLIP).replace('id="1"', 'id="0"'),
    "leaves-final.jff": jflap_7(FLIP[0], [*FLIP[1], ("1", "0", "a", "a", "R")]),
    "cut-off.jff": jflap_7(*FLIP)[:-30],
    "crossed.jff": "<structure><type>turing</structure></type>\n",
    "doctype.jff": '<!DOCTYPE structure [<!ENTITY a "b">]>' + jflap_7(*FLIP, head="", comment=False),
    "entity.jff": jflap_7(*FLIP).replace("q1", "q&nbsp;1"),
}

PALINDROME = """; This example program checks if the input string is a binary palindrome.
; Input: a string of 0's and 1's, eg '1001001'

; Machine starts in state 0.

; State 0: read the leftmost symbol
0 0 _ r 1o
0 1 _ r 1i
0 _ _ * accept     ; Empty input

; State 1o, 1i: find the rightmost symbol
1o _ _ l 2o
1o * * r 1o

1i _ _ l 2i
1i * * r 1i

; State 2o, 2i: check if the rightmost symbol matches the most recently read left-hand symbol
2o 0 _ l 3
2o _ _ * accept
2o * * * reject

2i 1 _ l 3
2i _ _ * accept
2i * * * reject

; State 3, 4: return to left end of remaining input
3 _ _ * accept
3 * * l 4
4 * * l 4
4 _ _ r 0  ; Back to the beginning

accept * : r accept2
accept2 * ) * halt-accept

reject _ : r reject2
reject * _ l reject
reject2 * ( * halt-reject
"""
ADDING = "0 0 0 r 0\n0 1 1 r 0\n0 _ _ l 1\n1 1 0 l 1\n1 0 1 l halt\n1 _ 1 l halt\n"
FLIPPING = "0 0 1 r 0\n0 1 0 r 0\n0 _ * l halt\n"
MORPHETT = {
    "add.txt": ADDING,
    "flip.txt": FLIPPING,
    "palindrome.txt": PALINDROME,
    "comments.txt": "; adds one\n\n" + ADDING.replace("\n", " ; a rule\n") + ";end",
    "breakpoints.txt": ADDING.replace("1 1 0 l 1", "1 1 0 l 1 !"),
    "windows.txt": ("\ufeff" + ADDING).replace("\n", "\r\n"),
    "tabs.txt": ADDING.replace(" ", "\t"),
    "capitals.txt": ADDING.replace(" r ", " R ").replace(" l ", " L "),
    "wide.txt": "   " + ADDING.replace(" ", "   "),
    "halts.txt": FLIPPING.replace("halt", "halt-here"),
    "halts-capital.txt": FLIPPING.replace("halt", "HALT"),
    "two-halts.txt": FLIPPING + "0 x x * halt-bad\n",
    "any-symbol.txt": "0 1 0 r 0\n0 * 1 r 0\n0 _ _ l halt\n",
    "any-state.txt": "0 1 1 r even\neven 1 1 r 0\n* _ _ l halt\n",
    "any-both.txt": "0 1 1 r 1\n1 1 1 r 0\n* * * l halt\n",
    "same-state.txt": "0 0 1 r *\n0 1 0 r *\n0 _ _ l halt\n",
    "stays.txt": "0 0 1 * go\n0 1 0 * go\n0 _ _ l halt\ngo * * r 0\n",
    "named.txt": FLIPPING.replace("0 0 1 r 0", "start 0 1 r start")
    .replace("0 1 0 r 0", "start 1 0 r start")
    .replace("0 _ *", "start _ *"),
    "names.txt": FLIPPING.replace("0 _ * l halt", "0 _ * l q_back\nq_back * * l q_back\nq_back _ _ r halt"),
    "last-without-end.txt": ADDING.rstrip(),
    "after-halt.txt": ADDING + "halt 1 1 r 0\n",
    "sharp.txt": "0 # # r 0\n0 a b r 0\n0 _ # l halt\n",
    # what is refused
    "four-fields.txt": ADDING + "1 x x l\n",
    "direction.txt": ADDING + "1 x x u halt\n",
    "long-symbol.txt": ADDING + "1 xy x l halt\n",
    "twice.txt": ADDING + "0 1 0 r 1\n",
    "no-halt.txt": "0 1 1 r 0\n",
    "letter.txt": FLIPPING + "0 / / r 0\n",
    "starts-anywhere.txt": "* 1 1 r *\n* _ _ l halt\n",
}

LINES = [
    "1RB1LB_1LA1RZ",
    "1RB1RZ_1LB0RC_1LC1LA",
    "1RB1RZ_0RC1RB_1LC1LA",
    "1RB1LB_1LA0LC_1RZ1LD_1RD0RA",
    "1RB1LC_1RC1RB_1RD0LE_1LA1LD_1RZ0LA",
    "1RB2LB1RZ_2LA2RB1LB",
    "1RB2LA1RA1RA_1LB1LA3RB1RZ",
    "1RB---_1LA0RB",
    "1RB1LA_0LA---",
    "1RB0LC_1LA1RC_1RZ1LB",
    "1RB1LC_1LB1RA_1LA1RZ",
    "1RB1RH_1LB0RC_1LC1LA",
    "1RB1LB_1LA0LC_---1LD_1RD0RA",
    "1RB1LD_1RC0LA_0LB1RZ_1LA1LC",
    "1RB0RB_1LA1RZ",
    "1RB1RZ_1LA1LB",
    "0RB1LA_1LA1RZ",
    "1RB1RZ_0LB1RA",
    "1LB1RB_1RA1RZ",
    "1RB1LE_0RC0RB_1RD0LA_1LD1LB_---0RC",
    "1RB2LB1RZ_2LA2RB---",
    "1RZ",
    "1RB3RB5RZ0LA1RB2LA_2LA2RA4RB1RZ0LB4RA",
]
REFUSED = {
    "no-halt.txt": "1RB1LA_1LA1RB",
    "uneven.txt": "1RB1LB_1LA",
    "symbol.txt": "1RB1LB_3LA1RZ",
    "symbols.txt": "1RA" * 11,
}

NONE = {
    "table.csv": "S,_,_,+,T\nT,_,_,0,F\n",
    "header.csv": "state;read;write;move;next\nA;0;1;R;B\n",
    "machine.json": '{"blank": " ", "start state": "a", "table": {"a": {"0": "R"}}}\n',
    "list.json": '["1RB1LB", "1LA1RZ"]\n',
    "page.html": "<!DOCTYPE html>\n<html><body><p>1RB1LB_1LA1RZ</p></body></html>\n",
    "other.xml": '<?xml version="1.0"?>\n<machine><state/></machine>\n',
    "words.txt": "A machine that adds one.\n",
    "empty.txt": "",
    "blank.txt": "\n\n  \n",
    "configuration.txt": "rotary 1\nelements 1\nstart 0.n\nend 0.w\nsteps 0\nat 0.n\ne 0 H - - - -\n",
    "doubled.txt": "1RB1LB__1LA1RZ\n",
    "settings.yaml": "name: nothing\nvalue: 1\n",
}


def all_files():
    lines = {f"line-{number:02}.txt": line + "\n" for number, line in enumerate(LINES, 1)}
    return {
        "turingmachine.io": TURING,
        "jflap": JFLAP,
        "morphett": MORPHETT,
        "bbchallenge": {**lines, **REFUSED},
        "none": NONE,
    }


def main():
    for folder, files in all_files().items():
        os.makedirs(os.path.join(HERE, folder), exist_ok=True)
        for name, text in files.items():
            with open(os.path.join(HERE, folder, name), "w", encoding="utf-8", newline="") as file:
                file.write(text)


if __name__ == "__main__":
    main()

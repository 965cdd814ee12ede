#!/usr/bin/env python3
"""Writes the stored runs of deep input, .ci/runs.d/deep-*: texts with 400 brackets or blocks open at once, with trees 1000 high, and with
formulas 2000 high, which is what the limits allow, and one more. What is wanted is written here by hand.

    tests/deep.py
"""
import os

TOP = os.path.dirname(os.path.dirname(os.path.abspath(__file__)))
RUNS = f"{TOP}/.ci/runs.d"
BRACKETS = 400
# An equation of a number and a sum with so many signs is a tree 1000 high, and so is `x := 0 + 0 ..`.
SIGNS = 998
# With so many in each of two, and five in a third, three substitutions one after the other are at most that high, and what they make of a
# variable has 1997 signs.
MANY, FEW = 996, 5


def added(count, first="0"):
    """A sum as it is written."""
    return first + " + 0" * count


def shown_sum(count):
    """The same as it is printed within a formula."""
    return "(" * count + "0" + " + 0)" * count


def in_brackets(text):
    return "(" * BRACKETS + text + ")" * BRACKETS


def in_blocks(text):
    return "BEGIN " * BRACKETS + text + " END" * BRACKETS


OPERATIONS = f"""OPERATIONS
  reset = {in_blocks("n := 0")} ;
  setmax = n := 10 ;
  r <-- get = r := {in_brackets("n")}
END
"""

MACHINE = f"""MACHINE Deep
VARIABLES n
INVARIANT n : 0..10
ASSERTIONS n = n or n = 0
INITIALISATION n := {added(SIGNS)}
{OPERATIONS}"""


def refinement(last):
    """Its obligation of the initialisation is 2000 high where the last sum has five signs: the conjunction, the equation, 1997 sums, a zero."""
    return f"""REFINEMENT Deep_r REFINES Deep
VARIABLES n
INVARIANT n : 0..10
INITIALISATION n := {added(MANY)} ; n := {added(MANY, "n")} ; n := {added(last, "n")}
{OPERATIONS}"""


IMPLEMENTATION = f"""IMPLEMENTATION Deep_i REFINES Deep_r
CONCRETE_VARIABLES n
INVARIANT n : 0..10
INITIALISATION n := {in_brackets("0")}
{OPERATIONS}"""

PROJECT = "machine Deep.mch\nrefinement Deep_r.ref\nimplementation Deep_i.imp\nproofs Deep.prf\n"


def proofs(more):
    """The goal of the third cut grows by `eq`: it is 1000 high, then 1998, and then one more with each step, so 2000 with two."""
    steps = [f"cut {in_brackets('0')} = 0 + 0", "eval", f"cut 0 = {added(SIGNS)}", "eval", f"cut {added(SIGNS)} = 0"]
    leaf = 1 + SIGNS
    steps.append("eq 3 goal" + " 1" * leaf)
    for _ in range(more):
        leaf += SIGNS if len(steps) == 6 else 1
        steps.append("eq 2 goal" + " 1" * leaf)
    steps += ["eval", "left", "same"]
    return "proof Deep.ASSERTIONS.1\n  " + " ;\n  ".join(steps) + "\nend\n"


CALLS = "setmax\nget\n"
REPLIES = "setmax\nget = 10\nend 2 calls, 9 steps\n"

# ---- the obligations by hand: a name, the hypotheses, the goal
RANGE = "n${} : (0 .. 10)"
ASSERTION = "(n$0 = n$0) or (n$0 = 0)"
ALL_SIGNS = 2 * MANY + FEW


def obligations():
    yield "Deep.ASSERTIONS.1", [RANGE.format(0)], ASSERTION, "proved"
    yield "Deep.INITIALISATION.1", [], f"{shown_sum(SIGNS)} : (0 .. 10)", "obvious"
    hypotheses = [RANGE.format(0), ASSERTION]
    for name, goal in (("reset", "0 : (0 .. 10)"), ("setmax", "10 : (0 .. 10)"), ("get", RANGE.format(0))):
        yield f"Deep.{name}.1", hypotheses, goal, "obvious"
    for level, component in ((1, "Deep_r"), (2, "Deep_i")):
        below, above = f"n${level}", f"n${level - 1}"
        value, value_above = (shown_sum(ALL_SIGNS), shown_sum(SIGNS)) if level == 1 else ("0", shown_sum(ALL_SIGNS))
        yield f"{component}.INITIALISATION.1", [], f"{value} : (0 .. 10)", "obvious"
        yield f"{component}.INITIALISATION.2", [], f"{value} = {value_above}", "obvious"
        hypotheses = [*hypotheses, RANGE.format(level), f"{below} = {above}"]
        for name, value in (("reset", "0"), ("setmax", "10")):
            yield f"{component}.{name}.1", hypotheses, f"{value} : (0 .. 10)", "obvious"
            yield f"{component}.{name}.2", hypotheses, f"{value} = {value}", "obvious"
        yield f"{component}.get.1", hypotheses, RANGE.format(level), "obvious"
        yield f"{component}.get.2", hypotheses, f"{below} = {above}", "obvious"
        yield f"{component}.get.3", hypotheses, f"{below} = {above}", "obvious"


def listed():
    made = ""
    for name, hypotheses, goal, _ in obligations():
        made += f"{name}\n" + "".join(f"{number}: {it}\n" for number, it in enumerate(hypotheses, 1)) + f"goal: {goal}\n"
    return made


def table(first="proved"):
    rows = [(name, first if state == "proved" else state) for name, _, _, state in obligations()]
    states = [state for _, state in rows]
    last = f"{len(rows)} obligations: {states.count('obvious')} obvious, {states.count('proved')} proved, {len(rows) - states.count('obvious') - states.count('proved')} open\n"
    return "".join(f"{name} {state}\n" for name, state in rows) + last


LISTING = """INITIALISATION:
0 Push 0
1 Store 0
2 Ret
reset:
3 Push 0
4 Store 0
5 Ret
setmax:
6 Push 10
7 Store 0
8 Ret
get:
9 Load 0
10 Store 1
11 Ret
"""

# ---- a sum that is executed: the code has it, and what is asked of each of its parts is too much to write down
SUM_MACHINE = "MACHINE Sum\nOPERATIONS\n  r <-- sum = r := 0\nEND\n"
SUM_IMPLEMENTATION = f"IMPLEMENTATION Sum_i REFINES Sum\nOPERATIONS\n  r <-- sum = r := {added(SIGNS)}\nEND\n"


def sum_listing():
    code = ["Push 0", *["Push 0", "Add"] * SIGNS, "Store 0", "Ret"]
    return "INITIALISATION:\n0 Ret\nsum:\n" + "".join(f"{place} {it}\n" for place, it in enumerate(code, 1))


# ---- the runs


def write_run(name, words, status, stdout, base=None, data=None):
    folder = f"{RUNS}/{name}"
    os.makedirs(folder, exist_ok=True)
    files = {"args": "".join(f"{it}\n" for it in words), "status": f"{status}\n", "stdout": stdout}
    if base:
        files["base"] = f"{base}\n"
    for file_name, text in (data or {}).items():
        os.makedirs(f"{folder}/data", exist_ok=True)
        files[f"data/{file_name}"] = text
    for file_name, text in files.items():
        with open(f"{folder}/{file_name}", "wb") as file:
            file.write(text if isinstance(text, bytes) else text.encode())


def main():
    with open(f"{TOP}/crates/bkit_cases/data/counter.img", "rb") as file:
        image = file.read()
    deep = {"c.prj": PROJECT, "Deep.mch": MACHINE, "Deep_r.ref": refinement(FEW), "Deep_i.imp": IMPLEMENTATION, "Deep.prf": proofs(2), "c.calls": CALLS}
    write_run("deep-run", ["run", "c.prj", "c.calls"], 0, REPLIES, data=deep)
    write_run("deep-check", ["check", "c.prj"], 0, "ok Deep 3 components\n", base="deep-run")
    write_run("deep-po", ["po", "c.prj"], 0, listed(), base="deep-run")
    write_run("deep-status", ["status", "c.prj"], 0, table(), base="deep-run")
    write_run("deep-code", ["code", "c.prj"], 0, LISTING, base="deep-run")
    write_run("deep-build", ["build", "c.prj"], 0, image, base="deep-run")
    # one more than 2000: of a step, which is none then, and of an obligation
    write_run("deep-step-too-high", ["status", "c.prj"], 0, table("bad step 9"), base="deep-run", data={"Deep.prf": proofs(3)})
    too_high = {"Deep_r.ref": refinement(FEW + 1)}
    write_run("deep-goal-too-high", ["run", "c.prj", "c.calls"], 3, "refused F13 Deep_r.INITIALISATION limit 6\n", base="deep-run", data=too_high)
    summed = {"c.prj": "machine Sum.mch\nimplementation Sum_i.imp\n", "Sum.mch": SUM_MACHINE, "Sum_i.imp": SUM_IMPLEMENTATION}
    write_run("deep-sum-code", ["code", "c.prj"], 0, sum_listing(), data=summed)
    write_run("deep-sum-po", ["po", "c.prj"], 3, "refused F13 Sum_i.sum.chk limit 6\n", base="deep-sum-code")


if __name__ == "__main__":
    main()

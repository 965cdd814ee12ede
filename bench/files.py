#!/usr/bin/env python3
"""files.py FOLDER [CASE..]: writes the projects that bench/run times into the folder, each under its own name; all, or these.

What each of them is stands in bench/run, beside what is done with it. Each is as large as its limits allow, or nearly.
"""
import struct
import sys
from pathlib import Path

BYTES = 16777216
TOKENS = 1000000
OPEN = 400  # brackets, and blocks
COMPONENTS = 200
NAMES = 1990  # of the 2000 that a component may declare
OBLIGATIONS = 20000
RULES = 1000000
INSTRUCTIONS = 1000000
CELLS = 1000000
CALLS = 1000000
TURNS = 11111111  # of nine steps each


def write(folder, **files):
    """Writes the files, whose names have __ in the place of the dot."""
    folder.mkdir(parents=True, exist_ok=True)
    for name, text in files.items():
        (folder / name.replace("__", ".")).write_text(text)


def lines(texts):
    return "".join(text + "\n" for text in texts)


def sample(folder, count):
    """A machine whose variables are each in 0 .. 100, its implementation with the same ones, and scripts for what is not obvious."""
    numbers = range(1, count + 1)
    names = ", ".join(f"x{i}" for i in numbers)
    invariant = "INVARIANT " + " & ".join(f"x{i} : 0..100" for i in numbers)
    zeros = ", ".join("0" for _ in numbers)
    reads = [f"r <-- get_{i} = r := x{i}" for i in numbers]
    adds = [f"add_{i}(k) = PRE k : 1..10 & x{i} + k <= 100 THEN x{i} := x{i} + k END" for i in numbers]
    plain = [f"add_{i}(k) = x{i} := x{i} + k" for i in numbers]
    machine = ["MACHINE Sample", f"VARIABLES {names}", invariant, f"INITIALISATION {names} := {zeros}"]
    implementation = ["IMPLEMENTATION Sample_i REFINES Sample", f"CONCRETE_VARIABLES {names}", invariant]
    implementation += ["INITIALISATION " + " ; ".join(f"x{i} := 0" for i in numbers)]
    write(
        folder,
        sample__prj=lines(["machine Sample.mch", "implementation Sample_i.imp", "proofs Sample.prf"]),
        Sample__mch=lines(machine + ["OPERATIONS", " ;\n".join(adds + reads), "END"]),
        Sample_i__imp=lines(implementation + ["OPERATIONS", " ;\n".join(plain + reads), "END"]),
        Sample__prf="".join(sample_scripts(count, i) for i in numbers),
        sample__calls=lines(call for i in numbers for call in [f"add_{i}({1 + i % 10})"] * 10 + [f"get_{i}"]),
    )


def sample_scripts(count, i):
    """The scripts for add_i. Hypotheses are numbered by the invariants, the links, the precondition, and the input's range."""
    upper, lower, link = i, count + i, 2 * count + i
    k, sum_ = 3 * count + 1, 3 * count + 2
    return f"""proof Sample.add_{i}.{i}
  law O5(x{i}$0 + k, 0, 100) goal ; and ; lin {upper}, {count + 1} : 1 * 1 + 1 * 3 + 1 * 5 ; hyp {count + 2}
end
proof Sample_i.add_{i}.{i}
  law O5(x{i}$1 + k, 0, 100) goal ; and ; lin {lower}, {k} : 1 * 1 + 1 * 3 + 1 * 5 ;
  lin {link}, {sum_} : 1 * 1 + 1 * 3 + 1 * 4
end
proof Sample_i.add_{i}.{count + i}
  eq {link} goal 1 1 ; same
end
proof Sample_i.add_{i}.chk.1
  lin {lower}, {k} : 1 * 1 + 1 * 3 + 1 * 5
end
proof Sample_i.add_{i}.chk.2
  lin {lower}, {k} : 1 * 2 + 1 * 4 + 1 * 5
end
"""


def tokens(folder):
    """A machine with assertions of 14 tokens and a semicolon each, filled up by short ones to the greatest number of tokens."""
    long = "x + 7 <= 107 & not(x - 1 = 101)"  # 14 tokens
    short = "x = x"  # 3 tokens
    head = "MACHINE Tokens VARIABLES x INVARIANT x : 0..100 ASSERTIONS"  # 11 tokens
    tail = "INITIALISATION x := 0 END"  # 5 tokens
    room = TOKENS - 11 - 5 + 1  # the last assertion has no semicolon
    shorts = next(n for n in range(15) if (room - 4 * n) % 15 == 0)
    assertions = [long] * ((room - 4 * shorts) // 15) + [short] * shorts
    write(
        folder,
        tokens__prj=lines(["machine Tokens.mch"]),
        Tokens__mch=head + "\n" + " ;\n".join(assertions) + "\n" + tail + "\n",
    )


def obligations(folder):
    """A machine of 100 variables, whose initialisation and each of whose operations have an obligation for each variable."""
    variables = 100
    names = [f"x{i}" for i in range(1, variables + 1)]
    sets = [f"set_{n} = {names[n % variables]} := {n % 10}" for n in range(1, OBLIGATIONS // variables)]
    write(
        folder,
        obligations__prj=lines(["machine Many.mch"]),
        Many__mch=lines(
            [
                "MACHINE Many",
                "VARIABLES " + ", ".join(names),
                "INVARIANT " + " & ".join(f"{name} : 0..9" for name in names),
                "INITIALISATION " + ", ".join(names) + " := " + ", ".join("0" for _ in names),
                "OPERATIONS",
                " ;\n".join(sets),
                "END",
            ]
        ),
    )


STEPS = [f"step_{n}" for n in (1, 2, 3)]

MACHINE_OF_STEPS = lines(
    [
        "MACHINE Steps VARIABLES n INVARIANT n : 0..10 INITIALISATION n := 0 OPERATIONS",
        " ;\n".join(f"{name} = PRE n < 10 THEN n := n + 1 END" for name in STEPS),
        "END",
    ]
)


def scripts(folder, names, script):
    """A machine of steps, and for each name a proof file with the script for it."""
    folder.mkdir(parents=True, exist_ok=True)
    project = ["machine Steps.mch"] + [f"proofs {name}.prf" for name in names]
    write(folder, steps__prj=lines(project), Steps__mch=MACHINE_OF_STEPS)
    for name in names:
        (folder / f"{name}.prf").write_text(f"proof Steps.{name}.1\n" + script + "\nend\n")


def read_rules(folder):
    """Rules of one word in two files, as many as their tokens allow. None fits the obligation, so that the first stops the script."""
    rules = (TOKENS - 6) // 2  # `proof`, the five tokens of the name and `end`, and a semicolon less than rules
    scripts(folder, STEPS[:2], " ;\n".join(["same"] * rules))


def ends(first):
    """The last rules of such a script, where the next hypothesis has this number."""
    return [
        "law O5(n$0 + 1, 0, 10) hyp 3 1",
        f"law G2(0 <= n$0 + 1, n$0 + 1 <= 10) hyp {first}",
        f"cases {first + 1}",
        f"lin 1, {first + 2} : 1 * 1 + 1 * 3",
        f"lin 2, {first + 2} : 1 * 1 + 1 * 2",
    ]


def tried_rules(folder):
    """Rules that all fit, in three files: of two and two rules the first adds a hypothesis and the second drops it again."""
    pairs = (RULES // len(STEPS) - 1 - len(ends(4))) // 2 + 1
    scripts(folder, STEPS, " ;\n".join(["contra"] + ["contra ; drop 4"] * pairs + ends(4)))


def piled_rules(folder):
    """Rules that all fit, in three files, and each add a hypothesis."""
    denials = RULES // len(STEPS) - len(ends(4)) + 1
    scripts(folder, STEPS, " ;\n".join(["contra"] * denials + ends(3 + denials)))


def calls(folder):
    """The counter, and its calls again and again."""
    body = """VARIABLES n
INVARIANT n : 0..10
INITIALISATION n := 0
OPERATIONS
  reset = n := 0 ;
  setmax = n := 10 ;
  r <-- get = r := n
END
"""
    write(
        folder,
        calls__prj=lines(["machine Counter.mch", "implementation Counter_i.imp"]),
        Counter__mch="MACHINE Counter\n" + body,
        Counter_i__imp="IMPLEMENTATION Counter_i REFINES Counter\nCONCRETE_" + body,
        calls__calls="setmax\nget\nreset\nget\n" * (CALLS // 4),
    )


def loop(folder):
    """A number that is counted up, with the proof that the loop ends and what it ends with."""
    machine = f"""MACHINE Loop
VARIABLES n
INVARIANT n : 0..{TURNS}
INITIALISATION n := 0
OPERATIONS
  count = n := {TURNS} ;
  r <-- get = r := n
END
"""
    implementation = f"""IMPLEMENTATION Loop_i REFINES Loop
CONCRETE_VARIABLES n
INVARIANT n : 0..{TURNS}
INITIALISATION n := 0
OPERATIONS
  count = BEGIN
    n := 0 ;
    WHILE n < {TURNS} DO n := n + 1 INVARIANT n : 0..{TURNS} VARIANT {TURNS} - n END
  END ;
  r <-- get = r := n
END
"""
    proofs = f"""// the body keeps the invariant
proof Loop_i.count.2
  fix w : INTEGER ; imp ; split 4 ;
  law O5(w + 1, 0, {TURNS}) goal ; and ; lin 5 : 1 * 1 + 1 * 3 ; lin 6 : 1 * 1 + 1 * 2
end
// the variant is a natural number, and falls
proof Loop_i.count.3
  fix w : INTEGER ; imp ; split 4 ; law O6({TURNS} - w) goal ; lin 5 : 1 * 2 + 1 * 3
end
proof Loop_i.count.4
  fix w : INTEGER ; imp ; lin : 1 * 1
end
// at the end w is the greatest number
proof Loop_i.count.5
  fix w : INTEGER ; imp ; split 4 ; and ; hyp 5 ;
  law O1(w, {TURNS}) goal ; and ; lin 5 : 1 * 2 + 1 * 3 ; lin 6 : 1 * 1 + 1 * 2
end
proof Loop_i.count.chk.1
  fix w : INTEGER ; imp ; imp ; and ; lin 4 : 1 * 1 + 1 * 3 ; lin 4 : 1 * 2 + 1 * 3
end
"""
    write(
        folder,
        loop__prj=lines(["machine Loop.mch", "implementation Loop_i.imp", "proofs Loop.prf"]),
        Loop__mch=machine,
        Loop_i__imp=implementation,
        Loop__prf=proofs,
        loop__calls="count\nget\n",
    )


# ---- texts


def numbered(name, count):
    """name1, name2, .. as a list."""
    return [f"{name}{i}" for i in range(1, count + 1)]


def balanced(texts, joint=" & ", left="(", right=")"):
    """The texts joined two by two, and these in brackets again, so that the tree is low."""
    texts = list(texts)
    while len(texts) > 1:
        texts = [joint.join(texts[i : i + 2]) for i in range(0, len(texts), 2)]
        if len(texts) > 1:
            texts = [left + text + right for text in texts]
    return texts[0]


def sequence(statements):
    """The statements one after the other, in blocks of a hundred, and these in blocks of two."""
    parts = [" ; ".join(statements[i : i + 100]) for i in range(0, len(statements), 100)]
    if len(parts) == 1:
        return parts[0]
    return balanced([f"BEGIN {part} END" for part in parts], " ; ", "BEGIN ", " END")


def nested(opening, inner, closing):
    """What opens, what stands inside, and what closes; both lists from the outside."""
    return "".join(opening) + inner + "".join(reversed(closing))


def spread(texts, joint, front, back):
    """The texts with comments between them, so that there are as many bytes as a file may have."""
    room = BYTES - len(front) - len(back) - sum(len(text) + len(joint) for text in texts)
    length = room // len(texts) - 8
    comments = ["/* " + "x" * length + " */\n", "// " + "x" * (length + 3) + "\n"]  # of one length
    text = front + "".join(text + joint + comments[i % 2] for i, text in enumerate(texts[:-1])) + texts[-1]
    return text + " " * (BYTES - len(text) - len(back)) + back


def machine(name, variables, invariant, initialisation, operations=()):
    return component(f"MACHINE {name}", "VARIABLES", variables, invariant, initialisation, operations)


def component(header, clause, variables, invariant, initialisation, operations):
    """Variables, their invariant and initialisation, and operations."""
    text = [header, f"{clause} " + ", ".join(variables)] if variables else [header]
    text += [f"INVARIANT {invariant}"] if invariant else []
    text += [f"INITIALISATION {initialisation}"]
    text += ["OPERATIONS", " ;\n".join(operations)] if operations else []
    return lines(text + ["END"])


def zeros(names):
    return ", ".join(names) + " := " + ", ".join("0" for _ in names)


COUNTER = ["reset = n := 0", "setmax = n := 10", "r <-- get = r := n"]


def counter(folder):
    text = ["n"], "n : 0..10", "n := 0", COUNTER
    write(
        folder,
        counter__prj=lines(["machine Counter.mch", "implementation Counter_i.imp"]),
        Counter__mch=machine("Counter", *text),
        Counter_i__imp=component("IMPLEMENTATION Counter_i REFINES Counter", "CONCRETE_VARIABLES", *text),
    )


def pair(folder, name, above, below, calls, proofs=""):
    """A machine of a number with these operations, its implementation with those, and calls."""
    text = ["x"], "x : 0..3", "x := 0"
    implementation = f"IMPLEMENTATION {name}_i REFINES {name}", "CONCRETE_VARIABLES"
    project = lines([f"machine {name}.mch", f"implementation {name}_i.imp", f"proofs {name}.prf"])
    files = {f"{name}__mch": machine(name, *text, above), f"{name}_i__imp": component(*implementation, *text, below)}
    write(folder, pair__prj=project, pair__calls=calls, **{f"{name}__prf": proofs}, **files)


# ---- bytes of a file


def long_component(folder):
    """As many tokens as a file may have, with comments between them up to as many bytes."""
    tokens(folder)
    front, rest = (folder / "Tokens.mch").read_text().split("\n", 1)
    assertions, back = rest.rsplit("\n", 2)[:2]
    (folder / "Tokens.mch").write_text(spread(assertions.split(" ;\n"), " ; ", front + "\n", "\n" + back + "\n"))


def long_names(folder):
    """Names that differ at their ends alone, each written three times."""
    length = BYTES // (3 * NAMES) - 12
    names = ["x" * (length - 4) + f"{i:04}" for i in range(NAMES)]
    text = machine("Long", names, balanced(f"{name} : 0..3" for name in names), zeros(names))
    write(folder, long__prj=lines(["machine Long.mch"]), Long__mch=text)


def long_proofs(folder):
    """Rules of one word that do not fit, with comments between them."""
    scripts(folder, STEPS[:1], "same")
    rules = (TOKENS - 6) // 2
    (folder / f"{STEPS[0]}.prf").write_text(spread(["same"] * rules, " ; ", f"proof Steps.{STEPS[0]}.1\n", "\nend\n"))


def long_project(folder):
    """Two lines that count and eight million that do not."""
    counter(folder)
    text = lines(["machine Counter.mch", "implementation Counter_i.imp"])
    (folder / "counter.prj").write_text(text + "#\n" * ((BYTES - len(text)) // 2))


def proof_lines(folder):
    """A project file of proof lines, which all name one file without a script."""
    counter(folder)
    text = lines(["machine Counter.mch", "implementation Counter_i.imp"])
    line = "proofs p\n"
    text += line * ((BYTES - len(text)) // len(line))
    (folder / "counter.prj").write_text(text + "#" * (BYTES - len(text)))
    (folder / "p").write_text("")


def long_calls(folder):
    """Calls with an argument and spaces."""
    operations = ["keep(k) = PRE k : 0..10 THEN n := k END", "keep(k) = n := k"]
    text = ["n"], "n : 0..10", "n := 0"
    call = "keep ( 7 )".ljust(BYTES // CALLS - 1) + "\n"
    write(
        folder,
        keeper__prj=lines(["machine Keeper.mch", "implementation Keeper_i.imp"]),
        Keeper__mch=machine("Keeper", *text, operations[:1]),
        Keeper_i__imp=component("IMPLEMENTATION Keeper_i REFINES Keeper", "CONCRETE_VARIABLES", *text, operations[1:]),
        keeper__calls=(call * CALLS + "#").ljust(BYTES),
    )


# ---- brackets and blocks


def asserting(folder, assertions):
    """A machine of a number with these assertions."""
    text = machine("Deep", ["x"], "x : 0..9\nASSERTIONS " + " ;\n".join(assertions), "x := 0")
    write(folder, deep__prj=lines(["machine Deep.mch"]), Deep__mch=text)


def brackets(folder):
    """A number in brackets, as often as the tokens of a file allow."""
    asserting(folder, [nested(["("] * OPEN, "x", [")"] * OPEN) + " = x"] * (TOKENS // (2 * OPEN + 5)))


def braces(folder):
    """Sets of sets, whose types are as deep."""
    term = nested(["{"] * OPEN, "x", ["}"] * OPEN)
    asserting(folder, [f"{term} = {term}"] * (TOKENS // (4 * OPEN + 5)))


def quantifiers(folder):
    """Five assertions of 380 quantifiers, one in the other, with long bodies; as many names as may be bound."""
    count = 380
    opening = [f"!y{i}.(y{i} : 0..9 => " for i in range(1, count + 1)]
    body = balanced([f"y{1 + i % count} < y{count - i % count}" for i in range(32000)])
    asserting(folder, [nested(opening, f"({body})", [")"] * count)] * 5)


def comprehensions(folder):
    """Six assertions of 300 comprehensions, each the range of the next."""
    count = 300
    opening = ["{y | y : "] * count
    closing = [" & y < 5}"] * count
    asserting(folder, [f"x : {nested(opening, '0..9', closing)}"] * 6)


def blocks(folder):
    """Operations of as many blocks as may be open, of six kinds in turn."""
    kinds = [
        ("BEGIN ", " END"),
        ("IF x < 1 THEN ", " END"),
        ("CHOICE ", " OR skip END"),
        ("SELECT x < 1 THEN ", " WHEN x < 2 THEN skip END"),
        ("ASSERT x : 0..9 THEN ", " END"),
        ("PRE x : 0..9 THEN ", " END"),
    ]
    turns = [kinds[i % len(kinds)] for i in range(OPEN)]
    body = nested([t[0] for t in turns], "x := 0", [t[1] for t in turns])
    sequents = 1 + sum(t is not kinds[0] for t in turns)
    operations = [f"{name} = {body}" for name in numbered("op", (OBLIGATIONS - 1) // sequents)]
    text = machine("Blocks", ["x"], "x : 0..9", "x := 0", operations)
    write(folder, blocks__prj=lines(["machine Blocks.mch"]), Blocks__mch=text)


def loops(folder):
    """Operations of as many blocks as may be open, of four kinds in turn, in an implementation."""
    kinds = [
        ("BEGIN x := 0 ; ", " END"),
        ("VAR t IN t := x ; ", " ; x := t END"),
        ("IF x < 1 THEN ", " ELSE x := 1 END"),
        ("WHILE x < 9 DO ", " INVARIANT x : 0..9 VARIANT 9 - x END"),
    ]
    turns = [kinds[i % len(kinds)] for i in range(OPEN)]
    body = nested([t[0] for t in turns], "x := x + 1", [t[1] for t in turns])
    names = numbered("op", NAMES // (1 + OPEN // len(kinds)))
    text = ["x"], "x : 0..9", "x := 0"
    implementation = "IMPLEMENTATION Loops_i REFINES Loops", "CONCRETE_VARIABLES"
    write(
        folder,
        loops__prj=lines(["machine Loops.mch", "implementation Loops_i.imp"]),
        Loops__mch=machine("Loops", *text, [f"{name} = x :: 0..9" for name in names]),
        Loops_i__imp=component(*implementation, *text, [f"{name} = {body}" for name in names]),
    )


# ---- components


def chain_of(folder, name, components):
    """A project of these components, from the machine downwards: of each what stands after its header."""
    kinds = ["machine"] + ["refinement"] * (len(components) - 2) + ["implementation"]
    project = []
    for number, (kind, text) in enumerate(zip(kinds, components)):
        above = f" REFINES {name}{number - 1}" if number else ""
        project.append(f"{kind} {name}{number}.txt")
        write(folder, **{f"{name}{number}__txt": f"{kind.upper()} {name}{number}{above}\n{text}"})
    write(folder, chain__prj=lines(project), chain__calls="get\nreset\nget\n")


def chain(folder):
    """The counter again and again."""
    text = ["n"], "n : 0..10", "n := 0", COUNTER
    last = component("", "CONCRETE_VARIABLES", *text)
    chain_of(folder, "Counter", [component("", "VARIABLES", *text)] * (COMPONENTS - 1) + [last])


def carried(folder):
    """Each fourth component has a concrete variable more, which stands in all below it."""
    components = []
    for number in range(COMPONENTS):
        names = [f"x{i}" for i in range(number // 4 + 1)]
        new = names[-1:] if number % 4 == 0 else []
        start = zeros(names) if number < COMPONENTS - 1 else " ; ".join(f"{name} := 0" for name in names)
        operations = ["reset = x0 := 0", "r <-- get = r := x0"]
        invariant = " & ".join(f"{name} : 0..9" for name in new)
        components.append(component("", "CONCRETE_VARIABLES", new, invariant, start, operations))
    chain_of(folder, "Carried", components)


def carried_many(folder):
    """Each component has a hundred concrete variables more: 20,000 in the last one. It gives a value to its own alone."""
    components = []
    for number in range(COMPONENTS):
        new = [f"x{number}_{i}" for i in range(100)]
        start = zeros(new) if number < COMPONENTS - 1 else " ; ".join(f"{name} := 0" for name in new)
        operations = ["reset = x0_0 := 0", "r <-- get = r := x0_0"]
        invariant = balanced(f"{name} : 0..9" for name in new)
        components.append(component("", "CONCRETE_VARIABLES", new, invariant, start, operations))
    chain_of(folder, "Many", components)


# ---- names of a component


def typed_by(folder, conjuncts):
    """A machine whose variables have this invariant."""
    names = numbered("x", NAMES)
    text = machine("Names", names, balanced(conjuncts), zeros(names))
    write(folder, names__prj=lines(["machine Names.mch"]), Names__mch=text)


def typed(folder):
    """Each variable by a conjunct of its own."""
    typed_by(folder, [f"{name} : 0..3" for name in numbered("x", NAMES)])


def typed_before(folder):
    """Each variable by the one before it."""
    typed_by(folder, ["x1 : 0..3"] + [f"x{i + 1} = x{i}" for i in range(1, NAMES)])


def typed_after(folder):
    """Each variable by the one after it."""
    typed_by(folder, [f"x{i} = x{i + 1}" for i in range(1, NAMES)] + [f"x{NAMES} : 0..3"])


def chosen(folder):
    """ANY of as many names, with the script."""
    names = numbered("u", NAMES)
    predicate = balanced(f"{name} : 0..3" for name in names)
    body = f"ANY {', '.join(names)} WHERE {predicate} THEN x := u1 END"
    splits = (NAMES - 1).bit_length()  # u1 : 0..3 stands so deep
    rules = ["fix " + ", ".join(f"{name} : INTEGER" for name in names), "imp"]
    rules += [f"split {2 if i == 0 else 2 * i + 1}" for i in range(splits)] + [f"hyp {2 * splits + 1}"]
    write(
        folder,
        chosen__prj=lines(["machine Chosen.mch", "proofs Chosen.prf"]),
        Chosen__mch=machine("Chosen", ["x"], "x : 0..3", "x := 0", [f"choose = {body}"]),
        Chosen__prf="proof Chosen.choose.1\n" + " ;\n".join(rules) + "\nend\n",
    )


def stored(folder):
    """VAR of as many locals, each of which takes its type from the next, with the script."""
    names = numbered("u", NAMES)
    body = sequence([f"u{i} := u{i + 1}" for i in range(1, NAMES)] + [f"u{NAMES} := 0"])
    bound = ", ".join(f"{name} : INTEGER" for name in names)
    pair(
        folder,
        "Stored",
        ["store = skip"],
        [f"store = VAR {', '.join(names)} IN {body} END"],
        "store\n" * 100,
        f"proof Stored_i.store.1\n  fix {bound} ; and ; hyp 2 ; hyp 3\nend\n",
    )


def inputs(folder):
    """An operation of 1,900 inputs, called as often as the bytes of a call script allow."""
    names = numbered("i", 1900)
    header = f"step({', '.join(names)})"
    condition = balanced(f"{name} : 0..3" for name in names)
    call = f"step({','.join(str(i % 4) for i in range(len(names)))})\n"
    above = [f"{header} = PRE {condition} THEN x := i1 END"]
    pair(folder, "Inputs", above, [f"{header} = x := i1"], call * (BYTES // len(call)))


def outputs(folder):
    """An operation of 1,900 outputs."""
    names = numbered("r", 1900)
    header = f"{', '.join(names)} <-- look"
    above = [f"{header} = {', '.join(names)} := {', '.join('x' for _ in names)}"]
    below = [f"{header} = BEGIN {sequence([f'{name} := x' for name in names])} END"]
    pair(folder, "Outputs", above, below, "look\n" * 4000)


def many_operations(folder):
    """1,900 operations, each called 500 times in turn."""
    names = numbered("op", 1900)
    bodies = [f"{name} = x := {i % 4}" for i, name in enumerate(names)]
    pair(folder, "Operations", bodies, bodies, lines(names) * 500)


# ---- large and high obligations


def refined(folder, invariant, bodies, script):
    """A machine whose operations do nothing, a refinement with a number y, this invariant and these bodies, and for each the script."""
    names = numbered("op", len(bodies))
    below = [f"{name} = BEGIN {body} END" for name, body in zip(names, bodies)]
    write(
        folder,
        large__prj=lines(["machine Large.mch", "refinement Large_r.ref", "proofs Large.prf"]),
        Large__mch=machine("Large", ["x"], "x : 0..9", "x := 0", [f"{name} = skip" for name in names]),
        Large_r__ref=component("REFINEMENT Large_r REFINES Large", "VARIABLES", ["y"], invariant, "y := 0", below),
        Large__prf="".join(script.replace("OP", f"Large_r.{name}") for name in names),
    )


# y is doubled so often that three terms of it have nearly 200,000 nodes
DOUBLED = (
    "y : INTEGER & 0 <= y & y <= 0",
    " ; ".join(["y := y + y"] * 15),
    "proof OP.2\n  lin 3 : 1 * 2 + 32768 * 1\nend\nproof OP.3\n  lin 4 : 1 * 2 + 32768 * 1\nend\n",
)


def doubled(folder):
    """An obligation of nearly 200,000 nodes, by doubling."""
    invariant, body, script = DOUBLED
    refined(folder, invariant, [body], script)


def doubled_often(folder):
    """As many of these as the nodes of all obligations allow."""
    invariant, body, script = DOUBLED
    refined(folder, invariant, [body] * 101, script)


def raised(folder):
    """An obligation of nearly 200,000 nodes, nearly 2000 high: sums of 25 numbers are added 1988 times."""
    total = balanced(["1"] * 25, " + ")
    body = sequence([f"y := y + ({total}) + ({total})"] * 994)
    refined(folder, "y : INTEGER & 0 <= y", [body], "proof OP.2\n  lin 3 : 1 * 2 + 1 * 1\nend\n")


def assigned(folder):
    """As many assignments in sequence as the tokens of a file allow, to a hundred variables."""
    names = numbered("y", 100)
    body = sequence([f"y{1 + i % 100} := y{1 + (i + 1) % 100}" for i in range(247000)])
    invariant = balanced(f"{name} : 0..3" for name in names)
    below = [f"op = BEGIN {body} END"]
    refinement = "REFINEMENT Assigned_r REFINES Assigned", "VARIABLES"
    write(
        folder,
        assigned__prj=lines(["machine Assigned.mch", "refinement Assigned_r.ref"]),
        Assigned__mch=machine("Assigned", ["x"], "x : 0..9", "x := 0", ["op = skip"]),
        Assigned_r__ref=component(*refinement, names, invariant, zeros(names), below),
    )


def wide(folder):
    """110 operations under an invariant of 59,968 nodes, which each of them keeps; as many nodes and obligations as there may be."""
    total = "x" + " + 1" * 83
    invariant = " & ".join(["x : INTEGER"] + [f"{total} = {total}"] * 179)
    bodies = [f"{name} = x := {i}" for i, name in enumerate(numbered("op", 110))]
    write(folder, wide__prj=lines(["machine Wide.mch"]), Wide__mch=machine("Wide", ["x"], invariant, "x := 0", bodies))


# ---- high trees


def high(folder):
    """A conjunction, sums, a union of empty sets and a sequence, all nearly 1000 high."""
    count = 980
    names = numbered("x", count)
    invariant = " & ".join(f"{name} : 0..3" for name in names)
    assertions = ["x1 <= x1" + " + 0" * count, "{x1} = " + "{} \\/ " * count + "{x1}"]
    below = [" ; ".join(f"{name} := 0" for name in names)]
    write(
        folder,
        high__prj=lines(["machine High.mch", "refinement High_r.ref", "proofs High.prf"]),
        High__mch=machine("High", names, invariant + "\nASSERTIONS " + " ;\n".join(assertions), zeros(names)),
        High_r__ref=component("REFINEMENT High_r REFINES High", "VARIABLES", names, invariant, *below, []),
        High__prf="proof High.ASSERTIONS.1\n  lin : 1 * 1\nend\n",
    )


def parallel_of(folder, count):
    """So many assignments at once, each to a variable of its own."""
    names = numbered("x", count)
    invariant = balanced(f"{name} : 0..3" for name in names)
    body = " || ".join(f"{name} := 0" for name in names)
    text = machine("Parallel", names, invariant, zeros(names), [f"op = {body}"])
    write(folder, parallel__prj=lines(["machine Parallel.mch"]), Parallel__mch=text)


def parallel(folder):
    """The obligation has nearly 200,000 nodes."""
    parallel_of(folder, 300)


def parallel_high(folder):
    """The substitution is nearly 1000 high."""
    parallel_of(folder, 980)


# ---- instructions and cells


def arrays(folder, greatest):
    """An array from 0 on, which is filled at first, its reading, and the scripts."""
    domain, maker = f"0..{greatest}", f"(0..{greatest}) * {{0}}"
    above = ["r <-- read(i) = PRE i : " + domain + " THEN r := f(i) END"]
    below = ["r <-- read(i) = r := tab(i)"]
    invariant = f"tab : {domain} --> INT & tab = f"
    filled = f"law M60({domain}, 0, INT) goal ; eval ; true"
    relation = "sub goal ; fix u : INTEGER ; imp ; type goal ; true"
    proofs = f"""proof Array.INITIALISATION.1
  {filled}
end
proof Array.read.wd.1
  law M40(f$0, {domain}, INT) hyp 1 ; split 3 ;
  law M39(f$0, {domain}, INT) hyp 4 ; split 6 ;
  law M39(f$0, INTEGER, INTEGER) goal ; and ;
  law M38(f$0, INTEGER, INTEGER) goal ; and ;
  {relation} ;
  {relation} ;
  hyp 8
end
proof Array.read.wd.2
  law M40(f$0, {domain}, INT) hyp 1 ; split 3 ; eq 5 goal 2 ; hyp 2
end
proof Array_i.INITIALISATION.1
  {filled}
end
proof Array_i.read.3
  eq 3 goal 1 1 ; same
end
proof Array_i.read.chk.1
  lin 4 : 1 * 1 + 1 * 3
end
proof Array_i.read.chk.2
  lin 4 : 1 * 2 + 1 * 3
end
"""
    implementation = "IMPLEMENTATION Array_i REFINES Array", "CONCRETE_VARIABLES"
    write(
        folder,
        array__prj=lines(["machine Array.mch", "implementation Array_i.imp", "proofs Array.prf"]),
        Array__mch=machine("Array", ["f"], f"f : {domain} --> INT", f"f := {maker}", above),
        Array_i__imp=component(*implementation, ["tab"], invariant, f"tab := {maker}", below),
        Array__prf=proofs,
        array__calls=f"read(0)\nread({greatest})\n",
    )


def fill(folder):
    """A fill of two instructions an element."""
    arrays(folder, 499989)


def cells(folder):
    """An array of nearly as many cells as there may be, which nothing fills: its obligations do not hold."""
    arrays(folder, 999989)
    path = folder / "Array_i.imp"
    path.write_text(path.read_text().replace("tab := (0..999989) * {0}", "tab(0) := 0"))


def summed(folder):
    """Five operations of 300 tests, one in the other, each with a sum of 325 numbers."""
    statement = "x := " + " + ".join(["x"] * 325)
    body = nested([f"IF x < 1 THEN {statement} ; "] * 300, "skip", [" END"] * 300)
    names = numbered("op", 5)
    pair(folder, "Summed", [f"{name} = x :: 0..3" for name in names], [f"{name} = {body}" for name in names], "")


def image(path, start, code):
    """An image of as many cells as there may be and one operation, without inputs and outputs, which starts at this place."""
    name = b"step"
    header = b"BKIM" + struct.pack(">HIHH", 1, CELLS, 0, 1)
    entry = struct.pack(">H", len(name)) + name + struct.pack(">IHH", start, 0, 0)
    path.parent.mkdir(parents=True, exist_ok=True)
    path.write_bytes(header + entry + struct.pack(">I", INSTRUCTIONS) + code)


PUSH, STORE, JUMP, RET = 1, 3, 16, 18


def stores(folder):
    """An image of as many instructions and cells as there may be, which are all executed."""
    pairs = INSTRUCTIONS // 2 - 1  # and Ret, for the initialisation and for the operation
    code = b"".join(struct.pack(">BqBI", PUSH, n, STORE, CELLS - 1 - n) for n in range(pairs))
    image(folder / "stores.img", INSTRUCTIONS - 1, code + bytes([RET, RET]))
    (folder / "stores.calls").write_text("step\n")


def islands(folder):
    """An image of jumps in pairs that nothing reaches, each to the other."""
    pairs = INSTRUCTIONS // 2 - 1
    code = bytes([RET, RET]) + struct.pack(">BiBi", JUMP, 1, JUMP, -1) * pairs
    image(folder / "islands.img", 1, code)
    (folder / "islands.calls").write_text("step\n")


# ---- all


def sampled(count):
    return lambda folder: sample(folder, count)


CASES = {
    "sample10": sampled(10),
    "sample20": sampled(20),
    "sample40": sampled(40),
    "tokens": tokens,
    "obligations": obligations,
    "read": read_rules,
    "tried": tried_rules,
    "piled": piled_rules,
    "calls": calls,
    "loop": loop,
    "long_component": long_component,
    "long_names": long_names,
    "long_proofs": long_proofs,
    "long_project": long_project,
    "proof_lines": proof_lines,
    "long_calls": long_calls,
    "brackets": brackets,
    "braces": braces,
    "quantifiers": quantifiers,
    "comprehensions": comprehensions,
    "blocks": blocks,
    "loops": loops,
    "chain": chain,
    "carried": carried,
    "carried_many": carried_many,
    "typed": typed,
    "typed_before": typed_before,
    "typed_after": typed_after,
    "chosen": chosen,
    "stored": stored,
    "inputs": inputs,
    "outputs": outputs,
    "operations": many_operations,
    "doubled": doubled,
    "raised": raised,
    "assigned": assigned,
    "high": high,
    "parallel": parallel,
    "parallel_high": parallel_high,
    "fill": fill,
    "cells": cells,
    "summed": summed,
    "stores": stores,
    "islands": islands,
    "doubled_often": doubled_often,
    "wide": wide,
}


def main():
    if len(sys.argv) < 2 or any(name not in CASES for name in sys.argv[2:]):
        sys.exit("usage: files.py FOLDER [CASE..]")
    for name in sys.argv[2:] or CASES:
        CASES[name](Path(sys.argv[1]) / name)


main()

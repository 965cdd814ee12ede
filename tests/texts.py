#!/usr/bin/env python3
"""A second reader of components, proof files and call scripts: it says where a text that is not written right is at fault. It was made from
the tables of the grammar and not from the program, and reads by one method for every grammar (Earley's), so it is slow.

    tests/texts.py --cases                writes crates/bkit_cases/data/cut_files.cases
    tests/texts.py PROGRAM [FOLDER ..]    checks each front of each component and proof file of the folders (else of the folders of examples
                                          and of crates/bkit_cases/data) by PROGRAM and by this reader, and names each that differs

PROGRAM is the built bkit.
"""
import glob
import os
import re
import subprocess
import sys
import tempfile
from concurrent.futures import ThreadPoolExecutor

import images
from lines import as_lines

TOP = os.path.dirname(os.path.dirname(os.path.abspath(__file__)))
DATA = f"{TOP}/crates/bkit_cases/data"

# ---- tokens

SIGNS = """& => <=> ! # = /= < <= > >= : /: <: /<: <<: \\/ /\\ - * |-> .. { } ( ) [ ] <-> +-> --> >+> >-> +->> -->> >->> ~ <| |> <<| |>> <+
; , . | || % + / ** := :: <-- ^ -> <-""".split()
SIGNS.sort(key=len, reverse=True)
CLAUSE_WORDS = """MACHINE REFINEMENT IMPLEMENTATION REFINES SETS CONSTANTS CONCRETE_CONSTANTS PROPERTIES VARIABLES ABSTRACT_VARIABLES
CONCRETE_VARIABLES INVARIANT ASSERTIONS VALUES INITIALISATION OPERATIONS END BEGIN PRE THEN IF ELSIF ELSE SELECT WHEN CHOICE OR ANY WHERE
LET BE IN VAR WHILE DO VARIANT ASSERT skip""".split()
FORMULA_WORDS = """or not mod card min max dom ran id succ pred bool BOOL TRUE FALSE INTEGER NATURAL NATURAL1 INT NAT NAT1 MAXINT MININT POW
POW1 FIN FIN1 btrue bfalse""".split()
UNUSED_WORDS = """ABSTRACT_CONSTANTS SEES USES INCLUDES EXTENDS PROMOTES IMPORTS DEFINITIONS LOCAL_OPERATIONS CONSTRAINTS CASE OF EITHER seq
size first last front tail rev UNION INTER SIGMA PI union inter iterate closure""".split()
WORDS = {*CLAUSE_WORDS, *FORMULA_WORDS, *UNUSED_WORDS}
# Letters of these texts are those of ASCII and of the languages of Europe, for which Python's classes will do.
TOKEN = re.compile(r"(?P<name>[^\W\d_]\w*)(?P<level>\$[0-9]+)?|(?P<bound>\$[0-9]+)|(?P<number>[0-9]+)|(?P<sign>%s)" % "|".join(map(re.escape, SIGNS)))
BLANK = re.compile(r"(?:[ \t\r\n]|//[^\n]*|/\*.*?\*/)*", re.S)
GREATEST = 2**127 - 1


class Lexical(Exception):
    """A byte where no token begins."""


def tokens(text):
    """The tokens: a kind, by which the grammars know it, its text, and the byte at which it begins."""
    made = []
    at = BLANK.match(text).end()
    while at < len(text):
        found = TOKEN.match(text, at)
        place = len(text[:at].encode())
        if not found or text.startswith("/*", at):
            raise Lexical(place)
        if found["number"] and int(found["number"]) > GREATEST:
            raise Lexical(place)
        if found["name"]:
            word = found["name"]
            if found["level"] is None:
                kind = word if word in WORDS else "name"
            elif word in WORDS:
                kind = word
                found = None
            else:
                kind = "x$0" if found["level"] == "$0" else "x$k"
            made.append((kind, word, place))
            at += len(word) if found is None else found.end() - at
        else:
            kind = found["sign"] or ("number" if found["number"] else "$k")
            made.append((kind, found[0], place))
            at = found.end()
        at = BLANK.match(text, at).end()
    return made


# ---- grammars: for each part its ways, each a list of parts and of kinds of tokens. `'word` is a name with these letters.

TERMS = """
term = iff
iff = level3 <=> level3 / implied
implied = implied => joined / joined
joined = joined & level3 / joined or level3 / level3
level3 = level4 compared level4 / level4
compared = '= / /= / < / <= / > / >= / : / /: / <: / /<: / <<:
level4 = level4 arrow level5 / level5
arrow = <-> / +-> / --> / >+> / >-> / +->> / -->> / >->>
level5 = level5 set_sign level6 / level6
set_sign = \\/ / /\\ / <| / |> / <<| / |>> / <+ / |->
level6 = level7 .. level7 / level7
level7 = level7 + level8 / level7 - level8 / level8
level8 = level8 * level9 / level8 '/ level9 / level8 mod level9 / level9
level9 = level10 ** level9 / level10
level10 = - level11 / level11
level11 = level11 ~ / level11 [ term ] / level11 ( terms ) / leaf
leaf = name / number / constant / unary ( term ) / ( term ) / ( composed ) / ( term , terms ) / { } / { terms } / { names '| term }
leaf = % named . ( term '| term ) / ! named . ( term ) / # named . ( term )
composed = term ; term / composed ; term
terms = term / terms , term
names = name / names , name
named = name / ( names )
constant = BOOL / TRUE / FALSE / INTEGER / NATURAL / NATURAL1 / INT / NAT / NAT1 / MAXINT / MININT
unary = not / bool / card / min / max / dom / ran / id / succ / pred / POW / POW1 / FIN / FIN1
"""

COMPONENTS = """
leaf = x$0
body = piece / body ; piece
piece = atom / piece || atom
parallel = piece
atom = skip / names := terms / name ( terms1 ) := term / name :: term / names : ( term )
terms1 = term
atom = BEGIN body END / PRE term THEN body END / ASSERT term THEN body END
atom = IF term THEN body elsifs else END
elsifs = / elsifs ELSIF term THEN body
else = / ELSE body
atom = CHOICE body ors END
ors = / ors OR body
atom = SELECT term THEN body whens else END
whens = / whens WHEN term THEN body
atom = ANY names WHERE term THEN body END / LET names BE equations IN body END / VAR names IN body END
equations = equation / equations & equation
equation = name '= level4
atom = WHILE term DO body INVARIANT term VARIANT term END
sets = set / sets ; set
set = name '= { names }
values = value / values ; value
value = name '= term
assertions = term / assertions ; term
operations = operation / operations ; operation
operation = header '= parallel / names <-- header '= parallel
header = name / name ( names )
clause = SETS sets / CONSTANTS names / CONCRETE_CONSTANTS names / PROPERTIES term / CONCRETE_VARIABLES names
clause = INVARIANT term / ASSERTIONS assertions / INITIALISATION body / OPERATIONS operations
abstract = VARIABLES names / ABSTRACT_VARIABLES names
of_machine = clause / abstract
of_implementation = clause / VALUES values
component = MACHINE name machine_clauses
component = REFINEMENT name REFINES name machine_clauses
component = IMPLEMENTATION name REFINES name implementation_clauses
machine_clauses = / machine_clauses of_machine
implementation_clauses = / implementation_clauses of_implementation
whole = component / component END
"""

PROOFS = """
leaf = x$0 / x$k / $k / btrue / bfalse / { : type }
leaf = ! ( typed_numbers ) . ( term ) / # ( typed_numbers ) . ( term ) / { ranged_numbers '| term } / % ( ranged_numbers ) . ( term '| term )
typed_numbers = $k : type / typed_numbers , $k : type
ranged_numbers = $k : term / ranged_numbers , $k : term
type = INTEGER / BOOL / name / POW ( type ) / ( type * type )
typed_names = name : type / typed_names , name : type
script_name = script_name_part / script_name . script_name_part
rule = 'hyp number / 'true / 'same / 'eval / 'false number / 'absurd number number / 'and / 'iff / 'imp / not / 'left / 'right / or / 'contra
rule = 'fix typed_names / 'use terms / 'split number / 'cases number / 'apply number / 'inst number terms / 'open number typed_names
rule = 'cut term / 'case term / 'drop number / 'eq number loc / 'qe number loc / 'law name picks loc / 'wal name picks loc
rule = 'eval loc / 'type loc / 'neg loc / 'mem loc / 'val loc / 'ext loc / 'sub loc / 'ex loc / 'pair term / 'elems term / 'interval number
rule = 'induct / 'poly / 'lin : lines / 'lin numbers : lines
picks = / ( ) / ( terms )
loc = 'goal path / 'hyp number path
path = / path number
numbers = number / numbers , number
lines = line / lines '| line
line = sum / number '/ number
sum = multiple / sum + multiple
multiple = number * number / - number * number
rules = rule / rules ; rule
script = 'proof script_name / 'proof script_name rules
scripts = / scripts script 'end
whole = scripts / scripts script
"""


class Grammar:
    def __init__(self, *texts):
        self.ways = {}
        self.readings = {}
        for line in "\n".join(texts).strip().split("\n"):
            if line:
                part, _, rest = line.partition(" = ") if " = " in line else line.partition(" =")
                for way in re.split(r"(?:^|(?<= ))/(?= |$)", rest):
                    self.ways.setdefault(part, []).append(tuple(way.split()))
        self.can_be_empty = set()
        while True:
            more = {part for part, ways in self.ways.items() if any(all(it in self.can_be_empty for it in way) for way in ways)}
            if more == self.can_be_empty:
                break
            self.can_be_empty = more

    def takes(self, symbol, token):
        kind, text, _ = token
        if symbol == "script_name_part":
            return kind == "name" or kind in WORDS or kind == "number"
        if symbol.startswith("'") and len(symbol) > 1:
            return (kind == "name" or kind == symbol[1:]) and text == symbol[1:]
        return kind == symbol

    def fronts(self, start, all_tokens):
        """The lengths of the fronts that are spelled by this part."""
        reading = self.readings.setdefault(start, Reading(self, start))
        return reading.fronts(all_tokens)


class Reading:
    """Items of Earley's method: a part, one of its ways, how much of it is read, and where it began. What is read is kept for a text that
    begins with the same tokens."""

    def __init__(self, grammar, start):
        self.grammar = grammar
        self.start = start
        self.read = []
        self.columns = [self.closed([(start, way, 0, 0) for way in grammar.ways[start]], 0)]

    def fronts(self, all_tokens):
        words = [it[:2] for it in all_tokens]
        same = len(os.path.commonprefix([self.read, words]))
        del self.columns[same + 1 :]
        for now in range(same, len(all_tokens)):
            taken = [it for it in self.columns[now] if it[2] < len(it[1]) and self.grammar.takes(it[1][it[2]], all_tokens[now])]
            self.columns.append(self.closed([advanced(it) for it in taken], now + 1))
        self.read = words
        return [now for now in range(len(all_tokens) + 1) if any(self.is_whole(it) for it in self.columns[now])]

    def is_whole(self, item):
        part, way, dot, began = item
        return part == self.start and dot == len(way) and began == 0

    def closed(self, column, now):
        """The column with all items that follow from its own."""
        ways = self.grammar.ways
        seen = set(column)
        waiting = {}
        done = set()

        def add(item):
            if item not in seen:
                seen.add(item)
                column.append(item)

        for item in column:
            part, way, dot, began = item
            if dot == len(way):
                if began == now:
                    done.add(part)
                others = waiting.get(part, []) if began == now else self.columns[began]
                for other in [it for it in others if it[2] < len(it[1]) and it[1][it[2]] == part]:
                    add(advanced(other))
            elif way[dot] in ways:
                waiting.setdefault(way[dot], []).append(item)
                for other in ways[way[dot]]:
                    add((way[dot], other, 0, now))
                if way[dot] in done or way[dot] in self.grammar.can_be_empty:
                    add(advanced(item))
        return column


def advanced(item):
    part, way, dot, began = item
    return part, way, dot + 1, began


COMPONENT_GRAMMAR = Grammar(TERMS, COMPONENTS)
PROOF_GRAMMAR = Grammar(TERMS, PROOFS)
CLAUSE_KINDS = {"ABSTRACT_VARIABLES": "VARIABLES", "CONCRETE_CONSTANTS": "CONSTANTS"}


# ---- faults


def clause_kind(word):
    return CLAUSE_KINDS.get(word, word)


def component_fronts(all_tokens):
    """The lengths of the fronts that are a header and clauses, none of them twice, perhaps with END; and whether all is a component."""
    found = [0]
    for length in COMPONENT_GRAMMAR.fronts("whole", all_tokens):
        # A clause word begins a clause wherever it stands but in a body, in which INVARIANT stands in a loop alone.
        kinds = clauses_of(all_tokens[:length])
        if len(kinds) == len(set(kinds)):
            found.append(length)
    return found


def clauses_of(some_tokens):
    """The clauses by their words. The clause in a loop is the one between DO and the END of the loop."""
    kinds = []
    open_blocks = 0
    for kind, _, _ in some_tokens:
        if kind in ("BEGIN", "PRE", "ASSERT", "IF", "CHOICE", "SELECT", "ANY", "LET", "VAR", "WHILE"):
            open_blocks += 1
        elif kind == "END":
            open_blocks -= 1
        elif open_blocks == 0 and kind in CLAUSE_WORDS and kind not in ("MACHINE", "REFINEMENT", "IMPLEMENTATION", "REFINES", "skip"):
            kinds.append(clause_kind(kind))
    return kinds


def unread(text):
    """F1 or F2 of a text with its place, or the tokens."""
    try:
        return None, tokens(text.decode())
    except UnicodeDecodeError as why:
        return f"F1 {{}} at {why.start}", None
    except Lexical as why:
        return f"F2 {{}} at {why.args[0]}", None


def place_past(all_tokens, front, text):
    return all_tokens[front][2] if front < len(all_tokens) else len(text)


def component_fault(text):
    """F1, F2 or F3 of a component, or None."""
    fault, all_tokens = unread(text)
    if fault:
        return fault
    fronts = component_fronts(all_tokens)
    if fronts[-1] == len(all_tokens) and all_tokens and all_tokens[-1][0] == "END" and is_closed(all_tokens):
        return None
    return f"F3 {{}} at {place_past(all_tokens, fronts[-1], text)}"


def is_closed(all_tokens):
    """Whether the last END is that of the component, where the whole is a front: it closes no block."""
    opened = [it[0] for it in all_tokens]
    blocks = sum(opened.count(it) for it in ("BEGIN", "PRE", "ASSERT", "IF", "CHOICE", "SELECT", "ANY", "LET", "VAR", "WHILE"))
    return opened.count("END") == blocks + 1


def proof_fault(text):
    """F1, F2 or F3 of a proof file, or None. That names of two types are F3 and that names of two scripts are F6 is not asked."""
    fault, all_tokens = unread(text)
    if fault:
        return fault
    fronts = PROOF_GRAMMAR.fronts("whole", all_tokens)
    if len(all_tokens) in PROOF_GRAMMAR.fronts("scripts", all_tokens):
        return None
    return f"F3 {{}} at {place_past(all_tokens, fronts[-1], text)}"


# ---- call scripts


def call_fault(text, operations):
    """The number of the first line at fault, or None and the names called. Operations: for each name its inputs, each INTEGER, BOOL or a
    list of elements."""
    called = []
    lines = text.split(b"\n")
    lines = [line[:-1] if line.endswith(b"\r") else line for line in lines[:-1]] + ([lines[-1]] if lines[-1] else [])
    for number, line in enumerate(lines, 1):
        if line == b"" or line.startswith(b"#"):
            continue
        call = read_call(line, operations)
        if call is None:
            return number, None
        called.append(call)
    return None, called


def read_call(line, operations):
    try:
        found = re.fullmatch(r" *([^\W\d_]\w*) *(?:\(([^()]*)\) *)?", line.decode())
    except UnicodeDecodeError:
        return None
    if not found or found[1] not in operations:
        return None
    words = [it.strip(" ") for it in (found[2] or "").split(",")]
    words = [] if words == [""] else words
    inputs = operations[found[1]]
    if len(words) != len(inputs):
        return None
    for word, kind in zip(words, inputs):
        if kind == "INTEGER" and not (re.fullmatch(r"-?[0-9]+", word) and abs(int(word)) <= 2147483647):
            return None
        if kind == "BOOL" and word not in ("TRUE", "FALSE"):
            return None
        if isinstance(kind, list) and word not in kind:
            return None
    return found[1], words


# ---- cases

# The obligations of the tally that are not obvious, in order. Its proof file has their scripts in this order.
TALLY_OBLIGATIONS = ["Tally.inc.1", "Tally_i.inc.1", "Tally_i.inc.2", "Tally_i.inc.chk.1", "Tally_i.inc.chk.2"]
TALLY_CALLS = b"inc\ninc\nget = 10\nend 3 calls, 16 steps\n"


def stored(name):
    with open(f"{DATA}/{name}", "rb") as file:
        return file.read()


def one_case(name, given, status, written):
    return "\n".join([f"== {name}", *given, f"status {status}", *as_lines(written)]) + "\n\n"


def refused(fault, name):
    return 3, f"refused {fault.format(name)}\n".encode()


def proof_cases():
    whole = stored("Tally.prf")
    for length in range(len(whole)):
        front = whole[:length]
        fault = proof_fault(front)
        if fault:
            answer = refused(fault, "Tally.prf")
        else:
            proved = front.count(b"\nend")
            left = TALLY_OBLIGATIONS[proved:]
            answer = (4, f"unproved {left[0]}\n".encode()) if left else (0, TALLY_CALLS)
        given = ["words run c.prj c.calls", "file c.prj = tally.prj", "file Tally.mch = Tally.mch", "file Tally_i.imp = Tally_i.imp"]
        yield f"cut_proofs_at_{length:03}", [*given, "text Tally.prf", *as_lines(front), "file c.calls = tally.calls"], *answer


def component_cases(word, name, others, project, machine, count):
    whole = stored(name)
    for length in range(len(whole)):
        front = whole[:length]
        fault = component_fault(front)
        answer = refused(fault, name) if fault else (0, f"ok {machine} {count} components\n".encode())
        given = ["words check c.prj", *project, *[f"file {it} = {it}" for it in others], f"text {name}", *as_lines(front)]
        yield f"cut_{word}_at_{length:03}", given, *answer


SCRIPT = b"all(green, TRUE)\r\n# the sum\n\n  sum ( 4 )  \nodd(7,-3)\nall(blue,FALSE)"
INPUTS = {"all": [["red", "green", "blue"], "BOOL"], "sum": ["INTEGER"], "odd": ["INTEGER", "INTEGER"]}


def script_cases():
    for length in range(len(SCRIPT) + 1):
        front = SCRIPT[:length]
        fault, called = call_fault(front, INPUTS)
        if fault:
            answer = 6, f"bad call line {fault}\n".encode()
        else:
            lines = [f"{name}({','.join(words)})".encode() for name, words in called]
            answer = images.answer(images.LAMPS, lines)
        given = [f"words exec c.img c.calls --fuel {images.FUEL}", "file c.img = lamps.img", "text c.calls", *as_lines(front)]
        yield f"cut_calls_at_{length:03}", given, *answer


def write_cases():
    tally = ["file c.prj = tally.prj"]
    divide = ["text c.prj", "|machine Divide.mch", "|implementation Divide_i.imp"]
    groups = [
        ("the proof file of the tally: what is cut off is open, or the file is at fault", proof_cases()),
        ("its machine", component_cases("machine", "Tally.mch", ["Tally_i.imp"], tally, "Tally", 2)),
        ("its implementation", component_cases("implementation", "Tally_i.imp", ["Tally.mch"], tally, "Tally", 2)),
        ("an implementation with a loop and remarks", component_cases("loop", "Divide_i.imp", ["Divide.mch"], divide, "Divide", 2)),
        ("a call script", script_cases()),
    ]
    made = "# Files that are cut off at each byte. tests/texts.py writes this file: what is wanted comes from its own reader of texts, and not from\n"
    made += "# the program.\n\n"
    for what, cases in groups:
        made += f"# ---- {what}\n\n"
        for case in cases:
            made += one_case(*case)
    with open(f"{DATA}/cut_files.cases", "w") as file:
        file.write(made.rstrip("\n") + "\n")


# ---- comparison


def answers(program, folder, words):
    ran = subprocess.run([program, *words], cwd=folder, stdin=subprocess.DEVNULL, stdout=subprocess.PIPE, timeout=120)
    return ran.returncode, ran.stdout


def checked(program, name, text):
    """What the program says of a component or a proof file: the line of F1, F2 or F3, or None. What comes after these is not looked at."""
    with tempfile.TemporaryDirectory(prefix="texts-") as folder:
        is_proofs = name.endswith(".prf")
        project = b"machine A.mch\n" + (b"proofs A.prf\n" if is_proofs else b"")
        component = b"MACHINE A END\n" if is_proofs else text
        for file_name, written in (("a.prj", project), ("A.mch", component), ("A.prf", text)):
            with open(f"{folder}/{file_name}", "wb") as file:
                file.write(written)
        status, written = answers(program, folder, ["status" if is_proofs else "check", "a.prj"])
    found = re.fullmatch(rb"refused (F[123]) A\.\w+ at (\d+)\n", written)
    return f"{found[1].decode()} {{}} at {found[2].decode()}" if status == 3 and found else None


def fronts_of(name):
    with open(name, "rb") as file:
        whole = file.read()
    is_proofs = name.endswith(".prf")
    for length in range(len(whole) + 1):
        front = whole[:length]
        yield name, length, front, proof_fault(front) if is_proofs else component_fault(front)


def compare(program, folders):
    names = sorted(it for folder in folders for kind in ("mch", "ref", "imp", "prf") for it in glob.glob(f"{folder}/*.{kind}"))
    names = [it for it in names if os.path.getsize(it) <= 4000]
    differ = 0
    total = 0
    with ThreadPoolExecutor(os.cpu_count()) as pool:
        for name in names:
            texts = list(fronts_of(name))
            for (_, length, _, wanted), came in zip(texts, pool.map(lambda it: checked(program, it[0], it[2]), texts)):
                total += 1
                if came != wanted:
                    differ += 1
                    print(f"{name} cut at {length}: {came}, wanted {wanted}")
    print(f"{len(names)} files, {total} fronts, {differ} differ")
    return 1 if differ else 0


def main():
    if sys.argv[1:] == ["--cases"]:
        write_cases()
        return 0
    if len(sys.argv) > 1:
        folders = sys.argv[2:] or [DATA, *sorted(glob.glob(f"{TOP}/examples/*/"))]
        return compare(os.path.abspath(sys.argv[1]), folders)
    print(__doc__)
    return 2


if __name__ == "__main__":
    sys.exit(main())

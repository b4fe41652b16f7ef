#!/usr/bin/env python3
"""Measures calls of a program and prints the tables of docs/PERFORMANCE.md that come from single calls.

Run `tools/measure.py PROGRAM`, or `tools/measure.py PROGRAM NAME..` for some of the tables: families, files, models, refutations,
games, automata, machines, shown. A cell has the instructions that callgrind counts, of the whole program, and the greatest memory
by GNU time, where it is more than 5 MB. Inputs are made here, always the same ones. PROGRAM is crates/mlsolver/out/mlsolver, or any
other one that `rt run` built. `--times` measures seconds in place of instructions, which takes a hundredth of the time.
"""
import os, random, re, subprocess, sys, time

HERE = os.path.dirname(os.path.abspath(__file__))
EXAMPLES = os.path.join(HERE, "..", "examples")
PROGRAM, TIMES = "", False


def output(words, data=b""):
    return subprocess.run([PROGRAM, *words.split()], input=data, stdout=subprocess.PIPE, stderr=subprocess.DEVNULL).stdout


def shown(number):
    return f"{number / 1e9:.2f} G" if number >= 1e9 else f"{number / 1e6:.3g} M" if number < 1e8 else f"{number / 1e6:.0f} M"


def cost(words, data=b""):
    """Gives what a call takes, as a cell of a table."""
    call, told = [PROGRAM, *words.split()], {"input": data, "stdout": subprocess.DEVNULL, "stderr": subprocess.PIPE}
    began = time.monotonic()
    ran = subprocess.run(["/usr/bin/time", "-f", "%M kB", *call], **told)
    taken = time.monotonic() - began
    memory = int(re.findall(rb"(\d+) kB", ran.stderr)[-1]) / 1000
    more = f", {memory:.0f} MB" if memory > 5 else ""
    if TIMES:
        return f"{taken:.2f} s{more}"
    counted = subprocess.run(["valgrind", "--tool=callgrind", "--callgrind-out-file=/dev/null", *call], **told)
    return shown(int(re.findall(rb"Collected : (\d+)", counted.stderr)[-1])) + more


def table(head, rows):
    print("| " + " | ".join(head) + " |\n|" + "---|" * len(head))
    for row in rows:
        print("| " + " | ".join(row) + " |", flush=True)
    print()


def families():
    for call in ["or 10", "or 16", "fair 3", "step 400"]:
        yield f"`bench {call}`", cost(f"bench {call}")


def example(path):
    with open(os.path.join(EXAMPLES, path), "rb") as it:
        return it.read()


def requirements(count, is_met):
    """A file of common patterns over two names for each three requirements; or three more that exclude each other."""
    drawn, lines = random.Random(count), ["logic word"]
    for number in range(count):
        p, q = drawn.sample(range(count * 2 // 3 + 2), 2)
        pattern = drawn.choice(["G(p{} -> F p{})", "G(p{} -> X p{})", "G F p{} -> G F p{}", "G(p{} -> !p{})", "p{} W p{}"])
        lines.append(f"require r{number}: " + pattern.format(p, q))
    if not is_met:
        lines += ["require on: F G go", "require off: G(stop -> F !go)", "require again: G F stop"]
    return ("\n".join(lines) + "\n").encode()


def files():
    texts = [(name, example(f"specifications/{name}.spec")) for name in ["light", "crossing", "bus", "lift", "mutex"]]
    texts += [(f"{count} requirements{'' if is_met else ', of which three exclude each other'}", requirements(count, is_met))
              for count in [300, 1000] for is_met in [True, False]]
    for name, text in texts:
        yield name, cost("ask", text), cost("ask files", text), cost("check-answers", text + output("ask files", text))
    refused = requirements(1000, True) + b"require bad: (\n"
    yield f"1,000 requirements, refused at the end of {len(refused):,} bytes", cost("ask", refused), "", ""


def structure(formula, states, edges, is_true, logic="mu"):
    drawn = random.Random(states)
    lines = ["mlsolver 2", "answer satisfiable", f"logic {logic}", "sense plain", f"formula {formula}", f"states {states}", "start 0"]
    lines += [f"state {it}{' p' if is_true(it) else ''}" for it in range(states)]
    ways = sorted({(drawn.randrange(states), drawn.randrange(states)) for _ in range(edges)} | {(it, (it + 1) % states) for it in range(states)})
    return ("\n".join(lines + [f"edge {here} _ {there}" for here, there in ways] + ["end"]) + "\n").encode()


def models():
    two, three = "(nu X. (mu Y. <>((p & X) | Y)))", "(nu X. (mu Y. (nu Z. (<>((p & X) | Y) & <>(Z | p)))))"
    for label, formula, states, edges, part in [
        ("two binders, p at one state", two, 100000, 1000000, 100000), ("p at each tenth", two, 100000, 1000000, 10),
        ("p at each second", two, 100000, 1000000, 2), ("three binders, 1,000 states", three, 1000, 10000, 10)]:
        text = structure(formula, states, edges, lambda it: it % part == 0)
        yield label, cost("check-model", text), cost("quotient", text)


def refutations():
    boxes = lambda variable, count: f"(nu {variable}. {'[]' * count}{variable})"
    for label, formula in [
        ("chain, 316", f"(mu X. <>X) & {boxes('Y', 316)} & {boxes('Z', 317)}"),
        ("tree, 16", " & ".join(f"(p{it} | q{it})" for it in range(16)) + " & <>ff")]:
        text = formula.encode()
        document = output("decide mu --limit 200000", text)
        yield (label, f"{len(document):,}", cost("decide mu --limit 200000", text), cost("migrate", document),
               cost("check-refutation", document))


def game(vertices, priorities, successors):
    drawn = random.Random(vertices + priorities)
    lines = [f"parity {vertices - 1};"]
    for it in range(vertices):
        ways = ",".join(map(str, sorted({drawn.randrange(vertices) for _ in range(successors)})))
        lines.append(f"{it} {drawn.randrange(priorities)} {drawn.randrange(2)} {ways};")
    return ("\n".join(lines) + "\n").encode()


def games():
    for vertices, priorities, successors in [(100000, 2, 3), (100000, 8, 3), (200000, 8, 10)]:
        text = game(vertices, priorities, successors)
        solution = output("solve-game recursive", text)
        yield (f"random, {priorities} priorities, {vertices:,} vertices, {successors} successors", cost("solve-game recursive", text),
               cost("solve-game tangles", text), cost("check-game", text + solution))


def automata():
    for parts in [8, 10, 12]:
        formula = " & ".join(f"(a{it} | b{it})" for it in range(parts)).encode()
        yield f"`(a0 \\| b0) & ..`, {parts} parts", cost("automaton", formula)
    for parts in [2, 3, 4]:
        formula = " & ".join(f"G F p{it}" for it in range(parts)).encode()
        states = re.findall(rb"States: (\d+)", output("automaton", formula))[0].decode()
        yield f"`G F p0 & ..`, {parts} parts: {states} states", cost("automaton", formula)


def arbiter(clients):
    names = range(1, clients + 1)
    exclude = [f"G !(g{one} & g{other})" for one in names for other in names if one < other]
    formula = " & ".join([f"G(r{it} -> F g{it})" for it in names] + exclude)
    inputs, outputs = " ".join(f"r{it}" for it in names), " ".join(f"g{it}" for it in names)
    return f"inputs {inputs}\noutputs {outputs}\nformula {formula}\n".encode()


def machines():
    for clients in [2, 3, 4]:
        made = output("make", arbiter(clients))
        yield f"an arbiter of {clients} clients", cost("make", arbiter(clients)), cost("check-machine", made)


def documents():
    """Documents with refutations, each with the command that checks it."""
    for call in ["step 100", "step 300"]:
        formula = output(f"gen {call}")
        yield f"`gen {call}`", output("valid mu", formula) if b"unsatisfiable" not in output("decide mu", formula) else output("decide mu", formula)
    for logic, formula in [("ltl", "G F p & F G !p"), ("word", "G F p & G F q & G F r & F G !p"), ("mu", "(mu X. <>X) & (nu Y. [][][][][][]Y)")]:
        yield f"`{formula}` in `{logic}`", output(f"find {logic}", formula.encode())


def shown_documents():
    for label, document in documents():
        page = output("show", document)
        yield label, f"{len(document):,}", f"{len(page):,}", cost("check-refutation", document), cost("show", document)


TABLES = {
    "families": (["call", "cost"], families),
    "files": (["file", "`ask`", "`ask files`", "`check-answers`"], files),
    "models": (["structure", "`check-model`", "`quotient`"], models),
    "refutations": (["document", "bytes", "`decide`", "`migrate`", "`check-refutation`"], refutations),
    "games": (["game", "`recursive`", "`tangles`", "`check-game`"], games),
    "automata": (["formula", "`automaton`"], automata),
    "machines": (["task", "`make`", "`check-machine`"], machines),
    "shown": (["document", "bytes", "bytes of `show`", "`check-refutation`", "`show`"], shown_documents),
}


def main():
    global PROGRAM, TIMES
    words = [it for it in sys.argv[1:] if it != "--times"]
    PROGRAM, TIMES = os.path.abspath(words[0]), "--times" in sys.argv
    for name in words[1:] or TABLES:
        head, rows = TABLES[name]
        table(head, rows())


if __name__ == "__main__":
    main()

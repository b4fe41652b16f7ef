#!/usr/bin/env python3
"""Numbers the nodes of formulas as docs/DOCUMENTS.md says, and compares with what the program writes.

Run `tools/number_nodes.py PROGRAM`, or `tools/number_nodes.py PROGRAM DOCUMENT..`. Without documents it takes the refutations of
the formulas below, and of those in examples/rows for which a row tells that there is one. For each refutation it asks
- that the first entry has the root, that each `split` names an or-node, each `go` a diamond and each clash a false node, the two
  literals of one proposition or a node of an odd priority, and that each sequent has nodes alone that the graph has;
- that the page of `show` lists the formulas of these nodes, for the first entry that comes to its nodes where and-nodes are taken
  apart; blocks with the same items say the same, and so do the literals of one proposition. What a name of the page stands for is put in its place.
It is written from the page alone, as a checker would be. It ends with 1 where something differs.
"""
import glob, os, re, subprocess, sys

ROWS = os.path.join(os.path.dirname(os.path.abspath(__file__)), "..", "examples", "rows", "*.rows")

FORMULAS = {
    "mu": ["mu X. <>X", "mu X. p & <a>X", "nu X. mu Y. (p & <>X) | <>Y <-> []ff", "(mu X. p | <a>X) & (nu Y. !p & [a]Y)",
           "(nu X. mu Y. <a>(p & X | !p & Y)) & (mu X. [a](nu Y. !p & [a]Y | X))", "!(nu X. p & []X -> p)"],
    "pdl": ["!repeat(tt?)", "!([a*](p -> [a]p) -> (p -> [a*]p))", "<(a+b)*;p?>q & [a*;b*]!q & [(a;b)*](p <-> q) & [(a+b)*]!q",
            "repeat(a;b) & [(a;b)*]<a>ff", "<(a;b)*>p & [a](ff & p) & !p", "repeat(p?;a) & [a]!p"],
    "word": ["G F p & F G !p", "(p U q) & G !q", "(p <-> X p) & p & X !p", "(p R q) & F !q & G !p", "p W q & F !p & G !q"],
    "ltl": ["G F p & F G !p", "(p U q) & G !q", "(p <-> X p) & p & X !p", "(p R q) & F !q & G !p", "F p & F q & G(!p | ff)"],
    "ctl": ["A F A G p & E G F !p", "E(p U q) & A G !q", "A G(p -> E X q) & E F(p & A X !q)", "E F p & !E F p & (p <-> q)",
            "A(G F p) & E F(E G !p)"],
}


class Reader:
    """Reads the canonical text of a formula: (kind, part, ..)."""

    def __init__(self, logic, text):
        self.logic = logic
        letters = r"[XUWRFGEA](?![A-Za-z0-9_])|" if logic in ("ctl", "ltl", "word") else ""
        self.tokens = re.findall(letters + r"<->|->|[A-Za-z][A-Za-z0-9_]*|\S", text)
        self.at = 0

    def next(self, want=None):
        token = self.tokens[self.at]
        assert want is None or token == want, (token, want)
        self.at += 1
        return token

    def peek(self):
        return self.tokens[self.at] if self.at < len(self.tokens) else ""

    def formula(self):
        token = self.next()
        if token in ("tt", "ff"):
            return (token,)
        if token == "!":
            return ("!", self.formula())
        if token in ("<", "["):
            program = ("act", "_") if self.peek() in (">", "]") else self.program()
            self.next({"<": ">", "[": "]"}[token])
            return (token, program, self.formula())
        if token == "repeat" and self.logic == "pdl":
            self.next("(")
            program = self.program()
            self.next(")")
            return ("repeat", program)
        if token in ("X", "F", "G", "E", "A") and self.logic in ("ctl", "ltl", "word"):
            return (token, self.formula())
        if token == "(" and self.peek() in ("mu", "nu") and self.logic == "mu":
            binder, variable = self.next(), self.next()
            self.next(".")
            body = self.formula()
            self.next(")")
            return (binder, variable, body)
        if token == "(":
            left = self.formula()
            sign = self.next()
            right = self.formula()
            self.next(")")
            return (sign, left, right)
        return ("var" if token[0].isupper() else "prop", token)

    def program(self):
        program = self.base()
        while self.peek() == "*":
            self.next()
            program = ("*", program)
        return program

    def base(self):
        if self.next_is_test():
            self.next("(")
            formula = self.formula()
            self.next(")")
            self.next("?")
            return ("?", formula)
        if self.peek() != "(":
            return ("act", self.next())
        self.next("(")
        left = self.program()
        sign = self.next()
        right = self.program()
        self.next(")")
        return ("seq" if sign == ";" else "alt", left, right)

    def next_is_test(self):
        depth = 0
        for i in range(self.at, len(self.tokens)):
            depth += (self.tokens[i] == "(") - (self.tokens[i] == ")")
            if depth == 0:
                return self.peek() == "(" and self.tokens[i + 1] == "?"
        return False


OR, AND = "or", "and"
LEAST = {("F", 1), ("U", 1), ("G", 0), ("R", 0), ("W", 0)}


def text(term, positive):
    """A formula, or its negation, as people read it."""
    kind = term[0]
    if kind in ("tt", "ff"):
        return "tt" if (kind == "tt") == positive else "ff"
    if kind == "prop":
        return ("" if positive else "!") + term[1]
    if kind == "var":
        return term[1]
    if kind == "!":
        return text(term[1], not positive)
    if kind in ("&", "|", "->", "<->"):
        if kind == "<->":
            return f"({text(term[1], True)} <-> {text(term[2], positive)})"
        sign = kind if positive else {"&": "|", "|": "&", "->": "&"}[kind]
        first = positive if kind != "->" or positive else True
        return f"({text(term[1], first)} {sign} {text(term[2], positive)})"
    if kind in ("U", "R", "W"):
        return ("" if positive else "!") + f"({text(term[1], True)} {kind} {text(term[2], True)})"
    if kind in ("X", "F", "G", "E", "A"):
        turned = {"X": "X", "F": "G", "G": "F", "E": "A", "A": "E"}[kind]
        return f"{kind if positive else turned} {text(term[1], positive)}"
    if kind in ("<", "["):
        return modality(term[1], (kind == "<") == positive) + text(term[2], positive)
    if kind == "repeat":
        return ("" if positive else "!") + f"repeat({program_text(term[1])})"
    least = (kind == "mu") == positive
    return f"({'mu' if least else 'nu'} {term[1]}. {text(term[2], positive)})"


def program_text(program):
    kind = program[0]
    if kind == "act":
        return program[1]
    if kind in ("seq", "alt"):
        return f"({program_text(program[1])}{';' if kind == 'seq' else '+'}{program_text(program[2])})"
    return program_text(program[1]) + "*" if kind == "*" else f"({text(program[1], True)})?"


def modality(program, diamond):
    name = "" if program == ("act", "_") else program_text(program)
    return f"<{name}>" if diamond else f"[{name}]"


class Graph:
    """The nodes of a formula by their keys: each has its form, its priority, and what it says."""

    def __init__(self, logic, term, negated):
        self.logic, self.sign = logic, 0 if negated else 1
        self.occurrences, self.nodes = [], {}
        self.list(term, None, 0)
        self.root = {"mu": self.formula_key(0, self.sign), "pdl": self.formula_key(0, self.sign)}.get(logic, "root")
        if logic in ("mu", "pdl"):
            self.depths = 2 * sum(it["term"][0] in ("mu", "nu") for it in self.occurrences)
            self.reach()
            self.number = {key: key[0] * 2 + 1 - key[1] for key in self.nodes}
        else:
            self.reach()
            self.number = {key: n for n, key in enumerate(self.nodes)}
        self.by_number = {n: key for key, n in self.number.items()}

    # the occurrences, each before its parts
    def list(self, term, binder, depth):
        place = len(self.occurrences)
        here = {"term": term, "parts": [], "binder": binder, "depth": depth, "nth": 0}
        self.occurrences.append(here)
        if term[0] == "<->":
            self.occurrences += [dict(here, nth=1), dict(here, nth=2)]
        if term[0] in ("mu", "nu"):
            binder, depth = {**(binder or {}), term[1]: place}, depth + 1
        for part in term[1:]:
            if isinstance(part, tuple) and not (self.logic == "mu" and part[0] == "act"):
                here["parts"].append(len(self.occurrences))
                self.list(part, binder, depth)
        return place

    # all nodes that are reached, breadth first
    def reach(self):
        self.nodes[self.root] = None
        for key in iter_growing(self.nodes):
            self.nodes[key] = self.node(key)
            for child in self.nodes[key]["to"]:
                self.nodes.setdefault(child, None)

    def node(self, key):
        if self.logic in ("mu", "pdl"):
            return self.occurrence_node(key)
        return self.word_node(key) if self.logic == "word" else self.block_node(key)

    # rows that all logics share: (form, left, right) of parts and signs, or None
    def shared(self, place, sign):
        at = self.occurrences[place]
        kind, parts = at["term"][0], at["parts"]
        f, g = (parts + [None, None])[:2]
        if kind in ("tt", "ff"):
            return ("true" if (kind == "tt") == bool(sign) else "false",)
        if kind == "prop":
            return ("literal", at["term"][1], sign)
        if kind == "!":
            return ("to", (f, 1 - sign))
        if kind in ("&", "|"):
            return (AND if (kind == "&") == bool(sign) else OR, (f, sign), (g, sign))
        if kind == "->":
            return (OR if sign else AND, (f, 1 - sign), (g, sign))
        if kind == "<->":
            if at["nth"] == 0:
                return (OR, (place + 1, sign), (place + 2, sign))
            other = sign if at["nth"] == 1 else 1 - sign
            return (AND, (f, int(at["nth"] == 1)), (g, other))
        return None

    def formula_key(self, place, sign):
        return (place, sign, None) if self.logic == "pdl" else (place, sign)

    def made(self, row, key_of, priority, says):
        form, rest = row[0], row[1:]
        if form in ("true", "false"):
            return {"form": form, "to": [], "priority": priority, "says": says}
        if form == "literal":
            return {"form": form, "to": [], "literal": rest, "priority": priority, "says": says}
        if form == "to":
            return {"form": AND, "to": [key_of(*rest[0])] * 2, "priority": priority, "says": says}
        if form in ("diamond", "square"):
            return {"form": form, "to": [rest[1]], "action": rest[0], "priority": priority, "says": says}
        return {"form": form, "to": [key_of(*rest[0]), key_of(*rest[1])], "priority": priority, "says": says}

    def says_of(self, place, sign):
        at = self.occurrences[place]
        if at["term"][0] == "<->" and at["nth"]:
            first = at["nth"] == 1
            return f"({text(at['term'][1], first)} & {text(at['term'][2], bool(sign) == first)})"
        return text(at["term"], bool(sign))

    # mu and pdl: a key is (occurrence, sign), in pdl with the continuation of a program
    def occurrence_node(self, key):
        place, sign = key[:2]
        at = self.occurrences[place]
        kind, parts, term = at["term"][0], at["parts"], at["term"]
        if len(key) == 3 and key[2] is not None:
            return self.program_node(key, at)
        says, plain = self.says_of(place, sign), self.depths if self.logic == "mu" else 4
        row = self.shared(place, sign)
        if row:
            return self.made(row, self.formula_key, plain, says)
        if self.logic == "mu":
            if kind in ("<", "["):
                form = "diamond" if (kind == "<") == bool(sign) else "square"
                return self.made((form, term[1][1], (parts[0], sign)), None, plain, says)
            if kind in ("mu", "nu"):
                least = (kind == "mu") == bool(sign)
                return self.made(("to", (parts[0], sign)), self.formula_key, 2 * at["depth"] + least, says)
            binder = at["binder"][term[1]]
            return self.made(("to", (binder, sign)), self.formula_key, plain, self.says_of(binder, sign))
        if kind in ("<", "["):
            run = int((kind == "<") == bool(sign))
            to = (parts[0], run, self.formula_key(parts[1], sign))
            return {"form": AND, "to": [to, to], "priority": 4, "says": says}
        to = (parts[0], sign, key)
        return {"form": AND, "to": [to, to], "priority": 1 - sign, "says": says}

    def program_node(self, key, at):
        (place, run, behind), kind, parts = key, at["term"][0], at["parts"]
        says = modality(at["term"], bool(run)) + self.runs_to(behind)
        if kind == "act":
            return self.made(("diamond" if run else "square", at["term"][1], behind), None, 4, says)
        if kind == "seq":
            form, to, priority = AND, [(parts[0], run, (parts[1], run, behind))] * 2, 4
        elif kind == "alt":
            form, to, priority = OR if run else AND, [(it, run, behind) for it in parts], 4
        elif kind == "*":
            form, to, priority = OR if run else AND, [behind, (parts[0], run, key)], 3 if run else 2
        else:
            form, to, priority = AND if run else OR, [self.formula_key(parts[0], run), behind], 4
        return {"form": form, "to": to, "priority": priority, "says": says}

    def runs_to(self, key):
        place, sign, behind = key
        if behind is None:
            return self.says_of(place, sign)
        return modality(self.occurrences[place]["term"], bool(sign)) + self.runs_to(behind)

    # what each state has besides: a next one
    def going(self, key, priority):
        going = lambda form, to, priority=2, **more: {"form": form, "to": to, "priority": priority, "says": None, **more}
        return {"T": going(AND, ["D", "B"], priority), "D": going("diamond", ["TRUE"], action="_"),
                "B": going("square", ["T"], action="_"), "TRUE": going("true", [])}[key]

    # word: a key is (time, occurrence, sign)
    def word_node(self, key):
        if key == "root":
            return {"form": AND, "to": [("now", 0, self.sign), "T"], "priority": 2, "says": self.says_of(0, self.sign)}
        if isinstance(key, str):
            return self.going(key, 2)
        time, place, sign = key
        at = self.occurrences[place]
        kind, parts, says = at["term"][0], at["parts"], self.says_of(place, sign)
        now = lambda place, sign: ("now", place, sign)
        later, rest = ("later", place, sign), ("rest", place, sign)
        if time == "later":
            return self.made(("square", "_", now(place, sign)), None, 2, "X " + says)
        if time == "rest":
            all_of = (kind in ("U", "W")) == bool(sign)
            says = f"({text(at['term'][1], bool(sign))} {'&' if all_of else '|'} X {says})"
            return {"form": AND if all_of else OR, "to": [now(parts[0], sign), later], "priority": 2, "says": says}
        row = self.shared(place, sign)
        if row:
            return self.made(row, now, 2, says)
        if kind == "X":
            return self.made(("square", "_", now(parts[0], sign)), None, 2, says)
        priority = 1 if (kind, sign) in LEAST else 2
        one_of = (kind in ("F", "U", "W")) == bool(sign)
        to = [now(parts[0], sign), later] if kind in ("F", "G") else [now(parts[1], sign), rest]
        return {"form": OR if one_of else AND, "to": to, "priority": priority, "says": says}

    # ctl and ltl: a key is (occurrence, sign) of a state, or ("block", quantifier, sign, items, focus)
    def block_node(self, key):
        if key == "root":
            start = self.block(None, 1, {(0, 1 - self.sign, 0)}, 0) if self.logic == "ltl" else (0, self.sign)
            return {"form": AND, "to": [start, "T"], "priority": 2, "says": self.says_of(0, self.sign)}
        if key == "FALSE":
            return {"form": "false", "to": [], "priority": 2, "says": "ff"}
        if isinstance(key, str):
            return self.going(key, 0)
        if key[0] == "block":
            return self.block_form(key)
        place, sign = key
        at = self.occurrences[place]
        row = self.shared(place, sign)
        if row:
            return self.made(row, lambda place, sign: (place, sign), 2, self.says_of(place, sign))
        asks = int(at["term"][0] == "E")
        to = self.block(place, int(sign == asks), {(at["parts"][0], 1 - asks, 0)}, 0)
        return {"form": AND, "to": [to, to], "priority": 2, "says": self.says_of(place, sign)}

    # items are (occurrence, 0 or 1 for a negative sign, 0 or 1 for later)
    def block(self, quantifier, sign, items, focus):
        if not items:
            return "TRUE" if sign else "FALSE"
        return ("block", quantifier, sign, tuple(sorted(items)), focus)

    # what becomes of an item: None of a state's, "waits", or the sets of items of one way or two
    def ways(self, item):
        place, minus, later = item
        at = self.occurrences[place]
        kind, parts, sign = at["term"][0], at["parts"], 1 - minus
        if later or kind == "X":
            return "waits"
        if kind in ("tt", "ff", "prop", "E", "A"):
            return None
        it = lambda part, sign: (part, 1 - sign, 0)
        put_off = (place, minus, 1)
        if kind == "<->":
            f, g = parts
            return [{it(f, 1), it(g, sign)}, {it(f, 0), it(g, 1 - sign)}]
        row = self.shared(place, sign)
        if row:
            few = [it(*part) for part in row[1:]]
            return [set(few)] if row[0] != OR else [{few[0]}, {few[1]}]
        if kind in ("F", "G"):
            f = it(parts[0], sign)
            return [{f}, {put_off}] if (kind == "F") == bool(sign) else [{f, put_off}]
        f, g = it(parts[0], sign), it(parts[1], sign)
        return [{g}, {f, put_off}] if (kind in ("U", "W")) == bool(sign) else [{f, g}, {g, put_off}]

    # the eventualities that an item can come to, in the order of items
    def eventualities(self, item):
        met, open_ = set(), [item]
        while open_:
            here = open_.pop()
            if here in met:
                continue
            met.add(here)
            ways = self.ways(here)
            if ways == "waits":
                open_.append(self.due(here))
            elif ways:
                open_ += [it for way in ways for it in way]
        return sorted({(p, m) for p, m, later in met if (self.occurrences[p]["term"][0], 1 - m) in LEAST and not later})

    def due(self, item):
        place, minus, later = item
        return (place, minus, 0) if later else (self.occurrences[place]["parts"][0], minus, 0)

    def block_form(self, key):
        _, quantifier, sign, items, focus = key
        lines = [("X " if later else "") + text(self.occurrences[p]["term"], (1 - m) == sign) for p, m, later in items]
        joined = (" & " if sign else " | ").join(lines)
        says = ("E " if sign else "A ") + (f"({joined})" if len(lines) > 1 else joined)
        dual = {AND: OR, OR: AND, "diamond": "square"}
        found = {"to": [], "says": says, "lines": lines if self.logic == "ltl" else None, "priority": 1 if sign else 2}
        form_of = lambda form: form if sign else dual[form]
        first = next((it for it in items if self.ways(it) != "waits"), None)
        if first is None:
            start = self.occurrences[quantifier]["parts"][0] if quantifier is not None else 0
            minus = int(self.occurrences[quantifier]["term"][0] == "A") if quantifier is not None else 1 - self.sign
            wanted = self.eventualities((start, minus, 0))
            pending = bool(wanted) and (*wanted[focus], 1) in items
            behind = focus if pending or not wanted else (focus + 1) % len(wanted)
            to = self.block(quantifier, sign, {self.due(it) for it in items}, behind)
            return {**found, "form": form_of("diamond"), "to": [to], "action": "_", "priority": int(pending) + (1 - sign)}
        rest = set(items) - {first}
        ways = self.ways(first)
        if ways is None:
            to = [(first[0], int((1 - first[1]) == sign)), self.block(quantifier, sign, rest, focus)]
            return {**found, "form": form_of(AND), "to": to}
        to = [self.block(quantifier, sign, rest | way, focus) for way in ways]
        return {**found, "form": form_of(AND if len(to) == 1 else OR), "to": to * (2 if len(to) == 1 else 1)}


def iter_growing(nodes):
    """The keys of a dictionary to which keys are added meanwhile."""
    done = 0
    while done < len(nodes):
        for key in list(nodes)[done:]:
            done += 1
            yield key


def read(document):
    """The problem, the entries (each its sequent and the lines of its decision) of a refutation."""
    lines = document.split("\n")
    head = {line.split(" ")[0]: line.split(" ", 1)[1] for line in lines[:5]}
    sequents, entries = [], []
    for line in lines[5:]:
        words = line.split(" ")
        if words[0] == "sequent":
            sequents.append(list(map(int, words[1:])))
            if lines[0] == "mlsolver 1":
                entries[-1][0] = sequents[-1]
        elif words[0] == "entry":
            entries.append([sequents[int(words[2])] if len(words) > 2 else None, []])
        elif words[0] in ("split", "clash", "go"):
            entries[-1][1].append(words)
    return head, entries


def lists_of(page):
    """The formulas that each step of a page lists, with the meanings of names in their places."""
    names, lists, last = {}, [], None
    for line in page.split("\n"):
        name = re.match(r"    (#\d+) := (.*)", line)
        if name:
            last = (names, name[1])
            names[name[1]] = name[2]
        elif re.match(r"Step \d+\. These", line):
            lists.append([])
            last = None
        elif line.startswith("    - ") and lists:
            lists[-1].append(line[6:])
            last = (lists[-1], len(lists[-1]) - 1)
        elif line.startswith("        ") and last:
            last[0][last[1]] += " " + line.strip()
        else:
            last = None
    meaning = lambda text: re.sub(r"#\d+", lambda name: meaning(names[name[0]]), text)
    return [list(map(meaning, texts)) for texts in lists]


def faults(document, page):
    """What differs between a refutation, its page, and the numbers of this script."""
    head, entries = read(document)
    graph = Graph(head["logic"], Reader(head["logic"], head["formula"]).formula(), head["sense"] == "negated")
    nodes = {n: graph.nodes[key] for n, key in graph.by_number.items()}
    if entries[0][0] != [graph.number[graph.root]]:
        yield f"entry 0 has {entries[0][0]}, and the root is {graph.number[graph.root]}"
    seen, wanted = set(), []
    for place, (sequent, decision) in enumerate(entries):
        if any(n not in nodes for n in sequent):
            yield f"entry {place}: no such nodes: {[n for n in sequent if n not in nodes]}"
            continue
        for words in decision:
            fault = fault_of(nodes, words)
            if fault:
                yield f"entry {place}: {' '.join(words)}: {fault}"
        parts, open_, met = set(), list(sequent), set()
        while open_:
            n = open_.pop()
            if nodes[n]["form"] != AND:
                key = graph.by_number[n]
                parts.add(nodes[n].get("literal") or (key[:4] if key[0] == "block" else n))
            elif n not in met:
                met.add(n)
                open_ += [graph.number[key] for key in nodes[n]["to"]]
        if frozenset(parts) not in seen:
            seen.add(frozenset(parts))
            told = [nodes[n] for n in sequent if nodes[n]["says"] is not None]
            wanted.append([line for it in told for line in it.get("lines") or [it["says"]]] or ["tt"])
    found = lists_of(page)
    if found != wanted:
        for step, (ours, theirs) in enumerate(zip(wanted, found)):
            if ours != theirs:
                yield f"step {step}: the nodes say {ours}, and the page {theirs}"
        if len(found) != len(wanted):
            yield f"the page lists {len(found)} steps, and {len(wanted)} are wanted"


def fault_of(nodes, words):
    """What is wrong with the nodes that a line of a decision names."""
    kind, named = words[0], [int(it) for it in words[1:] if it.isdigit()]
    named = {"split": named[:1], "go": named[:1], "clash": named}[kind]
    if any(n not in nodes for n in named):
        return "no such node"
    forms = [nodes[n]["form"] for n in named]
    if kind == "split" and forms != [OR] or kind == "go" and forms != ["diamond"]:
        return f"the nodes are {forms}"
    if kind == "clash" and words[1] == "pair" and [nodes[n].get("literal") and nodes[n]["literal"][1] for n in named] != [1, 0]:
        return f"the nodes are {forms}"
    if kind == "clash" and words[1] == "false" and forms != ["false"] or words[1] == "cycle" and nodes[named[0]]["priority"] % 2 == 0:
        return f"the nodes are {forms}"
    return None


def questions():
    """The words and the formula of each row that has a refutation as its answer."""
    for file in sorted(glob.glob(ROWS)):
        words = formula = None
        for line in open(file):
            kind, _, rest = line.rstrip("\n").partition(" ")
            if kind == "run":
                words, formula = rest.split(" "), None
            elif kind == "text":
                formula = rest
            elif kind == "status" and formula is not None and words[0] in ("find", "decide", "prove", "valid"):
                if rest == ("1" if words[0] in ("find", "decide") else "0"):
                    yield words, formula
                formula = None


def run(program, words, given):
    return subprocess.run([program, *words], input=given, capture_output=True, text=True).stdout


def main():
    if len(sys.argv) < 2:
        sys.exit(__doc__)
    program, documents = sys.argv[1], [open(it).read() for it in sys.argv[2:]]
    if not documents:
        documents = [run(program, words, formula) for words, formula in questions()]
        for logic, formulas in FORMULAS.items():
            for formula in formulas:
                documents += [run(program, [command, logic], formula) for command in ("find", "decide")]
                documents += [run(program, ["prove", logic], f"!({formula})")]
    refutations = [it for it in documents if "\nanswer unsatisfiable\n" in it]
    count = 0
    for document in refutations:
        for fault in faults(document, run(program, ["show"], document)):
            count += 1
            print(document.split("\n")[2], document.split("\n")[4], ":", fault)
    print(f"{len(refutations)} refutations, {sum(len(read(it)[1]) for it in refutations)} entries, {count} faults")
    sys.exit(1 if count or not refutations else 0)


if __name__ == "__main__":
    main()

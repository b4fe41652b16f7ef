#!/usr/bin/env python3
"""Runs the rows of examples/rows with a program, several at a time, as the tests of `ml_examples` do one by one.

Run `tools/run_rows.py PROGRAM`, or `tools/run_rows.py PROGRAM NAME..` for some files of rows alone. It prints each row whose
answer is another, and for each file how many rows it has and how many documents were checked, as `ml_examples/stdout` has it. It
ends with 1 where something differs. The tests are the judge; this is what one runs while rows are written.
"""
import os, subprocess, sys
from concurrent.futures import ThreadPoolExecutor

DATA = os.path.realpath(os.path.join(os.path.dirname(os.path.abspath(__file__)), "..", "examples"))
PROGRAM = ""
ANSWERS = b"mlsolver answers 1\n"


def answer(words, data):
    ran = subprocess.run([PROGRAM, *words.split()], input=data, stdout=subprocess.PIPE, stderr=subprocess.DEVNULL)
    return ran.returncode, ran.stdout


def rows_of(name):
    """Gives for each row the line behind it, its words, its input, and the status, the output and the lines that are wanted."""
    words, data, wanted, status, output, parts = "", b"", False, None, b"", []
    with open(f"{DATA}/rows/{name}.rows", "rb") as it:
        lines = it.read().decode().splitlines()
    for at, line in enumerate([*lines, "run end"], 1):
        word, _, rest = line.partition(" ")
        if word in ("", "#"):
            continue
        if word in ("status", ">", "has"):
            wanted = True
            if word == "status":
                status = int(rest)
            elif word == ">":
                output += rest.encode() + b"\n"
            else:
                parts.append(rest)
            continue
        if wanted:
            yield at, words, data, status, output, parts
            data, wanted, status, output, parts = b"", False, None, b"", []
        if word == "run":
            words = rest
        elif word == "text":
            data += rest.encode()
        elif word == "<":
            data += rest.encode() + b"\n"
        elif word == "times":
            number, _, text = rest.partition(" ")
            data += text.encode() * int(number)
        elif word == "lines":
            number, _, text = rest.partition(" ")
            data += (text.encode() + b"\n") * int(number)
        elif word == "line":
            number, _, text = rest.partition(" ")
            old = data.decode().splitlines()
            old[int(number) - 1 : int(number)] = [text]
            data = "".join(it + "\n" for it in old).encode()
        elif word == "first":
            data = "".join(it + "\n" for it in data.decode().splitlines()[: int(rest)]).encode()
        elif word == "byte":
            data += bytes([int(rest)])
        elif word == "file":
            with open(f"{DATA}/{rest}", "rb") as it:
                data += it.read()
        else:
            raise ValueError(f"{name}.rows, line {at}: {line}")


def is_open(line):
    words = line.split(b" ")
    return words[0] in (b"consistent", b"rest", b"possible", b"follows") and (words[-1] == b"open" or b"perhaps:" in words)


def is_checked(words, data, out):
    """Is the document that was written found good, and shown? None where there is none."""
    if out.startswith(ANSWERS):
        wanted = 2 if any(is_open(line) for line in out.split(b"\n")) else 0
        return answer("check-answers", data + out)[0] == wanted and answer("show", data + out)[0] == 0
    document = out
    if out.startswith(b"fails\n"):
        document = out[6:]
    elif out.startswith(b"path "):
        document = out.split(b"\n", 2)[2]
    command = next((command for start, command in [
        (b"mlsolver 2\nanswer satisfiable\n", "check-model"),
        (b"mlsolver 2\nanswer unsatisfiable\n", "check-refutation"),
        (b"mlsolver realize 1\nanswer realizable\n", "check-machine"),
        (b"mlsolver realize 1\nanswer unrealizable\n", "check-machine"),
    ] if document.startswith(start)), None)
    if not command:
        return None
    wanted = answer(command, data)[0] if words in ("migrate", "quotient") else 0
    status = answer(command, document)[0]
    may_be_large = status == 2 and document.startswith(b"mlsolver realize 1\nanswer unrealizable\n")
    return (status == wanted or may_be_large) and answer("show", document)[0] == 0


def run(row):
    at, words, data, status, output, parts = row
    found, out = answer(words, data)
    checked = is_checked(words, data, out)
    lines = out.decode(errors="replace").splitlines()
    is_met = status in (None, found) and output in (b"", out) and all(it in lines for it in parts)
    return at, is_met and checked is not False, found, out, checked


def main():
    global PROGRAM
    PROGRAM = os.path.abspath(sys.argv[1])
    names = sys.argv[2:] or sorted(it[:-5] for it in os.listdir(f"{DATA}/rows") if it.endswith(".rows"))
    differs = False
    with ThreadPoolExecutor(os.cpu_count()) as pool:
        for name in names:
            rows = documents = 0
            for at, is_right, status, out, checked in pool.map(run, rows_of(name)):
                rows, documents = rows + 1, documents + (checked is not None)
                if not is_right:
                    differs = True
                    print(f"{name}.rows, row before line {at}: status {status}, checked is {checked}")
                    print(out.decode(errors="replace"))
            print(f"{name}: {rows} rows, {documents} documents checked", flush=True)
    sys.exit(differs)


if __name__ == "__main__":
    main()

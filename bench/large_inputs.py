"""Large files with scripts, for step-large and audit-large: of about 16,384 and of about 131,072 lines, of four kinds, on
8 replicas.

    rounds     64 sessions in turn, whose operations go through eight guarded rounds; replicas are brought entries that
               a guard asks for
    gossip     64 sessions under a guard that asks for nothing; then each entry is brought to each replica, line by line
    cut_off    a replica is cut off from all others while they make entries, then joined, and brought each of them
    guards     64 sessions, each with live grants of 8 of 16 guards, whose issues others bar

The files are made by a process of their own, since the memory that a child is said to take is never less than that of
the process that starts it.

    large_inputs.py KIND LENGTH      prints one"""

import os
import subprocess
import sys
import time

REPLICAS, SESSIONS = 8, 64
LENGTHS = (16_384, 131_072)


def operation(name, parameters, statements):
    return "\n".join([f"op {name}({parameters}) gives true {{", *statements, "return 0;", "}"])


def program(cells, guards, operations):
    lines = ["program", *(f"counter {cell} = 0;" for cell in cells), "invariant true;"]
    lines += [f"guard {name}: {formula};" for name, formula in guards]
    return "\n".join([*lines, *operations, "end"])


def scene(commands, sessions=SESSIONS, replicas=lambda session: session % REPLICAS):
    lines = ["scene", f"replicas {REPLICAS};", "tries 16;", "workers 1;", "gossipers 0;"]
    for session in range(sessions):
        lines += [f"session at {replicas(session)} {{", *(f"{command};" for command in commands(session)), "}"]
    return "\n".join([*lines, "end"])


def script(statements):
    return "\n".join(["script", *(f"{statement};" for statement in statements), "end"])


def in_turn(steps, sessions=SESSIONS):
    return [f"go {session}" for _ in range(steps) for session in range(sessions)]


def rounds(length):
    """Each command has at least 32 events: eight rounds of a grant, a query and an issue, seven issues, a return."""
    body = []
    for k in range(8):
        body += [f"query seen{k} under least;", "issue b += n, a += 1;" if k % 4 == 0 else "issue b += n;"]
    body += ["issue a += 1;"] * 7
    made = program("ab", [("least", "here.a >= there.a")], [operation("visit", "n: 0 <= n and n <= 9", body)])
    return made, scene(lambda session: ["visit(3) times 64"]), script(in_turn(length // SESSIONS))


def gossip(length):
    """A command has seven events, of them four entries. Each goes to the seven other replicas."""
    body = ["query seen under any;", *(["issue a += n, b -= n;"] * 4)]
    made = program("ab", [("any", "true")], [operation("move", "n: 0 <= n and n <= 9", body)])
    commands = length // (SESSIONS * 35)
    statements = in_turn(7 * commands)
    pairs = [(q, r) for q in range(REPLICAS) for r in range(REPLICAS) if q != r]
    entries = SESSIONS // REPLICAS * 4 * commands
    statements += [f"gossip {q} {r}" for _ in range(entries) for q, r in pairs]
    return made, scene(lambda session: [f"move(3) times {commands}"]), script(statements)


def cut_off(length):
    """Twenty entries a command. Those of 56 sessions on seven replicas go to the eighth when all of them are there."""
    last, sessions = REPLICAS - 1, 56
    body = [f"issue {'ab'[k % 2]} += n;" for k in range(20)]
    made = program("ab", [], [operation("add", "n: 0 <= n and n <= 9", body)])
    commands = (length - 2 * last) // (sessions * 41)
    statements = [f"cut {replica} {last}" for replica in range(last)]
    statements += in_turn(21 * commands, sessions)
    statements += [f"join {replica} {last}" for replica in range(last)]
    entries = sessions // last * 20 * commands
    statements += [f"gossip {replica} {last}" for _ in range(entries) for replica in range(last)]
    return made, scene(lambda session: [f"add(3) times {commands}"], sessions, lambda s: s % last), script(statements)


def guards(length):
    """A command has at least 32 events: eight grants, eight queries, fifteen issues, and a return."""
    cells = [f"c{k}" for k in range(16)]
    operations = []
    for half in range(2):
        body = [f"query seen{k} under g{8 * half + k};" for k in range(8)]
        body += [f"issue c{8 * half} -= n;", *(["issue c15 += 1;"] * 14)]
        operations.append(operation(f"take{half}", "n: 0 <= n and n <= 9", body))
    made = program(cells, [(f"g{k}", f"here.c{k} <= there.c{k}") for k in range(16)], operations)
    return made, scene(lambda session: [f"take{session % 2}(3) times 64"]), script(in_turn(length // SESSIONS))


KINDS = {kind.__name__: kind for kind in (rounds, gossip, cut_off, guards)}



def timed(words, path, into):
    """The status, the seconds and the peak memory in kB of a command that reads the one file and writes the other."""
    with open(path, "rb") as source, open(into, "wb") as sink:
        start = time.monotonic()
        child = subprocess.Popen(words, stdin=source, stdout=sink)
        _, status, used = os.wait4(child.pid, 0)
        return os.waitstatus_to_exitcode(status), time.monotonic() - start, used.ru_maxrss


def best(words, path, into, times=3):
    """The least time and the largest memory of some runs."""
    runs = [timed(words, path, into) for _ in range(times)]
    return runs[0][0], min(seconds for _, seconds, _ in runs), max(memory for _, _, memory in runs)


def written(kind, length, path):
    """Writes the file of the kind and the length."""
    with open(path, "wb") as sink:
        subprocess.run([sys.executable, __file__, kind, str(length)], stdout=sink, check=True)


def last_line(path):
    with open(path, "rb") as file:
        file.seek(max(0, os.path.getsize(path) - 100))
        return (file.read().decode().splitlines() or ["nothing"])[-1]


if __name__ == "__main__":
    print("\n".join(KINDS[sys.argv[1]](int(sys.argv[2]))))

"""Programs as one writes them, as texts for `carol` and as questions for z3: counters under an invariant, guards, and
operations that read under a guard, test, and issue. `random` and `check` make theirs with it."""

import subprocess


# ---- formulas: (word, term, term) with <=, >=, = or !=, and ("and" | "or", f, ..); a term is a list of (factor, name), the
# ---- name None for a number


def words(f, name):
    if f[0] in ("and", "or"):
        return "(" + f" {f[0]} ".join(words(part, name) for part in f[1:]) + ")"
    return " ".join((term_words(f[1], name), f[0], term_words(f[2], name)))


def term_words(term, name):
    text = ""
    for factor, variable in term:
        part = str(abs(factor)) if variable is None else (f"{abs(factor)}*" if abs(factor) != 1 else "") + name(variable)
        text += (" - " if factor < 0 else " + ") + part
    return text[3:] if text.startswith(" + ") else "-" + text[3:]


def smt(f, name):
    if f[0] in ("and", "or"):
        return f"({f[0]} " + " ".join(smt(part, name) for part in f[1:]) + ")"
    left, right = (smt_term(part, name) for part in f[1:])
    return f"(not (= {left} {right}))" if f[0] == "!=" else f"({f[0]} {left} {right})"


def smt_term(term, name):
    parts = [f"(* {smt_number(factor)} {name(v)})" if v is not None else smt_number(factor) for factor, v in term]
    return "(+ 0 " + " ".join(parts) + ")"


def smt_number(number):
    return str(number) if number >= 0 else f"(- {-number})"


def holds(f, value):
    if f[0] == "and":
        return all(holds(part, value) for part in f[1:])
    if f[0] == "or":
        return any(holds(part, value) for part in f[1:])
    left, right = (sum(factor * (1 if v is None else value[v]) for factor, v in part) for part in f[1:])
    return {"<=": left <= right, ">=": left >= right, "=": left == right, "!=": left != right}[f[0]]


def renamed(f, names):
    if f[0] in ("and", "or"):
        return (f[0], *(renamed(part, names) for part in f[1:]))
    return (f[0], *([(factor, names.get(v, v)) for factor, v in part] for part in f[1:]))


def moved_by(f, parts):
    """The formula of the stores that were read, behind a change of so many times n a cell."""
    if f[0] in ("and", "or"):
        return (f[0], *(moved_by(part, parts) for part in f[1:]))
    return (f[0], *(moved_term(part, parts) for part in f[1:]))


def moved_term(term, parts):
    moved = sum(factor * parts.get(v, 0) for factor, v in term if v is not None)
    return [(factor, v if v is None else "v." + v) for factor, v in term] + ([(moved, "n")] if moved else [])


def joined(parts):
    return parts[0] if len(parts) == 1 else ("and", *parts)


# ---- programs


class Program:
    """`start` gives each cell its number, a guard is a formula over `here.c` and `there.c`, and an operation is its guard,
    the least and greatest n, what it adds to cells as a multiple of n, and its test."""

    def __init__(self, start, invariant, guards, ops):
        self.start, self.invariant, self.guards, self.ops = start, invariant, guards, ops
        self.cells = list(start)

    def text(self):
        plain = lambda v: v
        lines = ["program"] + [f"counter {c} = {self.start[c]};" for c in self.cells]
        lines.append(f"invariant {words(self.invariant, plain)};")
        lines += [f"guard g{i}: {words(g, plain)};" for i, g in enumerate(self.guards)]
        for i, (guard, low, high, parts, test) in enumerate(self.ops):
            issue = ", ".join(f"{c} {'+=' if by > 0 else '-='} {term_words([(abs(by), 'n')], plain)}" for c, by in parts.items())
            lines.append(f"op f{i}(n: {low} <= n and n <= {high}) gives 0 <= result and result <= n {{ query v under g{guard}; "
                         f"if {words(test, plain)} {{ issue {issue}; return n; }} else {{ return 0; }} }}")
        return "\n".join(lines) + "\nend\n"

    def questions(self):
        """The places at which something is asked, in order, and for each what breaks it."""
        z = lambda v: v.replace(".", "_")
        found = []
        for i, guard in enumerate(self.guards):
            equal = {"here." + c: "there." + c for c in self.cells}
            found.append((f"guard g{i} reflexive", [f"(not {smt(renamed(guard, equal), z)})"]))
            for c in self.cells:
                for way, step in (("up", 1), ("down", -1)):
                    moved = lambda v, c=c, step=step: f"(+ {z(v)} {smt_number(step)})" if v == "there." + c else z(v)
                    found.append((f"accord g{i} {c} {way}", [smt(guard, z), f"(not {smt(guard, moved)})"]))
        there = {c: "there." + c for c in self.cells}
        for i, (guard, low, high, parts, test) in enumerate(self.ops):
            read = {"here." + c: "v." + c for c in self.cells}
            known = [f"(<= {low} n)", f"(<= n {high})", smt(renamed(self.invariant, there), z),
                     smt(renamed(self.guards[guard], read), z)]
            yes = known + [smt(test, z)]
            by = lambda v: f"(+ {z('there.' + v)} (* {smt_number(parts[v])} n))" if v in parts else z("there." + v)
            for k, factor in enumerate(parts.values()):
                found.append((f"f{i} 3 amount {k + 1}", yes + [f"(not (<= (- 1000000000) (* {smt_number(factor)} n) 1000000000))"]))
            found.append((f"f{i} 3 invariant", yes + [f"(not {smt(self.invariant, by)})"]))
        return found

    def names(self):
        """The names in the questions."""
        return ["n"] + [kind + c for kind in ("here_", "there_", "v_") for c in self.cells]

    def script(self):
        """All questions, for one run of z3."""
        return script(self.names(), self.questions())


def script(names, questions):
    lines = ["(push)"] + [f"(declare-const {name} Int)" for name in names]
    for _, parts in questions:
        lines += ["(push)"] + [f"(assert {part})" for part in parts] + ["(check-sat)", "(pop)"]
    return "\n".join(lines + ["(pop)"]) + "\n"


class Z3:
    """One process for all questions."""

    def __init__(self):
        self.process = subprocess.Popen(["z3", "-in"], stdin=subprocess.PIPE, stdout=subprocess.PIPE, text=True)

    def ask(self, names, questions):
        self.process.stdin.write(script(names, questions))
        self.process.stdin.flush()
        return [self.process.stdout.readline().strip() for _ in questions]

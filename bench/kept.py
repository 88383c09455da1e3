"""What the programs of this folder share that start `carol_kept`: inputs, starting it, and the file that keeps a history."""

import os
import subprocess

HERE = os.path.dirname(os.path.abspath(__file__))
TOP = os.path.join(HERE, "..")
KEPT = os.path.join(TOP, "crates", "carol_kept", "out", "carol_kept")
CAROL = os.path.join(TOP, "crates", "carol", "out", "carol")

PROGRAM = """program
counter balance = 100000;
invariant balance >= 0;
guard no_less: here.balance <= there.balance;
op withdraw(amount: 1 <= amount and amount <= 1000) gives 0 <= result and result <= amount {
query seen under no_less;
if amount <= seen.balance { issue balance -= amount; return amount; } else { return 0; }
}
op deposit(amount: 1 <= amount and amount <= 1000) gives result = amount { issue balance += amount; return amount; }
end
"""


def account(rounds):
    """The program with a scene of two replicas, and a script whose statements give an event each: in turn a withdrawal on
    the one and a deposit on the other, which then hears of it, and is cut off and joined again now and then."""
    commands = "withdraw(5); " * rounds, "deposit(7); " * rounds
    scene = "scene\nreplicas 2;\ntries 16;\nworkers 1;\ngossipers 0;\n"
    scene += f"session at 0 {{ {commands[0]}}}\nsession at 1 {{ {commands[1]}}}\nend\n"
    lines = []
    for turn in range(rounds):
        lines += ["go 0"] * 4 + ["go 1"] * 2 + (["cut 0 1", "join 1 0"] if turn % 5 == 0 else [])
        lines += ["gossip 0 1", "gossip 1 0"]
    return PROGRAM + scene, lines


def script(lines):
    return "script\n" + "".join(f"{line};\n" for line in lines) + "end\n"


def transcript(report):
    """The lines of a report's events."""
    lines = report.split(b"\n")
    return lines[lines.index(b"transcript") + 1 : lines.index(b"results")]


def report_in(told):
    """The report behind the lines of the events that came."""
    return told[told.index(b"transcript\n") :]


def image(events):
    """The file that keeps these events: a record behind an open gate each, and a shut gate behind the last."""
    records = (b"\x01" + (len(event) + 1).to_bytes(2, "big") + event + b"\n" for event in events)
    return b"".join(records) + b"\x00"


def kept(program, path, text, seconds=60):
    """The status and the output of `carol_kept` with this file and this text on standard input."""
    done = subprocess.run([program, path], input=text.encode(), stdout=subprocess.PIPE, timeout=seconds, check=False)
    return done.returncode, done.stdout


def audited(program, text, report):
    """What `carol audit` says of the report."""
    done = subprocess.run([program, "audit"], input=text.encode() + report, stdout=subprocess.PIPE, check=False)
    return done.returncode, done.stdout.decode().strip()

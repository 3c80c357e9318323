#!/usr/bin/env bash
# Talks to khe-talk line by line, and compares what it answers with `khe script` on the same lines; then what it
# answers to all lines at once, with demands kept, and to `repair` and `archive` with `khe repair`. It prints what was
# compared and how many lines a second were answered, and ends with status 1 where something differs.
#
#     checks/talk.sh [ARCHIVE [LINES [SEED]]]
#
# The lines are drawn by the function `lines` below: 10,000 where nothing else is said, on the example of a week.
# KHE and KHE_TALK name other programs than the ones beside this folder.
set -u
top=$(cd "$(dirname "$0")/.." && pwd)
export KHE=${KHE:-$top/khe} KHE_TALK=${KHE_TALK:-$top/khe-talk}
exec python3 /dev/fd/3 "${1:-$top/examples/school_week.xml}" "${2:-10000}" "${3:-1}" 3<<'END_OF_PYTHON'
import os, random, subprocess, sys, tempfile, time

archive, count, seed = sys.argv[1], int(sys.argv[2]), int(sys.argv[3])
khe, khe_talk = os.environ["KHE"], os.environ["KHE_TALK"]
FAULTS = [("fly 1", "1 UnknownCommand"), ("move 1", "2 BadCount"), ("total 1", "2 BadCount"), ("move 1 x", "3 BadNumber"),
          ("give 1 2 4294967296", "3 BadNumber"), ("repair 5 1 0", "3 BadNumber"), ("repair 1 0 0", "3 BadNumber"),
          ("repair 1 1", "2 BadCount"), ("archive 1", "2 BadCount"), ("repairs 1 1 1", "1 UnknownCommand"), (". .", "1 UnknownCommand")]


def lines(rng, count):
    """Random lines, each with its fault or None. Numbers are small, so that edits are made and refused."""
    def n(most):
        return str(rng.randrange(most))
    makers = [(30, lambda: f"move {n(9)} {n(12)}"), (8, lambda: f"assign {n(9)} {n(12)}"), (5, lambda: f"unassign {n(9)}"),
              (8, lambda: f"swap {n(9)} {n(9)}"), (12, lambda: f"regive {n(9)} {n(3)} {n(8)}"), (6, lambda: f"give {n(9)} {n(3)} {n(8)}"),
              (4, lambda: f"take {n(9)} {n(3)}"), (5, lambda: f"trade {n(9)} {n(3)} {n(9)} {n(3)}"), (3, lambda: f"split {n(9)} {n(3)}"),
              (3, lambda: f"merge {n(9)} {n(9)}"), (2, lambda: f"detach {n(30)}"), (3, lambda: f"attach {n(30)}"), (1, lambda: "group"),
              (2, lambda: f"add {n(4)} {n(30)}"), (1, lambda: f"remove {n(4)} {n(30)}"), (1, lambda: f"drop {n(4)}"),
              (5, lambda: "begin"), (5, lambda: "undo"), (4, lambda: "end"), (1, lambda: f"undoto {n(4)}"), (8, lambda: "total"),
              (4, lambda: f"monitor {n(30)}"), (1, lambda: "monitors"), (1, lambda: f"groupcost {n(4)}"), (1, lambda: "deficit"),
              (1, lambda: "show"), (1, lambda: "# a comment"), (1, lambda: " \t")]
    weights = [weight for weight, _ in makers]
    for _ in range(count):
        if rng.random() < 0.01:
            yield rng.choice(FAULTS)
        else:
            yield rng.choices(makers, weights)[0][1](), None


class Talk:
    """A talk: `ask` sends a line, and answers what stands before the full stop."""
    def __init__(self, *words):
        self.process = subprocess.Popen([khe_talk, *words], stdin=subprocess.PIPE, stdout=subprocess.PIPE, bufsize=0)
        self.rest = b""

    def ask(self, line):
        os.write(self.process.stdin.fileno(), line.encode() + b"\n")
        answer = self.rest
        while answer != b".\n" and not answer.endswith(b"\n.\n"):
            piece = os.read(self.process.stdout.fileno(), 65536)
            if not piece:
                sys.exit(f"the talk ended after {answer!r}")
            answer += piece
        return answer[:-2]

    def close(self):
        self.process.stdin.close()
        return self.process.wait()


failed = 0


def compare(what, one, other):
    global failed
    same = one == other
    failed += not same
    print(("ok      " if same else "DIFFERS ") + what)


drawn = list(lines(random.Random(seed), count))
with tempfile.TemporaryDirectory() as folder:
    script = os.path.join(folder, "lines.script")
    with open(script, "w") as file:
        file.writelines(line + "\n" for line, fault in drawn if fault is None)
    run = subprocess.run([khe, "script", archive, "0", script], stdout=subprocess.PIPE)
    compare("khe script reads the lines that have a reading", run.returncode, 0)

talk = Talk(archive, "0")
start = time.perf_counter()
answers = [talk.ask(line) for line, _ in drawn]
seconds = time.perf_counter() - start
compare("the talk ends with status 0", talk.close(), 0)
read = [answer for answer, (_, fault) in zip(answers, drawn) if fault is None]
compare(f"{len(read)} answers are those of khe script", b"".join(read), run.stdout)
wanted = [f"line {number} fault {fault}\n".encode() for number, (_, fault) in enumerate(drawn, 1) if fault is not None]
told = [answer for answer, (_, fault) in zip(answers, drawn) if fault is not None]
compare(f"{len(told)} lines without a reading are told by number and fault", told, wanted)
whole = b"".join(answer + b".\n" for answer in answers)
sent = "\n".join(line for line, _ in drawn).encode()
for words in ([], ["--demands"]):
    start = time.perf_counter()
    run = subprocess.run([khe_talk, archive, "0", *words], input=sent, stdout=subprocess.PIPE)
    at_once = time.perf_counter() - start
    compare("the same, all at once, without a last line feed" + "".join(", " + word for word in words), (run.returncode, run.stdout), (0, whole))
    print(f"        {count / at_once:.0f} lines a second, with reading the archive")

run = subprocess.run([khe, "repair", archive, "0", "--depth", "2", "--budget", "500"], stdout=subprocess.PIPE)
talk = Talk(archive, "0")
line = talk.ask("repair 2 500 0")
compare("repair and archive are what khe repair writes", talk.ask("archive") + line, run.stdout)
compare("where a mark is open, a repair is refused", (talk.ask("begin"), talk.ask("repair 1 1 0")), (b"ok\n", b"refused 31 OpenMark\n"))
compare("and the archive is the same", talk.ask("archive") + line, run.stdout)
talk.close()
for words, status, text in (([archive], 2, b"khe-talk: words not understood\n"), ([archive, "99"], 3, b"khe: archive refused: 18 NoSuchSolution\n"), (["/nothing", "0"], 4, b"")):
    run = subprocess.run([khe_talk, *words], input=b"total\n", stdout=subprocess.PIPE)
    compare(f"status {status} for the words {' '.join(words)}", (run.returncode, run.stdout), (status, text))
print(f"{count / seconds:.0f} lines a second, each answered before the next was sent")
sys.exit(failed > 0)
END_OF_PYTHON

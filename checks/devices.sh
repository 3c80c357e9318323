#!/usr/bin/env bash
# Runs the program on outputs that stop taking: a full device, a pipe whose reader takes a part and closes, and a file
# that may not grow further (`ulimit -f`, its signal ignored). What was written must be first bytes of the text, as many
# as were taken, and the status 5. A sink that takes less than it says would write a text with a piece missing, or end
# well without all of it. It prints a line for each command, and ends with status 1 where one failed.
#
#     checks/devices.sh KHE
#
# KHE is the program, say ./khe or a proved build. It wants Python's standard library alone.
set -u
top=$(cd "$(dirname "$0")/.." && pwd)
export KHE_BUILD=${KHE_BUILD:-off}
exec python3 /dev/fd/3 "$(readlink -f "$1")" "$top" 3<<'END_OF_PYTHON'
import os, resource, signal, subprocess, sys, tempfile

khe, top = sys.argv[1:]
MAKE = ["make", "7", "300"]
COMMANDS = [
    ["evaluate", "two_events.xml"], ["evaluate", "two_events.xml", "--all", "--workers", "2"], ["evaluate", "made.xml", "--all"],
    ["evaluate", "nothing.xml"], ["evaluate"], ["script", "two_events.xml", "0", "marks.script"],
    ["script", "made.xml", "0", "long.script"], ["script", "two_events.xml", "0", "faulty.script"],
    ["tied", "two_events.xml", "0", "ties.script"], ["tied", "made.xml", "0", "long.script"], ["check", "two_events.xml"],
    ["check", "made.xml"], ["check", "cut.xml"], ["repair", "two_events.xml", "0", "--depth", "1", "--budget", "1000"],
    ["repair", "made.xml", "0", "--depth", "1", "--budget", "10"],
    ["solve", "made.xml", "0", "--depth", "1", "--budget", "10", "--jobs", "2", "--workers", "2"],
    ["construct", "two_events.xml", "0"], ["construct", "made.xml", "0"], ["match", "two_events.xml", "1", "0", "0"],
    ["match", "made.xml", "0", "3", "1"], ["make", "0", "1"], MAKE, ["make", "0", "1", "--run"],
]


def prepared(most=None):
    """Ignores the signals of outputs that stop taking, and bounds what a file may hold."""
    signal.signal(signal.SIGXFSZ, signal.SIG_IGN)
    signal.signal(signal.SIGPIPE, signal.SIG_IGN)
    if most is not None:
        resource.setrlimit(resource.RLIMIT_FSIZE, (most, most))


def run(words, out, most=None):
    return subprocess.Popen([khe, *words], stdin=subprocess.DEVNULL, stdout=out, stderr=subprocess.DEVNULL, preexec_fn=lambda: prepared(most))


def whole_of(words):
    with open("whole", "wb") as out:
        status = run(words, out).wait()
    with open("whole", "rb") as file:
        return status, file.read()


def full(words):
    with open("/dev/full", "wb") as out:
        return run(words, out).wait()


def to_file(words, most):
    """The status of a run into a file that holds so many bytes, and what it holds."""
    with open("part", "wb") as out:
        status = run(words, out, most).wait()
    with open("part", "rb") as file:
        return status, file.read()


def to_pipe(words, count):
    """The status of a run into a pipe of which so many bytes are read before it is closed, and these."""
    reader, writer = os.pipe()
    taken = b""
    if count == 0:
        os.close(reader)
    ran = run(words, writer)
    os.close(writer)
    while len(taken) < count:
        piece = os.read(reader, count - len(taken))
        if not piece:
            break
        taken += piece
    if count:
        os.close(reader)
    return ran.wait(), taken


def faults_of(words):
    """How many runs were made, and those that ended otherwise than they should."""
    status, text = whole_of(words)
    size, runs, faults = len(text), 0, []

    def look(what, came, wanted):
        nonlocal runs
        runs += 1
        if came != wanted:
            told = [f"status {it[0]} and {len(it[1])} bytes{'' if text.startswith(it[1]) else ' that are no front'}" if isinstance(it, tuple) else f"status {it}" for it in (came, wanted)]
            faults.append(f"  {what}: {told[0]}, wanted {told[1]}")

    if size == 0:
        look("a full device", full(words), status)
        return status, size, runs, faults
    look("a full device", full(words), 5)
    for most in sorted({0, 1, 7, size // 3, size // 2, size - 1, *[it for it in (4096, 65535, 65536, 65537) if it < size]}):
        look(f"a file of {most} bytes", to_file(words, most), (5, text[:most]))
    look(f"a file of {size} bytes", to_file(words, size), (status, text))
    # A pipe takes 64 KiB that nobody reads, so only what is longer meets its end once some bytes were read.
    for count in [0, *[it for it in (1, 1000, 70000) if it + 131072 < size]]:
        look(f"a pipe of which {count} bytes are read", to_pipe(words, count), (5, text[:count]))
    return status, size, runs, faults


def main():
    failed = all_runs = 0
    with tempfile.TemporaryDirectory() as folder:
        for name in ("two_events.xml", "marks.script", "ties.script"):
            with open(f"{top}/checks/{name}", "rb") as one, open(f"{folder}/{name}", "wb") as other:
                other.write(one.read())
        os.chdir(folder)
        with open("made.xml", "wb") as out:
            made = run(MAKE, out).wait()
        with open("long.script", "w", encoding="utf-8") as file:
            file.write("show\ntotal\n" * 40)
        with open("faulty.script", "w", encoding="utf-8") as file:
            file.write("total\nfly\n")
        with open("cut.xml", "w", encoding="utf-8") as file:
            file.write("<HighSchoolTimetableArchive></HighSch")
        if made != 0:
            print(f"khe {' '.join(MAKE)}: status {made}")
            return 1
        for words in COMMANDS:
            status, size, runs, faults = faults_of(words)
            all_runs += runs
            failed += len(faults)
            print("".join(f"{it}\n" for it in faults), end="")
            print(f"khe {' '.join(words)}: status {status}, {size} bytes; {runs} runs, {len(faults)} wrong", flush=True)
    print(f"devices: {all_runs} runs, {failed} wrong")
    return 1 if failed else 0


sys.exit(main())
END_OF_PYTHON

#!/usr/bin/env python3
"""Looks at the doors to the engine from Python and C, case by case, and compares what they answer with `khe script`.

    checks/doors.py lines NAME ARCHIVE MEETS TIMES RESOURCES MONITORS COUNT SEED    random lines through each door
    checks/doors.py refusals ARCHIVE..                                           archives that are refused or not
    checks/doors.py behaviour WEEK MADE                                          sessions of the package khe
    checks/doors.py speed ARCHIVE MEETS TIMES RESOURCES MONITORS [told]          lines a second; `told`: not judged

It is called by checks/doors.sh, which says what it needs: KHE and KHE_TALK are the programs, KHE_LIBRARY the shared
library, and DOOR_LINES the program of checks/door_lines.c; without the last two only the program's door is looked at.
It prints a line for each case, and ends with status 1 where one failed.
"""

import gc
import os
import pickle
import re
import signal
import subprocess
import sys
import tempfile
import threading
import time
import warnings

sys.path.insert(0, os.path.join(os.path.dirname(os.path.dirname(os.path.abspath(__file__))), "python"))
sys.dont_write_bytecode = True
import khe
import random_lines

KHE, KHE_TALK = os.environ["KHE"], os.environ["KHE_TALK"]
LIBRARY, DOOR_LINES = os.environ.get("KHE_LIBRARY"), os.environ.get("DOOR_LINES")
DOORS = [("khe-talk", {"program": KHE_TALK})] + ([("the library", {"library": LIBRARY})] if LIBRARY else [])
STOP = re.compile(rb"^\.\n", re.MULTILINE)
failed = 0


def case(what, holds, *told):
    """Prints a case, and what it was told where it failed."""
    global failed
    if holds:
        print(f"ok: {what}")
    else:
        failed = 1
        print(f"FAILED: {what}")
        for thing in told:
            print(f"  {thing!r:.300}")
    sys.stdout.flush()


def raised(kind, call, *words):
    """The error of this kind that a call raises, or None."""
    try:
        call(*words)
    except kind as error:
        return error
    return None


def script(archive, lines, folder):
    """The status of `khe script` on these lines, and what it writes."""
    name = os.path.join(folder, "lines.script")
    with open(name, "wb") as file:
        file.writelines(line + b"\n" for line in lines)
    run = subprocess.run([KHE, "script", archive, "0", name], stdout=subprocess.PIPE, stderr=subprocess.DEVNULL)
    return run.returncode, run.stdout


# -- lines -----------------------------------------------------------------------------------------------------------

def one_by_one(archive, lines, **door):
    with khe.Session(archive, 0, **door) as session:
        return [session.answer(line) for line in lines]


def sent_ahead(archive, lines, **door):
    with khe.Session(archive, 0, **door) as session:
        return list(session.answers(lines))


def from_c(archive, lines, folder, threads):
    """The answers by checks/door_lines.c."""
    name = os.path.join(folder, "lines.c")
    with open(name, "wb") as file:
        file.writelines(line + b"\n" for line in lines)
    run = subprocess.run([DOOR_LINES, archive, "0", name, str(threads)], stdout=subprocess.PIPE)
    return STOP.split(run.stdout)[:-1] if run.returncode == 0 else []


def look_at_lines(name, archive, *words):
    *sizes, count, seed = map(int, words)
    drawn = random_lines.drawn(seed, count, sizes)
    lines = [line for line, _ in drawn]
    with tempfile.TemporaryDirectory() as folder:
        status, wanted = script(archive, [line for line, is_read in drawn if is_read], folder)
        case(f"{name}: khe script reads {sum(is_read for _, is_read in drawn)} lines of {count}", status == 0, wanted[-80:])
        # What fault a line has does not hang on the archive, and this one is read soonest.
        faults = {line: script("examples/first.xml", [line], folder) for line, is_read in drawn if not is_read}
        case(f"{name}: khe script finds a fault in each of the others, {len(faults)} by their words",
             all(status == 7 and told.startswith(b"line 1 fault ") for status, told in faults.values()), faults)
        doors = [("khe-talk from Python", one_by_one(archive, lines, program=KHE_TALK)),
                 ("khe-talk from Python, sent ahead", sent_ahead(archive, lines, program=KHE_TALK))]
        if LIBRARY:
            doors += [("the library from Python", one_by_one(archive, lines, library=LIBRARY))]
        if DOOR_LINES:
            doors += [("the library from C", from_c(archive, lines, folder, 1)),
                      ("the library from C, in four threads", from_c(archive, lines, folder, 4))]
    for door, answers in doors:
        case(f"{name}: {count} lines through {door}: an answer to each", len(answers) == count, len(answers))
        pairs = list(zip(answers, drawn))
        read = b"".join(answer for answer, (_, is_read) in pairs if is_read)
        case(f"{name}: {count} lines through {door}: those with a reading are answered as by khe script", read == wanted)
        told = [(answer, b"line %d " % number + faults[line][1][7:])
                for number, (answer, (line, is_read)) in enumerate(pairs, 1) if not is_read]
        differing = [pair for pair in told if pair[0] != pair[1]]
        case(f"{name}: {count} lines through {door}: {len(told)} without one are told by number and fault", not differing,
             *differing[:3])


# -- refusals --------------------------------------------------------------------------------------------------------

def look_at_refusals(*archives):
    for name, door in DOORS:
        differing, refused = [], 0
        for archive in archives:
            with tempfile.TemporaryDirectory() as folder:
                status, text = script(archive, [], folder)
            error = raised(khe.ArchiveRefused, lambda: khe.Session(archive, 0, **door).close())
            found = (3, f"{error.text}\n".encode()) if error else (0, b"")
            refused += error is not None
            if found != (status, text) or error and (str(error) != f"{archive}: {error.text}" or
                                                     error.text.split(" ")[3:5] != [str(error.number), error.name]):
                differing.append((archive, status, text, found))
        case(f"{refused} refusals of {len(archives)} archives through {name} are those of khe script", not differing, *differing)


# -- sessions --------------------------------------------------------------------------------------------------------

def look_at_marks(name, week):
    before = week.totals(), week.meets()
    with week.mark() as mark:
        week.unassign(0)
    case(f"{name}: a mark takes back what was done", (week.totals(), week.meets()) == before and week.marks == 0)
    error = raised(ZeroDivisionError, in_mark, week, lambda mark: (mark.keep(), week.unassign(0), 1 // 0))
    case(f"{name}: so does one that is left by an error, which goes on", error is not None and week.meets() == before[1])
    with week.mark() as mark:
        week.begin()
        week.unassign(0)
        week.begin()
        mark.undo()
        undone = week.meets() == before[1] and week.marks == 1
        week.unassign(1)
        week.begin()
        mark.keep()
    case(f"{name}: a mark goes back amid its block, and closes those that were left open in it",
         undone and week.marks == 0 and [meet.time for meet in week.meets()][:2] == [0, None])
    week.assign(1, 4)
    case(f"{name}: what a mark kept stays, and nothing is left open",
         week.meets() == before[1] and raised(khe.Refused, week.undo).name == "NoMark")
    in_mark(week, lambda mark: week.end())
    case(f"{name}: a mark that was closed inside its block is left alone", week.marks == 0 and week.meets() == before[1])


def in_mark(session, block):
    with session.mark() as mark:
        block(mark)


def look_at_errors(name, week, door):
    number = 1 + len(week.ask("# a line")) + len(list(week.answers([b"total"] * 3)))
    fault = raised(khe.NoReading, week.ask, "move 1")
    after = raised(khe.NoReading, week.ask, "fly")
    case(f"{name}: a line without a reading raises its fault with its number",
         (fault.number, fault.name, after.name, after.line - fault.line) == (2, "BadCount", "UnknownCommand", 1), fault, after)
    refused = raised(khe.Refused, week.move, 5, 0)
    case(f"{name}: a refused edit raises its refusal", (refused.number, refused.name) == (5, "Fixed"), refused)
    case(f"{name}: so does a refused question", raised(khe.Refused, week.monitor, 99).name == "NoSuchMonitor")
    case(f"{name}: a number that is none is a line without a reading", raised(khe.NoReading, week.move, 0, 1.5).name == "BadNumber")
    answered = week.totals()
    errors = [raised(ValueError, call, word) for call, word in
              ((week.answer, b"total\ntotal"), (week.ask, "end\n"), (lambda word: list(week.answers([word])), b"\n"))]
    case(f"{name}: a line feed inside a line is refused, and the session goes on", None not in errors and week.totals() == answered)
    causes = [fault, refused, raised(khe.ArchiveRefused, lambda: khe.Session("examples/causes.xml", 0, **door))]
    again = [pickle.loads(pickle.dumps(error)) for error in causes]
    case(f"{name}: errors can be sent to another process", [(type(error), str(error), vars(error)) for error in causes]
         == [(type(error), str(error), vars(error)) for error in again], *again)
    case(f"{name}: a number of no solution is refused", None not in
         [raised(ValueError, lambda: khe.Session("examples/first.xml", solution, **door)) for solution in (-1, 2 ** 32)])
    missing = raised((OSError, khe.Ended), lambda: khe.Session("nothing.xml", 0, **door))
    case(f"{name}: an archive that is not there raises, and names the file", "nothing.xml" in str(missing), missing)
    week.close()
    week.close()
    ended = [raised(khe.Ended, call) for call in (week.totals, week.meets, lambda: week.answer(b"total"), lambda: list(week.answers([b"total"])))]
    case(f"{name}: a closed session says so, and can be closed again", None not in ended and week.is_ended, ended)


def files():
    """How many files this process holds."""
    return len(os.listdir("/proc/self/fd"))


def memory():
    """How much memory this process holds, in MiB."""
    with open("/proc/self/statm") as file:
        return int(file.read().split()[1]) * os.sysconf("SC_PAGE_SIZE") / 2 ** 20


def look_at_many(name, week, door):
    """Sessions that are opened and closed, or forgotten, leave nothing behind."""
    def use(count, is_closed):
        for _ in range(count):
            session = khe.Session(week, 0, **door)
            session.totals()
            if is_closed:
                session.close()
            del session
    many = 50 if "library" in door else 20
    use(many, True)
    gc.collect()
    held, size = files(), memory()
    use(many, True)
    case(f"{name}: {many} sessions leave no file open and no memory", files() == held and memory() < size + 1, files(), memory() - size)
    with warnings.catch_warnings():
        warnings.simplefilter("ignore", ResourceWarning)
        use(many, False)
        gc.collect()
    case(f"{name}: nor do {many} that were forgotten", files() == held and memory() < size + 1, files(), memory() - size)


def look_at_long(name, made, door):
    with khe.Session(made, 0, **door) as school:
        monitors = school.monitors()
        hard = sum(monitor.cost for monitor in monitors if monitor.is_hard)
        case(f"{name}: {len(monitors)} monitors in one answer add up to the totals",
             (hard, sum(monitor.cost for monitor in monitors) - hard) == school.totals())
        long = b"#" * 200000
        case(f"{name}: a line of 200,000 bytes, alone and among others", school.answer(long) == b""
             and list(school.answers([b"total", long, b"total"]))[1] == b"" and len(list(school.answers([b"monitors"] * 20))) == 20)
        answers = school.answers(b"total" for _ in range(1000))
        next(answers)
        del answers
        case(f"{name}: many answers may be left early", school.ask("total") == ["total hard %d soft %d" % school.totals()])


def look_at_sides(name, made, door):
    """Two sessions in two threads."""
    counts = []

    def play(resource):
        with khe.Session(made, 0, **door) as school:
            meet = next(meet for meet in school.meets() if meet.time is not None and
                        raised(khe.Refused, in_mark, school, lambda mark: school.unassign(meet.number)) is None)
            for time in range(300):
                with school.mark():
                    school.unassign(meet.number)
            counts.append(school.totals())
    threads = [threading.Thread(target=play, args=(number,)) for number in range(4)]
    for thread in threads:
        thread.start()
    for thread in threads:
        thread.join()
    case(f"{name}: four sessions side by side in threads", len(counts) == 4 and len(set(counts)) == 1, counts)


def look_at_repairs(name, week, door):
    """A repair and its archive, and a job of a solve."""
    def run(*words):
        return subprocess.run([KHE, *words], stdout=subprocess.PIPE, stderr=subprocess.DEVNULL).stdout
    with khe.Session(week, 0, **door) as session:
        repaired = session.repair(2, 500)
        text = session.archive()
        whole = run("repair", week, "0", "--depth", "2", "--budget", "500")
        line = (f"<!-- khe repair spent accepted {repaired.accepted} tried {repaired.tried} settled {repaired.settled} "
                f"hard {repaired.totals.hard} soft {repaired.totals.soft} -->\n")
        case(f"{name}: a repair and its archive are those of khe repair", text + line.encode() == whole and not repaired.is_done,
             whole[-80:], repaired)
        session.begin()
        case(f"{name}: no repair while a mark is open", raised(khe.Refused, session.repair, 1, 1).name == "OpenMark")
        case(f"{name}: a depth that is none is a line without a reading", raised(khe.NoReading, session.repair, 5, 1).name == "BadNumber")
    whole = run("solve", week, "0", "--depth", "1", "--budget", "1000", "--jobs", "16", "--workers", "2")
    job = int(whole.split()[-6])
    with khe.Session(week, 0, **door) as session:
        totals = session.repair(1, 1000, job).totals
        line = b"<!-- khe solve job %d hard %d soft %d -->\n" % (job, *totals)
        case(f"{name}: a repair with diversifier {job} is that job of khe solve", session.archive() + line == whole, whole[-80:])


def look_at_talk(week, made):
    """What may happen to the program."""
    with khe.Session(week, 0, demands=True) as session:
        deficit = session.deficit()
    with khe.Session(week, 0) as session:
        case("khe-talk: demands that are kept change no answer", session.deficit() == deficit)
    before = os.sched_getaffinity(0)
    with khe.Session(week, 0, one_processor=True) as session:
        both = [os.sched_getaffinity(0), os.sched_getaffinity(session._door._process.pid)]
    case("khe-talk: a session on one processor, and none of that once it is closed",
         both[0] == both[1] and len(both[0]) == 1 and os.sched_getaffinity(0) == before, both)
    session = khe.Session(week, 0)
    session._door._process.kill()
    ended = raised(khe.Ended, lambda: [session.totals() for _ in range(2)])
    case("khe-talk: a program that is gone ends the session, with its status", ended.status == -signal.SIGKILL and session.is_ended, ended)
    session = khe.Session(made, 0)

    def interrupt(number, frame):
        raise KeyboardInterrupt
    signal.signal(signal.SIGALRM, interrupt)
    signal.setitimer(signal.ITIMER_REAL, 0.5)
    begun = time.monotonic()
    error = raised(KeyboardInterrupt, session.repair, 4, 10 ** 9)
    case("khe-talk: a repair can be interrupted, which ends the session and the program", error is not None and session.is_ended
         and session._door._process.poll() is not None and time.monotonic() < begun + 30)
    case("khe-talk: a program that is not there raises", raised(OSError, lambda: khe.Session(week, 0, program="/nothing")) is not None)


def look_at_library(week, made):
    """What may happen in the library."""
    case("the library: that it keeps no demands is said", raised(ValueError, lambda: khe.Session(week, 0, library=LIBRARY, demands=True)) is not None)
    case("the library: one that is not there raises", raised(OSError, lambda: khe.Session(week, 0, library="/nothing")) is not None)


def look_at_turns(name, week, door):
    """Threads that call one session take turns."""
    with khe.Session(week, 0, **door) as session:
        wanted = [session.answer(line) for line in (b"total", b"monitors", b"show")]
        found = []

        def ask():
            for _ in range(100):
                found.append([session.answer(line) for line in (b"total", b"monitors", b"show")] == wanted)
        threads = [threading.Thread(target=ask) for _ in range(2)]
        for thread in threads:
            thread.start()
        for thread in threads:
            thread.join()
        case(f"{name}: two threads ask one session, and each has its answers", found == [True] * 200, found.count(False))
        thread = threading.Thread(target=session.repair, args=(2, 3000))
        thread.start()
        while thread.is_alive() and session._door.lock.acquire(blocking=False):
            session._door.lock.release()
        after = session.totals()
        thread.join()
        case(f"{name}: a call waits for a repair of another thread", after == session.totals() and after < (25, 13), after)
        threads = [threading.Thread(target=lambda: [(session.begin(), session.end()) for _ in range(200)]) for _ in range(2)]
        for thread in threads:
            thread.start()
        for thread in threads:
            thread.join()
        case(f"{name}: marks of two threads are counted", session.marks == 0, session.marks)


def look_at_behaviour(week, made):
    for name, door in DOORS:
        with khe.Session(week, 0, **door) as session:
            look_at_marks(name, session)
            look_at_errors(name, session, door)
        look_at_repairs(name, week, door)
        look_at_long(name, made, door)
        look_at_many(name, week, door)
        look_at_sides(name, made, door)
        look_at_turns(name, week, door)
    look_at_talk(week, made)
    if LIBRARY:
        look_at_library(week, made)


# -- speed -----------------------------------------------------------------------------------------------------------

def seconds(call, *words):
    begun = time.perf_counter()
    call(*words)
    return time.perf_counter() - begun


def look_at_speed(archive, *words):
    is_judged = "told" not in words
    sizes = [int(word) for word in words if word != "told"]
    lines = random_lines.short(1, 200000 if is_judged else 2000, sizes)

    def judge(what, holds):
        if is_judged:
            case(what, holds)
        else:
            print(f"not judged: {what}")

    def answer_all(session):
        for line in lines:
            session.answer(line)
    def rates(door):
        """How many lines a second are answered one by one, and sent ahead."""
        with khe.Session(archive, 0, **door) as session:
            return [len(lines) / min(seconds(call, session) for _ in range(3)) for call in
                    (answer_all, lambda session: list(session.answers(lines)))]
    single, ahead = rates({"program": KHE_TALK})
    print(f"told: {single:.0f} lines a second from Python through khe-talk, one by one, on any processors")
    judge(f"{ahead:.0f} lines a second from Python through khe-talk, sent ahead: at least 80000", ahead >= 80000)
    single, _ = rates({"program": KHE_TALK, "one_processor": True})
    judge(f"{single:.0f} lines a second from Python through khe-talk, one by one, on one processor: at least 80000", single >= 80000)
    if LIBRARY:
        single, _ = rates({"library": LIBRARY})
        judge(f"{single:.0f} lines a second from Python through the library, one by one: at least 80000", single >= 80000)
    if DOOR_LINES:
        with tempfile.TemporaryDirectory() as folder:
            name = os.path.join(folder, "lines.script")
            with open(name, "wb") as file:
                file.writelines(line + b"\n" for line in lines)

            def run(*words):
                subprocess.run(words, stdout=subprocess.DEVNULL, stderr=subprocess.DEVNULL, check=True)
            plain = min(seconds(run, KHE, "script", archive, "0", name) for _ in range(5))
            by_c = min(seconds(run, DOOR_LINES, archive, "0", name) for _ in range(5))
            judge(f"{len(lines)} lines from C in {by_c:.3f} s, by khe script in {plain:.3f} s: at most twice the time", by_c <= 2 * plain)


def main():
    looks = {"lines": look_at_lines, "refusals": look_at_refusals, "behaviour": look_at_behaviour, "speed": look_at_speed}
    looks[sys.argv[1]](*sys.argv[2:])
    return failed


if __name__ == "__main__":
    sys.exit(main())

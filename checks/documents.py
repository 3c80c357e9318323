#!/usr/bin/env python3
"""Compares the documents with what they speak of: with files, and with what the program prints.

    checks/documents.py
    checks/documents.py KHE
    checks/documents.py --definitions
    checks/documents.py --copy

Without a program nothing is run, and these are compared: the copies of the manual and of examples/ on which the gate
runs the manual's examples; docs/khe.1, which has the synopsis and the statuses of the manual, and examples that stand
there; the code that docs/CALLING.md shows, which stands in crates/calling_examples, where the gate proves it;
docs/definitions.md with the first comments of the spec files; and the links of all documents with the files that they
lead to.

KHE is the program, say ./khe or a proved build. With it the examples of README.md and docs/manual.md are run as well.
A block of text whose lines begin with `$ ` shows commands with their output. They are run in order in a folder that
has examples/ and the program, as `khe` and as `./khe`. A command `cat NAME` of a file that isn't there shows that
file: it is made so. A block without commands after a paragraph that names a file of examples/ shows that file.

`--definitions` prints docs/definitions.md, and `--copy` makes the gate's copies anew.

It prints a line for each difference, then how many commands, files and parts it compared, and ends with status 1
where one differed.
"""

import os
import re
import shutil
import subprocess
import sys
import tempfile

TOP = os.path.dirname(os.path.dirname(os.path.abspath(__file__)))
DOCUMENTS = ["README.md", "docs/manual.md"]
ABOUT_DEFINITIONS = """# Definitions

For the reader who asks where a rule stands. What the program answers is defined apart from how it computes it, in the
spec files of the crates. This page has the first comment of each, in the order of `crates.txt`, the lowest crate
first; `checks/documents.py --definitions` prints it. Start at [Outcome](../crates/khe_app/specs/Outcome.antt), which
says what a run of `khe` is to answer, and follow its `use` lines down. [glossary.md](glossary.md) has the words,
[DECISIONS.md](DECISIONS.md) the choices and the sources, [claims.md](claims.md) the clauses that cite these files.

Files of laws, lemmas and examples are left out. Not all files define something of the subject: some say how it is
kept in memory or how far a search has come, and only private clauses and proofs cite these.
"""
COPIES = os.path.join(TOP, "crates/manual_examples/data")
CALLERS = os.path.join(TOP, "crates/calling_examples")


def copied():
    """The files that have a copy for the gate, each with its copy."""
    yield os.path.join(TOP, "docs/manual.md"), os.path.join(COPIES, "manual.md")
    for folder, folders, names in os.walk(os.path.join(TOP, "examples")):
        folders[:] = [inside for inside in folders if inside not in ("c", "cluster", "python")]
        for name in names:
            path = os.path.join(folder, name)
            yield path, os.path.join(COPIES, os.path.relpath(path, TOP))


def first_comment(path):
    """The first comment of a spec file, as one line."""
    said = []
    with open(path, encoding="utf-8") as file:
        for line in file:
            if not line.startswith("-- "):
                break
            said.append(line[3:].strip())
    return " ".join(said)


def definitions():
    """The text of docs/definitions.md: the first comments of the spec files, crate by crate."""
    parts, layer = [ABOUT_DEFINITIONS], None
    with open(os.path.join(TOP, "crates.txt"), encoding="utf-8") as file:
        lines = file.read().split("\n")
    for line in lines:
        if line.startswith("# "):
            layer = line[2:]
        crate = re.match(r"(\w+)( staticlib)?:", line)
        specs = os.path.join("crates", crate.group(1), "specs") if crate else ""
        if layer == "Tests" or not os.path.isdir(os.path.join(TOP, specs or "none")):
            continue
        names = [name[:-5] for name in sorted(os.listdir(os.path.join(TOP, specs))) if name.endswith(".antt")]
        told = [name for name in names if not re.search(r"^Lib$|(Laws|Lemmas|Examples)$", name)]
        if not told:
            continue
        if layer:
            parts.append("\n## %s\n" % layer)
            layer = ""
        top = os.path.join("crates", crate.group(1))
        links = [("code", os.path.join(top, "src")), ("proofs", os.path.join(top, "proofs"))]
        there = ["[%s](../%s)" % (said, to) for said, to in links if os.path.isdir(os.path.join(TOP, to))]
        parts.append("\n### %s\n\n%s.\n\n" % (crate.group(1), ", ".join(there)))
        for name in told:
            path = os.path.join(specs, name + ".antt")
            parts.append("- [%s](../%s). %s\n" % (name, path, first_comment(os.path.join(TOP, path))))
    return "".join(parts)


def documents():
    """The documents of the repository."""
    for folder in (".", "docs", "bench", "drafts"):
        for name in sorted(os.listdir(os.path.join(TOP, folder))):
            if name.endswith(".md"):
                yield os.path.normpath(os.path.join(folder, name))


def slug(heading):
    """The name by which a link leads to a heading."""
    return re.sub(r"[^\w -]", "", heading.strip().lower()).replace(" ", "-")


def bytes_of(path):
    if not os.path.exists(path):
        return None
    with open(path, "rb") as file:
        return file.read()


def copy():
    """Makes the copies anew. What else lies there stays: the pages of `checks/page_reference.py` with their reports."""
    shutil.rmtree(os.path.join(COPIES, "examples"), ignore_errors=True)
    for path, other in copied():
        os.makedirs(os.path.dirname(other), exist_ok=True)
        shutil.copyfile(path, other)


def blocks(text):
    """The blocks of a document, each with the number of its first line and the paragraph before it."""
    paragraph, block, first = "", None, 0
    for number, line in enumerate(text.split("\n"), 1):
        if line.startswith("```"):
            if block is None:
                block, first = [], number + 1
            else:
                yield first, paragraph, block
                block, paragraph = None, ""
        elif block is not None:
            block.append(line)
        elif line:
            paragraph = line


def commands(block):
    """The commands of a block, each with its place in it and the output that is shown."""
    found = []
    for place, line in enumerate(block):
        if line.startswith("$ "):
            found.append((place, line[2:], []))
        elif found:
            found[-1][2].append(line)
    return found


def lines_of(shown):
    return "".join(line + "\n" for line in shown)


def text_of(line):
    """A line of docs/khe.1 as it is shown."""
    return line.replace("\\-", "-").replace("\\&", "").replace("\\e", "\\")


def parts_of(lines, first, last):
    """The lines that stand between each pair of two requests of docs/khe.1, as they are shown."""
    found, part = [], None
    for line in lines:
        if line == first:
            part = []
        elif line == last and part is not None:
            found.append(part)
            part = None
        elif part is not None:
            part.append(text_of(line))
    return found


class Comparison:
    def __init__(self, folder):
        self.folder = folder
        self.environment = dict(os.environ, PATH=folder + "/bin:" + os.environ["PATH"])
        self.compared = 0
        self.differing = 0

    def compare(self, where, what, shown, came):
        self.compared += 1
        if shown != came:
            self.differing += 1
            print("%s: %s\nshown:\n%scame:\n%s" % (where, what, shown, came))

    def end(self):
        """Says how much was compared, and ends."""
        print("%d compared, %d differing" % (self.compared, self.differing))
        sys.exit(1 if self.differing or not self.compared else 0)

    def command(self, where, command, shown):
        made = re.fullmatch(r"cat (\S+)", command)
        if made and not os.path.exists(os.path.join(self.folder, made.group(1))):
            with open(os.path.join(self.folder, made.group(1)), "w", encoding="utf-8") as file:
                file.write(lines_of(shown))
            return
        ran = subprocess.run(["bash", "-c", command], cwd=self.folder, env=self.environment, stdout=subprocess.PIPE, check=False)
        self.compare(where, command, lines_of(shown), ran.stdout.decode("utf-8", "replace"))

    def page(self):
        """Compares docs/khe.1 with the manual: the synopsis, the statuses, and the examples."""
        with open(os.path.join(TOP, "docs/khe.1"), encoding="utf-8") as file:
            lines = file.read().split("\n")
        with open(os.path.join(TOP, "docs/manual.md"), encoding="utf-8") as file:
            manual = file.read()
        self.compare("docs/khe.1", "the synopsis", next(blocks(manual))[2], parts_of(lines, ".nf", ".fi")[0])
        statuses = re.findall(r"^\| (\d) \| (.*?) \|", manual.split("## Statuses")[1].split("\n## ")[0], re.M)
        told = lines[lines.index(".SH EXIT STATUS") : lines.index(".SH EXAMPLES")]
        rows = [(told[at + 1][3:], text_of(told[at + 2])) for at, line in enumerate(told) if line == ".TP"]
        self.compare("docs/khe.1", "the statuses", statuses, rows)
        for shown in parts_of(lines, ".EX", ".EE"):
            stands = "\n" + lines_of(shown) in manual
            self.compare("docs/khe.1", shown[0], "an example of the manual", "an example of the manual" if stands else "none")

    def callers(self):
        """Looks for each piece of code in docs/CALLING.md in the files of the crate that proves it."""
        proved = []
        for folder, _, names in os.walk(CALLERS):
            for name in sorted(names):
                if name.endswith((".rt", ".antt")) and "/out" not in folder:
                    with open(os.path.join(folder, name), encoding="utf-8") as file:
                        proved.append(file.read())
        with open(os.path.join(TOP, "docs/CALLING.md"), encoding="utf-8") as file:
            text = file.read()
        for first, _, block in blocks(text):
            stands = any(lines_of(block) in one for one in proved)
            self.compare("docs/CALLING.md:%d" % first, block[0], "a proved file", "a proved file" if stands else "none")

    def copies(self):
        """Compares the gate's copies with the files themselves."""
        for path, other in copied():
            found = "the same bytes\n" if bytes_of(path) == bytes_of(other) else "others\n"
            self.compare(os.path.relpath(path, TOP), "its copy for the gate", "the same bytes\n", found)

    def definitions(self):
        """Compares docs/definitions.md with the first comments of the spec files."""
        with open(os.path.join(TOP, "docs/definitions.md"), encoding="utf-8") as file:
            shown = file.read().split("\n")
        came = definitions().split("\n")
        lines = [(a, b) for a, b in zip(shown, came) if a != b] or [(str(len(shown)), str(len(came)))]
        self.compare("docs/definitions.md", "made by --definitions", lines[0][0] + "\n", lines[0][1] + "\n")

    def links(self):
        """Looks for the file, and for the heading, that each link of a document leads to."""
        for name in documents():
            with open(os.path.join(TOP, name), encoding="utf-8") as file:
                text = file.read()
            lost = []
            for link in re.findall(r"\]\(([^)\s]+)\)", re.sub(r"(?ms)^```.*?^```", "", text)):
                if re.match(r"\w+:", link):
                    continue
                to, _, heading = link.partition("#")
                path = os.path.join(TOP, os.path.dirname(name), to) if to else os.path.join(TOP, name)
                if not os.path.exists(path):
                    lost.append(link)
                elif heading:
                    with open(path, encoding="utf-8") as file:
                        headings = re.findall(r"(?m)^#+ (.*)$", file.read())
                    if heading not in [slug(one) for one in headings]:
                        lost.append(link)
            self.compare(name, "links that lead nowhere", "", lines_of(lost))

    def files(self):
        """Compares all that needs no program."""
        self.copies()
        self.page()
        self.callers()
        self.definitions()
        self.links()

    def document(self, name):
        with open(os.path.join(TOP, name), encoding="utf-8") as file:
            text = file.read()
        for first, paragraph, block in blocks(text):
            found = commands(block)
            for place, command, shown in found:
                self.command("%s:%d" % (name, first + place), command, shown)
            named = re.findall(r"`(examples/[a-z_./]+)`", paragraph)
            if not found and named and paragraph.rstrip().endswith(":"):
                with open(os.path.join(TOP, named[0]), encoding="utf-8") as file:
                    self.compare("%s:%d" % (name, first), named[0], lines_of(block), file.read())


def main():
    words = sys.argv[1:]
    if words == ["--copy"]:
        copy()
    elif words == ["--definitions"]:
        sys.stdout.write(definitions())
    elif not words or words == ["--page"]:
        comparison = Comparison(TOP)
        comparison.files()
        comparison.end()
    else:
        run(os.path.abspath(words[0]))


def run(program):
    """Runs the examples of the documents by the program, and compares all else."""
    with tempfile.TemporaryDirectory() as folder:
        shutil.copytree(os.path.join(TOP, "examples"), os.path.join(folder, "examples"))
        os.mkdir(os.path.join(folder, "bin"))
        for name in ("khe", "bin/khe"):
            with open(os.path.join(folder, name), "w", encoding="utf-8") as file:
                file.write('#!/usr/bin/env bash\nexec "%s" "$@"\n' % program)
            os.chmod(os.path.join(folder, name), 0o755)
        comparison = Comparison(folder)
        for name in DOCUMENTS:
            comparison.document(name)
        comparison.files()
    comparison.end()


if __name__ == "__main__":
    main()

"""Compares the lines of listings and pages in the documents with what the two programs print: documents.py LISTING PAGE

A listing line is a row of eight words, the totals or a refusal. In README.md and docs/FORMAT.md each belongs to a job, which is
named by its path from the root, or by its name alone where it is a vector:
- in a fenced block, the block's first line says 'listing JOB' (the block is the whole listing) or 'lines JOB' (lines of it, in order);
- in inline code, the job's name stands as inline code after it, in the same line of text, or in a comment '<!-- lines JOB -->' before
  it, under the same heading.
In the other documents some job of examples/ or of the vectors prints it. The lines of examples/NAME.txt are the listing of NAME.job.
A line of a page has 80 characters with eight numbers; it stands in a block whose first line says 'page JOB', the whole page.
Inline code that begins with 'listing: ' or 'page: ' is what that program writes on standard error.
Prints each line that is not so; the exit status is 0 only if there is none. Standard library alone.
"""
import glob
import os
import re
import subprocess
import sys

LINE = re.compile(r"\d+( -?\d+){7}|refused \d+ \d+|rows \d+ failed \d+ checks \d+")
PAGE_LINE = re.compile(r"(?=.{80}$)( +-?\d+){8}")
CODE = re.compile(r"`([^`]+)`")
COMMENT = re.compile(r"<!-- lines (\S+) -->")
VECTORS = "crates/vectors/data/"


class Program:
    """A program that reads a job on standard input."""

    def __init__(self, path):
        self.program, self.known = os.path.abspath(path), {}
        # Standard error where the program has an argument, where the input cannot be read, and where the output cannot be written.
        self.errors = [
            self.run(["argument"], stdin=subprocess.DEVNULL),
            self.run([], stdin=os.open("examples", os.O_RDONLY)),
            self.run([], stdin=subprocess.DEVNULL, stdout=os.open("/dev/full", os.O_WRONLY)),
        ]

    def run(self, arguments, **streams):
        ended = subprocess.run([self.program, *arguments], stderr=subprocess.PIPE, check=True, timeout=60, **streams)
        return ended.stderr.decode().rstrip("\n")

    def printed(self, path):
        """The lines that the program prints for a job."""
        if path not in self.known:
            with open(path, "rb") as job:
                ended = subprocess.run([self.program], stdin=job, capture_output=True, check=True, timeout=60)
            self.known[path] = ended.stdout.decode().removesuffix("\n").split("\n")
        return self.known[path]


class Documents:
    def __init__(self, listing, page):
        self.programs, self.faults, self.compared = {"listing": Program(listing), "page": Program(page)}, [], 0
        self.jobs = [path for folder in ("examples/", "examples/refused/", VECTORS) for path in glob.glob(folder + "*.job")]

    def printed(self, path, program="listing"):
        return self.programs[program].printed(path)

    def path(self, name):
        """The path of a job by its name, or None."""
        return next((path for path in (name, VECTORS + name + ".job") if path in self.jobs), None)

    def hold(self, true, where, text):
        self.compared += 1
        if not true:
            self.faults.append(f"{where}: {text}")

    def block(self, where, tag, lines):
        kind, _, name = tag.partition(" ")
        if kind not in ("listing", "lines", "page"):
            for line in lines:
                if LINE.fullmatch(line) or PAGE_LINE.fullmatch(line):
                    self.hold(False, where, f"'{line}' in a block without a job")
            return
        path = self.path(name)
        if path is None:
            self.hold(False, where, f"no job {name}")
        elif kind != "lines":
            self.hold(lines == self.printed(path, kind), where, f"not the {kind} of {path}")
        else:
            rest = iter(self.printed(path))
            self.hold(lines and all(line in rest for line in lines), where, f"not lines of {path}, in order")

    def text(self, where, line, commented, strict):
        codes = CODE.findall(line)
        for i, code in enumerate(codes):
            program, colon, _ = code.partition(": ")
            if colon and program in self.programs:
                self.hold(code in self.programs[program].errors, where, f"'{code}' is not written")
            if PAGE_LINE.fullmatch(code):
                self.hold(False, where, f"'{code}' outside a block")
            if not LINE.fullmatch(code):
                continue
            named = next((path for path in map(self.path, codes[i + 1:] + commented) if path), None)
            if named:
                self.hold(code in self.printed(named), where, f"'{code}' is not printed for {named}")
            else:
                self.hold(not strict and any(code in self.printed(path) for path in self.jobs), where, f"'{code}' without a job")

    def document(self, name, strict):
        tag, lines, commented = None, [], []
        with open(name, encoding="utf-8") as file:
            for number, line in enumerate(file.read().splitlines(), 1):
                where = f"{name}:{number}"
                if line.startswith("```"):
                    if tag is not None:
                        self.block(where, tag, lines)
                    tag, lines = (line[3:], []) if tag is None else (None, [])
                elif tag is not None:
                    lines.append(line)
                elif LINE.fullmatch(line.strip()) or PAGE_LINE.fullmatch(line):
                    self.hold(False, where, f"'{line}' outside a block")
                else:
                    commented = COMMENT.findall(line) or ([] if line.startswith("#") else commented)
                    self.text(where, line, commented, strict)
        self.hold(tag is None, name, "a block without an end")

    def example(self, job):
        with open(job.removesuffix(".job") + ".txt", encoding="utf-8") as file:
            lines = [line.strip() for line in file if LINE.fullmatch(line.strip())]
        self.hold(lines == self.printed(job), job, "its text has other lines than its listing")


def main(listing, page):
    documents = Documents(listing, page)
    for name in ["README.md", *sorted(glob.glob("docs/*.md"))]:
        documents.document(name, name in ("README.md", "docs/FORMAT.md"))
    for job in sorted(glob.glob("examples/*.job")):
        documents.example(job)
    print("\n".join(documents.faults) or f"{documents.compared} places compared")
    return 1 if documents.faults or documents.compared == 0 else 0


if __name__ == "__main__":
    sys.exit(main(sys.argv[1], sys.argv[2]))

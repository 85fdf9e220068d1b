#!/usr/bin/env python3
"""What rows cannot show: full disks, closed streams, folders as files, little memory, hostile texts. Each run is held against what must come.

    hostile.py --tool PROGRAM [--seconds N] [--megabytes N] [--memory] [NAME..]    runs all cases, or those with a name in their text

A case that is not answered as it must be says `WRONG`, and the exit status is 1. `--memory` refuses each single taking of memory in turn,
in the runs of three models with each command: the answer must be the one without, or `out of memory` with a front of the output. It
wants a C compiler (`cc`), which makes the piece that refuses. Cases that need another user than root, or a device of Linux, are left
out where that is not there.
"""

import argparse
import os
import random
import re
import resource
import shutil
import signal
import subprocess
import sys
import tempfile
from pathlib import Path

DATA = Path(__file__).resolve().parent.parent / "crates" / "rows" / "data"
LONGEST = 4_194_304
NOBODY = 65534

ROOT, TARGET = "Acs::Control.dual", "root/out:torque{errors::serviceomission}"
FILES = ["errors.aadl", "devices.aadl", "acs.aadl"]
CUTS = b"1 root.v/failure\n1 root.cpu/failure\n1 root.pb/failure\n2 root.g1/failure+root.g2/failure\nend\n"
PATHS = (b"4 root.g1/failure+root.v/failure+root.cpu/failure+root.pb/failure\n"
         b"4 root.g2/failure+root.v/failure+root.cpu/failure+root.pb/failure\nend\n")
CHECK = b"components 6\nfacts 34\nevents 7\n"
WHY = b"""1 root.v/state:operational
2 root.v/state:failstop root.v/failure #1
3 root.v/out:torque{errors::serviceomission} #2
4 root/out:torque{errors::serviceomission} #3
"""
TREE = b'toplevel "T";\n"T" 2of3 "a" "b" "G";\n"G" and "b" "c";\n"a" prob=1;\n"b" prob=1;\n"c" prob=1;\n'
MET, BROKEN = f"R {TARGET} order 1\n".encode(), f"R {TARGET} order 2\n".encode()
CUTS_WORDS = ["cuts", ROOT, TARGET, *FILES]
A_WORDS = ["cuts", "p::s", "root/state:bad", "a.aadl"]


def made(count):
    """The text of the model of so many pairs."""
    units = "".join(f"{part}{n}: device part;\n" for n in range(1, count + 1) for part in "ab")
    stages = " and ".join(f"(a{n}.bad or b{n}.bad)" for n in range(1, count + 1))
    return f"""package gen
public
annex EMV2 {{**
error behavior unit
events e: error event;
states ok: initial state; bad: state;
transitions ok -[e]-> bad;
end behavior;
error behavior whole
states ok: initial state; bad: state;
end behavior;
**}};
device part
annex EMV2 {{** use behavior gen::unit; **}};
end part;
system s
end s;
system implementation s.i
subcomponents
{units}annex EMV2 {{**
use behavior gen::whole;
composite error behavior
states [{stages}]-> bad;
end composite;
**}};
end s.i;
end gen;
""".encode()


def pages(count):
    """What `make` writes for so many pairs, three or more."""
    names = [f"root.{part}{n}/e" for n in range(1, count + 1) for part in "ab"]
    first = [f"root.a{n}/e" for n in range(1, count + 1)]
    second, third = first[:-1] + [f"root.b{count}/e"], first[:-2] + [f"root.b{count - 1}/e", first[-1]]
    lines = "".join(f"{count} {'+'.join(events)}\n" for events in (first, second, third))
    return f"components {2 * count + 1}\nfacts {4 * count + 2}\nevents {len(names)}\n{lines}more\n".encode()


class Case:
    """A call, what is around it, and what must come: the status, the line (`*` for any bytes), and the output (None for any)."""

    def __init__(self, about, words, status, line="", output=b"", **around):
        self.about, self.words, self.status, self.line, self.output = about, words, status, line, output
        self.around = around


def first_bad_byte(data):
    """The code and the place of the first fault of the tokens of a text, by the rules of docs/PROFILE.md; None where there is none."""
    form = re.compile(rb"[\t\n\r ]+|--[^\n]*|[A-Za-z](?:_?[A-Za-z0-9])*|"
                      rb"[0-9][0-9_]*(?:#[0-9A-Fa-f][0-9A-Fa-f_]*#|(?:\.[0-9][0-9_]*)?(?:[eE][+-]?[0-9][0-9_]*)?)|"
                      rb'"(?:[^"\\]|\\.)*"|::|->|<->|\+=>|=>|\.\.|[;:,.()\[\]{}\-+*/=<>^@!&|]', re.S)
    at = 0
    while at < len(data):
        if data.startswith(b"{**", at):
            end = data.find(b"**}", at + 3)
            if end < 0:
                return "L3 OpenAnnex", at
            at = end + 3
            continue
        found = form.match(data, at)
        if found is None:
            return ("L2 OpenString" if data[at:at + 1] == b'"' else "L1 BadByte"), at
        at = found.end()
    return None


def cases(folder):
    """All cases, over the files that are written here."""
    for name in FILES + ["a.aadl"]:
        shutil.copy(DATA / name, folder / name)
    small = (DATA / "a.aadl").read_bytes()
    put = lambda name, data: (folder / name).write_bytes(data)
    put("t.dft", TREE)
    put("d.txt", WHY)
    put("brackets", b"{" * LONGEST)
    put("name", b"package " + b"a" * (LONGEST - 8))
    put("named", b"package " + b"a" * 2_000_000 + b" end " + b"a" * 2_000_000 + b";")
    put("blanks", b" " * LONGEST)
    put("long", small + b" " * (LONGEST + 1 - len(small)))
    put("longest", small + b" " * (LONGEST - len(small)))
    put("comments", small + b"--" * ((LONGEST - len(small)) // 2))
    sets = b"".join(b"s%d: type set {s%d};" % (n, n + 1) for n in range(1, 20_001))
    put("sets", b"package p public annex EMV2 {** error types t: type; " + sets + b" s20001: type set {t}; end types; **}; device d features "
        b"o: out data port; annex EMV2 {** use types p; error propagations o: out propagation {s1}; end propagations; **}; end d; end p;\n")
    put("aliases", b"package p public annex EMV2 {** error types t: type; " + b"".join(b"s%d renames type s%d;" % (n, n + 1) for n in range(1, 20_001)) +
        b" s20001 renames type t; end types; **}; device d features o: out data port; annex EMV2 {** use types p; error propagations "
        b"o: out propagation {s1}; end propagations; **}; end d; end p;\n")
    put("extends", b"package p public device d0 end d0; " + b"".join(b"device d%d extends d%d end d%d; " % (n, n - 1, n) for n in range(1, 20_001)) + b"end p;\n")
    put("circle", b"package p public " + b"".join(b"device d%d extends d%d end d%d; " % (n, (n + 1) % 20_000, n) for n in range(20_000)) + b"end p;\n")
    circle = (folder / "circle").read_bytes().index(b"device d19999 extends d0") + len(b"device d19999 extends ")
    (folder / "folder").mkdir()
    put("closed", small)
    (folder / "closed").chmod(0)
    draw = random.Random(3)
    for n in range(5):
        put(f"random{n}", bytes(draw.randrange(256) for _ in range(100_000)))
        put(f"tokens{n}", b" ".join(draw.choice([b"package", b"p", b"{", b"}", b";", b"::", b"end", b"annex", b"EMV2", b"1", b'"x"']) for _ in range(20_000)))

    bad, unread = "cannot write", "cannot read"
    found = [
        Case("all is well", CUTS_WORDS, 0, output=CUTS),
        Case("output to nowhere", CUTS_WORDS, 0, output=b"", out="/dev/null"),
        Case("output to a full disk", CUTS_WORDS, 5, bad, out="/dev/full"),
        Case("tree to a full disk", ["tree", ROOT, TARGET, *FILES], 5, bad, out="/dev/full"),
        Case("tree as Open-PSA text to a full disk", ["tree", ROOT, TARGET, *FILES, "--format", "mef"], 5, bad, out="/dev/full"),
        Case("picture of a tree to a full disk", ["tree", ROOT, TARGET, *FILES, "--format", "dot"], 5, bad, out="/dev/full"),
        Case("table to a full disk", ["fmea", ROOT, *FILES], 5, bad, out="/dev/full"),
        Case("reports to a full disk", ["report", ROOT, TARGET, *FILES], 5, bad, out="/dev/full"),
        Case("path sets to a full disk", ["paths", ROOT, TARGET, *FILES], 5, bad, out="/dev/full"),
        Case("numbers to a full disk", ["check", ROOT, *FILES], 5, bad, out="/dev/full"),
        Case("verdicts to a full disk", ["require", ROOT, "/dev/stdin", *FILES], 5, bad, out="/dev/full", stdin=MET),
        Case("verdicts of which one is not met, to a full disk", ["require", ROOT, "/dev/stdin", *FILES], 5, bad, out="/dev/full", stdin=BROKEN),
        Case("a requirement that is met, from a pipe", ["require", ROOT, "/dev/stdin", *FILES], 0, "", b"met R\nend met 1 broken 0 vacuous 0\n", stdin=MET),
        Case("a requirement that is broken, from a pipe", ["require", ROOT, "/dev/stdin", *FILES], 8, "", b"broken R root.v/failure\nend met 0 broken 1 vacuous 0\n", stdin=BROKEN),
        Case("a comparison to a full disk", ["compare", ROOT, TARGET, *FILES, "to", *FILES], 5, bad, out="/dev/full"),
        Case("a comparison with a pipe", ["compare", ROOT, TARGET, *FILES, "to", "/dev/stdin"], 2, "S1 Syntax", stdin=MET),
        Case("derivation to a full disk", ["why", ROOT, TARGET, *FILES, "--set", "root.v/failure"], 5, bad, out="/dev/full"),
        Case("its check to a full disk", ["confirm", ROOT, TARGET, "d.txt", *FILES, "--set", "root.v/failure"], 5, bad, out="/dev/full"),
        Case("listing of a tree to a full disk", ["galileo", "t.dft"], 5, bad, out="/dev/full"),
        Case("picture of a read tree to a full disk", ["galileo", "t.dft", "--format", "dot"], 5, bad, out="/dev/full"),
        Case("made model to a full disk", ["make", "3", "--text"], 5, bad, out="/dev/full"),
        Case("a refusal, and a full disk", [*CUTS_WORDS[:2], "root/state:x", *FILES], 2, "T1 UnknownTarget", out="/dev/full"),
        Case("no output", CUTS_WORDS, 5, bad, out="closed"),
        Case("a pipe that nobody reads", CUTS_WORDS, 5, bad, out="broken pipe"),
        Case("a pipe that is read late", ["make", "512", "--text"], 0, output=made(512), out="slow pipe"),
        Case("a disk with room for 40 bytes", CUTS_WORDS, 5, bad, output=CUTS[:40], file_size=40),
        Case("a disk with room for nothing, not even for the line", CUTS_WORDS, 5, "", file_size=0),
        Case("error stream to a full disk", ["cuts"], 1, "", err="/dev/full"),
        Case("no error stream", ["cuts"], 1, "", err="closed"),
        Case("no streams", CUTS_WORDS, 5, "", out="closed", err="closed"),
        Case("no input", CUTS_WORDS, 0, output=CUTS, stdin="closed"),
        Case("a folder as a file", ["check", "p::s", "folder"], 4, f"{unread} folder"),
        Case("a folder as a tree", ["galileo", "folder"], 4, f"{unread} folder"),
        Case("a folder as a derivation", ["confirm", "p::s", "root/state:bad", "folder", "a.aadl", "--set", "none"], 4, f"{unread} folder"),
        Case("a folder behind a file", ["check", "p::s", "a.aadl", "folder"], 4, f"{unread} folder"),
        Case("a file that is not there", [*CUTS_WORDS[:4], "no.aadl", "acs.aadl"], 4, f"{unread} no.aadl"),
        Case("a file in no folder", ["check", "p::s", "no/such/folder/a.aadl"], 4, f"{unread} no/such/folder/a.aadl"),
        Case("a file in a file", ["check", "p::s", "a.aadl/a.aadl"], 4, f"{unread} a.aadl/a.aadl"),
        Case("a name of 5,000 bytes", ["check", "p::s", "n" * 5_000], 4, f"{unread} " + "n" * 5_000),
        Case("a name with a line feed", ["check", "p::s", "a\nb"], 4, f"{unread} a\nb"),
        Case("a file that may not be read", ["check", "p::s", "closed"], 4, f"{unread} closed", user=NOBODY),
        Case("a file without end", ["check", "p::s", "/dev/zero"], 2, f"M1 FileTooLong /dev/zero over {LONGEST}"),
        Case("a file of nothing", ["check", "p::s", "/dev/null"], 2, "S1 Syntax /dev/null:0"),
        Case("a pipe as a file", ["cuts", "p::s", "root/state:bad", "/dev/stdin"], 0, output=b"2 root/e1+root/e2\nend\n", stdin=small),
        Case("a pipe that is too long", ["check", "p::s", "/dev/stdin"], 2, f"M1 FileTooLong /dev/stdin over {LONGEST}", stdin=small + b" " * LONGEST),
        Case("a word of a byte that is no letter", ["check", "p::s", b"\xff"], 1, "usage"),
        Case("an empty word", ["check", "p::s", ""], 1, "usage"),
        Case("no words", [], 1, "usage"),
        Case("10,000 words", ["check", "p::s", *["a.aadl"] * 10_000], 2, "M2 TooManyFiles over 64"),
        Case("65 words for files that are not there", ["check", "p::s", *["no"] * 65], 2, "M2 TooManyFiles over 64"),
        Case("a target of 100,000 bytes", ["cuts", "p::s", "x" * 100_000, "a.aadl"], 2, "T1 UnknownTarget"),
        Case("a set of 100,000 bytes", [*A_WORDS, "--after", "+" * 100_000], 2, "K1 BadToken"),
        Case("a root of 100,000 bytes", ["check", "p::" + "s" * 100_000, "a.aadl"], 2, "N3 UnknownClassifier"),
        Case("a root of 30,000 names", ["check", "::".join(["p"] * 30_000), "a.aadl"], 2, "N2 UnknownPackage"),
        Case("4 MB of `{`", ["check", "p::s", "brackets"], 2, "M3 TooNested brackets:64 over 64"),
        Case("4 MB of `{` as a tree", ["galileo", "brackets"], 2, "G1 BadLine brackets:0"),
        Case("4 MB of `{` as a derivation", ["confirm", "p::s", "root/state:bad", "brackets", "a.aadl", "--set", "none"], 2, "V1 BadStepLine brackets:0"),
        Case("a name of 4 MB", ["check", "p::s", "name"], 2, f"S1 Syntax name:{LONGEST}"),
        Case("a package with a name of 2 MB", ["check", "p::s", "named"], 2, "N2 UnknownPackage"),
        Case("4 MB of blanks", ["check", "p::s", "blanks"], 2, f"S1 Syntax blanks:{LONGEST}"),
        Case("4 MB of blanks as a tree", ["galileo", "blanks"], 2, "G5 NoTop blanks"),
        Case("4 MB of `{` as another tool's tree", ["galileo", "brackets", "--profile", "2"], 2, "G1 BadLine brackets:0"),
        Case("4 MB of blanks as another tool's tree", ["galileo", "blanks", "--profile", "2"], 2, "G5 NoTop blanks"),
        Case("a byte more than 4 MB", ["check", "p::s", "long"], 2, f"M1 FileTooLong long over {LONGEST}"),
        Case("no byte more", ["check", "p::s", "longest"], 0, output=b"components 1\nfacts 2\nevents 2\n"),
        Case("4 MB of a comment", ["check", "p::s", "comments"], 0, output=b"components 1\nfacts 2\nevents 2\n"),
        Case("five files of 4 MB", ["check", "p::s", *["longest"] * 5], 2, "M13 TooMuchText over 16777216"),
        Case("four files of 4 MB", ["check", "p::s", *["longest"] * 4], 2, "N1 DuplicateUnit longest:8"),
        Case("a chain of 20,000 nested sets", ["check", "p::d", "sets"], 0, output=b"components 1\nfacts 1\nevents 0\n"),
        Case("a chain of 20,000 aliases", ["check", "p::d", "aliases"], 0, output=b"components 1\nfacts 1\nevents 0\n"),
        Case("a chain of 20,000 devices", ["check", "p::d20000", "extends"], 0, output=b"components 1\nfacts 0\nevents 0\n"),
        Case("a circle of 20,000 devices", ["check", "p::d0", "circle"], 2, f"N4 CyclicExtends circle:{circle}"),
    ]
    for n in range(5):
        code, at = first_bad_byte((folder / f"random{n}").read_bytes())
        found.append(Case(f"100,000 random bytes, {n}", ["check", "p::s", f"random{n}"], 2, f"{code} random{n}:{at}"))
        found.append(Case(f"100,000 random bytes as a tree, {n}", ["galileo", f"random{n}"], 2, f"G1 BadLine random{n}:*"))
        found.append(Case(f"100,000 random bytes as a derivation, {n}", ["confirm", "p::s", "root/state:bad", f"random{n}", "a.aadl", "--set", "none"], 2,
                          f"V1 BadStepLine random{n}:0"))
        found.append(Case(f"20,000 random tokens, {n}", ["check", "p::s", f"tokens{n}"], 2, "* tokens%d:*" % n))
    for megabytes in (8, 12, 16, 20, 30):
        found.append(Case(f"{megabytes} MB of memory", CUTS_WORDS, 0, output=CUTS, memory=megabytes, or_memory=True))
        found.append(Case(f"{megabytes} MB of memory, a file of 4 MB", ["check", "p::s", "longest"], 0, output=b"components 1\nfacts 2\nevents 2\n",
                          memory=megabytes, or_memory=True))
        found.append(Case(f"{megabytes} MB of memory, 2 to the 60th cut sets", ["make", "60"], 0, output=pages(60), memory=megabytes, or_memory=True))
    found.append(Case("30 MB of memory, a tree of 1,413 stages", ["tree", "p::s", "root/state:s1413", "ring"], 0,
                      output=b'toplevel "root/state:s1413@1413.0";\n"root/state:s1413@1413.0" or "root/e";\n"root/e" prob=1;\n', memory=30, or_memory=True))
    states = " ".join(f"s{n}: state;" for n in range(1, 1_414))
    steps = " ".join(f"s{n} -[e]-> s{n % 1_413 + 1};" for n in range(1, 1_414))
    put("ring", f"package p public annex EMV2 {{** error behavior m events e: error event; states ok: initial state; {states} transitions ok -[e]-> s1; "
        f"{steps} end behavior; **}}; system s annex EMV2 {{** use behavior p::m; **}}; end s; end p;\n".encode())
    return found


def call(tool, case, folder, options):
    """The status, the output and the error stream of a call. What is closed or of another kind has no text."""
    around = case.around
    out, err = folder.parent / "output", folder.parent / "errors"
    opened = {"out": None, "err": None}
    pipe = None
    for key, file in (("out", out), ("err", err)):
        kind = around.get(key)
        if kind in ("broken pipe", "slow pipe"):
            pipe = os.pipe()
            opened[key] = os.fdopen(pipe[1], "wb")
            if kind == "broken pipe":
                os.close(pipe[0])
        else:
            opened[key] = open(kind if kind and kind != "closed" else file, "wb")

    def around_it():
        signal.signal(signal.SIGXFSZ, signal.SIG_IGN)
        signal.signal(signal.SIGPIPE, signal.SIG_IGN)
        resource.setrlimit(resource.RLIMIT_CPU, (options.seconds, options.seconds + 1))
        megabytes = around.get("memory", options.megabytes)
        resource.setrlimit(resource.RLIMIT_AS, (megabytes << 20, megabytes << 20))
        resource.setrlimit(resource.RLIMIT_CORE, (0, 0))
        if "file_size" in around:
            resource.setrlimit(resource.RLIMIT_FSIZE, (around["file_size"], around["file_size"]))
        for key, number in (("stdin", 0), ("out", 1), ("err", 2)):
            if around.get(key) == "closed":
                os.close(number)
        if "user" in around:
            os.setgid(around["user"])
            os.setuid(around["user"])

    stdin = around.get("stdin")
    given = subprocess.PIPE if isinstance(stdin, bytes) else subprocess.DEVNULL
    try:
        child = subprocess.Popen([tool, *case.words], cwd=folder, stdin=given, stdout=opened["out"], stderr=opened["err"], preexec_fn=around_it,
                                 restore_signals=False)
    except (OSError, subprocess.SubprocessError) as fault:
        return None, b"", str(fault).encode()
    for stream in opened.values():
        stream.close()
    text = b""
    if isinstance(stdin, bytes):
        try:
            child.stdin.write(stdin)
            child.stdin.close()
        except BrokenPipeError:
            pass
    if around.get("out") == "slow pipe":
        with os.fdopen(pipe[0], "rb") as reader:
            while piece := reader.read1(1000):
                text += piece
    status = child.wait()
    if around.get("out") is None:
        text = out.read_bytes()
    return status, text, err.read_bytes() if around.get("err") is None else b""


def holds(case, status, output, errors):
    """Whether that is what must come."""
    if case.around.get("or_memory") and status == 7:
        return errors == b"aadl_fta: out of memory\n" and (case.output is None or case.output.startswith(output))
    line = f"aadl_fta: {case.line}\n".encode() if case.line else b""
    pattern = re.escape(line).replace(rb"\*", rb".*")
    if status != case.status or re.fullmatch(pattern, errors, re.S) is None:
        return False
    return case.output is None or output == case.output


REFUSING = r"""
#define _GNU_SOURCE
#include <dlfcn.h>
#include <errno.h>
#include <stddef.h>
#include <stdlib.h>
#include <unistd.h>
static long taken, at = -1, on;
static int ready;
__attribute__((constructor)) static void begin(void) {
    const char *a = getenv("REFUSE_AT"), *o = getenv("REFUSE_ON");
    at = a ? atol(a) : 0; on = o ? atol(o) : 0; taken = 0; ready = 1;
}
__attribute__((destructor)) static void finish(void) {
    const char *f = getenv("REFUSE_COUNT");
    if (f) { char b[24]; int n = 24; long t = taken; do { b[--n] = '0' + t % 10; t /= 10; } while (t); (void)!write(atoi(f), b + n, 24 - n); }
}
static int refused(void) { if (!ready) return 0; taken++; return at > 0 && (taken == at || (on && taken > at)); }
extern void *__libc_malloc(size_t); extern void *__libc_calloc(size_t, size_t); extern void *__libc_realloc(void *, size_t); extern void *__libc_memalign(size_t, size_t);
void *malloc(size_t n) { if (refused()) { errno = ENOMEM; return 0; } return __libc_malloc(n); }
void *calloc(size_t n, size_t m) { if (refused()) { errno = ENOMEM; return 0; } return __libc_calloc(n, m); }
void *realloc(void *p, size_t n) { if (refused()) { errno = ENOMEM; return 0; } return __libc_realloc(p, n); }
void *aligned_alloc(size_t a, size_t n) { if (refused()) { errno = ENOMEM; return 0; } return __libc_memalign(a, n); }
int posix_memalign(void **p, size_t a, size_t n) { if (refused()) return ENOMEM; *p = __libc_memalign(a, n); return *p ? 0 : ENOMEM; }
"""


def refused_memory(tool, folder, options):
    """Refuses each taking of memory in turn, alone and with all later ones; gives how many runs went wrong."""
    source, piece = folder.parent / "refusing.c", folder.parent / "refusing.so"
    source.write_text(REFUSING)
    compiler = shutil.which(os.environ.get("CC", "cc"))
    if compiler is None:
        print("no C compiler: memory is not refused")
        return 0
    subprocess.run([compiler, "-shared", "-fPIC", "-O1", "-o", piece, source, "-ldl"], check=True)
    loop, gyros = ["q::s.i", "root/state:bad"], "root.g1/failure+root.g2/failure"
    for name in ("loop.aadl", "a.aadl", *FILES):
        shutil.copy(DATA / name, folder / name)
    (folder / "t.dft").write_bytes(TREE)
    models = [("a", "p::s", "root/state:bad", ["a.aadl"], "root/e1+root/e2"), ("loop", *loop, ["loop.aadl"], "root.a/e"),
              ("attitude control", ROOT, TARGET, FILES, gyros)]
    calls = []
    for name, root, target, files, events in models:
        for command in ("cuts", "paths", "tree", "report", "why"):
            calls.append((f"{command}, {name}", [command, root, target, *files, *(["--set", events] if command == "why" else [])]))
        formats = [["--gates", "merged"], ["--format", "mef"], ["--format", "dot", "--gates", "merged"]]
        calls += [(f"tree {' '.join(words)}, {name}", ["tree", root, target, *files, *words]) for words in formats]
        calls += [(f"check, {name}", ["check", root, *files]), (f"fmea, {name}", ["fmea", root, *files]),
                  (f"confirm, {name}", ["confirm", root, target, f"why of {name}", *files, "--set", events])]
    calls += [("make", ["make", "3"]), ("make, text", ["make", "3", "--text"]), ("galileo", ["galileo", "t.dft"]), ("galileo, paths", ["galileo", "t.dft", "--paths"]),
              ("galileo, profile 2", ["galileo", "t.dft", "--profile", "2"]), ("galileo, dot", ["galileo", "t.dft", "--format", "dot", "--gates", "merged"])]
    wrong = 0
    print("\n| call | takings of memory | out of memory | as without | wrong |\n|---|---|---|---|---|", flush=True)

    def run(words, at, on):
        reader, writer = os.pipe()
        environment = {**os.environ, "LD_PRELOAD": str(piece), "REFUSE_AT": str(at), "REFUSE_ON": str(on), "REFUSE_COUNT": str(writer)}
        done = subprocess.run([tool, *words], cwd=folder, stdin=subprocess.DEVNULL, capture_output=True, env=environment, pass_fds=[writer])
        os.close(writer)
        with os.fdopen(reader, "rb") as count:
            return done.returncode, done.stdout, done.stderr, int(count.read() or 0)

    for name, words in calls:
        status, output, errors, takings = run(words, 0, 0)
        if words[0] == "why":
            (folder / f"why of {name.removeprefix('why, ')}").write_bytes(output)
        out_of_memory = as_without = bad = 0
        for at in range(1, takings + 1):
            for on in (0, 1):
                found = run(words, at, on)[:3]
                if found == (status, output, errors):
                    as_without += 1
                elif found[0] == 7 and found[2] == b"aadl_fta: out of memory\n" and output.startswith(found[1]) and (words[0] in ("tree", "fmea") or "--format" in words or not found[1]):
                    out_of_memory += 1
                else:
                    bad += 1
                    if bad < 4:
                        print(f"WRONG: {name}, taking {at}{' and later' if on else ''}: {found}")
        wrong += bad
        if status:
            wrong += 1
            print(f"WRONG: {name}: {status} {errors}")
        print(f"| {name} | {takings} | {out_of_memory} | {as_without} | {bad} |", flush=True)
    return wrong


def main():
    parser = argparse.ArgumentParser(description=__doc__.splitlines()[0])
    parser.add_argument("--tool", required=True, help="the program aadl_fta")
    parser.add_argument("--seconds", type=int, default=60, help="processor seconds that a run may take")
    parser.add_argument("--megabytes", type=int, default=4096, help="memory that a run may take")
    parser.add_argument("--memory", action="store_true", help="refuses each taking of memory in turn, and does nothing else")
    parser.add_argument("names", nargs="*", help="pieces of the texts of cases; all without one")
    options = parser.parse_args()
    tool = Path(options.tool).resolve()
    with tempfile.TemporaryDirectory() as name:
        os.chmod(name, 0o755)
        folder = Path(name) / "files"
        folder.mkdir()
        if options.memory:
            sys.exit(1 if refused_memory(tool, folder, options) else 0)
        right = wrong = left = 0
        for case in cases(folder):
            if options.names and not any(piece in case.about for piece in options.names):
                continue
            devices = [case.around.get(key) for key in ("out", "err")] + list(case.words)
            missing = any(isinstance(word, str) and word.startswith("/dev/") and not os.path.exists(word) for word in devices)
            if missing or ("user" in case.around and os.geteuid() != 0):
                left += 1
                print(f"left out: {case.about}")
                continue
            status, output, errors = call(tool, case, folder, options)
            if holds(case, status, output, errors):
                right += 1
                if case.around.get("or_memory"):
                    print(f"{case.about}: {'out of memory' if status == 7 else 'served'}")
            else:
                wrong += 1
                print(f"WRONG: {case.about}: wanted {case.status} {case.line!r}, found {status} {errors[:200]!r}, output {output[:100]!r}", flush=True)
        print(f"{right} right, {wrong} wrong, {left} left out")
    sys.exit(1 if wrong else 0)


if __name__ == "__main__":
    main()

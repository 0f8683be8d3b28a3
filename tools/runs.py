#!/usr/bin/env python3
"""Runs the built program by a table, and compares text, exit code and standard error of each run.

  tools/runs.py [--examples] [PROGRAM..]   PROGRAM is a built bmx; without one, those that `rt ci` left

The table is followed by the scripts of examples/: NAME.bmx prints NAME.out and ends with the code in NAME.code, 0 where
there is none. With --examples they are run alone. The expected values are written by hand from docs/SCRIPTS.md. What no
contract can say is looked at here: the words as the system hands them over, streams that are closed, full or endless,
and want of memory. No script of 20,000 lines is known to spend the budget of 1,000,000 events (contended tokens take some
3 events a line), so that ending is left to the tests of the run.
"""
import glob
import os
import resource
import subprocess
import sys
from dataclasses import dataclass

TOP = os.path.dirname(os.path.dirname(os.path.abspath(__file__)))
BUILT = [f"{TOP}/crates/bmx_cli/out/bmx_cli", f"{TOP}/crates/bmx_cli/out/bmx_cli.by-rattle"]
SECONDS = 60

HEAD = "bmx 1\nnodes 1\nbunch main\n"
FIRST = HEAD + "0 new r0 main 1\n0 write r0\n0 set r0 0 5\n0 show r0 0\n0 done r0\n"
LARGEST = HEAD + "0 new r0 main 32\n0 write r0\n0 set r0 31 -9223372036854775808\n0 show r0 31\n0 show r0 32\n0 done r0\n"
LARGEST_TEXT = "0 7 -9223372036854775808\n0 8 refused index\n"
REFUSALS = HEAD + (
    "0 new r0 main 1\n0 set r0 0 1\n0 write r0\n0 write r0\n0 add r0 0 1\n0 done r0\n0 done r0\n0 read r1\n0 read r0\n"
    "0 show r0 0\n"
)
REFUSALS_TEXT = (
    "0 5 refused token\n0 7 refused held\n0 8 refused number\n0 10 refused token\n0 11 refused empty\n0 13 null\n"
)
# a reference is stored in the anchor, taken out again and followed
ANCHORED = HEAD + (
    "0 new r0 main 1\n0 write r0\n0 set r0 0 42\n0 done r0\n0 write @main\n0 set @main 0 r0\n0 get r1 @main 0\n0 same r0 r1\n"
    "0 same r1 @main\n0 show @main 0\n0 drop r0\n0 write r1\n0 add r1 0 -2\n0 show r1 0\n0 copy r2 null\n0 same r2 null\n0 read r2\n"
)
ANCHORED_TEXT = "0 11 yes\n0 12 no\n0 13 0.2\n0 17 40\n0 19 yes\n0 20 refused empty\n"
# the anchor and 27 objects of 32 fields leave 16 words of one segment: none for another such object, all for one of 12
# fields, and none for any behind that
SEGMENT = HEAD + "segments 1\n" + "0 new r0 main 32\n" * 27 + (
    "0 new r1 main 32\n0 new r2 main 12\n0 new r3 main 0\n0 same r1 null\n"
)
SEGMENT_TEXT = "0 32 refused full\n0 34 refused full\n0 35 yes\n"
# from here the sixth line is wrong
SIXTH = HEAD + "0 new r0 main 1\n0 write r0\n"
# a script has at most 20,000 lines and 1,048,576 bytes; this line alone has 1,000 of them
WIDE = "#" * 999 + "\n"
# the three lines of the head have 25 bytes
FULL = HEAD + WIDE * 1048 + "#" * 550 + "\n"
# the first of many lines that show: much text, and much memory
MANY = HEAD + "0 write @main\n0 set @main 0 7\n" + "0 show @main 0\n0 new r1 main 32\n" * 9990
MANY_TEXT = "".join(f"0 {6 + 2 * i} 7\n" for i in range(9990))



def shared(nodes):
    """The first ten lines of a script of so many nodes: node 0 makes an object with 42, and the anchor refers to it."""
    return f"bmx 1\nnodes {nodes}\nbunch main\n" + (
        "0 new r0 main 1\n0 write r0\n0 set r0 0 42\n0 done r0\n0 write @main\n0 set @main 0 r0\n0 done @main\n"
    )


def finds(node):
    """Three lines: a node's first register comes to refer to that object."""
    return f"{node} read @main\n{node} get r0 @main 0\n{node} done @main\n"


def shows(node):
    """Three lines: a node shows that object's field."""
    return f"{node} read r0\n{node} show r0 0\n{node} done r0\n"


ONE_READER = shared(2) + "phase\n1 read @main\n1 get r0 @main 0\n1 show @main 0\n1 done @main\n" + shows(1)
ONE_READER_TEXT = "1 14 0.2\n1 17 42\n"
# two read it, a third writes it, the first raises it, and the two read it again
FOUR = shared(4) + "phase\n" + "phase\n".join(
    (
        finds(2) + shows(2),
        finds(3) + shows(3),
        finds(1) + "1 write r0\n1 set r0 0 43\n1 done r0\n",
        "0 write r0\n0 add r0 0 1\n0 done r0\n",
        shows(2),
        shows(3),
    )
)
FOUR_TEXT = "2 16 42\n3 23 42\n2 38 44\n3 42 44\n"
# node 0 holds the anchor and node 1 the object, and then each wants the other one
CROSSED = shared(2) + "phase\n" + finds(1) + "phase\n0 write @main\nphase\n1 write r0\nphase\n"
STUCK = CROSSED + "0 write r0\n1 write @main\n"
# what was answered until then is written
SHOWN_STUCK = CROSSED + "0 show @main 0\n0 write r0\n1 write @main\n"
SHOWN_STUCK_TEXT = "0 20 0.2\n"
# a node holds a token beyond the end of its phase, and another waits for it in the next
KEPT = shared(2) + "phase\n0 read @main\nphase\n1 write @main\n"
# a node has no copy of what another one wrote, and holds no token of it
FAR_REFUSALS = shared(2) + "phase\n1 show @main 0\n1 done @main\n1 read r0\n" + finds(1) + "1 read r0\n1 set r0 0 1\n1 write r0\n1 show r0 1\n"
FAR_REFUSALS_TEXT = "1 12 refused token\n1 13 refused token\n1 14 refused empty\n1 19 refused token\n1 20 refused held\n1 21 refused index\n"
# each of eight nodes raises one field nine times by a decimal place of its own
EIGHT = "bmx 1\nnodes 8\nbunch main\n"
RAISES = "".join(f"{node} write @main\n{node} add @main 0 {10**node}\n{node} done @main\n" for node in range(8))
RAISED = EIGHT + "0 write @main\n0 set @main 0 0\n0 done @main\nphase\n" + RAISES * 9 + "quiet\n7 read @main\n7 show @main 0\n"
RAISED_TEXT = "7 226 99999999\n"
# two nodes make an object each, of the same count: names are by maker
MAKERS = "bmx 1\nnodes 2\nbunch main\n" + (
    "0 new r0 main 0\n0 write @main\n0 set @main 0 r0\n0 done @main\nquiet\n"
    "1 new r0 main 0\n1 new r1 main 0\n1 write @main\n1 show @main 0\n1 set @main 1 r1\n1 show @main 1\n1 done @main\nphase\n"
    "0 read @main\n0 get r1 @main 1\n0 same r0 r1\n0 same @main r0\n0 show @main 1\n"
)
MAKERS_TEXT = "1 12 0.2\n1 14 1.2\n0 19 no\n0 20 no\n0 21 1.2\n"
# each node has segments of its own: where node 0 has no room, node 1 has
OWN_SEGMENTS = "bmx 1\nnodes 2\nbunch main\nsegments 1\n" + "0 new r0 main 32\n" * 28 + "phase\n" + "1 new r0 main 32\n" * 29
OWN_SEGMENTS_TEXT = "0 32 refused full\n1 62 refused full\n"
# much memory at many nodes: each reads the anchor, makes objects and shows
CROWD = EIGHT + "0 write @main\n0 set @main 0 7\n0 done @main\n" + "".join(
    f"phase\n{node} read @main\n" + f"{node} show @main 0\n{node} new r1 main 32\n" * 1200 for node in range(8)
)
CROWD_TEXT = "".join(f"{node} {9 + 2402 * node + 2 * i} 7\n" for node in range(8) for i in range(1200))

OPEN, CLOSED, FULL_DEVICE, BROKEN, ENDLESS = "open", "closed", "full", "broken", "endless"


@dataclass
class Row:
    """A run: its words and script, how its streams are, and the text, code and line on standard error that are due."""

    what: str
    words: list
    script: str = ""
    text: str = ""
    code: int = 0
    error: str = ""
    stdin: str = OPEN
    stdout: str = OPEN
    stderr: str = OPEN


ROWS = [
    # the words
    Row("no word", [], FIRST, "", 2, "bmx: usage at word 0"),
    Row("another word", ["walk"], FIRST, "", 2, "bmx: usage at word 0"),
    Row("an empty word", [""], FIRST, "", 2, "bmx: usage at word 0"),
    Row("a word more", ["run", "run"], FIRST, "", 2, "bmx: usage at word 1"),
    Row("an option that isn't there", ["run", "--help"], FIRST, "", 2, "bmx: usage at word 1"),
    Row("a word that isn't UTF-8", [b"\xff"], FIRST, "", 2, "bmx: usage at word 0"),
    Row("a later word that isn't UTF-8", ["run", b"run\xff"], FIRST, "", 2, "bmx: usage at word 1"),
    Row("a wrong word before one that isn't UTF-8", ["walk", b"\xff"], FIRST, "", 2, "bmx: usage at word 0"),
    Row("a long word", ["r" * 100_000], FIRST, "", 2, "bmx: usage at word 0"),
    Row("a later long word", ["run", "u" * 300], FIRST, "", 2, "bmx: usage at word 1"),
    Row("wrong words wait for no input", ["walk"], "", "", 2, "bmx: usage at word 0", stdin=ENDLESS),
    # scripts
    Row("a first script", ["run"], FIRST, "0 7 5\n"),
    Row("the same without the last line feed", ["run"], FIRST[:-1], "0 7 5\n"),
    Row("a script of its head alone", ["run"], HEAD),
    Row("the largest object", ["run"], LARGEST, LARGEST_TEXT, 8),
    Row("refusals", ["run"], REFUSALS, REFUSALS_TEXT, 8),
    Row("a reference that is followed", ["run"], ANCHORED, ANCHORED_TEXT, 8),
    Row("objects without a place", ["run"], SEGMENT, SEGMENT_TEXT, 8),
    Row("no line at all", ["run"], "", "", 3, "bmx: line 1: end"),
    Row("no bunch", ["run"], "bmx 1\nnodes 1\n", "", 3, "bmx: line 3: end"),
    Row("another version", ["run"], "bmx 2\n", "", 3, "bmx: line 1: form"),
    Row("an integer out of range", ["run"], SIXTH + "0 set r0 0 9223372036854775808\n", "", 3, "bmx: line 6: range"),
    Row("an unknown command", ["run"], SIXTH + "0 sett r0 0 1\n", "", 3, "bmx: line 6: form"),
    Row("a node that isn't there", ["run"], SIXTH + "1 drop r0\n", "", 3, "bmx: line 6: range"),
    # many nodes
    Row("one reader", ["run"], ONE_READER, ONE_READER_TEXT),
    Row("two readers, and then two writers", ["run"], FOUR, FOUR_TEXT),
    Row("two writers that wait for each other", ["run"], STUCK, "", 7, "bmx: stuck"),
    Row("the same, and some text", ["run"], SHOWN_STUCK, SHOWN_STUCK_TEXT, 7, "bmx: stuck"),
    Row("a writer that waits for a token which is kept", ["run"], KEPT, "", 7, "bmx: stuck"),
    Row("refusals at a node without a copy", ["run"], FAR_REFUSALS, FAR_REFUSALS_TEXT, 8),
    Row("eight nodes raise one field", ["run"], RAISED, RAISED_TEXT),
    Row("names of two makers", ["run"], MAKERS, MAKERS_TEXT),
    Row("segments of each node's own", ["run"], OWN_SEGMENTS, OWN_SEGMENTS_TEXT, 8),
    Row("much text of eight nodes", ["run"], CROWD, CROWD_TEXT),
    Row("phases of no command", ["run"], HEAD + "phase\nquiet\nquiet\nphase\n0 same null 1\nquiet\n", "0 8 no\n"),
    Row("a quiet end while a token is held", ["run"], shared(2) + "phase\n1 read @main\nquiet\n1 show @main 0\n", "1 14 0.2\n"),
    Row("the most phases", ["run"], EIGHT + "quiet\n" * 19_997),
    Row("no node", ["run"], "bmx 1\nnodes 0\nbunch main\n", "", 3, "bmx: line 2: range"),
    Row("a ninth node", ["run"], "bmx 1\nnodes 9\nbunch main\n", "", 3, "bmx: line 2: range"),
    Row("nodes spelled otherwise", ["run"], "bmx 1\nnodes 02\nbunch main\n", "", 3, "bmx: line 2: form"),
    Row("a third node of two", ["run"], shared(2) + "2 drop r0\n", "", 3, "bmx: line 11: range"),
    Row("a phase before the bunch", ["run"], "bmx 1\nnodes 2\nphase\nbunch main\n", "", 3, "bmx: line 3: form"),
    Row("a limit behind a phase", ["run"], "bmx 1\nnodes 2\nbunch main\nphase\nsegments 2\n", "", 3, "bmx: line 5: form"),
    Row("a phase with a number", ["run"], shared(2) + "phase 2\n", "", 3, "bmx: line 11: form"),
    Row("a node that is to be quiet", ["run"], shared(2) + "1 quiet\n", "", 3, "bmx: line 11: form"),
    # the most of each
    Row("the most lines", ["run"], HEAD + "\n" * 19_997),
    Row("a line more", ["run"], HEAD + "\n" * 19_998, "", 3, "bmx: line 20001: long"),
    Row("the most bytes", ["run"], FULL),
    Row("a byte more", ["run"], FULL + "\n", "", 3, "bmx: line 1053: long"),
    Row("much text", ["run"], MANY, MANY_TEXT),
    # streams
    Row("no standard input", ["run"], "", "", 4, "bmx: read failed", stdin=CLOSED),
    Row("no standard output, and a text", ["run"], FIRST, "", 5, "bmx: write failed", stdout=CLOSED),
    Row("no standard output, and no text", ["run"], HEAD, stdout=CLOSED),
    Row("a full standard output", ["run"], LARGEST, "", 5, "bmx: write failed", stdout=FULL_DEVICE),
    Row("nobody reads the standard output", ["run"], FIRST, "", 5, "bmx: write failed", stdout=BROKEN),
    Row("a full standard output, and eight nodes", ["run"], CROWD, "", 5, "bmx: write failed", stdout=FULL_DEVICE),
    Row("a full standard output, stuck with some text", ["run"], SHOWN_STUCK, "", 7, "bmx: stuck", stdout=FULL_DEVICE),
    Row("no standard output, stuck with some text", ["run"], SHOWN_STUCK, "", 7, "bmx: stuck", stdout=CLOSED),
    *(
        Row(f"{what}, standard error {stderr}", words, script, text, code, "", stdin, stdout, stderr)
        for stderr in (CLOSED, FULL_DEVICE)
        for what, words, script, text, code, stdin, stdout in (
            ("done", ["run"], FIRST, "0 7 5\n", 0, OPEN, OPEN),
            ("wrong words", ["walk"], FIRST, "", 2, OPEN, OPEN),
            ("a bad script", ["run"], "", "", 3, OPEN, OPEN),
            ("no standard input", ["run"], "", "", 4, CLOSED, OPEN),
            ("a full standard output", ["run"], FIRST, "", 5, OPEN, FULL_DEVICE),
            ("refusals", ["run"], REFUSALS, REFUSALS_TEXT, 8, OPEN, OPEN),
            ("stuck", ["run"], SHOWN_STUCK, SHOWN_STUCK_TEXT, 7, OPEN, OPEN),
        )
    ),
]


# what an ending of an example writes to standard error
ERRORS = {0: "", 7: "bmx: stuck", 8: ""}


def read(file):
    with open(file, encoding="utf-8") as opened:
        return opened.read()


def example(script):
    """The row of an example."""
    name = script.removesuffix(".bmx")
    code = int(read(f"{name}.code")) if os.path.isfile(f"{name}.code") else 0
    return Row(os.path.relpath(script, TOP), ["run"], read(script), read(f"{name}.out"), code, ERRORS[code])


EXAMPLES = [example(script) for script in sorted(glob.glob(f"{TOP}/examples/*.bmx"))]


def start(program, row, limit=None):
    """Runs a row, and returns its text, exit code and standard error."""

    def before():
        for number, stream in enumerate((row.stdin, row.stdout, row.stderr)):
            if stream == CLOSED:
                os.close(number)
        if limit is not None:
            resource.setrlimit(resource.RLIMIT_AS, (limit, limit))

    opened = []

    def stream_of(kind, flags):
        if kind == FULL_DEVICE:
            opened.append(os.open("/dev/full", flags))
            return opened[-1]
        if kind == BROKEN:
            reader, writer = os.pipe()
            os.close(reader)
            opened.append(writer)
            return writer
        return subprocess.PIPE

    how = {"stdin": subprocess.PIPE, "stdout": stream_of(row.stdout, os.O_WRONLY), "stderr": stream_of(row.stderr, os.O_WRONLY)}
    run = subprocess.Popen([program, *row.words], preexec_fn=before, **how)
    for number in opened:
        os.close(number)
    try:
        if row.stdin == ENDLESS:
            run.wait(SECONDS)
        text, error = run.communicate(row.script.encode(), timeout=SECONDS)
    except subprocess.TimeoutExpired:
        run.kill()
        run.communicate()
        return None
    return (text or b"").decode(errors="replace"), run.returncode, (error or b"").decode(errors="replace")


def fault_of(program, row):
    """What is wrong with a run, or None."""
    ended = start(program, row)
    if ended is None:
        return f"it had not ended after {SECONDS} seconds"
    due = (row.text, row.code, row.error + "\n" if row.error else "")
    for name, value, wanted in zip(("text", "code", "standard error"), ended, due):
        if value != wanted:
            return f"its {name} is {str(value)[:200]!r}, and not {str(wanted)[:200]!r}"
    return None


def fault_for_memory(program, script, whole):
    """What is wrong with runs of a script that get less and less memory, or None.

    Each writes its whole text, or ends for want of memory with some whole lines of it. One whose code can't be loaded in
    that memory tells nothing. Among them are runs that end so with no text, and with some.
    """
    row, texts = Row("much text", ["run"], script), []
    for limit in [mib << 20 for mib in range(64, 0, -1)]:
        try:
            ended = start(program, row, limit)
        except (OSError, subprocess.SubprocessError):
            break
        if ended is None:
            return f"with {limit} bytes it had not ended after {SECONDS} seconds"
        text, code, error = ended
        if code == 0 and text == whole and not error:
            continue
        if code != 1 or not error.startswith("bmx: "):
            break
        if error != "bmx: no memory\n" or not (whole.startswith(text) and (not text or text.endswith("\n"))):
            return f"with {limit} bytes its text is {text[-200:]!r}, and its standard error {error!r}"
        texts.append(text)
    if not any(texts) or all(texts):
        return f"of {len(texts)} runs that found no memory {sum(map(bool, texts))} have a text, and some should, but not all"
    return None


def faults_of(program, is_whole):
    """What is run, of the examples alone or the whole table, each with what is wrong with it or None."""
    found = [(row.what, fault_of(program, row)) for row in (ROWS if is_whole else []) + EXAMPLES]
    if is_whole:
        found.append(("less and less memory", fault_for_memory(program, MANY, MANY_TEXT)))
        found.append(("less and less memory, and eight nodes", fault_for_memory(program, CROWD, CROWD_TEXT)))
    return found


def main():
    is_whole = sys.argv[1:2] != ["--examples"]
    programs = sys.argv[1 if is_whole else 2 :] or [it for it in BUILT if os.path.isfile(it)]
    if not programs:
        sys.exit(f"runs: no program is built: {BUILT[0]}")
    faults = 0
    for program in programs:
        found = faults_of(program, is_whole)
        for what, fault in found:
            if fault:
                print(f"runs: {program}: {what}: {fault}")
                faults += 1
        print(f"runs: {program}: {len(found)} runs")
    print(f"runs: {len(programs)} programs, {faults} runs differ")
    return 1 if faults else 0


if __name__ == "__main__":
    sys.exit(main())

#!/usr/bin/env python3
"""Tells what scripts of 2,000 and of 20,000 lines take at 1, 2 and 8 nodes: processor time, best of 15 runs, and memory.

  bench/lines.py PROGRAM      PROGRAM is the built bmx

The nodes go on side by side, make objects and contend for the anchor, which refers to some of them. The ratio is that of
both times in one run of this bench, each less the time of a script of its head alone; a ratio of 10 is growth in step.
Memory is what the longer script takes beyond one of its head alone, for each line; a line is one event or, where nodes
contend, some of them, each with its letters, and all are kept until the end.
"""
import resource
import subprocess
import sys
import tempfile

FEW, MANY = 2_000, 20_000

# What a node does in a round: it makes an object, hangs it into the anchor and reads it again.
ROUND = [
    "new r0 main 2",
    "write r0",
    "set r0 0 r1",
    "set r0 1 7",
    "done r0",
    "write @main",
    "get r1 @main {node}",
    "set @main {node} r0",
    "done @main",
    "read r0",
    "show r0 1",
    "same r0 r1",
    "done r0",
]


def script(nodes, lines):
    text = ["bmx 1", f"nodes {nodes}", "bunch main"]
    rounds = [f"{node} " + line.format(node=node) for node in range(nodes) for line in ROUND]
    while len(text) + len(rounds) <= lines:
        text += rounds
    if len(text) > 3:
        text += ["0 drop r15"] * (lines - len(text))
    return ("\n".join(text) + "\n").encode()


def run(program, text):
    done = subprocess.run([program, "run"], input=text, stdout=subprocess.PIPE, stderr=subprocess.PIPE)
    if done.returncode != 0:
        sys.exit(f"status {done.returncode}: {done.stderr.decode()}")


def spent():
    """The processor time of all programs that were run."""
    usage = resource.getrusage(resource.RUSAGE_CHILDREN)
    return usage.ru_utime + usage.ru_stime


def best(program, text, runs=15):
    times = []
    for _ in range(runs):
        start = spent()
        run(program, text)
        times.append(spent() - start)
    return min(times)


def peak(program, text):
    """The peak of its memory in bytes. A child's peak counts what its parent had, so a small program runs it."""
    with tempfile.TemporaryFile() as file:
        file.write(text)
        file.seek(0)
        words = ["/usr/bin/time", "-f", "%M", program, "run"]
        done = subprocess.run(words, stdin=file, stdout=subprocess.DEVNULL, stderr=subprocess.PIPE)
    return int(done.stderr.split()[-1]) * 1024


def main():
    if len(sys.argv) != 2:
        sys.exit(__doc__)
    program = sys.argv[1]
    print(f"nodes  {FEW:>7,} lines  {MANY:>7,} lines  ratio  {MANY:>7,} lines  for each line")
    for nodes in (1, 2, 8):
        start, few, many = (best(program, script(nodes, lines)) for lines in (3, FEW, MANY))
        ratio = (many - start) / max(few - start, 1e-6)
        whole, head = peak(program, script(nodes, MANY)), peak(program, script(nodes, 3))
        print(
            f"{nodes:>5}  {few * 1000:>10.1f} ms  {many * 1000:>10.1f} ms  {ratio:>5.1f}"
            f"  {whole / 1e6:>10.1f} MB  {(whole - head) / MANY:>7.0f} bytes"
        )


if __name__ == "__main__":
    main()

"""Follows the output of `rt ci`: prints one line for each step that ends, with how far the gate is, and all that was said
of a step that failed. The whole output goes to the file LOG that the first argument names, and to LOG.seconds the processor
seconds of each crate, a line `SECONDS CRATE` for each (tools/times).
"""

import os
import re
import sys
import threading
import time
from pathlib import Path

TICKS = os.sysconf("SC_CLK_TCK")


def crates(path):
    """The names of the crates in crates.txt."""
    with open(path, encoding="utf-8") as lines:
        return [line.split(":")[0].split()[0] for line in lines if line.strip() and not line.startswith("#")]


def processes():
    """Each process: its number, its parent's, and its processor time."""
    for folder in Path("/proc").glob("[0-9]*"):
        try:
            words = (folder / "stat").read_text(encoding="utf-8", errors="replace").rpartition(")")[2].split()
        except OSError:
            continue
        yield int(folder.name), int(words[1]), sum(map(int, words[11:13])) / TICKS


def crate_of(process):
    """The crate in whose folder a process runs, or None."""
    try:
        found = re.search(r"/crates/(\w+)$", os.readlink(f"/proc/{process}/cwd"))
    except OSError:
        return None
    return found and found[1]


def sample(seconds):
    """Notes the processor time of each process below this one's parent that runs in the folder of a crate. What ends within a second
    is lost."""
    found = {process: (parent, spent) for process, parent, spent in processes()}
    for process, (above, spent) in found.items():
        crate = crate_of(process)
        while above in found and above != os.getppid():
            above = found[above][0]
        if crate and above == os.getppid():
            seconds[process, crate] = spent


def watch(seconds, ended):
    while not ended.wait(1):
        sample(seconds)


def follow(whole):
    """Prints what the gate says, and copies it to a file."""
    names, proved = crates("crates.txt"), set()
    start, block = time.monotonic(), None
    for line in sys.stdin:
        whole.write(line)
        whole.flush()
        if line.startswith("== "):
            block = [line]
            continue
        ended = re.match(r"rt: (\w+)(: its tests are)? (?:(NOT )?(proved|PROVED)|is kept)", line)
        if block is not None and not ended:
            block.append(line)
            continue
        if ended:
            if ended[3] and block:
                print("".join(block), end="")
            if not ended[2]:
                proved.add(ended[1])
            minutes = (time.monotonic() - start) / 60
            line = f"[crate {len(proved)} of {len(names)}, {minutes:.0f} min] {line[len('rt: '):]}"
            block = None
        print(line, end="", flush=True)


def main(log):
    seconds, ended, spent = {}, threading.Event(), {}
    threading.Thread(target=watch, args=(seconds, ended), daemon=True).start()
    with open(log, "w", encoding="utf-8") as whole:
        follow(whole)
    ended.set()
    for (_, crate), one in list(seconds.items()):
        spent[crate] = spent.get(crate, 0) + one
    lines = (f"{one:.0f} {crate}\n" for crate, one in sorted(spent.items()))
    Path(f"{log}.seconds").write_text("".join(lines), encoding="utf-8")


if __name__ == "__main__":
    main(sys.argv[1])

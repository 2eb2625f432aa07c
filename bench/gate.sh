#!/usr/bin/env bash
# Runs the gate in a fresh clone, and tells what it cost: processor minutes by kind of pass, the dearest crates, and the longest chain
# of proofs, one crate on another.
#
#   bench/gate.sh           what earlier runs on this machine kept is taken from them, and costs nothing
#   bench/gate.sh --anew    all is proved and tried again
set -eu
top=$(cd "$(dirname "$0")/.." && pwd)
room=$(mktemp -d)
trap 'rm -rf "$room"' EXIT
git clone --quiet "$top" "$room/clone"
python3 - "$room/clone" "$@" <<'PYTHON'
import os, re, subprocess, sys, threading, time

clone, flags = sys.argv[1], sys.argv[2:]
spent = {}  # process: (kind of pass, crate, seconds)
ticks = os.sysconf("SC_CLK_TCK")


def look():
    """Notes what each process of the prover has taken so far, with its children."""
    for process in filter(str.isdigit, os.listdir("/proc")):
        try:
            with open(f"/proc/{process}/cmdline", "rb") as it:
                words = it.read().decode(errors="replace").split("\0")
            if not words[0].endswith("/rattle") or "--crate-name" not in words:
                continue
            with open(f"/proc/{process}/stat") as it:
                fields = it.read().rsplit(")", 1)[1].split()
            crate = words[words.index("--crate-name") + 1]
            within = os.readlink(f"/proc/{process}/cwd")
        except OSError:
            continue
        seconds = sum(int(it) for it in fields[11:15]) / ticks
        text = " ".join(words)
        kind = "edits, with the checks that they begin with" if "rt-edit" in within else "tests" if "_tests.o" in text else "proofs"
        spent[process, crate, kind] = (kind, crate, seconds)


def watch(stop):
    while not stop.wait(0.5):
        look()


stop = threading.Event()
watcher = threading.Thread(target=watch, args=(stop,))
watcher.start()
began = time.time()
status = subprocess.run(["rt", "ci", *flags], cwd=clone).returncode
stop.set()
watcher.join()

kinds, proofs, crates = {}, {}, {}
for kind, crate, seconds in spent.values():
    kinds[kind] = kinds.get(kind, 0) + seconds
    crates[crate] = crates.get(crate, 0) + seconds
    if kind == "proofs":
        proofs[crate] = proofs.get(crate, 0) + seconds
below = {}
with open(f"{clone}/crates.txt") as it:
    for line in it:
        found = re.match(r"([a-z0-9_]+)[^:#]*:(.*)", line)
        if found:
            below[found[1]] = found[2].split()


def chain(crate, known={}):
    if crate not in known:
        longest = max((chain(it) for it in below.get(crate, []) if it in below), default=(0, []))
        known[crate] = (longest[0] + proofs.get(crate, 0), longest[1] + [crate])
    return known[crate]


total = sum(kinds.values())
print(f"gate: status {status}, {(time.time() - began) / 60:.1f} minutes by the clock, {total / 60:.1f} of processor time")
for kind, seconds in sorted(kinds.items(), key=lambda it: -it[1]):
    print(f"  {kind}: {seconds / 60:.1f} minutes")
seconds, names = max((chain(it) for it in below), default=(0, []))
print(f"longest chain of proofs: {seconds / 60:.1f} minutes, {' > '.join(names)}")
for crate, seconds in sorted(crates.items(), key=lambda it: -it[1])[:10]:
    print(f"  {crate}: {seconds:.0f} s with all its passes")
sys.exit(status)
PYTHON

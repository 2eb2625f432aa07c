#!/usr/bin/env bash
# Time and peak memory of `earliest` over 64 stamps and 256 objects, of which 20 are certificates and 5 CRLs. Each signature of a
# certificate or CRL is verified once for each issuer of its name, which is one here, so 25 are verified in a call, and none in a round.
# In the order `upwards` nearly each stamp takes a round of its own, and in `downwards` one round does all. The times are of the processor.
# Then the same over pools of an opponent, in which each certificate has the anchor's name as its subject's and its issuer's: `strangers` are
# signed by no key, and `insiders` by a key under an anchor, which each of them holds too, so that each pair is verified.
set -e
cd "$(dirname "$0")/../crates/benches"
rt run >/dev/null 2>&1
python3 - "${1:-$PWD/out/benches}" <<'END'
import resource, subprocess, sys
program, often = sys.argv[1], 50

def spent():
    used = resource.getrusage(resource.RUSAGE_CHILDREN)
    return used.ru_utime + used.ru_stime

# The seconds that it takes to build the objects and to find the times so often, and what is printed.
def run(order, count):
    before = spent()
    text = subprocess.run([program, order, str(count)], capture_output=True, text=True, check=True).stdout.strip()
    return spent() - before, text

for order in ("upwards", "downwards"):
    built, _ = min(run(order, 0) for _ in range(3))
    passed, text = min(run(order, often) for _ in range(3))
    print(f"{order}: {1000 * (passed - built) / often:.1f} ms for each call, after {built:.2f} s to make the objects; {text}")
for kind, counts in (("strangers", (64, 128, 253)), ("insiders", (16, 32, 64))):
    for count in counts:
        passed, text = run(kind, count)
        built, _ = run(kind, 0)
        print(f"{kind}: {passed - built:.2f} s for {count} certificates; {text}")
peak = resource.getrusage(resource.RUSAGE_CHILDREN).ru_maxrss / 1024
print(f"peak memory: {peak:.1f} MB, with the keys and the objects")
END

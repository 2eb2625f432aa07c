#!/usr/bin/env bash
# Processor time and peak memory of `xades prepare` and `xades attach` on a document of 16 MB, item by item and with 64 items in one call,
# beside `xades canon` of the same file; and of `xades octets for=archive` with 16 References beside `canon` of its parts, each a file of its
# own. Times are the best of three, for 64 items the one of one run.
here=$(cd "$(dirname "${BASH_SOURCE[0]}")/.." && pwd) || exit 2
room=$(mktemp -d) || exit 2
trap 'rm -rf "$room"' EXIT
"$here/xades" canon doc="$here/crates/xades/data/a" >/dev/null || exit 1
(cd "$here/crates/outside_signer" && rt run -- policy >/dev/null 2>&1) || exit 1
cd "$room" || exit 2
python3 - "$here/crates/xades/out/xades" "$here/crates/outside_signer/out/outside_signer" <<'END'
import os, sys
xades, signer = sys.argv[1:]
POLICY = "policy=policy"
LATER = "at=2030-04-01T00:00:00Z"
DRAFT = [POLICY, "cert=certificate", "time=2030-01-15T00:00:00Z", "id=s", "method=urn:sample:hss", "digest=sha256"]

# Runs a program with its output in a file; the processor time of the best of some runs, and the peak memory in MB.
def spent(to, program, *words, runs=1):
    best = None
    for run in range(runs):
        process = os.posix_spawn(program, [program, *words], os.environ,
            file_actions=[(os.POSIX_SPAWN_OPEN, 1, to, os.O_WRONLY | os.O_CREAT | os.O_TRUNC, 0o600)])
        _, status, used = os.wait4(process, 0)
        if status:
            sys.exit(f"{' '.join(words[:6])}: status {os.waitstatus_to_exitcode(status)}")
        passed = used.ru_utime + used.ru_stime
        best = passed if best is None else min(best, passed)
    return best, used.ru_maxrss / 1024

# Measures the program, and prints it.
def measure(name, to, *words, runs=3):
    seconds, peak = spent(to, xades, *words, runs=runs)
    print(f"  {name:36} {seconds:7.3f} s {peak:7.1f} MB {os.path.getsize(to):10} bytes")
    return seconds

LINE = ('  <cac:InvoiceLine state="open">\n    <cbc:ID>12</cbc:ID>\n    <cbc:InvoicedQuantity unitCode="KGM">3.5</cbc:InvoicedQuantity>\n'
    '    <cac:Item><cbc:Name>Pens &amp; paper, what was bought, when, of whom, and what is owed for it</cbc:Name></cac:Item>\n'
    '  </cac:InvoiceLine>\n')
SPACES = 'xmlns:inv="urn:example:invoice:2" xmlns:cac="urn:example:aggregate:2" xmlns:cbc="urn:example:basic:2"'

def make_document(name, parts, most):
    count = most // parts // len(LINE)
    with open(name, "w") as file:
        file.write(f"<inv:Invoice {SPACES}>\n")
        for part in range(parts):
            file.write(f'<inv:Part Id="p{part}">\n' + LINE * count + "</inv:Part>\n")
        file.write("</inv:Invoice>\n")
    with open("part", "w") as file:
        file.write(f'<inv:Part {SPACES} Id="p0">\n' + LINE * count + "</inv:Part>\n")
    return os.path.getsize(name)

# The document `bill` with a value, by References.
def sign(references):
    spent("prepared", xades, "prepare", "doc=bill", *DRAFT, *references)
    spent("to_sign", xades, "octets", "doc=prepared", "for=signature")
    spent("value", signer, "value", "to_sign")
    spent("signed", xades, "attach", "doc=prepared", POLICY, LATER, "value=value")
    spent("to_stamp", xades, "octets", "doc=signed", "for=stamp")
    spent("token", signer, "token", "1", "to_stamp", "2030-02-01T00:00:00Z")

spent("policy", signer, "policy")
spent("certificate", signer, "certificate")
spent("lists", signer, "lists")

print(f"one Reference, {make_document('bill', 1, 15_900_000)} bytes")
sign(["ref="])
print(f"  (the token has {os.path.getsize('token')} bytes)")
canon = measure("canon", "canonical", "canon", "doc=bill")
measure("prepare", "prepared", "prepare", "doc=bill", *DRAFT, "ref=")
measure("attach value=", "signed", "attach", "doc=prepared", POLICY, LATER, "value=value")
measure("attach stamp=", "stamped", "attach", "doc=signed", POLICY, LATER, "stamp=token")
measure("attach data=", "lasting", "attach", "doc=stamped", POLICY, LATER, "data=lists")
measure("octets for=archive", "to_archive", "octets", "doc=lasting", "for=archive")
spent("token2", signer, "token", "2", "to_archive", "2030-03-01T00:00:00Z")
measure("attach archive=", "archived", "attach", "doc=lasting", POLICY, LATER, "archive=token2")
many = ["stamp=token"] * 62 + ["data=lists"] * 2
measure("attach, 64 items in one call", "many", "attach", "doc=signed", POLICY, LATER, *many, runs=1)

print(f"16 References, {make_document('bill', 15, 15_900_000)} bytes")
sign([f"ref=#p{part}" for part in range(15)])
spent("stamped", xades, "attach", "doc=signed", POLICY, LATER, "stamp=token")
archive = measure("octets for=archive", "to_archive", "octets", "doc=stamped", "for=archive")
parts = 15 * measure("canon of one of 15 parts", "canonical", "canon", "doc=part")
print(f"  ratio of the times to the sum of canon of the parts: {archive / parts:.2f}")
END

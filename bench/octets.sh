#!/usr/bin/env bash
# Time and peak memory of `xades octets … for=signature` on documents with more and more References, each to an element of its own by its
# identifier, and as many elements that none names. The times are of the processor, the best of three; each should be about twice the one
# above it.
here=$(cd "$(dirname "${BASH_SOURCE[0]}")/.." && pwd) || exit 2
room=$(mktemp -d) || exit 2
trap 'rm -rf "$room"' EXIT
"$here/xades" canon doc="$here/crates/xades/data/a" >/dev/null || exit 1
python3 - "$here/crates/xades/out/xades" "$here/crates/command_tests/src/octets.rt" "$room" <<'END'
import os, re, resource, subprocess, sys
program, tests, room = sys.argv[1:]

# The two halves of the signed document of the tests, around the value.
def constant(name):
    text = re.search(r'const %s: &str =\s*"(.*?)";' % name, open(tests).read(), re.S).group(1)
    return text.replace("\\\n", "").replace("\\n", "\n").replace('\\"', '"')

front, behind = constant("FRONT"), constant("BEHIND")
reference = re.search(r'<ds:Reference Id="r3".*?</ds:Reference>\n', front, re.S).group(0)
form = re.search(r'<xades:DataObjectFormat ObjectReference="#r3">.*?</xades:DataObjectFormat>', behind, re.S).group(0)

def document(count):
    numbers = range(count)
    elements = "".join(f'<p Id="p{n}">{n}</p><q Id="q{n}"/>' for n in numbers)
    references = "".join(reference.replace('"r3"', f'"n{n}"').replace('URI="e"', f'URI="#p{n}"') for n in numbers)
    forms = "".join(form.replace("#r3", f"#n{n}") for n in numbers)
    start = front.replace("<bill>", "<bill>" + elements).replace(reference, references)
    return start + behind.replace(form, forms)

def spent():
    used = resource.getrusage(resource.RUSAGE_CHILDREN)
    return used.ru_utime + used.ru_stime

for count in (2000, 4000, 8000, 16000):
    path = os.path.join(room, "document.xml")
    open(path, "w").write(document(count))
    best = None
    for run in range(3):
        before = spent()
        done = subprocess.run([program, "octets", f"doc={path}", "for=signature"], capture_output=True)
        passed = spent() - before
        best = passed if best is None else min(best, passed)
    peak = resource.getrusage(resource.RUSAGE_CHILDREN).ru_maxrss / 1024
    said = done.stderr.decode().strip()
    print(f"{count:6} References, {os.path.getsize(path):9} bytes: {best:7.3f} s, peak so far {peak:6.1f} MB, "
        f"status {done.returncode}, {len(done.stdout)} octets {said}")
END

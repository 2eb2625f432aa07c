#!/usr/bin/env bash
# Time and peak memory of `xades canon` on documents of 1 MB and of 16 MB, by both forms with comments, beside `xmllint --exc-c14n` and
# `--c14n` where that is installed, with the ratio of the times. The documents are plain ones, and ones with namespaces and attributes.
here=$(cd "$(dirname "${BASH_SOURCE[0]}")/.." && pwd) || exit 2
room=$(mktemp -d) || exit 2
trap 'rm -rf "$room"' EXIT

# a document of a kind and of about so many bytes: elements inside each other and beside each other, and text with line ends
make_document() {
    python3 - "$1" "$2" <<'END'
import sys
kind, most = sys.argv[1], int(sys.argv[2])
text = "what was bought, when it was bought, of whom, by whom, and what is owed for it, less what was paid > " * 2
if kind == "plain":
    opening, closing = "<invoice>\n", "</invoice>"
    line = "<line><number>12</number><text>" + text + "</text><empty/></line>\n"
else:
    opening = ('<?xml version="1.0" encoding="UTF-8"?>\n<inv:Invoice xmlns:inv="urn:example:invoice:2" xmlns="urn:example:common:2" '
        'xmlns:cac="urn:example:aggregate:2" xmlns:cbc="urn:example:basic:2" xml:lang="de">\n')
    closing = "</inv:Invoice>"
    line = ('  <cac:InvoiceLine id="l12" cbc:scheme="seller" state="open">\r\n    <cbc:ID>12</cbc:ID>\r\n'
        '    <cbc:InvoicedQuantity unitCode="KGM">3.5</cbc:InvoicedQuantity>\r\n'
        '    <cbc:LineExtensionAmount currencyID="EUR">17.20</cbc:LineExtensionAmount>\r\n'
        '    <cac:Item><cbc:Name>Pens &amp; paper, gro\u00df</cbc:Name><!-- as ordered --><Note xmlns="" kind="x">' + text[:90] + '</Note></cac:Item>\r\n'
        '  </cac:InvoiceLine>\n')
size = lambda s: len(s.encode())
count = (most - size(opening) - size(closing)) // size(line)
sys.stdout.buffer.write((opening + line * count + closing).encode())
END
}

# runs the words with their output in a file; prints a name, the seconds of the best of three runs, the peak memory in MB and the bytes that
# came out, and keeps the seconds in a file
measure() {
    python3 - "$@" <<'END'
import resource, subprocess, sys, time
name, to, words = sys.argv[1], sys.argv[2], sys.argv[3:]
best = None
for run in range(3):
    with open(to, "wb") as out:
        before = time.time()
        status = subprocess.run(words, stdout=out).returncode
        passed = time.time() - before
        size = out.seek(0, 2)
    best = passed if best is None else min(best, passed)
peak = resource.getrusage(resource.RUSAGE_CHILDREN).ru_maxrss / 1024
print(f"{name:32} {best:8.3f} s {peak:8.1f} MB {size:10} bytes, status {status}")
open(to + ".seconds", "w").write(str(best))
END
}

# our form's word, and xmllint's word for it
compare() {
    measure "  xades canon $1" "$room/ours" "$here/crates/xades/out/xades" canon "doc=$room/document.xml" "$1" comments=yes
    if command -v xmllint >/dev/null; then
        measure "  xmllint $2" "$room/theirs" xmllint --huge "$2" "$room/document.xml"
        cmp "$room/ours" "$room/theirs" && echo "  the same bytes"
        python3 -c "import sys; a, b = (float(open(p).read()) for p in sys.argv[1:]); print(f'  ratio of the times: {a / b:.2f}')" "$room/ours.seconds" "$room/theirs.seconds"
    else
        echo "  xmllint isn't installed"
    fi
}

"$here/xades" canon doc="$here/crates/xades/data/a" >/dev/null || exit 1
for kind in plain namespaces; do
    for size in 1000000 16000000; do
        make_document "$kind" "$size" >"$room/document.xml"
        echo "$kind: a document of $(wc -c <"$room/document.xml") bytes"
        compare form=exclusive --exc-c14n
        compare form=inclusive --c14n
    done
done

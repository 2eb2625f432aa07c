#!/usr/bin/env bash
# Runs `xades canon` by all forms over the XML files that are given as arguments, and compares the bytes with those of xmllint (which writes
# comments) and of python3's lxml, where these are installed. It prints each file and form on which they differ, and counts. A file that
# `xades canon` refuses, as one with a document type declaration, is counted apart. docs/DECISIONS.md explains the kinds of differences.
here=$(cd "$(dirname "${BASH_SOURCE[0]}")/.." && pwd) || exit 2
"$here/xades" canon doc="$here/crates/xades/data/a" >/dev/null || exit 1
python3 - "$here/crates/xades/out/xades" "$@" <<'END'
import shutil, subprocess, sys
ours, files = sys.argv[1], sys.argv[2:]
try:
    from lxml import etree
except ImportError:
    etree = None
    print("lxml isn't installed")
xmllint = shutil.which("xmllint")
if not xmllint:
    print("xmllint isn't installed")

def run(words):
    done = subprocess.run(words, capture_output=True)
    return done.stdout if done.returncode == 0 else None

def by_lxml(file, inclusive, comments):
    parser = etree.XMLParser(huge_tree=True, resolve_entities=False)
    try:
        tree = etree.parse(file, parser)
    except etree.XMLSyntaxError:
        return None
    return etree.tostring(tree, method="c14n", exclusive=not inclusive, with_comments=comments)

counts = {"same": 0, "differ": 0, "refused by us alone": 0, "refused by both": 0, "refused by the other alone": 0}
def judge(file, form, tool, a, b):
    if a is None and b is None:
        kind = "refused by both"
    elif a is None:
        kind = "refused by us alone"
    elif b is None:
        kind = "refused by the other alone"
    else:
        kind = "same" if a == b else "differ"
    counts[kind] += 1
    if kind not in ("same", "refused by both"):
        print(f"{file}: {form}, {tool}: {kind}")

for file in files:
    for inclusive in (False, True):
        for comments in (False, True):
            form = f"form={'inclusive' if inclusive else 'exclusive'}", f"comments={'yes' if comments else 'no'}"
            text = run([ours, "canon", f"doc={file}", *form])
            if xmllint and comments:
                judge(file, " ".join(form), "xmllint", text, run([xmllint, "--huge", "--c14n" if inclusive else "--exc-c14n", file]))
            if etree:
                judge(file, " ".join(form), "lxml", text, by_lxml(file, inclusive, comments))
print(", ".join(f"{number} {kind}" for kind, number in counts.items()))
END

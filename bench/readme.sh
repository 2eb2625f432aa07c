#!/usr/bin/env bash
# Runs the lines of README.md's worked example as they stand, in a fresh folder, and compares what the README says that they print. What comes
# from outside is made by the program of the crate outside_signer as soon as a line names it.
here=$(cd "$(dirname "${BASH_SOURCE[0]}")/.." && pwd) || exit 2
room=$(mktemp -d) || exit 2
trap 'rm -rf "$room"' EXIT
"$here/xades" canon doc="$here/crates/xades/data/a" >/dev/null || exit 1
(cd "$here/crates/outside_signer" && rt run -- policy >/dev/null 2>&1) || exit 1
ln -s "$here/xades" "$room/xades"
python3 - "$here" "$room" <<'END'
import os, re, subprocess, sys
here, room = sys.argv[1:]
signer = os.path.join(here, "crates/outside_signer/out/outside_signer")

# What the files from outside are made by: words of the signer, or the octets themselves.
outside = {
    "terms.txt": b"Payment within 30 days.\n",
    "policy.toml": ["policy"],
    "signer.der": ["certificate"],
    "value": ["value", "to_sign"],
    "token": ["token", "1", "to_stamp", "2030-02-01T00:00:00Z"],
    "lists.der": ["lists"],
    "token2": ["token", "2", "to_archive", "2030-03-01T00:00:00Z"],
}

def put(name, octets):
    with open(os.path.join(room, name), "wb") as file:
        file.write(octets)

def make_missing(line):
    for name in re.findall(r"=([A-Za-z0-9_.]+)(?= |$)", line):
        if name in outside and not os.path.exists(os.path.join(room, name)):
            made = outside[name]
            put(name, made if isinstance(made, bytes) else subprocess.run([signer, *made], cwd=room, check=True, stdout=subprocess.PIPE).stdout)

text = open(os.path.join(here, "README.md")).read().split("### A worked example\n")[1].split("\n### ")[0]
shell = subprocess.Popen(["bash"], cwd=room, stdin=subprocess.PIPE, stdout=subprocess.PIPE, stderr=subprocess.STDOUT)
mark = "the line has ended with"

# What a line prints, and its status; all lines are those of one shell.
def run(line):
    shell.stdin.write(f"{line}\n__status=$?; echo; echo '{mark}' $__status; (exit $__status)\n".encode())
    shell.stdin.flush()
    printed = b""
    while True:
        part = shell.stdout.readline()
        if not part:
            sys.exit("the shell has ended")
        if part.startswith(mark.encode()):
            return printed[:-1].decode(), int(part.split()[-1])
        printed += part

differing = count = 0
for block in re.findall(r"^```\n(.*?)^```$", text, re.S | re.M):
    for line, said in re.findall(r"^\$ (.*)\n((?:(?!\$ ).*\n)*)", block, re.M):
        count += 1
        if line.startswith("cat "):
            put(line[4:], said.encode())
        make_missing(line)
        printed, status = run(line)
        if line.startswith("./xades validate"):
            wrong = not printed.startswith("verdict: yes\n")
        else:
            wrong = printed.rstrip("\n") != said.rstrip("\n")
        if not said and not line.startswith("printf"):
            wrong = wrong or status != 0
        differing += wrong
        print(f"{'OTHER' if wrong else 'as said'}: {line}")
        if wrong:
            print(f"  status {status}, printed:\n{printed}")
print(f"{count} lines, {differing} with another result than the README tells")
sys.exit(differing > 0)
END

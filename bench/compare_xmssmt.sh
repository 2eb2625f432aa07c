#!/usr/bin/env bash
# Compares the roots to which made-up XMSS^MT signatures of all eight sets lead with those of a program that was written from RFC 8391
# alone. The signatures take up to 27,688 octets, so the gate's tests have those of the smaller sets only.
set -e
cd "$(dirname "$0")/../crates/benches"
rt run > /dev/null 2>&1
program=$PWD/out/benches
python3 ../../bench/xmssmt_roots.py | {
  same=0
  while read -r set idx step root; do
    got=$("$program" root "$set" "$idx" "$step")
    if [ "$got" = "$root" ]; then same=$((same + 1)); else echo "set $set, idx $idx: $got in place of $root"; fi
  done
  echo "$same of 12 roots the same"
  [ "$same" = 12 ]
}

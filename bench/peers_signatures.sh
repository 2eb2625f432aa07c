#!/usr/bin/env bash
# Has BouncyCastle (libbcprov-java) sign by XMSS^MT, XMSS and HSS, and compares its verdicts on these signatures and on altered ones with
# those of `algorithms::verify`. It takes BouncyCastle some minutes. The gate does not run this.
set -e
cd "$(dirname "$0")"
jar=/usr/share/java/bcprov.jar
[ -e "$jar" ] || { echo "$jar is not installed"; exit 2; }
(cd ../crates/benches && rt run > /dev/null 2>&1)
program=../crates/benches/out/benches
dir=$(mktemp -d)
trap 'rm -rf "$dir"' EXIT
javac -cp "$jar" -d "$dir" Signatures.java
java -cp "$jar:$dir" Signatures > "$dir/lines"
good=0 bad=0 other=0
while read -r wanted kind key message signature place name; do
  got=$("$program" verify "$kind" "$key" "$message" "$signature")
  if [ "$got" != "$wanted" ] || { [ "$place" = none ] && [ "$got" != good ]; }; then
    echo "$name, altered: $place: $got, by BouncyCastle $wanted"
    other=$((other + 1))
  elif [ "$got" = good ]; then
    good=$((good + 1))
    [ "$place" = none ] || echo "$name, altered: $place: good"
  else
    bad=$((bad + 1))
  fi
done < "$dir/lines"
echo "$good good and $bad bad by both, $other not the same"
[ "$other" = 0 ]

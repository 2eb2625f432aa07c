#!/usr/bin/env bash
# Has OpenSSL read a certificate, a revocation list and a time-stamp token that the sample world made. The gate does not run this.
set -eu
cd "$(dirname "$0")/../crates/benches"
command -v openssl >/dev/null || { echo "openssl is not installed"; exit 2; }
rt run >/dev/null 2>&1
dir=$(mktemp -d)
trap 'rm -rf "$dir"' EXIT

# Writes the object of that name as DER.
object() {
    out/benches "$1" | tr -d '\n' | sed 's/../\\x&/g' | while IFS= read -r text || [ -n "$text" ]; do printf '%b' "$text"; done >"$dir/$1.der"
    openssl asn1parse -inform DER -in "$dir/$1.der" >"$dir/$1.parse"
}

# What OpenSSL prints has to hold this text.
wants() {
    if grep -qF "$2" "$dir/$1"; then echo "as expected: $2"; else echo "missing: $2"; cat "$dir/$1"; exit 1; fi
}

object certificate
object list
object token
openssl x509 -inform DER -in "$dir/certificate.der" -noout -text >"$dir/certificate.text" 2>/dev/null
openssl crl -inform DER -in "$dir/list.der" -noout -text >"$dir/list.text" 2>/dev/null
openssl ts -reply -token_in -in "$dir/token.der" -token_out -text >"$dir/token.text"

wants certificate.text "Serial Number: 3 (0x3)"
wants certificate.text "Issuer: CN = K0"
wants certificate.text "Subject: CN = K2"
wants certificate.text "Not Before: Jan  1 00:00:00 2030 GMT"
wants certificate.text "Not After : Jan  1 00:00:00 2100 GMT"
wants certificate.text "Time Stamping"
wants list.text "Last Update: Jan  1 00:00:00 2030 GMT"
wants list.text "Next Update: Jan  1 00:00:00 2100 GMT"
wants list.text "Serial Number: 04"
wants list.text "Revocation Date: Jan  1 00:00:00 2030 GMT"
wants token.text "Policy OID: 1.3.6.1.4.1.99999.1"
wants token.text "Hash Algorithm: sha256"
wants token.text "ba 78 16 bf 8f 01 cf ea"
wants token.text "Serial number: 0x01"
wants token.text "Time stamp: Jan  1 00:00:00 2030 GMT"
echo "OpenSSL reads all three."

#!/usr/bin/env bash
# Has OpenSSL read the certificate and the CRL that the tests of x509_certs build. The gate does not run this.
# The tests say that what they build has exactly the bytes of WHOLE_CERTIFICATE and WHOLE_LIST.
set -eu
cd "$(dirname "$0")/.."
command -v openssl >/dev/null || { echo "openssl is not installed"; exit 2; }
tests=crates/x509_certs/src/tests.rt
dir=$(mktemp -d)
trap 'rm -rf "$dir"' EXIT

# The bytes of a constant of the tests.
bytes_of() {
    sed -n "/^const $1:/,/^\];/p" "$tests" | sed '1d;$d' | tr ',' '\n' | tr -d ' ' | sed '/^$/d' |
        while read -r number; do printf "\\x$(printf %02x "$((number))")"; done
}

bytes_of WHOLE_CERTIFICATE >"$dir/certificate.der"
bytes_of WHOLE_LIST >"$dir/list.der"

# What OpenSSL prints has to hold this text.
wants() {
    if grep -qF "$2" "$1"; then echo "as expected: $2"; else echo "missing: $2"; cat "$1"; exit 1; fi
}

openssl asn1parse -inform DER -in "$dir/certificate.der" >"$dir/certificate.parse"
openssl asn1parse -inform DER -in "$dir/list.der" >"$dir/list.parse"
openssl x509 -inform DER -in "$dir/certificate.der" -noout -text >"$dir/certificate.text" 2>/dev/null
openssl crl -inform DER -in "$dir/list.der" -noout -text >"$dir/list.text" 2>/dev/null

wants "$dir/certificate.text" "Version: 3 (0x2)"
wants "$dir/certificate.text" "Serial Number: 7 (0x7)"
wants "$dir/certificate.text" "Issuer: CN = K1"
wants "$dir/certificate.text" "Not Before: Jan  1 00:00:00 2030 GMT"
wants "$dir/certificate.text" "Not After : Jan  1 00:00:00 2070 GMT"
wants "$dir/certificate.text" "CA:TRUE, pathlen:3"
wants "$dir/certificate.text" "Certificate Sign"
wants "$dir/list.text" "Version 2 (0x1)"
wants "$dir/list.text" "Issuer: CN = K1"
wants "$dir/list.text" "Last Update: Apr  1 00:00:00 2030 GMT"
wants "$dir/list.text" "Next Update: NONE"
wants "$dir/list.text" "Revocation Date: Feb  1 00:00:00 2030 GMT"
wants "$dir/list.parse" "UTCTIME           :300201000000Z"
echo "OpenSSL reads both."

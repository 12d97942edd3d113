#!/usr/bin/env bash
# es256.sh KEYS < LINES > ACCEPTED: of the lines of `cose-ask --fields`, writes those with a good signature, by openssl and xxd. KEYS is a
# folder with public keys, KEYS/KID.pem with the key id in hex. It checks COSE_Sign1 with ES256 or EdDSA (Ed25519).
#
# It takes the algorithm of the protected header alone, for a key of this type, and leaves out each message with a critical label that it
# doesn't know, or without a key id; so these are refused.
set -u
[ $# -eq 1 ] || { echo "usage: es256.sh KEYS < LINES > ACCEPTED" >&2; exit 2; }
[ -d "$1" ] || { echo "es256.sh: $1: no such folder" >&2; exit 2; }
work=$(mktemp -d) || exit
trap 'rm -rf "$work"' EXIT

# Half of an ES256 signature, 64 hex digits, as an INTEGER of DER: without leading zero bytes, and positive.
integer() {
  local digits
  digits=$(sed 's/^\(00\)*//' <<<"$1")
  case $digits in '' | [89a-f]*) digits=00$digits ;; esac
  printf '02%02x%s' $((${#digits} / 2)) "$digits"
}

# An ES256 signature, r and s in 32 bytes each (RFC 9053, section 2.1), as openssl takes it.
der() {
  local both
  both=$(integer "${1:0:64}")$(integer "${1:64}")
  printf '30%02x%s' $((${#both} / 2)) "$both"
}

while read -r kind alg key_id crit _ _ _ _ _ covered signature record; do
  key=$1/${key_id#KID=}.pem
  [ "$kind" = Sign1 ] && [ "$crit" = CRIT=- ] && [[ $key_id =~ ^KID=[0-9a-f]+$ ]] && [ -f "$key" ] || continue
  kind_of_key=$(openssl pkey -pubin -in "$key" -noout -text 2>/dev/null | tr '\n' ' ')
  xxd -r -p <<<"$covered" >"$work/covered"
  case $alg/$kind_of_key in
    ALG=-7/*prime256v1*)
      [ ${#signature} -eq 128 ] || continue
      der "$signature" | xxd -r -p >"$work/signature"
      openssl dgst -sha256 -verify "$key" -signature "$work/signature" "$work/covered" ;;
    ALG=-8/*ED25519*)
      xxd -r -p <<<"$signature" >"$work/signature"
      openssl pkeyutl -verify -pubin -inkey "$key" -rawin -in "$work/covered" -sigfile "$work/signature" ;;
    *) false ;;
  esac >/dev/null 2>&1 && echo "$record"
done
exit 0

#!/bin/sh
# certificates.sh FOLDER NAME..  makes a certificate for each name, of an authority that is made if it is absent
#
# FOLDER/NAME.pem has the key too, and goes to the machine or the person of that name. FOLDER/ca.pem goes to all, and
# FOLDER/ca.key to nobody: who has it can make certificates.
set -eu
umask 077

folder=$1
shift
mkdir -p "$folder"
cd "$folder"

new() { # NAME DAYS BASIC OPTIONS
    name=$1 days=$2 basic=$3
    shift 3
    printf '[req]\ndistinguished_name=dn\nx509_extensions=it\n[dn]\n[it]\nbasicConstraints=critical,%s\n%s\n' "$basic" \
        "subjectAltName=DNS:$name" >"$name.cnf"
    openssl req -x509 -newkey ec -pkeyopt ec_paramgen_curve:P-256 -noenc -config "$name.cnf" -subj "/CN=$name" \
        -days "$days" -keyout "$name.key" -out "$name.crt" "$@" 2>"$name.said" || { cat "$name.said" >&2; exit 1; }
    rm "$name.cnf" "$name.said"
}

if [ ! -e ca.pem ]; then
    new ca 3650 CA:TRUE
    mv ca.crt ca.pem
    chmod 644 ca.pem
fi
for name in "$@"; do
    new "$name" 365 CA:FALSE -CA ca.pem -CAkey ca.key
    cat "$name.key" "$name.crt" >"$name.pem"
    rm "$name.key" "$name.crt"
done

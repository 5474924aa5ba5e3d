#!/bin/sh
# bring.sh FOLDER: checks the text of rten-vecmath 0.27.0 in FOLDER (exp.rs, tanh.rs, ..) against SHA256SUMS and copies it in.
set -eu
from=${1:-}
here=$(cd "$(dirname "$0")" && pwd)
if [ ! -d "$from" ]; then
    echo "bring.sh: the folder with the Rust text (exp.rs, tanh.rs, ..) is not there: give it as the argument" >&2
    exit 1
fi
if ! (cd "$from" && sha256sum --check --quiet --strict "$here/SHA256SUMS" >/dev/null 2>&1); then
    bad=$(cd "$from" && sha256sum --check --strict "$here/SHA256SUMS" 2>/dev/null | grep -v ': OK$' | tr '\n' ' ' || true)
    echo "bring.sh: not the text of rten-vecmath 0.27.0: $bad" >&2
    exit 1
fi
text=$here/crates/rten-vecmath/text
mkdir -p "$text"
while read -r _ name; do
    cp "$from/$name" "$text/$name"
    chmod u+w "$text/$name"
done < "$here/SHA256SUMS"

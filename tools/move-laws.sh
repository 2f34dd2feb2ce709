#!/usr/bin/env bash
# Moves specs/Laws of every crate to proofs/Laws, so that specs/ holds definitions and statements alone. No statement changes but for the module's path.
set -eu
cd "$(dirname "$0")/.."
for c in crates/*; do
    [ -d "$c/specs/Laws" ] || continue
    mkdir -p "$c/proofs"
    git mv "$c/specs/Laws" "$c/proofs/Laws"
    git mv "$c/specs/Laws.antt" "$c/proofs/Laws.antt"
    sed -i '/^pub mod Laws$/d' "$c/specs/Lib.antt"
    if [ -f "$c/proofs/Lib.antt" ]; then
        grep -q '^pub mod Laws$' "$c/proofs/Lib.antt" || sed -i '0,/^\(pub \)\?mod /s//pub mod Laws\n&/' "$c/proofs/Lib.antt"
    else
        echo 'pub mod Laws' >"$c/proofs/Lib.antt"
    fi
done
grep -rlE 'Rattle\.[a-z_]+\.specs\.Laws' crates --include='*.antt' --include='*.rt' --include='*.edit' | xargs sed -i -E 's/(Rattle\.[a-z_]+)\.specs\.Laws/\1.proofs.Laws/g'
sed -i 's#^file: specs/Laws/#file: proofs/Laws/#' crates/*/must-fail/*.edit

#!/usr/bin/env bash
# Proves and builds the engine as a static library, and measures it beside plain Rust in one process. `run.sh plain` leaves it out.
set -euo pipefail
cd "$(dirname "$0")"
export RUSTFLAGS='-C target-cpu=x86-64-v2'
if [ "${1:-}" = plain ]; then
    exec cargo run --quiet --release --offline
fi

# What `benchlib` stands on, and itself, side by side in a copy: the gate has no use for a library that only this program calls.
below='packing column stats node sample scheme constant levels holds calls bank opening select choice children cascade emit reading
compressor binder stern frame runs dict banks'
copy=target/rattle
for crate in $below; do
    mkdir -p "$copy/crates/$crate"
    for part in src specs proofs; do
        rm -rf "$copy/crates/$crate/$part"
        cp -r "../crates/$crate/$part" "$copy/crates/$crate/"
    done
done
mkdir -p "$copy/crates/benchlib/src"
cp benchlib/lib.rt.txt "$copy/crates/benchlib/src/lib.rt"
{
    for crate in $below; do grep "^$crate:" ../crates.txt; done
    echo "benchlib staticlib:" $below
} > "$copy/crates.txt"
git -C "$copy" init -q
(cd "$copy/crates/benchlib" && rt lib > ../../log 2>&1) || { tail -20 "$copy/log"; exit 1; }
BENCHLIB=$(cd "$copy/crates/benchlib/out" && pwd) exec cargo run --quiet --release --offline --features proved

#!/bin/sh
# Times the library against bench/plain.rs and the lister against bench/lister.rs; bench/README.md says how. Both on this machine's own processor and, on
# x86-64, where the tools are there, the library also as an Arm program under an emulator.
set -eu
cd "$(dirname "$0")/.."
. tests/face.d/tools

miss() {
    echo "bench: $1" >&2
    exit 2
}

has rt || miss "the Rattle toolchain's command 'rt' is not installed"
lacking=$(missing_for_rust)
[ -z "$lacking" ] || miss "there is nothing to compare with, since $lacking"

work=$(mktemp -d)
trap 'rm -rf "$work"' EXIT

# COMPILER SOURCE PROGRAM [WORDS...]
compile() {
    compiler=$1 source=$2 program=$3
    shift 3
    "$compiler" -C opt-level=3 --edition 2021 -o "$program" "$source" "$@"
}

# The machine code of the archive, on the processor that it is for.
own() {
    bindings/archive >/dev/null || miss "the library was not built"
    echo "== $machine, run directly: $(rustc --version); library by the kit's $("$tools/bin/clang" --version | head -n 1)"
    compile rustc bench/main.rs "$work/own" -L "target/$machine" -l static=ledusprig
    "$work/own"
}

# The archive for Arm on x86-64, both sides under one emulator.
emulated() {
    lacking=$(missing_for_arm_rust)
    [ -z "$lacking" ] || { echo "bench: no emulated run, since $lacking"; return; }
    bindings/archive aarch64 >/dev/null || miss "the library was not built"
    compile rustc bench/main.rs "$work/emulated" -L target/aarch64 -l static=ledusprig $for_arm
    echo "== Arm under $(qemu-aarch64 --version | head -n 1): $(rustc --version)"
    run_on_arm "$work/emulated"
}

# The lister as a program of this processor, on 40,000 blocks that the independent program makes: 20 MB.
lister() {
    oracle/build oracle/main.rs "$work/oracle" || { echo "bench: the lister is not timed"; return 0; }
    bindings/program >"$work/log" 2>&1 || { cat "$work/log"; miss "the lister was not built"; }
    compile rustc bench/lister.rs "$work/lister"
    compile rustc bench/turns.rs "$work/turns"
    "$work/oracle" sheet 40000 >"$work/sheet"
    echo "== the lister, $machine, run directly: $(rustc --version)"
    "$work/turns" "$work/sheet" 9 "target/$machine/lister" -- "$work/lister"
}

echo "kit $(rt version); $(lscpu | sed -n 's/^Model name: *//p' | head -n 1), $(nproc) processors"
own
[ "$machine" != x86_64 ] || emulated
lister

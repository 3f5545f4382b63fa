#!/bin/sh
# Runs a program and the oracle over the same streams: against.sh PROGRAM [SEED [SHEETS LIMITS SCRIPTS GRAPHS]]
# PROGRAM kept, PROGRAM check, PROGRAM joins and PROGRAM graphs read a stream (README.md, "Texts") on standard input.
# PROGRAM may hold spaces. Ends with 1 on any difference.
set -eu
program=$1
seed=${2:-1}
sheets=${3:-20000}
limits=${4:-1000}
scripts=${5:-2000}
graphs=${6:-2000}
here=$(cd "$(dirname "$0")" && pwd)
cargo build --quiet --release --offline --manifest-path "$here/Cargo.toml"
oracle=$here/target/release/oracle
work=$here/target/against
mkdir -p "$work"
status=0

# kind of cases, count, verb of the program, kind of comparison
run() {
    "$oracle" gen "$1" "$seed" "$2" > "$work/$1.txt"
    $program "$3" < "$work/$1.txt" > "$work/$1.$3"
    "$oracle" compare "$4" "$work/$1.txt" "$work/$1.$3" || status=1
}

run sheets "$sheets" kept sheets
run sheets "$sheets" check checks
run limits "$limits" kept sheets
run limits "$limits" check checks
run scripts "$scripts" joins scripts
run graphs "$graphs" graphs graphs
exit $status

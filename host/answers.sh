#!/bin/bash
# Prints what the program `replay` reads, crates/replay/stdin, anew:
#
#     host/answers.sh > crates/replay/stdin
#
# First the scope's cases, as they stand in cases.txt; then the stored sample of the original's answers.
# For that it compiles the originals of docs/src (host/oracle) and runs differential's program `answers`
# over them; the arguments are a fixed choice, so the output is always the same. It asks for docs/src (or
# ORACLE_DOCS), for the crates that host/oracle/fetch.sh brings and, to link the package, for the
# archive that `rt lib` makes in crates/mom_c (or MOM_LIB_DIR), which it never calls.
set -eu
cd "$(dirname "$0")"
./oracle/fetch.sh
cat cases.txt
cargo run --quiet --offline --release --package differential --bin answers

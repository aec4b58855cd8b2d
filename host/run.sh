#!/bin/bash
# Runs the Rust beside the proofs. The gate calls it once the program `mombuild` and the archive stand in
# the out/ folders of their crates, where `rt run` and `rt lib` make them.
#
#     host/run.sh [SECONDS [SEED]]
#
# First what is mostly compiling, two at a time: cargo fmt and clippy, the C header, the crate `mom` and
# the runs of `mombuild` beside a reading of its rules, a sixth of SECONDS of them on random texts; and
# the tests of `oracle` and `differential` beside the original Rust, both where its arithmetic wraps
# (release) and where it panics (checked). Then, alone on all cores, what is measured in time: every C
# function on random arguments, for about SECONDS of processor time, so half as long on two cores, and
# the live comparison with the original, for SECONDS in all (60) from SEED (1), half of them for each of
# the two. The random texts and arguments are drawn from a seed of their own, the same in every run.
# Last, that the stored answers in crates/replay/stdin are those that the original gives, that both
# sides of the benchmark answer alike, that the chi-square is as near to the exact one as note 9 has it,
# at millions of quadruples, that a million odd sources are shared as note 10 has it, and that gzip makes
# less of a million rows by byte column.
#
# The last line is `N passed, M failed` over everything that was counted; the status is 0 where M is 0.
# Lines `K skipped: WHAT (WHY)` stand before it, K being the number of tests: where docs/src or the
# crates can't be had, everything beside the original is skipped, and where cargo has no fmt or clippy,
# or the machine no gzip, what asks for it. Every cargo call is offline (.cargo/config.toml).
set -u
seconds=${1:-60}
seed=${2:-1}
if [[ ! $seconds =~ ^[1-9][0-9]*$ ]]; then
    echo "host/run.sh [SECONDS [SEED]]: SECONDS is a whole number above 0"
    echo "0 passed, 1 failed"
    exit 1
fi
# Cargo runs a build script in its own directory, so that a relative path would change its meaning.
for variable in ORACLE_DOCS MOM_LIB_DIR; do
    if [ -n "${!variable:-}" ]; then
        export "$variable=$(realpath -m "${!variable}")"
    else
        unset "$variable"
    fi
done
cd "$(dirname "$0")" || exit 1
passed=0 failed=0
logs=$(mktemp -d) || exit 1
trap 'rm -rf "$logs"' EXIT

# count NAME STATUS LOG: adds up the lines in which a command counted, `N passed, M failed` or cargo's
# `N passed; M failed`. One that ended badly without counting a failure (it doesn't compile, say), or
# that counted nothing at all, is a failure itself; so is one that didn't count the tests that would be
# told of it if it were skipped.
count() {
    local name=$1 status=$2 good bad told
    read -r good bad < <(sed -En 's/.*\b([0-9]+) passed[,;] ([0-9]+) failed.*/\1 \2/p' "$3" |
        awk '{ good += $1; bad += $2 } END { print good + 0, bad + 0 }')
    told=$(tests_of_part "$name")
    if [ "$bad" = 0 ] && { [ "$status" != 0 ] || [ "$good" = 0 ]; }; then
        echo "$name: status $status, $good passed: counted as failed"
        bad=1
    elif [ -n "$told" ] && [ $((good + bad)) != "$told" ]; then
        echo "$name: counted $((good + bad)), where run.sh reckons with $told: counted as failed"
        bad=$((bad + 1))
    fi
    passed=$((passed + good)) failed=$((failed + bad))
}

# part NAME COMMAND..: runs a command and counts what it counted.
part() {
    local name=$1
    shift
    echo "== $name"
    "$@" 2>&1 | tee "$logs/part"
    count "$name" "${PIPESTATUS[0]}" "$logs/part"
}

# aside NAME COMMAND..: runs a command, and keeps what it says for `report NAME`.
aside() {
    local log=$logs/${1//\//-}
    shift
    ("$@") > "$log" 2>&1
    echo $? > "$log.status"
}

# report NAME..: shows what commands said that ran aside, and counts what they counted.
report() {
    local name log
    for name; do
        log=$logs/${name//\//-}
        echo "== $name"
        cat "$log"
        count "$name" "$(cat "$log.status")" "$log"
    done
}

# skip WHAT WHY NAME..: tells at the end how many tests these parts would have been.
skip() {
    local what=$1 why=$2 name tests=0
    shift 2
    for name; do
        tests=$((tests + $(tests_of_part "$name")))
    done
    echo "$tests skipped: $what (${why//$'\n'/ })" >> "$logs/skipped"
}

# The tests of a part that may be skipped, read off the sources; nothing for another one.
tests_of_part() {
    case $1 in
    "oracle and differential, "*)
        cat oracle/tests/*.rs differential/tests/*.rs | grep -c '^ *#\[test\]'
        ;;
    "live comparison, "*) grep -c '^ *entry::<' differential/src/kinds/mod.rs ;;
    "stored answers" | "benchmark, answers only" | "byte columns, compressed" | \
        "fmt of "* | "clippy of "*) echo 1 ;;
    esac
}

# one COMMAND..: a command that is one test.
one() {
    "$@" && echo "1 passed, 0 failed"
}

fmt_of() {
    cd "../$1" && one cargo fmt --check
}

clippy_of() {
    cd "../$1" && one cargo clippy --quiet --all-targets -- -D warnings
}

c_header() {
    mkdir -p target &&
        cc -std=c99 -Wall -Wextra -Werror -pedantic include/mom_test.c -o target/mom_test \
            -L"${MOM_LIB_DIR:-../crates/mom_c/out}" -lmom_c && target/mom_test
}

mom_tests() {
    cd mom && cargo test --quiet --no-fail-fast
}

mombuild_tests() {
    cd mombuild && MOMBUILD_SECONDS=$(((seconds + 5) / 6)) \
        cargo test --quiet --no-fail-fast -- --nocapture
}

# Eighteen tests, each for an eighteenth of the time.
fuzz() {
    cd mom && MOM_FUZZ_SECONDS=$(((seconds + 17) / 18)) \
        cargo test --quiet --release --test fuzz -- --nocapture
}

stored_answers() {
    ./answers.sh > target/answers && [ -s target/answers ] &&
        one cmp target/answers ../crates/replay/stdin
}

# The benchmark on small works, once: that both sides answer alike. No time is looked at.
bench_answers() {
    cargo build --quiet --release --package bench &&
        target/release/bench --small --rounds 1 > target/bench && echo "1 passed, 0 failed"
}

# The example of how near the chi-square is. It fails where the bound does at any quadruple, and where
# even a wrong bound holds at all of them.
chi_error_example() {
    cd mom && one cargo run --quiet --release --example chi_error
}

# The example of where odd sources go. It fails where the pool differs from a reading of the note at any
# cell, and where a source is lost or not in the corner of its parent.
sharing_example() {
    cd mom && one cargo run --quiet --release --example sharing
}

# The example of what byte columns are for; it fails where they are not smaller or don't come back.
columns_example() {
    cd mom && one cargo run --quiet --release --example columns
}

# Whether the originals and the crates can be had; says why where they can't.
can_compare() {
    if [ ! -f "${ORACLE_DOCS:-../../shared/docs/src}/src/nested/mod.rs" ]; then
        echo "docs/src is not at hand; ORACLE_DOCS can point to it"
        return 1
    fi
    ./oracle/fetch.sh 2>&1
}

# The test binaries of the two profiles lie in two directories, which cargo locks one by one.
tests_of() {
    cargo test --quiet --no-fail-fast --profile "$@"
}

comparable=yes
reason=$(can_compare) || comparable=no
beside=("oracle and differential, release" "oracle and differential, checked"
    "live comparison, release" "live comparison, checked" "stored answers" "benchmark, answers only")

# fmt and clippy look at the three workspaces one by one. Clippy has to compile them.
tidy=()
for tool in fmt clippy; do
    parts=("$tool of host/mom" "$tool of host/mombuild" "$tool of host")
    if ! cargo $tool --version > "$logs/version" 2>&1; then
        skip "cargo $tool" "it is not on this machine" "${parts[@]}"
    elif [ $tool = clippy ] && [ $comparable = no ]; then
        tidy+=("${parts[@]::2}") beside+=("${parts[2]}")
    else
        tidy+=("${parts[@]}")
    fi
done

{
    for name in "${tidy[@]}"; do
        aside "$name" "${name%% *}_of" "${name##* }"
    done
    aside "C header" c_header
    aside "mom" mom_tests
    aside "mombuild" mombuild_tests
    # Without the package that measures times: the release build compiles it.
    [ $comparable = no ] ||
        aside "oracle and differential, checked" tests_of checked --package oracle --package differential
} &
[ $comparable = no ] || aside "oracle and differential, release" tests_of release --workspace
wait
report "${tidy[@]}" "C header" "mom" "mombuild"
[ $comparable = no ] || report "oracle and differential, release" "oracle and differential, checked"
part "random arguments" fuzz
if [ $comparable = yes ]; then
    for profile in release checked; do
        part "live comparison, $profile" \
            cargo run --quiet --profile "$profile" --package differential --bin differential -- \
            --seconds $(((seconds + 1) / 2)) --seed "$seed"
    done
    part "stored answers" stored_answers
    part "benchmark, answers only" bench_answers
else
    skip "everything beside the original" "$reason" "${beside[@]}"
fi
part "how near the chi-square is" chi_error_example
part "how an odd source is shared" sharing_example
if command -v gzip > /dev/null; then
    part "byte columns, compressed" columns_example
else
    skip "the example of byte columns" "gzip is not on this machine" "byte columns, compressed"
fi

[ ! -f "$logs/skipped" ] || cat "$logs/skipped"
echo "$passed passed, $failed failed"
[ "$failed" = 0 ]

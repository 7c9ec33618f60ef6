#!/usr/bin/env bash
# Builds the proved archive, the C programs and the Rust crate over it, and runs them: the sample sheet by C, the comparison with the
# independent implementation, the stack of each entry, the benchmark. No network.
#
#     host/run.sh            everything
#     host/run.sh test       all but the benchmark
#     host/run.sh bench      the archive and the benchmark alone
#     host/run.sh fuzz [SECONDS]   the archive and the fuzzer alone (host/fuzz/run), 600 seconds if none are said; no part of everything
set -euo pipefail

what=${1:-all}
host=$(cd "$(dirname "${BASH_SOURCE[0]}")" && pwd)
root=$(dirname "$host")
archive=$root/crates/kalomivund/out/libkalomivund.a
desk=$root/crates/desk/out/desk
built=$host/target/c

mkdir -p "$built"
proved() { # what rt says stands in a log
    (cd "$root/crates/$1" && rt "${@:2}") < "$root/samples/document-01.sheet" > "$built/$1.log" 2>&1 \
        || { tail -n 20 "$built/$1.log" >&2; exit 1; }
}

echo "== the archive"
proved kalomivund lib
[ -f "$archive" ] || { echo "no archive at crates/kalomivund/out/libkalomivund.a" >&2; exit 1; }

if [ "$what" = fuzz ]; then
    echo "== C: the exported functions fuzzed"
    "$host/fuzz/run" "$archive" "${2:-600}"
    exit
fi

if [ "$what" != bench ]; then
    echo "== C: the sample sheet"
    flags=(-std=c11 -O2 -Wall -Wextra -Werror -I "$host/include")
    cc "${flags[@]}" "$host/c/plan.c" "$archive" -o "$built/plan"
    "$built/plan" < "$root/samples/document-01.sheet" | tee "$built/document-01.routes"
    diff "$built/document-01.routes" - <<'LINES'
    2    0
    1    2    0    1    2    2    2
    2    4    2    5    4    1    0
LINES
    echo "as document 01 prints it"
    "$built/plan" < "$root/samples/docks.sheet" | tee "$built/docks.routes"
    diff "$built/docks.routes" <(cd "$host" && cargo run --offline --release --quiet --bin paper < "$root/samples/docks.sheet")
    echo "as paper.rs prints it"

    echo "== C: the header, as C99 and as C++"
    strict=(-pedantic -O2 -Wall -Wextra -Wconversion -Wshadow -Werror -I "$host/include")
    cc -std=c99 "${strict[@]}" "$host/c/header.c" "$archive" -o "$built/header"
    "$built/header"
    c++ -x c++ -std=c++11 "${strict[@]}" "$host/c/header.c" -x none "$archive" -o "$built/header++"
    "$built/header++"

    echo "== C: the deepest stack of each entry"
    cc "${flags[@]}" -pthread "$host/c/stack.c" "$archive" -o "$built/stack"
    "$built/stack"

    echo "== Rust: tests"
    (cd "$host" && cargo test --offline --release)
    (cd "$host" && RUSTDOCFLAGS="-D warnings" cargo doc --offline --no-deps)
    echo "== Rust: no function of the crate panics"
    # Compiled with every overflow checked and, being incremental, with every public function in it.
    (cd "$host" && CARGO_INCREMENTAL=1 cargo rustc --offline --release --lib --target-dir target/panics -- -C overflow-checks=on)
    nm "$host/target/panics/release/libkalomivund.rlib" > "$built/symbols" 2> /dev/null || true
    grep -q "U kalomivund_plan" "$built/symbols" || { echo "no symbols to look at" >&2; exit 1; }
    if grep "U .*9panicking" "$built/symbols"; then echo "a function panics" >&2; exit 1; fi
    echo "none asks for a panic"
    echo "== Rust: library and paper compared"
    (cd "$host" && cargo run --offline --release --quiet --bin compare)
    echo "== Rust: the texts of desk and paper compared"
    proved desk run -- why
    (cd "$host" && cargo run --offline --release --quiet --bin desk 14000)
    echo "== Rust: the sheets of desk and paper from maps compared"
    (cd "$host" && cargo run --offline --release --quiet --bin maps "$desk" 15000 5)
fi

if [ "$what" != test ]; then
    echo "== Rust: benchmark"
    (cd "$host" && cargo run --offline --release --quiet --bin bench 15 "$built/growth.svg")
    echo "the plot: host/target/c/growth.svg"
fi

#!/usr/bin/env bash
# The host tests: builds the archives, `watch` and the hosts, runs them and compares what they print. A line `ok ..` for each.
set -euo pipefail
cd "$(dirname "${BASH_SOURCE[0]}")/.."

bash hosts/build.sh
# `rt run` proves and builds it, and runs it once.
(cd crates/watch && rt run <stdin >/dev/null)
runner=target/staticlib/librunner.a
joiner=target/staticlib/libjoiner.a
monitor=target/libmonitor.a
watch=$PWD/crates/watch/out/watch
built=$PWD/target/hosts
mkdir -p "$built"

# What docs/HOSTS.md says of the archives: no data of their own, and from the C library `memset` alone.
for archive in "$monitor" "$runner" "$joiner" target/staticlib/libcompiler.a; do
    data=$(objdump -h "$archive" | awk '$2 ~ /^\.t?(data|bss)/ && $3 !~ /^0+$/ { print $2 }')
    wanted=$(nm -u "$archive" | awk '$1 == "U" && $2 != "memset" { print $2 }')
    test -z "$data$wanted" || { echo "FAILED $archive:" $data $wanted; exit 1; }
done
echo "ok the archives have no data, and want memset alone"

# ---- C

# The header is C++ too.
if command -v c++ >/dev/null; then
    c++ -std=c++11 -Wall -Wextra -Werror -fsyntax-only hosts/c/header.cpp
    echo "ok monitor.h as C++"
fi

# A host, and the archive that it is linked with.
try_host() {
    local host=$1 archive=$2
    cc -std=c11 -Wall -Wextra -Werror -O2 -o "$built/$host" "hosts/c/$host.c" "$archive"
    if ! "$built/$host" >"$built/$host.out"; then
        cat "$built/$host.out"
        echo "FAILED $host"
        exit 1
    fi
    diff -u "hosts/c/$host.expected" "$built/$host.out"
    echo "ok $host"
}

# The runner stands without the compiler, the joiner without both, and the two stand together.
try_host smoke "$runner"
try_host join "$joiner"
cc -std=c11 -Wall -Wextra -Werror -O2 -o "$built/both" hosts/c/smoke.c -Wl,--whole-archive "$runner" "$joiner" -Wl,--no-whole-archive
diff -u hosts/c/smoke.expected <("$built/both")
echo "ok the runner and the joiner in one host"
try_host samples "$monitor"
try_host decide "$monitor"
try_host forms "$monitor"
try_host reading "$monitor"
try_host compile "$monitor"
try_host verdicts "$monitor"
try_host nests "$monitor"
try_host example "$monitor"

# ---- watch

bash hosts/watch.sh "$watch"

# ---- Rust

cd hosts
cargo fmt --check
echo "ok the Rust hosts are formatted"
cargo clippy --workspace --all-targets --quiet -- -D warnings
echo "ok the Rust hosts without a warning from clippy"
cargo test --release --workspace --quiet
echo "ok tests of the Rust wrapper, the reference, the comparisons and the benchmark"
cargo run --release --quiet -p monitor --example plugin >"$built/plugin.out"
diff -u rust/examples/plugin.expected "$built/plugin.out"
echo "ok plugin"
cargo run --release --quiet -p monitor --example publisher >"$built/publisher.out"
diff -u rust/examples/publisher.expected "$built/publisher.out"
echo "ok publisher"
cargo run --release --quiet -p compare -- --seed 1 --cases 200000 --watch "$watch" --watch-cases 2000 --small 6
echo "ok comparison with the reference"

# The comparison with an earlier archive, linked beside: here the same one.
MONITOR_BEFORE=../../target cargo run --release --quiet -p before -- --seed 1 --cases 1000
echo "ok the archive agrees with itself"

# The stack that docs/HOSTS.md names for each call.
MONITOR_BEFORE=../../target cargo run --release --quiet -p before -- --stack | awk '
    $1 ~ /^(begin|step|run|join)$/ { calls++; over += $NF >= 256 }
    $1 == "decide" { calls++; over += $NF > 6400 }
    $1 == "compile" { calls++; over += $NF > (/are read and refused/ ? 250 : 20000) }
    END { exit over > 0 || calls < 20 }' || { echo "FAILED the stack of the calls"; exit 1; }
echo "ok the calls keep to the stack that HOSTS.md names"

# The benchmark is run for what it compares, not for its times.
cargo run --release --quiet -p bench -- --check --watch "$watch"
echo "ok the benchmark's two sides agree"

#!/usr/bin/env bash
# Measures match and search beside Rust's regex crate: ordinary expressions over a column of 10,000 short texts, and hostile ones. It prints two tables.
#
#   bench/regexps.sh WORK
#
# WORK      is a scratch directory.
# PACKAGES  names the folder of Debian's Rust packages, of which librust-regex-dev is needed: /usr/share/cargo/registry unless set.
# ROUNDS    is 25 unless set. Nothing else should run meanwhile. The program is held to the last processor.
# The archives are those of bin/archive, for the machine at hand.
set -euo pipefail
[ $# -eq 1 ] || { sed -n '2,10p' "$0" >&2; exit 2; }
mkdir -p "$1/crate"
work=$(cd "$1" && pwd)
cd "$(dirname "$0")/.."
bin/archive "$work" >/dev/null
bin/archive --crate eval_measured "$work" >/dev/null
cat >"$work/crate/Cargo.toml" <<END
[package]
name = "regexps"
version = "0.0.0"
edition = "2021"

[[bin]]
name = "regexps"
path = "$PWD/bench/regexps.rs"

[dependencies]
regex = "1"
END
packages=${PACKAGES:-/usr/share/cargo/registry}
export RUSTFLAGS="-C link-arg=$work/libstewpebble.a -C link-arg=$work/libeval_measured.a"
(cd "$work/crate" && cargo build --quiet --release --offline --config 'source.crates-io.replace-with="debian"' --config "source.debian.directory=\"$packages\"")
echo "processor: $(lscpu | sed -n 's/^Model name: *//p' | head -n 1), $(uname -m); $(rustc --version); regex $(sed -n '/^name = "regex"/{n;s/^version = //p}' "$work/crate/Cargo.lock" | tr -d '"')"
echo
taskset -c $(($(nproc) - 1)) "$work/crate/target/release/regexps" "${ROUNDS:-25}"

#!/bin/sh
# Builds the program of a checkout by Rust's own compiler, unproved, in some ten seconds: OUT/target/release/n7725. It is
# for trying another limit or order and for profiles. Ends with cargo's status. Usage: build.sh TOP OUT.
python3 "$(dirname "$(readlink -f "$0")")/translate.py" "$1" "$2" || exit 1
cd "$2" || exit 1
cargo build --release --offline >build.log 2>&1
status=$?
if [ $status -ne 0 ]; then grep -A14 '^error' build.log; fi
exit $status

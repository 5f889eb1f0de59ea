#!/usr/bin/env bash
# Proves and builds stopline and runs it on the example session, or on the session file that is named.
set -euo pipefail
root=$(cd "$(dirname "${BASH_SOURCE[0]}")" && pwd)
session=$(realpath "${1:-$root/crates/stopline/stdin}")
mkdir -p "$root/target"
log=$root/target/example.log
cd "$root/crates/stopline"
# what the check says, and then what the program says of an error, goes into the log
rt run <"$session" 2>"$log" || { status=$?; cat "$log" >&2; exit $status; }

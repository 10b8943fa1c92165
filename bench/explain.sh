#!/usr/bin/env bash
# Times the proved program `explain` beside the same in plain Rust, on a million lines: the best of five runs of each.
# Both must print the same bytes first.
source "$(dirname "${BASH_SOURCE[0]}")/common.sh"
build explain
[ -s "$work/lines" ] || { python3 bench/lines.py >"$work/lines.new" && mv "$work/lines.new" "$work/lines"; }
for input in crates/explain/stdin "$work/lines"; do
    compare "$input"
    echo "same output on $input: $(tail -n 1 "$work/proved.out")"
done
race explain "$work/lines"

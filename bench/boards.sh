#!/usr/bin/env bash
# Times the proved program `boards` beside the same in plain Rust, on a million lines: the best of five runs of each.
# Both must print the same bytes first.
source "$(dirname "${BASH_SOURCE[0]}")/common.sh"
build boards
[ -s "$work/traffic" ] || { python3 bench/traffic.py >"$work/traffic.new" && mv "$work/traffic.new" "$work/traffic"; }
for input in crates/boards/stdin "$work/traffic"; do
    compare "$input"
    echo "same output on $input: $(wc -l <"$work/proved.out") answers, $(grep -c '^ok' "$work/proved.out") accepted"
done
race boards "$work/traffic"

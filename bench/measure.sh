#!/usr/bin/env bash
# Times turns and begins of the proved index beside the same in plain Rust, the best of five runs of each, and counts
# how many turns an operation takes by demand. Both programs must print the same bytes first.
source "$(dirname "${BASH_SOURCE[0]}")/common.sh"
build measure

row() { # LABEL ARGUMENT..: the time of each of the turns or refusals that the program says it counted
    local label=$1
    shift
    compare /dev/null "$@"
    local count _
    read -r count _ <"$work/proved.out"
    awk -v label="$label" -v count="$count" -v proved="$(best /dev/null "$proved" "$@")" \
        -v plain="$(best /dev/null "$plain" "$@")" 'BEGIN {
        printf "%-28s %8.1f ns %8.1f ns %7.2f\n", label, 1000 * proved / count, 1000 * plain / count, proved / plain
    }'
}

printf '%-28s %11s %11s %7s\n' 'time of one' proved plain ratio
row 'turn, ring of 1' turn 1 30000000
row 'turn, ring of 16' turn 16 3500000
row 'turn, ring of 256' turn 256 230000
row 'turn, ring of 4096' turn 4096 15000
row 'begin, full table of 4096' begin 150000

compare /dev/null
printf '\nturns of one operation, ring of 256\n'
cat "$work/proved.out"

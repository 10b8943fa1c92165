# What the scripts here share; they source it.
set -euo pipefail
cd "$(dirname "${BASH_SOURCE[0]}")/.."
work=target/bench
mkdir -p "$work"

# Builds the proved program NAME and the plain one.
build() { # NAME
    (cd "crates/$1" && rt run </dev/null) >"$work/check.log" 2>&1 || { tail -n 20 "$work/check.log" >&2; exit 1; }
    rustc -O -o "$work/$1_plain" "bench/$1_plain/main.rs"
    proved=crates/$1/out/$1
    plain=$work/$1_plain
}

# Both must print the same bytes.
compare() { # INPUT ARGUMENT..
    local input=$1
    shift
    "$proved" "$@" <"$input" >"$work/proved.out"
    "$plain" "$@" <"$input" >"$work/plain.out"
    cmp "$work/proved.out" "$work/plain.out"
}

# The best of five runs, in microseconds.
best() { # INPUT PROGRAM ARGUMENT..
    local input=$1 least=
    shift
    for _ in 1 2 3 4 5; do
        local from to
        from=$(date +%s%N)
        "$@" <"$input" >/dev/null
        to=$(date +%s%N)
        local took=$(((to - from) / 1000))
        if [ -z "$least" ] || [ "$took" -lt "$least" ]; then least=$took; fi
    done
    echo "$least"
}

# The times of both on an input, and their ratio.
race() { # NAME INPUT
    awk -v name="$1" -v proved="$(best "$2" "$proved")" -v plain="$(best "$2" "$plain")" 'BEGIN {
        printf "%s: %.1f ms, plain Rust: %.1f ms, ratio %.2f\n", name, proved / 1000, plain / 1000, proved / plain
    }'
}

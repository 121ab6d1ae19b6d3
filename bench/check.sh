#!/bin/sh
# Times `check` and `tree` on the largest images that they take, beside `cat` of the same file, and on images a quarter as large:
# `check.sh [PROGRAM]`. A line for each command: its image, the least wall time of three runs, and the greatest peak memory.
top=$(cd "$(dirname "$0")/.." && pwd) || exit 1
program=${1:-$top/crates/ds_top/out/ds_top}
runs=3

fail() {
    echo "check.sh: $*" >&2
    exit 1
}

[ -x "$program" ] || fail "$program isn't there: ./nishovelu builds it at its first use"
/usr/bin/time -f '%e %M' true 2>/dev/null || fail "GNU time isn't at /usr/bin/time"
work=$(mktemp -d) || exit 1
trap 'rm -rf "$work"' EXIT

# measure IMAGE LABEL COMMAND..: runs the command on the image; what it wrote last is in $work/output.
measure() {
    image=$1
    label=$2
    shift 2
    : >"$work/times"
    i=0
    while [ "$i" -lt "$runs" ]; do
        /usr/bin/time -q -o "$work/time" -f '%e %M' "$@" <"$image" >"$work/output" 2>"$work/errors" ||
            fail "$label of $image: $(cat "$work/errors")"
        cat "$work/time" >>"$work/times"
        i=$((i + 1))
    done
    awk -v label="$label" '
        NR == 1 || $1 < wall { wall = $1 }
        $2 > peak { peak = $2 }
        END { printf "  %-6s %7.2f s %9d KiB\n", label, wall, peak }' "$work/times"
}

# wrote TEXT WHAT: fails where the last command wrote anything else.
wrote() {
    printf '%s\n' "$1" | cmp -s - "$work/output" || fail "$2 wrote $(head -c 200 "$work/output")"
}

# time_image SECTORS NAME VOLUME..: the image of a new volume of so many sectors, once as it is made and once with its
# descriptors, sub-blocks, pointer blocks and blocks in use as far as they go.
time_image() {
    sectors=$1
    name=$2
    shift 2
    echo "volume 00000000-0000-4000-8000-000000000001 $*" >"$work/volume"
    "$program" format <"$work/volume" >"$work/new" || fail "format of $*"
    size=$(wc -c <"$work/new")
    [ "$size" -eq $((512 * sectors)) ] || fail "format of $*: $size bytes, not of $sectors sectors"
    echo "$name, new: $sectors sectors, $*"
    measure "$work/new" cat cat
    measure "$work/new" check "$program" check
    wrote clean "check of a new volume"
    measure "$work/new" tree "$program" tree
    wrote "/ 0.1 dir" "tree of a new volume"

    objects=$(python3 "$top/bench/fill.py" "$work/new" "$work/full" "$@") || fail "fill.py of $*"
    echo "$name, full: $sectors sectors, $objects objects"
    measure "$work/full" cat cat
    measure "$work/full" check "$program" check
    wrote clean "check of a full volume"
    measure "$work/full" tree "$program" tree
    lines=$(wc -l <"$work/output")
    [ "$lines" -eq "$objects" ] || fail "tree of a full volume wrote $lines lines for $objects objects"
}

# As many file blocks as there can be, 30,720, and then a quarter of them.
time_image 131072 "blocks" slots 1 block 4 fd 8 256 sb 1 2025 pb 1 2000 fb 8 3840
time_image 32768 "blocks, a quarter" slots 1 block 4 fd 2 256 sb 1 477 pb 1 500 fb 2 3840
# As many sub-blocks and pointer blocks as there can be, 30,720 of each, and then a quarter of them.
time_image 131058 "sub-blocks and pointer blocks" slots 16 block 4 fd 8 256 sb 8 3840 pb 8 3840 fb 8 2029
time_image 32762 "sub-blocks and pointer blocks, a quarter" slots 16 block 4 fd 2 256 sb 2 3840 pb 2 3840 fb 2 1979

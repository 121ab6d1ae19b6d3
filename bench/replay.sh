#!/bin/sh
# Times `replay` on a text of 1 MiB near all limits, beside `wc` of the same file: `replay.sh [PROGRAM]`. The text has 16 hosts,
# 4,096 directives, and step lines and comments up to 1,048,576 bytes. Prints for each the least wall time of five runs.
# While scenarios with several hosts aren't built, the answer is `not built`, which comes after the whole text is read.
top=$(cd "$(dirname "$0")/.." && pwd) || exit 1
program=${1:-$top/crates/ds_top/out/ds_top}
runs=5

fail() {
    echo "replay.sh: $*" >&2
    exit 1
}

now() {
    date +%s%N
}

[ -x "$program" ] || fail "$program isn't there: ./nishovelu builds it at its first use"
case $(now) in
    *[!0-9]*) fail "date doesn't tell nanoseconds" ;;
esac
work=$(mktemp -d) || exit 1
trap 'rm -rf "$work"' EXIT

python3 - >"$work/text" <<'END' || fail "the text wasn't made"
import sys

hosts = "abcdefghijklmnop"
lines = ["volume 6f1d0c52-8a3b-4e57-9c11-2b7a90d4e001 slots 16 block 1 fd 8 256 sb 8 64 pb 1 64 fb 8 512"]
lines += [f"host {host}" for host in hosts]
lines += [f"{host} register" for host in hosts]
for number in range(4096 - len(hosts)):
    host = hosts[number % len(hosts)]
    name = f"{number:04}-" + "n" * 95
    lines.append((f"{host} create root {name} as v{number}", f"{host} stat v{number}", f"{host} list root")[number % 3])
lines += [f"step {hosts[number % len(hosts)]} 100" for number in range(10000)]
text = "\n".join(lines) + "\n"
room = 1048576 - len(text)
while room > 0:
    length = min(room, 200)
    text += "#" * (length - 1) + "\n"
    room -= length
assert len(text) == 1048576
sys.stdout.write(text)
END

# least LABEL STATUSES COMMAND..: the least wall time of the runs, each of which has to end with one of the statuses.
least() {
    label=$1
    statuses=$2
    shift 2
    best=
    i=0
    while [ "$i" -lt "$runs" ]; do
        start=$(now)
        "$@" <"$work/text" >"$work/output" 2>"$work/errors"
        status=$?
        took=$(($(now) - start))
        case " $statuses " in
            *" $status "*) ;;
            *) fail "$label ended with status $status: $(cat "$work/errors")" ;;
        esac
        if [ -z "$best" ] || [ "$took" -lt "$best" ]; then
            best=$took
        fi
        i=$((i + 1))
    done
    echo "$label $((best / 1000)) microseconds"
}

echo "text: $(wc -c <"$work/text") bytes, $(wc -l <"$work/text") lines, 16 hosts, 4096 directives"
least wc 0 wc
least replay "0 1" "$program" replay
if [ "$status" -eq 0 ]; then
    echo "answer: a report of $(wc -c <"$work/output") bytes"
else
    grep -q '^not built: ' "$work/errors" || fail "replay answered $(cat "$work/errors")"
    echo "answer: $(cat "$work/errors")"
fi

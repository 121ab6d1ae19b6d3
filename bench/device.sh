#!/bin/sh
# Times a million commands on devices in memory: `device.sh [PROGRAM]`. The flat device and the one that keeps only sectors in use each
# hold an image in all of 131,072 sectors; the last one has 60,000,000 sectors and holds none at first. Prints for each the least wall time
# of five runs less that of making the device, and the peak memory.
top=$(cd "$(dirname "$0")/.." && pwd) || exit 1
program=${1:-$top/crates/ds_bench/out/ds_bench}
runs=5

if [ ! -x "$program" ]; then
    echo "device.sh: $program isn't there: run 'rt run' in crates/ds_bench" >&2
    exit 1
fi

exec python3 - "$program" "$runs" <<'END'
import os
import subprocess
import sys
import time

program, runs = sys.argv[1], int(sys.argv[2])


def least(line):
    """The least wall time of a run on the line, in seconds, and the peak memory of the last one, in KiB."""
    times = []
    for _ in range(runs):
        begun = time.monotonic()
        it = subprocess.Popen([program], stdin=subprocess.PIPE, stdout=subprocess.DEVNULL)
        it.stdin.write(line.encode())
        it.stdin.close()
        _, status, used = os.wait4(it.pid, 0)
        times.append(time.monotonic() - begun)
        if status != 0:
            sys.exit(f"device.sh: {program} ended with status {status}")
    return min(times), used.ru_maxrss


for kind, sectors in ("flat", 131072), ("full", 131072), ("thin", 60000000):
    made, _ = least(f"{kind} {sectors} 0\n")
    took, peak = least(f"{kind} {sectors} 1000000\n")
    print(f"{kind} {sectors}: {took - made:.3f} s, {peak} KiB")
END

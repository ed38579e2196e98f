#!/bin/sh
# Makes files of 1, 2, 4 and 8 MB of functions that are each called, and prints the time and the peak
# memory of the program over them, with all call edges printed. Run it after `rt ci`, or after `rt run`
# in crates/jam_cli.
. "$(dirname "$0")/folder.sh"
python3 - "$program" <<'PYTHON'
import os, resource, subprocess, sys, time

for megabytes in (1, 2, 4, 8):
    pieces = []
    size = 0
    while size < megabytes * 1_000_000:
        piece = f"function handler{len(pieces):06}() {{ }}\nhandler{len(pieces):06}();\n"
        pieces.append(piece)
        size += len(piece)
    with open("index.js", "w") as file:
        file.write("".join(pieces))
    start = time.monotonic()
    before = resource.getrusage(resource.RUSAGE_CHILDREN).ru_utime
    status = subprocess.run([sys.argv[1], "graph", "index.js"], stdout=subprocess.DEVNULL).returncode
    seconds = time.monotonic() - start
    user = resource.getrusage(resource.RUSAGE_CHILDREN).ru_utime - before
    peak = resource.getrusage(resource.RUSAGE_CHILDREN).ru_maxrss * 1024
    print(f"{size} bytes, {len(pieces)} functions: status {status}, {user:.2f} s of the processor, {seconds:.2f} s by the clock, {user / size * 1e6:.2f} s a megabyte, peak so far {peak / 1e6:.0f} MB")
PYTHON

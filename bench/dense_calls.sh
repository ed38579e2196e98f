#!/bin/sh
# Makes files of declarations and calls, and prints the time, the peak memory and the bytes per second
# of the program over them: one of 8.2 MB whose last call has no `;`, which is read whole and refused,
# and one of 0.2 MB whose call edges are printed. Run it after `rt ci`, or after `rt run` in
# crates/jam_cli.
. "$(dirname "$0")/folder.sh"
python3 - "$program" <<'PYTHON'
import os, resource, subprocess, sys, time

def measure(what, limit, last):
    pieces = []
    size = 0
    number = 0
    while size < limit:
        piece = f"function handler{number:05}() {{\n  prepare{number % 97:02}();\n  function finish{number % 89:02}() {{ release(); }}\n  finish{number % 89:02}();\n}}\n"
        pieces.append(piece)
        size += len(piece)
        number += 1
    with open("index.js", "w") as file:
        file.write("".join(pieces) + last)
    size = os.path.getsize("index.js")
    start = time.monotonic()
    status = subprocess.run([sys.argv[1], "graph", "index.js"], stdout=subprocess.DEVNULL, stderr=subprocess.DEVNULL).returncode
    seconds = time.monotonic() - start
    peak = resource.getrusage(resource.RUSAGE_CHILDREN).ru_maxrss * 1024
    print(f"{what}: status {status}, {size} bytes, {seconds:.2f} s, {size / seconds / 1e6:.1f} MB/s, peak so far {peak / 1e6:.0f} MB, {peak / size:.0f} bytes a byte")

measure("call edges", 200_000, "")
measure("reading", 8_200_000, "last()")
PYTHON

#!/bin/sh
# Prints the time and the peak memory of the program over three kinds of applications, each in growing
# sizes: two chains of properties, one along the order of the text and one against it; functions that are
# each called at as many sites; and modules that share the names of their properties. Run it after
# `rt ci`, or after `rt run` in crates/jam_cli.
. "$(dirname "$0")/folder.sh"
python3 - "$program" <<'PYTHON'
import os, subprocess, sys, time

def chains(count):
    lines = ["x.a000000=function(){};", f"x.b{count:06}=function(){{}};", f"x.a{count:06}();", "x.b000000();"]
    for i in range(count):
        lines.append(f"x.a{i + 1:06}=x.a{i:06};")
        lines.append(f"x.b{i:06}=x.b{i + 1:06};")
    write("index.js", "\n".join(lines) + "\n")

def shared_name(count):
    write("index.js", "x.f = function () { };\n" * count + "x.f();\n" * count)

def modules(count):
    names = max(1, count // 10)
    for i in range(count):
        following = f'var next = require("./m{i + 1}");\n' if i + 1 < count else "var next = exports;\n"
        own = "".join(f"exports.p{(i * 7 + k * 31) % names} = function (a) {{ return a; }};\n" for k in range(5))
        calls = "".join(f"next.p{(i * 13 + k * 17) % names}(exports);\n" for k in range(5))
        write("index.js" if i == 0 else f"m{i}.js", following + own + calls)

def write(path, text):
    with open(path, "w") as file:
        file.write(text)

def measured():
    start = time.monotonic()
    process = subprocess.Popen([sys.argv[1], "graph", "index.js"], stdout=subprocess.PIPE)
    lines = sum(1 for _ in process.stdout)
    _, status, usage = os.wait4(process.pid, 0)
    return os.waitstatus_to_exitcode(status), lines, usage.ru_utime, time.monotonic() - start, usage.ru_maxrss * 1024

for name, make, sizes in (("chains", chains, (24999, 49999, 99999)), ("functions and sites", shared_name, (250, 500, 1000)), ("modules", modules, (2500, 5000, 10000))):
    for size in sizes:
        for path in os.listdir("."):
            os.remove(path)
        make(size)
        status, edges, user, seconds, peak = measured()
        print(f"{name}, {size}: status {status}, {edges} edges, {user:.2f} s of the processor, {seconds:.2f} s by the clock, peak {peak / 1e6:.0f} MB")
PYTHON

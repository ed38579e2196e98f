#!/bin/sh
# Makes an application of 16,384 modules, of which 9,999 are packages of their own, with a lockfile of
# 10,000 entries, and prints the time of the program over it: of the call graph, and of reports by files
# of advisories, the last of which has an alarm for each package. Run it after `rt ci`, or after `rt run`
# in crates/jam_cli.
. "$(dirname "$0")/folder.sh"
python3 - "$program" <<'PYTHON'
import json, os, subprocess, sys, time

def write(path, text):
    os.makedirs(os.path.dirname(path) or ".", exist_ok=True)
    with open(path, "w") as file:
        file.write(text)

packages, others = 9999, 16384 - 9999 - 1
names = [f"package-{i}" for i in range(packages)]
index = "".join(f'require("{name}").run{i}();\n' for i, name in enumerate(names))
index += "".join(f'require("./src/m{i}");\n' for i in range(others))
write("index.js", index)
for i in range(others):
    write(f"src/m{i}.js", f"function own{i}() {{ return {i}; }}\nown{i}();\n")
for i, name in enumerate(names):
    write(f"node_modules/{name}/index.js", f"exports.run{i} = function () {{ return {i}; }};\n")
entries = {"": {"name": "app", "version": "1.0.0"}}
entries.update({f"node_modules/{name}": {"version": f"1.{i % 7}.0"} for i, name in enumerate(names)})
write("package-lock.json", json.dumps({"lockfileVersion": 3, "packages": entries}))

def advisories(path, count, function):
    write(path, json.dumps({"advisories": [
        {"id": f"A-{i}", "package": names[i % packages], "range": "<2.0.0", "functions": [{"file": "index.js", "name": function(i)}]}
        for i in range(count)]}))

advisories("none.json", 0, str)
advisories("other.json", 10000, lambda i: "other")
advisories("all.json", 10000, lambda i: f"run{i % packages}")
for words in (["graph", "index.js"], ["audit", "none.json"], ["audit", "other.json"], ["audit", "all.json"], ["audit", "--format=json", "all.json"]):
    start = time.monotonic()
    run = subprocess.run([sys.argv[1], *words], capture_output=True)
    seconds = time.monotonic() - start
    last = run.stdout.decode().splitlines()[-1][-90:] if run.stdout else run.stderr.decode().strip()
    print(f"{' '.join(words)}: status {run.returncode}, {seconds:.2f} s, {len(run.stdout)} bytes, {last}")
PYTHON

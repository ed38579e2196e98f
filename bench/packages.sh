#!/bin/sh
# Makes an application of 500 modules with 3,000 requires, 50 modules of its own and 150 packages of
# three modules, and prints the time of the program over it and how often it asks the system for a
# package.json: in all, and for how many of them. The counts need strace. Run it after `rt ci`, or
# after `rt run` in crates/jam_cli.
. "$(dirname "$0")/folder.sh"
python3 - "$program" <<'PYTHON'
import json, os, re, shutil, subprocess, sys, time

def write(path, text):
    os.makedirs(os.path.dirname(path) or ".", exist_ok=True)
    with open(path, "w") as file:
        file.write(text)

# As large a package.json as those of registries often are.
def manifest(number):
    scripts = {f"script-{i}": f"node tools/script-{i}.js --all" for i in range(20)}
    others = {f"package-{i}": f"^{i}.{number}.0" for i in range(20)}
    return json.dumps({"name": f"p{number}", "version": "1.0.0", "main": "./lib/index", "scripts": scripts, "devDependencies": others}, indent=2)

def module(requires):
    return "".join(f'require("{text}");\n' for text in requires) + f"exports.run{len(requires)} = function () {{ }};\n"

packages = 150
write("package.json", manifest(9999))
write("index.js", module([f"./src/m{i}" for i in range(1, 7)]))
for i in range(1, 50):
    write(f"src/m{i}.js", module([f"./m{(i + 1) % 49 + 1}"] + [f"../node_modules/p{(i * 5 + k) % packages}" for k in range(5)]))
for i in range(packages):
    near = [(i * 7 + k) % packages for k in range(4)]
    write(f"node_modules/p{i}/package.json", manifest(i))
    write(f"node_modules/p{i}/lib/index.js", module(["./a", "./b"] + [f"../../p{k}" for k in near]))
    write(f"node_modules/p{i}/lib/a.js", module(["./b", "./index"] + [f"../../p{k}" for k in near]))
    write(f"node_modules/p{i}/lib/b.js", module(["./a", "../"] + [f"../../p{k}" for k in near]))
modules = requires = 0
for top, _, files in os.walk("."):
    for name in files:
        if name.endswith(".js"):
            modules += 1
            requires += open(os.path.join(top, name)).read().count("require(")
start = time.monotonic()
status = subprocess.run([sys.argv[1], "graph", "index.js"], stdout=subprocess.DEVNULL).returncode
seconds = time.monotonic() - start
print(f"{modules} modules, {requires} requires: status {status}, {seconds:.3f} s")
if shutil.which("strace"):
    subprocess.run(["strace", "-f", "-qq", "-o", "calls", sys.argv[1], "graph", "index.js"], stdout=subprocess.DEVNULL)
    calls = open("calls").read().splitlines()
    opened = [m.group(1) for line in calls if (m := re.search(r'open(?:at)?\(.*?"([^"]*package\.json)"', line))]
    asked = [m.group(1) for line in calls if (m := re.search(r'"([^"]*package\.json)"', line))]
    print(f"package.json: asked for {len(asked)} times, opened {len(opened)} times, {len(set(opened))} files; {len(calls)} calls of the system in all")
PYTHON

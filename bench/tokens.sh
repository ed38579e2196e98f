#!/bin/sh
# Prints the bytes per second of the lexer alone over three texts of 8 MB, each read ten times: code as
# it is written, code with four bytes a token, and the same with Greek names and comments. It builds a
# small program over a copy of the crates below the lexer, outside the repository; the first run proves
# them there.
set -eu
top=$(cd "$(dirname "$0")/.." && pwd)
folder=${1:-$(mktemp -d)}
for crate in jam_base js_tree js_tokens; do
    mkdir -p "$folder/crates/$crate"
    for part in src specs proofs; do
        cp -r "$top/crates/$crate/$part" "$folder/crates/$crate/"
    done
done
grep -E '^(jam_base|js_tree|js_tokens):' "$top/crates.txt" > "$folder/crates.txt"
echo 'lexed: js_tree js_tokens' >> "$folder/crates.txt"
mkdir -p "$folder/crates/lexed/src"
cat > "$folder/crates/lexed/src/main.rt" <<'RATTLE'
//! Counts the tokens of a file.
#![tactic(auto)]

use js_tokens::{Goal, TokenReader};
use js_tree::TokenKind;
use std::alloc::Global;
use std::fs;
use std::io;

// The number of tokens; where an operator can't stand, `/` begins a regular expression.
fn count(alloc: Global, reader: &mut TokenReader<'_>) -> u64 {
    let mut tokens = 0;
    for _ in 0..u64::MAX {
        let goal = match reader.kind() {
            TokenKind::Slash => Goal::Operand,
            _ => Goal::Operator,
        };
        if reader.take(alloc, goal).is_err() {
            break;
        }
        if tokens < u64::MAX {
            tokens += 1;
        }
    }
    tokens
}

fn main(rt: HostRuntime) -> io::Result<()> {
    let alloc = rt.alloc();
    let text = fs::read_to_string(&rt, "index.js")?;
    if text.len() > 8388608 {
        println!(rt; "too large")?;
        return Ok(());
    }
    for _ in 0..10 {
        let mut reader = TokenReader::new(text.as_str());
        let tokens = count(alloc, &mut reader);
        println!(rt; "{tokens} tokens, at the end: {}", reader.is_at_end())?;
    }
    Ok(())
}
RATTLE
(cd "$folder/crates/lexed" && printf 'a = 1;\n' > index.js && rt run)
cd "$folder"
python3 - <<'PYTHON'
import random, resource, subprocess

random.seed(7)
ascii_names = ["value", "index", "result", "options", "callback", "module", "length", "self", "request", "error", "data", "key"]
greek_names = ["αριθμός", "κλειδί", "τιμή", "όνομα", "λίστα", "δεδομένα", "σφάλμα", "μήνυμα"]

DENSE = """  if ({a} === {b}.{c}) {{ return {a}({b}, 12); }}
  var {c} = {a} + "text"; // {b} {a}
"""

SPACED = """
/**
 * Reads the {a} of the {b} and hands it on with its {c}.
 */
function {a}Reader({b}, {c}) {{
    var {a} = {b}.{c} || default{b};
    if ({a}.timeout === undefined) {{
        {a}.timeout = 3000; // in milliseconds
    }}
    return {c}(null, {a});
}}
"""

def code(form, names):
    pieces = []
    size = 0
    while size < 8_000_000:
        a, b, c = random.choice(names), random.choice(names), random.choice(names)
        piece = form.format(a=a, b=b, c=c)
        pieces.append(piece)
        size += len(piece.encode())
    return "".join(pieces)

for what, text in [("code of ASCII", code(SPACED, ascii_names)), ("dense code of ASCII", code(DENSE, ascii_names)), ("dense code with Greek names", code(DENSE, greek_names))]:
    with open("index.js", "w", encoding="utf-8") as file:
        file.write(text)
    size = len(text.encode())
    before = resource.getrusage(resource.RUSAGE_CHILDREN).ru_utime
    told = subprocess.run(["crates/lexed/out/lexed"], capture_output=True, text=True).stdout.split("\n")[0]
    seconds = (resource.getrusage(resource.RUSAGE_CHILDREN).ru_utime - before) / 10
    print(f"{what}: {told}, {size} bytes, {seconds:.3f} s of the processor, {size / seconds / 1e6:.0f} MB/s")
PYTHON

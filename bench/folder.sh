# Read by the other scripts: goes into a new folder, which is removed at the end, and names the top of
# the repository and the program.
set -eu
top=$(cd "$(dirname "$0")/.." && pwd)
program=$top/crates/jam_cli/out/jam_cli
folder=$(mktemp -d)
trap 'rm -rf "$folder"' EXIT
cd "$folder"

# Nests of each form that are as high as the grammar allows, and one higher, under a stack of 2 MiB.
set -u
command -v python3 >/dev/null || { echo "skipped: nests need python3"; exit 0; }
JAVAG=$1 python3 "$(dirname "${BASH_SOURCE[0]}")/../stack" --check

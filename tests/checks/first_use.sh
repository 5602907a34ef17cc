#!/usr/bin/env bash
# bin/javag where no program is built, and where one is old and can't be built again, in a copy of the repository.
set -u
command -v rt >/dev/null || { echo "skipped: bin/javag without a program needs rt"; exit 0; }
top=$(cd "$(dirname "${BASH_SOURCE[0]}")/../.." && pwd) || exit 1
copy=$(mktemp -d) || exit 1
trap 'rm -rf "$copy"' EXIT
tar -C "$top" --exclude=out --exclude=.git -cf - . | tar -C "$copy" -xf - || exit 1
status=0
cd "$copy/examples" || exit 1

# a run of words by the build without proofs: what is to stand on the output, the status, the last line of the stream of errors, and the words
runs() {
    local out=$1 wanted=$2 line=$3 got
    shift 3
    { time "$copy/bin/javag" "$@" >"$copy/out.txt" 2>"$copy/err.txt"; } 2>"$copy/seconds.txt"
    got=$?
    if [ "$got" -ne "$wanted" ] || [ "$(cat "$copy/out.txt")" != "$out" ] || [[ $(head -n 1 "$copy/err.txt") != "javag: nothing is proved yet"* ]] ||
        [[ $(tail -n 1 "$copy/err.txt") != "$line"* ]]; then
        echo "first use: javag $*: status $got and not $wanted, or other output:"
        cat "$copy/out.txt" "$copy/err.txt"
        status=1
    fi
}

# one source that is there and one that isn't; README says up to two minutes, and twice as much processor time is let through, as a slow machine, and a
# processor that others use too, takes more; the lesser of the two counts
TIMEFORMAT='%0U %0S'
runs Hi 0 "javag: nothing is proved yet" --run Main Main.java
read -r user system <"$copy/seconds.txt"
took=$((user + system))
runs "" 6 "javag: cannot read Missing.java" --run Main Missing.java
read -r user system <"$copy/seconds.txt"
[ "$took" -le $((user + system)) ] || took=$((user + system))
[ "$took" -lt 240 ] || { echo "first use: a run without a program took $took seconds of processor time, and not under 240"; status=1; }

# words, and what stands on the stream of errors where the status is 70
refuses() {
    local said
    said=$("$copy/bin/javag" Main.java 2>&1)
    if [ "$?" -ne 70 ] || [[ $said != *"$1"* ]]; then
        echo "first use: expected status 70 with '$1', and got: $said"
        status=1
    fi
}

refuses "the program isn't built yet, and class files are written by the proved program alone"
mkdir -p "$copy/crates/javag/out"
printf '#!/bin/sh\necho old\n' >"$copy/crates/javag/out/javag"
chmod +x "$copy/crates/javag/out/javag"
sleep 1
echo "fn" >>"$copy/crates/jc_rules/src/lib.rt"
refuses "the program could not be proved and built"
[ ! -e "$copy/crates/javag/out/javag" ] || { echo "first use: the old program stands after a build that failed"; status=1; }
[ "$status" -ne 0 ] || echo "first use: without a program words run in $took seconds of processor time, those that write are refused, and no old program runs where a build fails"
exit "$status"

#!/bin/sh
# Runs the comparers against what has landed: run.sh ci|long [COMPARER...]
# Without names, all whose program or library is there; a named one must be.
# FROM=K moves the long run to other seeds.
set -u
here=$(cd "$(dirname "$0")" && pwd)
mode=${1:-ci}
[ $# -gt 0 ] && shift
root=$here/..
bin=${SECOND_BIN:-$root/target/bin}
folder=${SECOND_STATICLIB:-$root/target/staticlib}
case $folder in /*) ;; *) folder=$here/$folder ;; esac
export SECOND_STATICLIB="$folder"
keep=${SECOND_KEEP:-$root/target/second-failures}
status=0
totals=$(mktemp)

case $mode in
ci) share=1 seconds=60 ;;
long) share=100 seconds=1800 ;;
*) echo "run.sh ci|long [COMPARER...]" >&2; exit 2 ;;
esac

# The file that a comparer needs, and the feature that links it where it is a library.
needs() {
    case $1 in
    inspect | verdict | rehearse | lattice) echo "$bin/$1" ;;
    reader) echo "$folder/libgcr_reader.a" ;;
    models | explain | rehearsal) echo "$folder/libgcr.a" ;;
    esac
}

feature() {
    case $1 in reader | models | explain | rehearsal) echo linked ;; esac
}

# Seeds of each comparer in a CI run, in which a spawned program costs a millisecond or two. Records are of three editions
# that may be wrong in many places, and half of the scripts have closes, after which little is late or lacking. With
# these every answer that a comparer must meet occurs twenty times and more.
seeds=$((5000 * share))

# The linked build has a target folder of its own, or both would undo each other.
compare() {
    linked=$(feature "$1")
    target=$here/target${linked:+/linked}
    cargo build --quiet --release -j1 --manifest-path "$here/Cargo.toml" --bin compare \
        --target-dir "$target" ${linked:+--features "$linked"} || return 1
    "$target/release/compare" "$1" --seeds "$seeds" --from "${FROM:-0}" \
        --seconds "$seconds" --bin "$bin" --keep "$keep" >"$totals.one"
    result=$?
    cat "$totals.one"
    if ! tail -n 1 "$totals.one" | grep ' passed, ' >>"$totals"; then
        echo "$1 did not come to its end; its last seed is in $keep/last-seed.txt"
        echo "0 passed, 1 failed" >>"$totals"
    fi
    return $result
}

named=$#
[ $# -gt 0 ] || set -- inspect reader verdict models explain rehearse rehearsal lattice
for comparer in "$@"; do
    if [ -e "$(needs "$comparer")" ]; then
        compare "$comparer" || status=1
    elif [ "$named" -gt 0 ]; then
        echo "$comparer: nothing at $(needs "$comparer")"
        echo "0 passed, 1 failed" >>"$totals"
        status=1
    else
        echo "$comparer: not landed"
    fi
done
awk '{ p += $1; f += $3 } END { printf "%d passed, %d failed\n", p, f }' "$totals"
rm -f "$totals" "$totals.one"
exit $status

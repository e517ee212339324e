#!/bin/sh
# Tries all of examples/ with a built affc: what it folds and reports is as it stands there, both texts give the outputs that
# stand there, by affc and by a C compiler with sanitizers, and the reports are those that folds.py finds by counting.
#
#     sh bench/try_examples.sh crates/affc/out/affc
affc=$(realpath "$1") || exit 2
bench=$(realpath "$(dirname "$0")")
cd "$bench/../examples" || exit 2
work=$(mktemp -d) || exit 2
trap 'rm -rf "$work"' EXIT
failed=0

# what a command writes is what a file holds
same() {
    file=$1
    shift
    "$@" 2>"$work/err" | cmp -s - "$file" || { echo "$file is not what this gives: $*"; failed=1; }
}

for source in *.c; do
    name=${source%.c}
    schedule=
    [ -f "$name.s" ] && schedule=$name.s
    same "$name.fold" "$affc" fold "$source" $schedule
    report=/dev/null
    [ -f "$name.report" ] && report=$name.report
    cmp -s "$work/err" "$report" || { echo "$name is reported otherwise"; failed=1; }
    for text in "$source" "$name.fold"; do
        same "$name.out" "$affc" run "$text" "$name.data"
        same "$name.out" python3 "$bench/by_gcc.py" "$text" "$name.data"
    done
    bounds=
    case $name in
        align) bounds='N=4 M=8' ;;
        jacobi1d) bounds='T=3 N=11' ;;
        jacobi2d) bounds='T=2 N=5' ;;
    esac
    [ -f "$name.report" ] && same "$name.report" python3 "$bench/folds.py" "$source" $schedule $bounds
done
[ $failed = 0 ] && echo "all examples are as they stand"
exit $failed

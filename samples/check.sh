#!/bin/sh
# Runs every sample on a program, and compares output, trace and status with what the sample expects.
# usage: samples/check.sh [PROGRAM]        PROGRAM is ../mixedrun, beside this folder, if none is given.
samples=$(cd "$(dirname "$0")" && pwd) || exit 2
program=${1:-$samples/../mixedrun}
case $program in
    /*) ;;
    *) program=$PWD/$program ;;
esac
cd "$samples/.." || exit 2
kept=$(mktemp -d) || exit 2
trap 'rm -rf "$kept"' EXIT
trap 'exit 2' HUP INT TERM

# The first run builds the program where that has to be done, and its messages are shown.
if ! "$program" run flat=samples/hello.bin >"$kept/stdout"; then
    echo "check.sh: $program does not run samples/hello.bin" >&2
    exit 2
fi

failed=0
for words in samples/*/words; do
    folder=${words%/words}
    input=/dev/null
    [ -f "$folder/stdin" ] && input=$folder/stdin
    : >"$kept/stdout" >"$kept/stderr" >"$kept/status"
    # Each line is a command, whose words have no blanks in them; IMAGE stands for a file that is kept between them.
    while read -r line <&3; do
        "$program" $(echo "$line" | sed "s,IMAGE,$kept/image,g") <"$input" >>"$kept/stdout" 2>>"$kept/stderr"
        echo $? >>"$kept/status"
    done 3<"$words"
    result=ok
    for part in stdout stderr status; do
        cmp -s "$kept/$part" "$folder/expected/$part" || result="$result, $part differs"
    done
    echo "${folder#samples/}: ${result#ok, }"
    [ "$result" = ok ] || failed=$((failed + 1))
done

# The sample for gdb is made anew, and gdb follows its script with the program mixedlook of the same folder.
talk_with_gdb() {
    made=$(ls samples/gdb/sort.elf 2>/dev/null)
    make -C samples/gdb >"$kept/make" 2>&1 || return 1
    sed "s,\./mixedlook,$looker," samples/gdb/script >"$kept/script"
    gdb-multiarch -nx -batch -x "$kept/script" 2>&1 | sed "s,$looker,./mixedlook,; s,$PWD/,," >"$kept/stdout"
    [ -n "$made" ] || make -C samples/gdb clean >"$kept/make"
    cmp -s "$kept/stdout" samples/gdb/expected/stdout
}

looker=$(echo "$program" | sed 's,mixedrun\([^/]*\)$,mixedlook\1,')
missing=
for tool in gdb-multiarch make m68k-linux-gnu-gcc powerpc-linux-gnu-gcc "$looker"; do
    command -v "$tool" >"$kept/tool" || missing=$tool
done
if [ -n "$missing" ]; then
    echo "gdb: skipped, without $missing"
elif talk_with_gdb; then
    echo "gdb: ok"
else
    echo "gdb: stdout differs"
    failed=$((failed + 1))
fi

[ "$failed" = 0 ] || { echo "$failed samples failed"; exit 1; }

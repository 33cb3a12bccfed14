# What the scripts mixedrun and mixedlook in the folder above share: which of the program that was proved and built
# here and of the one in this folder is that of the sources as they are, and how it is built. They set `top`, the
# repository's folder, and `name`, the program's.
crate=$top/crates/$name
program=$crate/out/$name
begun=$crate/out.begun
log=$crate/out.log
verdict=$crate/out/verdict
released=$top/release/$name-x86_64-linux
manifest=$top/release/MANIFEST
[ "$name" = mixedrun ] || manifest=$manifest-$name

# The texts stand in the program's source, and are printed from there without a build.
texts=$crate/src/main.rt
[ "$name" = mixedrun ] && texts=$top/crates/mix_main/src/texts.rt

print_help() {
    sed -n '/const HELP: &str = "\\$/,/^";$/p' "$texts" | sed '1d;$d'
}

print_version() {
    sed -n 's/^.*const VERSION: &str = "\(.*\)\\n";$/\1/p' "$texts"
}

# The names of the crates that the program stands on, itself among them.
list_crates() {
    awk -F: -v name="$name" '
        /^#/ || !/:/ { next }
        { split($1, head, " "); below[head[1]] = $2 }
        END { walk(name) }
        function walk(name,    parts, i, n) {
            if (name in seen || !(name in below)) return
            seen[name] = 1
            print name
            n = split(below[name], parts, " ")
            for (i = 1; i <= n; i++) walk(parts[i])
        }' "$top/crates.txt"
}

# The files that the program is built from, as the folder of this script has them: crates.txt, and src, specs
# and proofs of its crates.
list_sources() {
    echo crates.txt
    for part in $(list_crates); do
        find "crates/$part/src" "crates/$part/specs" "crates/$part/proofs" -type f 2>/dev/null
    done
}

# The checksum of the sources: that of the list of their checksums, by their names in order.
sum_sources() {
    (cd "$top" && list_sources | LC_ALL=C sort | tr '\n' '\0' | xargs -0 sha256sum | sha256sum | cut -d ' ' -f 1)
}

# The sources that are newer than the program, one of them at most.
newer_source() {
    (cd "$top" && list_sources | tr '\n' '\0' | xargs -0 sh -c 'find "$@" -newer "$0"' "$program" | head -n 1)
}

is_stale() {
    [ ! -x "$program" ] || [ -n "$(newer_source)" ]
}

# Whether the program in release/ is the one of the manifest, built from the sources as they are.
is_released() {
    [ -x "$released" ] && [ -f "$manifest" ] || return 1
    [ "$(manifest_line program)" = "$(sha256sum <"$released" | cut -d ' ' -f 1)" ] || return 1
    [ "$(manifest_line sources)" = "$(sum_sources)" ]
}

manifest_line() {
    sed -n "s/^$1: //p" "$manifest"
}

# Says whether the program that was built has the bytes of the one in release/.
compare_with_release() {
    if cmp -s "$program" "$released"; then
        echo "$name: the program has the same bytes as release/${released##*/}" >&2
    else
        echo "$name: the program differs from release/${released##*/}" >&2
    fi
}

# Says which crate is proved, as the log tells it, until the log has been read to its end.
tell_progress() {
    crates=$(list_crates | wc -l)
    awk -v program="$name" -v crates="$crates" '
        /^rt: chose --jobs [0-9]+ for / { name = $NF }
        /^crate [a-z0-9_]+: modules loaded=/ { name = substr($2, 1, length($2) - 1) }
        /^logic=proved / { done++; printf "%s: %d of %d crates proved (%s)\n", program, done, crates, name; fflush() }
        ' >&2
}

# Builds the proved program. It is dated by the moment at which the build began, so that a source that
# changed meanwhile is newer than it.
build() {
    echo "$name: proving and building the program; a first build takes half an hour on four processors" >&2
    touch "$begun"
    { (cd "$crate" && rt run -- --version) 2>&1; echo "status $?"; } | tee "$log" | tell_progress
    if [ "$(tail -n 1 "$log")" != "status 0" ]; then
        cat "$log" >&2
        rm -f "$log" "$begun"
        echo "$name: the program could not be proved and built" >&2
        exit 1
    fi
    touch -r "$begun" "$program"
    rm -f "$log" "$begun"
}

# Whether an earlier run found which program is that of the sources, and nothing changed since: neither a file nor a
# folder that the verdict rests on. That is seen by the times of their last change, which nobody sets.
is_remembered() {
    [ -f "$verdict" ] || return 1
    changed=$(find "$top/crates.txt" "$top/release" "$top/crates" -name out -prune -o -cnewer "$verdict" -print -quit)
    [ -z "$changed" ] || return 1
    [ "$(cat "$verdict")" = built ] || program=$released
    [ -x "$program" ]
}

# Keeps which program is that of the sources, as of the moment at which the look at them began. Where the folder takes
# no file, the next run looks again.
remember() {
    { echo "$1" >"$verdict.new" && touch -r "$moment" "$verdict.new" && mv "$verdict.new" "$verdict"; } 2>/dev/null
    rm -f "$moment"
}

# Finds the program that is that of the sources, and builds it if there is none.
find_program() {
    is_remembered && return
    mkdir -p "$crate/out" 2>/dev/null
    moment=$(mktemp) || exit 1
    if ! is_stale; then
        remember built
    elif is_released; then
        program=$released
        remember released
    else
        rm -f "$moment"
        build
    fi
}

# Runs the program that is that of the sources, once it is built, with the words given. Where standard error is a
# terminal, `hint` is told the status and the words afterwards.
run_program() {
    find_program
    [ -t 2 ] || exec "$program" "$@"
    "$program" "$@"
    status=$?
    hint $status "$@"
    exit $status
}

# Answers --help, --version and --rebuild.
answer_alone() {
    if [ $# -eq 1 ]; then
        case $1 in
        --help) print_help && exit ;;
        --version) print_version && exit ;;
        esac
    fi
    if [ "${1:-}" = --rebuild ]; then
        build
        compare_with_release
        exit
    fi
}

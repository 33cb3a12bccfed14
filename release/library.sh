#!/bin/sh
# The library for callers in C: whether the archive in this folder is that of the sources as they are, as its manifest
# says. It is built from crates/mixedrun_c, with the kit's functions that take memory from malloc, so that one links with it
# alone, and of its names only those of include/mixedrun.h are seen from outside.
#
# usage: release/library.sh             says whether the archive is that of the sources; status 1 where it is not
#        release/library.sh --rebuild   proves and builds it, writes archive and manifest, and says whether its bytes changed
top=$(cd "$(dirname "$(readlink -f "$0")")/.." && pwd) || exit 2
name=mixedrun_c
# shellcheck source=release/program.sh
. "$top/release/program.sh"
released=$top/release/libmixedrun-x86_64-linux.a
manifest=$top/release/MANIFEST-libmixedrun

sum_archive() {
    sha256sum <"$released" | cut -d ' ' -f 1
}

is_archive_released() {
    [ -f "$released" ] && [ -f "$manifest" ] || return 1
    [ "$(manifest_line archive)" = "$(sum_archive)" ] && [ "$(manifest_line sources)" = "$(sum_sources)" ]
}

# The folder of the kit, in which `rt` stands.
kit_folder() {
    dirname "$(dirname "$(readlink -f "$(command -v rt)")")"
}

# One object of all parts, whose names but those of the header are its own.
join_parts() {
    work=$(mktemp -d) || return 1
    ld -r -o "$work/all.o" --whole-archive "$crate/out/libmixedrun_c.a" "$(kit_folder)/c/liblibc_c.a" || return 1
    objcopy --wildcard --keep-global-symbol='mixedrun_*' --strip-debug "$work/all.o" "$work/mixedrun.o" || return 1
    (cd "$work" && ar rcD libmixedrun.a mixedrun.o) || return 1
    mv "$work/libmixedrun.a" "$released"
    rm -rf "$work"
}

write_manifest() {
    cat >"$manifest" <<END
# The library in this folder: the kit that proved and built it, its SHA-256 checksum, and that of the
# sources that it was built from, as library.sh finds it.
kit: $(rt version)
archive: $(sum_archive)
sources: $(sum_sources)
END
}

case $# in
0)
    if is_archive_released; then
        echo "library.sh: release/${released##*/} is that of the sources"
    else
        echo "library.sh: release/${released##*/} is not that of the sources: release/library.sh --rebuild" >&2
        exit 1
    fi
    ;;
1)
    [ "$1" = --rebuild ] || exit 2
    was=$(manifest_line archive 2>/dev/null)
    (cd "$crate" && rt lib) || exit 1
    join_parts || exit 1
    write_manifest
    [ "$was" = "$(sum_archive)" ] && echo "library.sh: the same bytes as before" || echo "library.sh: other bytes than before"
    ;;
*) exit 2 ;;
esac

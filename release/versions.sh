#!/bin/sh
# The version stands in each program, in the library, and in the header; and the first bytes of a checkpoint are the format that
# this version writes and reads. Prints it where all agree, and fails where one differs.
# usage: release/versions.sh
crates=$(cd "$(dirname "$0")/../crates" && pwd) || exit 2
header=$crates/../include/mixedrun.h

text_of() { sed -n "s/^.*const VERSION: &str = \"$1 \(.*\)\\\\n\";\$/\1/p" "$crates/$2"; }
version=$(text_of mixedrun mix_main/src/texts.rt)
number=$(printf '%d' "$(sed -n 's/^pub const VERSION: u32 = \(0x[0-9A-F_]*\);$/\1/p' "$crates/slice_runs/src/lib.rt" | tr -d _)")
library=$((number >> 16)).$((number >> 8 & 255)).$((number & 255))
stated=$(sed -n 's/^#define MIXEDRUN_VERSION "\(.*\)"$/\1/p' "$header")
magic=$(sed -n 's/^#define MIXEDRUN_IMAGE "\(.*\)"$/\1/p' "$header")
mark_of() { sed -n "s/^pub const MARK_$1: u32 = 0x\([0-9A-F_]*\);\$/\1/p" "$crates/mix_image/src/longs.rt" | tr -d _; }
written=$(mark_of FIRST)$(mark_of SECOND)
magic_bytes=$(printf %s "$magic" | od -An -tx1 | tr -d ' \n' | tr a-f A-F)

result=0
differs() { echo "versions.sh: $1 says '$2', and not '$3'" >&2; result=1; }
[ -n "$version" ] || differs mixedrun "$version" "a version"
for other in "mixedlook $(text_of mixedlook mixedlook/src/main.rt)" "slice_runs $library" "mixedrun.h $stated"; do
    [ "${other#* }" = "$version" ] || differs "${other%% *}" "${other#* }" "$version"
done
if [ -z "$written" ] || [ "$magic_bytes" != "$written" ]; then differs mixedrun.h "$magic_bytes" "$written"; fi
[ "$result" = 0 ] && echo "$version, checkpoints $magic"
exit "$result"

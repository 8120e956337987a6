#!/bin/sh
# Runs the proved program on damaged copies of its stdin file: a changed answer must cost one case, and a file that is not whole must show.
# Needs crates/test_vectors/out/test_vectors: (cd crates/test_vectors && rt run < stdin) && crates/test_vectors/inputs.sh
cd "$(dirname "$0")/../.." || exit 1
file=crates/test_vectors/stdin printed=crates/test_vectors/stdout
passed=0 failed=0
work=$(mktemp -d) || exit 1
trap 'rm -rf "$work"' EXIT

judge() { # NAME, with $work/damaged and $work/expected
    crates/test_vectors/out/test_vectors <"$work/damaged" >"$work/printed"
    if cmp -s "$work/printed" "$work/expected"; then passed=$((passed + 1)); else failed=$((failed + 1)); echo "test_vectors: $1 prints something else"; fi
}

change() { # PLACE VALUE: a copy with another byte there
    head -c "$1" "$file"
    printf "\\$(printf '%03o' "$2")"
    tail -c "+$(($1 + 2))" "$file"
}

# The first record of each kind in each source: for each byte of its answer a line with the source, the kind, the byte's place and the byte.
# A length or an argument among these is left out: with another length the file is broken.
od -An -v -tu1 "$file" | awk '
    { for (i = 1; i <= NF; i++) b[n++] = $i }
    END {
        split("48 16 16 32 16 16 0 32 9 9 10 0 0 28 0 10 0", from)
        # Where the answer stands before a run of bytes, its end; where a length stands in it, that place.
        end[7] = end[17] = 18; end[12] = 17; end[13] = 31; end[15] = 3; end[16] = 80
        left_out[5] = left_out[6] = 17; left_out[14] = 29
        # The layout of a scan that is read is an argument.
        left_out[13] = 1
        for (at = 0; at < n; at += 2 + b[at + 1]) {
            kind = b[at]
            if (kind == 0) source++
            else if (kind != 255 && !((source, kind) in seen)) {
                seen[source, kind] = 1
                last = kind in end ? end[kind] : b[at + 1]
                for (i = from[kind]; i < last; i++)
                    if (!(kind in left_out && i == left_out[kind])) print source, kind, at + 2 + i, b[at + 2 + i]
            }
        }
    }' >"$work/answers"

while read -r source kind place byte; do
    change "$place" $(((byte + 1) % 256)) >"$work/damaged"
    awk -v s="$source" 'NR == s || / agree$/ { $1 = $1 - 1 } { print }' "$printed" >"$work/expected"
    judge "source $source, kind $kind, byte at $place"
done <"$work/answers"

size=$(wc -c <"$file") count=$(awk '/ agree$/ { print $1 }' "$printed") first=$(awk 'NR == 1 { print $1 }' "$printed")
# Where the first case stands, and the first of the second source.
start=$(od -An -v -tu1 -j1 -N1 "$file") start=$((start + 2))
second=$(od -An -v -tu1 "$file" | awk '
    { for (i = 1; i <= NF; i++) b[n++] = $i }
    END { for (at = 0; source < 2; at += 2 + b[at + 1]) if (b[at] == 0) source++; print at }')

none() { printf 'broken file after 0 records\n' >"$work/expected"; }
at_first() { sed -n '1s/^[0-9]* of [0-9]*/0 of 0/p' "$printed" >"$work/expected"; printf 'broken file after 0 records\n' >>"$work/expected"; }
at_second() { sed -n '1p; 2s/^[0-9]* of [0-9]*/0 of 0/p' "$printed" >"$work/expected"; printf 'broken file after %d records\n' "$first" >>"$work/expected"; }
at_end() { sed '$d' "$printed" >"$work/expected"; printf 'broken file after %d records\n' "$count" >>"$work/expected"; }

: >"$work/damaged"
none; judge 'an empty file'
head -c 1 "$file" >"$work/damaged"
none; judge 'a kind alone'
head -c 5 "$file" >"$work/damaged"
none; judge 'a cut source'
tail -c "+$((start + 1))" "$file" >"$work/damaged"
none; judge 'a case before any source'
(cat "$file"; head -c $((524288 - size)) /dev/zero) >"$work/damaged"
none; judge '524,288 bytes'
head -c "$start" "$file" >"$work/damaged"
at_first; judge 'a source alone'
head -c "$((start + 9))" "$file" >"$work/damaged"
at_first; judge 'a cut case'
change "$second" 18 >"$work/damaged"
at_second; judge 'an unknown kind'
change $((second + 1)) 64 >"$work/damaged"
at_second; judge 'a wrong length'
head -c $((size - 1)) "$file" >"$work/damaged"
at_end; judge 'a cut end'
head -c $((size - 6)) "$file" >"$work/damaged"
at_end; judge 'no end'
change $((size - 1)) 0 >"$work/damaged"
at_end; judge 'an end with another count'
(cat "$file"; printf '\0') >"$work/damaged"
at_end; judge 'a byte after the end'
(cat "$file"; tail -c 6 "$file") >"$work/damaged"
at_end; judge 'a second end'

echo "$passed passed, $failed failed"
[ "$failed" -eq 0 ]

#!/bin/sh
# Runs the proved program on inputs beside its stdin file and compares what it prints with lines worked out by hand from the Ion specification.
# Needs crates/stamps/out/stamps: (cd crates/stamps && rt run < stdin) && crates/stamps/inputs.sh
cd "$(dirname "$0")/../.." || exit 1
passed=0 failed=0
work=$(mktemp -d) || exit 1
trap 'rm -rf "$work"' EXIT

judge() { # NAME, with $work/printed and $work/expected
    if cmp -s "$work/printed" "$work/expected"; then passed=$((passed + 1)); else failed=$((failed + 1)); echo "stamps: $1 prints something else"; fi
}

try() { # NAME BYTES-AS-PRINTF EXPECTED-AS-PRINTF
    printf "$2" | crates/stamps/out/stamps >"$work/printed"
    printf "$3" >"$work/expected"
    judge "$1"
}

year='\143\300\017\344' # 63 C0 0F E4: the year 2020, offset unknown
try 'empty input' '' ''
try 'one value' "$year" '2020T\n'
try 'first byte of another type' '\041\001' 'stop 14\n'
try 'null.timestamp' '\157' 'stop 14\n'
try 'value cut after its first byte' '\143' 'stop 13\n'
try 'second value cut' "$year"'\143\300' '2020T\nstop 13\n'
try 'length cut' '\156' 'stop 13\n'
try 'month 100' '\143\300\217\344' 'stop 15\n'
try 'year with a leading zero group' '\144\300\000\017\344' '2020T\n'
try 'year in eleven bytes' '\154\300\000\000\000\000\000\000\000\000\000\000\201' 'stop 15\n'
try 'known offset of a year' '\143\200\017\344' 'stop 15\n'
try 'length where the descriptor has room' '\156\203\300\017\344' '2020T\n'
try 'length in two bytes where one serves' '\156\000\203\300\017\344' '2020T\n'
try 'length in two bytes, cut' '\156\000' 'stop 13\n'
try 'length of 65' '\156\301' 'stop 15\n'
try 'zero with an exponent of 0' '\151\200\017\344\202\203\204\205\206\200' '2020-02-03T04:05:06+00:00\n'
try 'zero bytes before a coefficient' '\154\200\017\344\202\203\204\205\206\303\000\000\106' '2020-02-03T04:05:06.070+00:00\n'
try 'nothing after a refusal' '\157'"$year" 'stop 14\n'

# 16,384 values of 4 bytes are 65,536 bytes, and one more byte is too long.
i=0
while [ $i -lt 16384 ]; do printf "$year"; i=$((i + 1)); done >"$work/longest"
i=0
while [ $i -lt 16384 ]; do printf '2020T\n'; i=$((i + 1)); done >"$work/expected"
crates/stamps/out/stamps <"$work/longest" >"$work/printed"
judge '65,536 bytes'
printf '\143' >>"$work/longest"
printf 'stop 17\n' >"$work/expected"
crates/stamps/out/stamps <"$work/longest" >"$work/printed"
judge '65,537 bytes'

# A value that arrives in two reads.
(printf '\143\300'; sleep 1; printf '\017\344') | crates/stamps/out/stamps >"$work/printed"
printf '2020T\n' >"$work/expected"
judge 'value in two reads'

echo "$passed passed, $failed failed"
[ "$failed" -eq 0 ]

#!/usr/bin/env bash
# The edges of `watch`: each input's whole output. Document 01, "Watch"; document 02, "Thirty-two actions". The argument is the
# program.
set -euo pipefail
watch=$1
work=$(mktemp -d)
trap 'rm -rf "$work"' EXIT

# Records: duties of party 1 on actions a, b and 31, a duty of both parties on a, party 1's deadlines on a with windows of 3 and
# 15 periods, the operators, and narrow records of periods with both parties' attempts.
duty_a='TC\x01\x01\x00\x00'
duty_b='TC\x01\x01\x01\x00'
duty_31='TC\x01\x01\x1f\x00'
joint_a='TC\x01\x03\x00\x00'
deadline_3='TC\x0a\x01\x00\x03'
deadline_15='TC\x0a\x01\x00\x0f'
both='TC\x04\x00\x00\x00'
repair='TC\x06\x00\x00\x00'
repeat='TC\x07\x00\x00\x00'
both_a='TP\x01\x00\x01\x00'
only_a='TP\x01\x00\x00\x00'
only_b='TP\x02\x00\x00\x00'
nobody='TP\x00\x00\x00\x00'

# The same bytes with wide records for the narrow ones.
wide() {
    sed -E 's/TP(\\x..\\x..)(\\x..\\x..)/TQ\1\\x00\\x00\2\\x00\\x00/g' <<<"$1"
}
wide_a=$(wide "$both_a")
wide_nobody=$(wide "$nobody")

# A record so many times.
times() {
    printf "$2%.0s" $(seq "$1")
}

# The file `input` gives what is on standard input here.
expect() {
    cat >"$work/expected"
    "$watch" <"$work/input" >"$work/output"
    diff -u "$work/expected" "$work/output" || { echo "FAILED watch, $1"; exit 1; }
    echo "ok watch, $1"
}

# The input, then the output.
edge() {
    printf "$2" >"$work/input"
    printf "$3" | expect "$1"
}

# The same output in both forms.
both_forms() {
    edge "$@"
    edge "$1, in wide records" "$(wide "$2")" "$3"
}

both_forms 'the example of document 01' "$duty_a$duty_b$repair$repeat$both_a$nobody$only_b$both_a" \
    '1 open 0\n2 open 0\n3 broken 2\n4 broken-after 2\ndecided 3\n'
edge 'empty input' '' 'refused 1 0\n'
edge 'contract only' "$duty_a" 'decided 0\n'
edge 'contract only, refused' "$repeat" 'refused 5 0\n'
both_forms 'trace only' "$both_a$both_a$both_a" 'refused 1 0\n'
both_forms 'decided in period 1' "$duty_a$both_a$nobody" '1 met 0\n2 met-after 0\ndecided 1\n'
both_forms 'broken in period 1' "$duty_a$nobody$both_a" '1 broken 1\n2 broken-after 1\ndecided 1\n'
both_forms 'never decided' "$duty_a$repeat$both_a$both_a$both_a" '1 open 0\n2 open 0\n3 open 0\ndecided 0\n'
edge 'a cut last record' "$duty_a$both_a$both_a"'TP\x01' 'refused 11 0\n'
edge 'a cut record and no whole one' "$duty_a"'TP\x01' 'refused 1 0\n'
edge 'a cut record before a bad mark' "$duty_a$both_a$duty_a"'TP\x01' 'refused 11 0\n'
edge 'a bad mark in the trace' "$duty_a$both_a$both_a$duty_a$both_a" 'refused 11 2\n'
both_forms 'a bad contract before a bad trace' "$duty_a$duty_a$both_a$duty_a" 'refused 6 2\n'
edge 'a period mark that no six bytes start with' 'TC\x01TP\x00'"$both_a" 'refused 4 0\n'
edge 'a record of the contract after the trace' "$duty_a$both_a$repeat" 'refused 11 1\n'
both_forms 'blame on both parties' 'TC\x03\x01\x00\x00'"$duty_b$both$only_a" '1 broken 3\ndecided 1\n'
both_forms 'a joint duty, blame on both parties' "$joint_a$repeat$both_a$nobody$only_a" \
    '1 open 0\n2 broken 3\n3 broken-after 3\ndecided 2\n'
both_forms 'a joint duty, blame on the party that does not try' "$joint_a$only_a$nobody" \
    '1 broken 2\n2 broken-after 2\ndecided 1\n'
edge 'a duty of party 4' 'TC\x01\x04\x00\x00'"$both_a" 'refused 4 0\n'
edge 'a ban of both parties' 'TC\x02\x03\x00\x00'"$both_a" 'refused 4 0\n'
both_forms 'a deadline met in its last period' "$deadline_3$nobody$only_a$both_a" '1 open 0\n2 open 0\n3 met 0\ndecided 3\n'
both_forms 'a deadline missed, with the blame of its last period' "$deadline_3$nobody$nobody$only_a$both_a" \
    '1 open 0\n2 open 0\n3 broken 2\n4 broken-after 2\ndecided 3\n'
both_forms 'a repair in the period after a deadline' "$deadline_3$duty_b$repair$nobody$nobody$nobody$only_b" \
    '1 open 0\n2 open 0\n3 open 0\n4 broken 2\ndecided 4\n'
both_forms 'an until that ends in period 2' \
    "$duty_a$repeat"'TC\x13\x00\x01\x00TC\x09\x00\x00\x00'"$both_a"'TP\x03\x00\x03\x00'"$nobody" \
    '1 open 0\n2 met 0\n3 met-after 0\ndecided 2\n'
edge 'a window of 0 periods' 'TC\x0a\x01\x00\x00'"$both_a" 'refused 4 0\n'
edge 'a window of 16 periods' 'TC\x0a\x01\x00\x10'"$both_a" 'refused 4 0\n'
edge 'a last byte in a duty' 'TC\x01\x01\x00\x03'"$both_a" 'refused 4 0\n'
edge 'an unknown kind' "$duty_a"'TC\x0b\x00\x00\x00'"$both_a" 'refused 3 1\n'

# Wide records: cut ones, marks, and actions above 15, which a narrow record never tries.
edge 'a cut last wide record' "$duty_a$wide_a$wide_a"'TQ\x01' 'refused 11 0\n'
edge 'a cut wide record and no whole six bytes of it' "$duty_a"'TQ\x01\x00\x00' 'refused 1 0\n'
edge 'six bytes of a wide record' "$duty_a"'TQ\x01\x00\x00\x00' 'refused 11 0\n'
edge 'nine bytes of a wide record' "$duty_a${wide_a%????}" 'refused 11 0\n'
edge 'a bad mark in a wide trace' "$duty_a$wide_a$wide_a${wide_a/TQ/TO}$wide_a" 'refused 11 2\n'
edge 'a wide mark that no six bytes start with' 'TC\x01TQ\x00'"$wide_a" 'refused 4 0\n'
edge 'a mark across two sixes' 'TC\x01\x01\x00TQ\x01\x00\x00\x00\x01' 'refused 4 0\n'
edge 'a narrow mark three bytes after a six' "$duty_a"'TC\x07'"$both_a"'\x00\x00\x00' 'refused 4 1\n'
edge 'a wide mark three bytes after a six' "$duty_a"'TC\x07'"$wide_a"'\x00\x00\x00\x00\x00' 'refused 4 1\n'
edge 'six bytes with another first byte' "$duty_a"'UQ\x01\x00\x00\x00'"$wide_a" 'refused 2 1\n'
edge 'six bytes with another second byte' "$duty_a"'TR\x01\x00\x00\x00'"$wide_a" 'refused 2 1\n'
edge 'a narrow mark six bytes into a wide record' "$duty_a"'TQ\x01\x00\x00\x00TP\x00\x00'"$wide_a" \
    '1 broken 2\n2 broken-after 2\ndecided 1\n'
edge 'action 31 in a wide record' "$duty_31"'TQ\x00\x00\x00\x80\x00\x00\x00\x80' '1 met 0\ndecided 1\n'
edge 'action 31 and a narrow record' "$duty_31"'TP\xff\xff\xff\xff' '1 broken 1\ndecided 1\n'
edge 'action 32' 'TC\x01\x01\x20\x00'"$wide_a" 'refused 4 0\n'

# Both forms in a trace, where its length is whole for the first record's and where it isn't.
edge 'wide records after one narrow' "$duty_a$both_a$wide_a$wide_a$wide_a" 'refused 11 1\n'
edge 'wide records after two narrow' "$duty_a$both_a$both_a$wide_a$wide_a$wide_a" 'refused 11 2\n'
edge 'a wide record after a narrow one' "$duty_a$both_a$wide_a" 'refused 11 0\n'
edge 'narrow records after one wide' "$duty_a$wide_a$both_a$both_a$both_a$both_a$both_a" 'refused 11 1\n'
edge 'narrow records after three wide' "$duty_a$wide_a$wide_a$wide_a$both_a$both_a$both_a$both_a$both_a" 'refused 11 3\n'
edge 'a narrow record after a wide one' "$duty_a$wide_a$both_a" 'refused 11 0\n'

# The longest input in a form, and a byte more; after one record, as many periods as an input has.
longest() {
    { printf "$2"; times "$3" "$4"; } >"$work/input"
    test "$(wc -c <"$work/input")" -eq 65520
    { seq "$3" | sed 's/$/ open 0/'; echo 'decided 0'; } | expect "65,520 bytes$1"
    printf 'T' >>"$work/input"
    echo 'refused 13 0' | expect "65,521 bytes$1"
}
most_periods() {
    { printf "$duty_a"; times "$1" "$2"; } >"$work/input"
    { echo '1 broken 1'; seq 2 "$1" | sed 's/$/ broken-after 1/'; echo 'decided 1'; } | expect "$1 periods after one record"
}
longest '' "$duty_a$repeat" 10918 "$both_a"
longest ', in wide records' "$duty_a$repeat$repeat$repeat$repeat" 6549 "$wide_a"
most_periods 10919 "$nobody"
most_periods 6551 "$wide_nobody"
printf 'TQ\x00\x00' >>"$work/input"
test "$(wc -c <"$work/input")" -eq 65520
echo 'refused 11 0' | expect '6551 wide records and four bytes'
head -c 65521 /dev/zero >"$work/input"
echo 'refused 13 0' | expect '65,521 bytes of no contract'
head -c 1000000 /dev/zero >"$work/input"
echo 'refused 13 0' | expect 'a million bytes'
times 10920 "$duty_a" >"$work/input"
echo 'refused 1 0' | expect '65,520 bytes of contract'

# The largest image that a contract has, 32 deadlines of 15 periods, in the longest input of a form.
deadlines() {
    { times 32 "$deadline_15"; times 31 "$both"; printf "$repeat"; times "$3" "$4"; times 15 "$5"; } >"$work/input"
    test "$(wc -c <"$work/input")" -eq "$2"
    { seq $(($3 + 14)) | sed 's/$/ open 0/'; echo "$(($3 + 15)) broken 1"; echo "decided $(($3 + 15))"; } | expect "$1"
}
deadlines '32 deadlines' 65520 10841 "$both_a" "$nobody"
deadlines '32 deadlines, in wide records' 65514 6498 "$wide_a" "$wide_nobody"

# The input in pieces.
for trace in "$both_a" "$wide_a"; do
    { printf 'TC\x01'; sleep 0.1; printf '\x01\x00\x00T'; sleep 0.1; printf "${trace#T}"; } | "$watch" >"$work/output"
    printf '1 met 0\ndecided 1\n' | diff -u - "$work/output"
done
echo "ok watch, input in pieces"

# A read or a write that fails says so on standard error; the files `output` and `error` have what was written.
fails() {
    test ! -s "$work/output"
    echo "watch: $2" | diff -u - "$work/error"
    echo "ok watch, $1"
}
"$watch" <"$work" >"$work/output" 2>"$work/error"
fails 'a folder as input' 'standard input cannot be read'
"$watch" <&- >"$work/output" 2>"$work/error"
fails 'a closed input' 'standard input cannot be read'
"$watch" <"$work/input" >&- 2>"$work/error"
fails 'a closed output' 'standard output cannot be written'
if test -e /dev/full; then
    "$watch" <"$work/input" >/dev/full 2>"$work/error"
    fails 'a full output' 'standard output cannot be written'
fi

# Where nobody reads the output any more, it says nothing, and a shell has the status of a program that SIGPIPE ended.
status=0
{ sleep 0.2; "$watch" <"$work/input" 2>"$work/error"; } | true || status=$?
test "$status" -eq 141
test ! -s "$work/error"
# Nor where that is what it says of a failed read.
status=0
{ sleep 0.2; "$watch" <"$work" 2>&1 >/dev/null; } | true || status=$?
test "$status" -eq 141
echo "ok watch, an output that nobody reads"

#!/usr/bin/env bash
# The program finlist beside the judge's: what both print for files, compared byte for byte.
# Usage: oracle/finlist.sh record, the first lines of crates/replay_finlist/stdin, which writes the judge's answers for the named files and for generated ones; or
# oracle/finlist.sh [SEED [TREES [DAMAGED]]], behind `rt run` in crates/finlist, which leaves crates/finlist/out/finlist (FINLIST names another program).
# The named files are spelled here, field by field, as width:value; the others are generated. Exit status 1 where one differs, or where a named
# file is not refused by the number that stands before it (0: it is not refused).
set -euo pipefail
here=$(cd "$(dirname "$0")" && pwd)
program=${FINLIST:-$here/../crates/finlist/out/finlist}
recording=
if [ "${1:-}" = record ]; then
    recording=1
    set -- 3 60 40
fi
seed=${1:-1}
trees=${2:-300}
damaged=${3:-300}
largest=8192
[ -z "$recording" ] || largest=400

(cd "$here" && cargo build --release --quiet --offline)
oracle=$here/target/release/oracle

scratch=$(mktemp -d)
trap 'rm -rf "$scratch"' EXIT
file=$scratch/file
files=0
wrong=0

# A recorded line: the file in hexadecimal, `;`, what the judge prints with `/` for each line feed. A file of more than 8,193 bytes is left out: it is refused as one of 8,193 is.
record() {
    [ "$(stat -c %s "$file")" -le 8193 ] || return 0
    echo "$(od -An -v -tx1 "$file" | tr -d ' \n');$(tr '\n' '/' < "$scratch/judge")"
}

# Both programs on the file.
compare() {
    files=$((files + 1))
    "$oracle" finlist < "$file" > "$scratch/judge"
    if [ -n "$recording" ]; then
        record
        return
    fi
    "$program" < "$file" > "$scratch/own"
    if ! cmp -s "$scratch/own" "$scratch/judge"; then
        wrong=$((wrong + 1))
        echo "WRONG $1"
        diff "$scratch/own" "$scratch/judge" | head -5 || true
    fi
}

# Bytes from hexadecimal digits.
spell() {
    printf '%b' "$(sed 's/../\\x&/g' <<< "$1")" > "$file"
}

# Bytes from fields, most significant bit first, zero bits behind the last.
pack() {
    local field width value bits= hex= at
    for field in "$@"; do
        width=${field%%:*}
        value=${field#*:}
        for ((at = width - 1; at >= 0; at--)); do
            bits+=$(((value >> at) & 1))
        done
    done
    while ((${#bits} % 8)); do
        bits+=0
    done
    for ((at = 0; at < ${#bits}; at += 8)); do
        hex+=$(printf '%02x' "$((2#${bits:at:8}))")
    done
    spell "$hex"
}

# A named file, with the number that it must be refused by.
named() {
    local number=$1 name=$2
    shift 2
    pack "$@"
    held "$number" "$name"
}

held() {
    local said=0 letter rest
    compare "$2"
    read -r letter rest < "$scratch/judge"
    [ "$letter" = R ] && said=$rest
    if [ "$said" != "$1" ]; then
        wrong=$((wrong + 1))
        echo "WRONG $2: refused by $said, not by $1"
    fi
}

repeat() {
    local k
    for ((k = 0; k < $1; k++)); do
        echo "${@:2}"
    done
}

one_line="8:1 8:1"
x="1:0 6:0 7:120"
global_x="1:1 6:0 7:120"
capital_x="1:0 6:0 7:88"
a="1:0 6:0 7:97"
set_0="2:3 8:0 3:0"
set_1="2:3 8:1 3:0"
one="3:4 64:1000"
increment="2:2 1:1 8:0"

named 0 "x=1" $one_line 8:1 $x 6:1 $set_0 $one
named 0 ":x=1" $one_line 8:1 $global_x 6:1 $set_0 $one
named 0 "no statement" $one_line 8:0 6:0
named 0 "two lines" 8:1 8:2 8:1 $global_x 6:1 $set_0 $one 6:1 $increment
named 0 "x=-0.001" $one_line 8:1 $x 6:1 $set_0 3:4 64:-1
named 0 "the least number" $one_line 8:1 $x 6:1 $set_0 3:4 64:-9223372036854775808
named 0 "the largest number" $one_line 8:1 $x 6:1 $set_0 3:4 64:9223372036854775807
named 0 "numbers of 1 to 19 digits" $one_line 8:1 $x 6:4 $set_0 3:4 64:-9 $set_0 3:4 64:-10 $set_0 3:4 64:999 $set_0 3:4 64:1000000000000000000
named 0 "an empty text" $one_line 8:1 $x 6:1 $set_0 3:5 7:0
named 0 "texts" $one_line 8:1 $x 6:3 $set_0 3:5 7:2 7:10 7:127 $set_0 3:5 7:0 $set_0 3:5 7:1 7:0
named 0 "the longest text" $one_line 8:1 $x 6:1 $set_0 3:5 7:127 $(repeat 127 7:47)
named 0 "goto 1 if a then x=1 end" $one_line 8:2 $a $x 6:2 2:0 $one 2:1 3:3 8:0 6:1 $set_1 $one 6:0
named 0 "if a then x=1 else goto 1 end" $one_line 8:2 $a $x 6:1 2:1 3:3 8:0 6:1 $set_1 $one 6:1 2:0 $one
named 0 "455 nodes" 8:1 8:8 8:1 $x $(repeat 7 6:63 $(repeat 63 $increment)) 6:14 $(repeat 14 $increment)
named 1 "another form" 8:2 8:1 8:0 6:0
named 2 "zero lines" 8:1 8:0
named 3 "an empty file"
named 4 "expression of kind 6" $one_line 8:1 $x 6:1 $set_0 3:6
named 5 "a name that is not there" $one_line 8:1 $x 6:1 $set_1 $one
named 6 "two equal names" $one_line 8:2 $x $x 6:0
named 6 "x and X" $one_line 8:2 $x $capital_x 6:0
named 6 "Ward and wARD" $one_line 8:2 1:1 6:3 7:87 7:97 7:114 7:100 1:1 6:3 7:119 7:65 7:82 7:68 6:0
named 0 "X and :x" $one_line 8:2 $capital_x $global_x 6:1 $set_1 $one
named 0 "[, {, @ and \`" $one_line 8:4 1:0 6:0 7:91 1:0 6:0 7:123 1:0 6:0 7:64 1:0 6:0 7:96 6:1 $set_1 $one
named 7 "depth 65" $one_line 8:1 $x 6:1 $set_0 $(repeat 64 3:1 4:0) $one
named 8 "2,079 nodes" 8:1 8:33 8:1 $x $(repeat 33 6:63 $(repeat 63 $increment))
named 9 "a fill bit" $one_line 8:0 6:0 2:1
named 11 "456 nodes" 8:1 8:8 8:1 $x $(repeat 7 6:63 $(repeat 63 $increment)) 6:15 $(repeat 15 $increment)
head -c 8192 /dev/zero > "$file"
held 1 "8,192 bytes"
head -c 8193 /dev/zero > "$file"
held 10 "8,193 bytes"
head -c 40000 /dev/zero > "$file"
held 10 "40,000 bytes"

"$oracle" generate trees "$seed" "$trees" "$largest" > "$scratch/trees"
"$oracle" generate damaged "$seed" "$damaged" "$largest" > "$scratch/damaged"
while read -r hex; do
    spell "$hex"
    compare "$hex"
done < <(cat "$scratch/trees" "$scratch/damaged")

[ -n "$recording" ] || echo "$files files, $wrong differ"
[ "$wrong" -eq 0 ]

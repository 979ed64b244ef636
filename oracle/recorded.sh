#!/usr/bin/env bash
# Every recorded tree, machine and listing (README.md, "Recorded answers") beside what the judge says of it today. Prints how many and how many differ; exit
# status 1 if one does. Texts are not answered one by one: `oracle record texts` makes them again.
# Usage: oracle/recorded.sh
set -euo pipefail
here=$(cd "$(dirname "$0")" && pwd)
crates=$here/../crates
(cd "$here" && cargo build --release --quiet --offline)
oracle=$here/target/release/oracle

# The judge's answer to a case, in one line, as it is recorded.
answer() {
    case "$1" in
    T\;*) IFS=';' read -r _ file options _ <<< "$1"; echo "T;$file;$options;$("$oracle" tree "$file" "$options" | paste -sd ';')" ;;
    M\;*) IFS=';' read -r _ operation before _ <<< "$1"; echo "M;$operation;$before;$("$oracle" machine "$operation" "$before")" ;;
    *) echo "${1%%;*};$(printf '%b' "$(sed 's/../\\x&/g' <<< "${1%%;*}")" | "$oracle" finlist | tr '\n' '/')" ;;
    esac
}

cases=0
wrong=0
while IFS= read -r line; do
    [ "${line:0:2}" != "X;" ] || continue
    cases=$((cases + 1))
    if [ "$(answer "$line")" != "$line" ]; then
        wrong=$((wrong + 1))
        echo "differs: ${line:0:120}"
    fi
done < <(cat "$crates"/replay/stdin "$crates"/replay_passes/stdin "$crates"/replay_finlist/stdin)
echo "$cases cases, $wrong differ"
[ "$wrong" = 0 ]

#!/usr/bin/env bash
# Holds the definitions of crates/rules to yogi: theorems proved by computing, in a scratch repository.
# Usage: oracle/definitions.sh [SEED [TREES [DAMAGED [MACHINES [FINLIST [TEXTS [LIMITS [INSTR [WALKS [ORDERS]]]]]]]]]]
# LIMITS: 0 leaves out the four theorems about the longest files, which take a quarter of the time.
# INSTR: choices of fields for each opcode. WALKS: pairs of a tree and a list of outcomes. ORDERS: machines joined in some order.
# RULES: another folder with the definitions.
set -euo pipefail
here=$(cd "$(dirname "$0")" && pwd)
rules=${RULES:-$here/../crates/rules}
seed=${1:-1}
counts=("trees ${2:-300}" "damaged ${3:-300}" "machines ${4:-400}"
    "finlist ${5:-150}" "texts ${6:-50}" "limits ${7:-4}" "instr ${8:-6}" "walks ${9:-200}" "orders ${10:-200}")

(cd "$here" && cargo build --release --quiet)
oracle=$here/target/release/oracle

scratch=$(mktemp -d)
trap 'rm -rf "$scratch"' EXIT
against=$scratch/crates/against
specs=$against/specs
mkdir -p "$specs" "$against/src" "$scratch/crates/rules"
cp -r "$rules/src" "$rules/specs" "$scratch/crates/rules"
printf 'rules:\nagainst: rules\n' > "$scratch/crates.txt"
echo '// Theorems only: see specs/.' > "$against/src/lib.rt"

for count in "${counts[@]}"; do
    read -r kind number <<< "$count"
    "$oracle" theorems "$kind" "$seed" "$number" "$specs"
done | grep . > "$scratch/summary"
{
    echo 'pub mod Words'
    (cd "$specs" && ls | sed -n 's/\.antt$//p' | grep -v -x -e Words -e Lib | sed 's/^/pub mod /')
} > "$specs/Lib.antt"
total=$(awk '{ n += $NF } END { print n }' "$scratch/summary")

start=$(date +%s)
cd "$scratch"
status=0
(cd "$against" && rt check) > log 2>&1 || status=$?
seconds=$(($(date +%s) - start))
if [ "$status" = 0 ]; then
    cat summary
    echo "all $total theorems agree, seed $seed, $seconds seconds"
    exit 0
fi

# each refused theorem with the call it states, which stands three lines above its proof
grep -oE '^\./specs/[A-Za-z]+[0-9]+\.antt:[0-9]+:[0-9]+: error: `t[0-9]+`' log | sort -u > refused || true
while IFS=: read -r file at _ _ name; do
    echo "refused: ${file#./specs/}$name $(sed -n "$((at - 3))p" "$against/$file" | cut -c 1-1000)"
done < refused
number=$(wc -l < refused)
if [ "$number" = 0 ]; then
    tail -n 40 log | cut -c 1-1000
    echo "the definitions are not proved, or their names have changed: see oracle/src/theorems/names.rs"
else
    echo "$number of $total theorems refused, seed $seed, $seconds seconds"
fi
exit 1

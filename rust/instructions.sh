#!/usr/bin/env bash
# Instruction counts of the benchmark's workloads by callgrind, of the measured part alone:
# rust/instructions.sh [NAME...]
set -euo pipefail
cd "$(dirname "$0")"
cargo build --release --offline --quiet -p bench
bench="${CARGO_TARGET_DIR:-target}/release/bench"

# The instructions of one workload with one implementation.
instructions() {
    valgrind --tool=callgrind --toggle-collect='*measured*' --callgrind-out-file=/dev/null \
        "$bench" --once "$1" "$2" 2>&1 | sed -n 's/.*Collected : //p'
}

names=("$@")
if [[ $# -eq 0 ]]; then
    mapfile -t names < <("$bench" --list | grep -v 'only if named' | cut -d' ' -f1)
fi
echo "| workload | exchange | reference | ratio |"
echo "|---|---:|---:|---:|"
for name in "${names[@]}"; do
    exchange=$(instructions "$name" exchange)
    reference=$(instructions "$name" reference)
    awk -v name="$name" -v exchange="$exchange" -v reference="$reference" \
        'BEGIN { printf "| %s | %d | %d | %.2f |\n", name, exchange, reference, exchange / reference }'
done

#!/usr/bin/env bash
# Compares the programs of the repository with the plain ones on random sheets: standard output, summary or refusal, and status. The
# sentence in which the programs explain a refusal has no like on the plain side: that there is one is all that is asked.
#     bench/compare.sh [COUNT] [SEED]
# A program is compared where it has been built. Sheets that differ are named, the smallest first; they stay in the folder that is printed.
set -u
cd "$(dirname "$0")" || exit
count=${1:-1000} seed=${2:-1}
(cd plain && cargo build --quiet --release) || exit
plain=plain/target/release/plain
folder=$(mktemp -d)
"$plain" random "$seed" "$count" "$folder" || exit

# Takes the last line away, which is the sentence; or answers that it is none.
explained() {
    tail -n 1 "$1" | grep -q ': .' || return
    sed -i '$d' "$1"
}

differing=0
compare() {
    local proved=../crates/$1/out/$1
    if [ ! -x "$proved" ]; then
        echo "$1 is not built"
        return
    fi
    local differ=0 sheet
    while read -r sheet; do
        "$proved" < "$sheet" > "$folder/proved.out" 2> "$folder/proved.err"; local status=$?
        [ "$status" -ne 1 ] || explained "$folder/proved.err" || echo "no sentence" >> "$folder/proved.err"
        echo $status >> "$folder/proved.err"
        "$plain" "$2" < "$sheet" > "$folder/plain.out" 2> "$folder/plain.err"; echo $? >> "$folder/plain.err"
        if ! cmp -s "$folder"/{proved,plain}.out || ! cmp -s "$folder"/{proved,plain}.err; then
            echo "$1 differs: $sheet"
            differ=$((differ + 1))
        fi
    done < <(ls -Sr "$folder"/*.sheet)
    echo "$1: $differ of $count differ"
    differing=$((differing + differ))
}
compare closer close
compare marklist marks

if [ "$differing" -eq 0 ]; then rm -r "$folder"; else echo "in $folder"; exit 1; fi

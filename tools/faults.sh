#!/usr/bin/env bash
# Plants each fault of faults/ alone in a copy of the repository, and says what notices it, as rows of a table.
#     tools/faults.sh [CRATE..]
# A fault is first tried as an edit that the prover of its crate must refuse. One that is proved there is tried in the crates that it
# names itself, as `# above: CRATE..`, and then by what the programs over its crate write. What `rt check` kept is used.
# The status is 1 where a fault cannot be tried, or survives and faults/survivors.txt does not say why.
set -uo pipefail
cd "$(dirname "$0")/.." || exit
[ $# -gt 0 ] || set -- $(sed -n 's/^\([a-z]*\)[ a-z]*:.*/\1/p' crates.txt)
copy=$(mktemp -d)
trap 'rm -rf "$copy"' EXIT
cp -a . "$copy/all" && cd "$copy/all" || exit
rm -rf crates/*/must-fail

# The crates that use crate $1, directly or not, and itself.
over() {
    awk -F '[: ]+' -v below=" $1 " '/^[a-z]/ {
        for (i = 1; i <= NF; i++) if (index(below, " " $i " ")) { below = below $1 " "; print $1; next }
    }' crates.txt
}

# Writes edit $2 into the files of crate $1.
plant() {
    python3 - "crates/$1" "$2" <<'END'
import sys
for line in open(sys.argv[2], encoding="utf-8").read().splitlines():
    word, _, text = line.partition(": ")
    if word == "file":
        path = f"{sys.argv[1]}/{text}"
    elif word == "old":
        old = text
    elif word == "new":
        with open(path, encoding="utf-8") as file:
            whole = file.read()
        with open(path, "w", encoding="utf-8") as file:
            file.write(whole.replace(old, text))
END
}

is_refused() { grep -q '^logic=not-proved' <<<"$(cd "crates/$1" && rt check --jobs 1 2>&1)"; }

# Builds program $1 anew.
build() {
    rm -f "crates/$1/out/$1"
    (cd "crates/$1" && rt run --jobs 1 </dev/null >/dev/null 2>&1)
    [ -f "crates/$1/out/$1" ]
}

# Whether program $1 writes what its file stdout has, and ends as its file status says.
writes() {
    local crate=$PWD/crates/$1 data args=() given=/dev/null
    data=$(mktemp -d -p "$copy")
    [ ! -d "$crate/data" ] || cp "$crate"/data/* "$data"
    [ ! -f "$crate/args" ] || mapfile -t args <"$crate/args"
    [ ! -f "$crate/stdin" ] || given=$crate/stdin
    (cd "$data" && "$crate/out/$1" "${args[@]}" <"$given" >"$copy/wrote" 2>/dev/null)
    [ $? -eq "$(cat "$crate/status" 2>/dev/null || echo 0)" ] && cmp -s "$copy/wrote" "$crate/stdout"
}

# What notices a fault that the contracts of crate $1 let through; it stands planted, and $2 is its edit.
noticed() {
    local crate
    for crate in $(sed -n 's/^# above: //p' "$2"); do
        if is_refused "$crate"; then
            echo "refused in \`$crate\`"
            return
        fi
    done
    for crate in $(over "$1"); do
        [ -f "crates/$crate/stdout" ] || continue
        if ! build "$crate"; then
            echo "cannot be tried"
            return
        elif ! writes "$crate"; then
            echo "noticed by what \`$crate\` writes"
            return
        fi
    done
    echo survived
}

# What becomes of the fault of edit $2 in crate $1, where the prover said $3 of it.
verdict() {
    case $3 in
        *": refused, as it must be (only"*) echo "refused, but not by a contract" ;;
        *": refused, as it must be"*) echo refused ;;
        *": NOT REFUSED"*)
            cp -a "crates/$1" "$copy/kept"
            plant "$1" "$2"
            noticed "$1" "$2"
            rm -r "crates/$1" && mv "$copy/kept" "crates/$1"
            ;;
        *) echo "cannot be tried" ;;
    esac
}

# A row for each fault of crate $1.
try_crate() {
    local said edit name
    cp -a "faults/$1" "crates/$1/must-fail"
    said=$(rt must-fail "$1" 2>&1)
    rm -r "crates/$1/must-fail"
    for edit in "faults/$1"/*.edit; do
        name=$1/$(basename "$edit" .edit)
        printf '| `%s` | %s | %s | %s |\n' "$1" "$(sed -n '1s/^# //p' "$edit")" \
            "$(verdict "$1" "$edit" "$(grep -F "must-fail $name.edit: " <<<"$said")")" \
            "$(sed -n "s|^$name: ||p" faults/survivors.txt)"
    done
}

printf '| Crate | Fault | Verdict | Why |\n|---|---|---|---|\n'
for crate; do
    if [ -d "faults/$crate" ]; then
        try_crate "$crate"
    fi
done | tee "$copy/rows"
echo
awk -F ' \\| ' '
    { count[$3]++; bad += $3 == "cannot be tried" || $3 == "survived" && $4 !~ /[a-z]/ }
    END { for (verdict in count) print count[verdict] " " verdict; exit bad > 0 }
' "$copy/rows"

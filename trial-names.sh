#!/usr/bin/env bash
# Proves the whole repository, or the crates named and those below them, over 32 names in place of 16, in a copy outside the checkout (`rt ci`
# refuses a source anywhere but in its crate). No program is run: what they write goes by the number of names. The numbers that change are in
# docs/names-32.txt.
#     bash trial-names.sh [CRATE...]
# NAMES_COPY is another folder for the copy, COMMAND another command than `rt all check --jobs 2` there or, in the folder of each crate named, `rt check`.
set -euo pipefail
cd "$(dirname "$0")"
copy=${NAMES_COPY:-${XDG_CACHE_HOME:-$HOME/.cache}/vukhtaso/names-32}

# What was proved in the copy stays, in its crates' out/: only what changed since is proved again.
mkdir -p "$copy/crates"
for folder in "$copy"/crates/*/; do
    if [[ -d crates/$(basename "$folder") ]]; then
        find "$folder" -mindepth 1 -maxdepth 1 ! -name out -exec rm -rf {} +
    else
        rm -rf "$folder"
    fi
done
tar -cf - --no-wildcards-match-slash --exclude='crates/*/out' crates crates.txt | tar -xf - -C "$copy"

# Puts the new text in place of the old one, which stands in the file as often as the table says.
change() {
    [[ -n $file ]] || return 0
    local text rest
    text=$(<"$copy/$file")
    rest=${text//"$old"/}
    if ((${#text} - ${#rest} != times * ${#old})); then
        echo "trial-names.sh: not $times times in $file: $old" >&2
        exit 1
    fi
    printf '%s\n' "${text//"$old"/"$new"}" > "$copy/$file"
    file='' old='' new=''
}

file='' old='' new=''
while IFS= read -r line; do
    case $line in
    '#'* | '') change ;;
    -*) old+=${old:+$'\n'}${line#-} ;;
    +*) new+=${new:+$'\n'}${line#+} ;;
    *) read -r file times <<< "$line" ;;
    esac
done < docs/names-32.txt
change

cd "$copy"
if (($# == 0)); then
    exec ${COMMAND:-rt all check --jobs 2}
fi
for crate in "$@"; do
    (cd "crates/$crate" && ${COMMAND:-rt check})
done

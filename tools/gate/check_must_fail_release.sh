#!/usr/bin/env bash
# Tries the mutants that CI does not try, crates/NAME/must-fail-release/*.edit: the prover must
# reject each. With names of crates, it tries theirs alone. The crates themselves are proved before,
# by `.ci/run` or `rt check`.
#
# It tries lists of mutants side by side, RT_JOBS at once, each in a temporary copy. Those that
# change the bodies of different functions are tried in one check (together.py). What that does not
# reject, and each other mutant, `rt must-fail` tries alone, in the place of those of must-fail. As
# soon as a list was tried, it prints a line for each mutant that was rejected, and out/rejected
# keeps that line by the checksums of the mutant, of the kit, and of the sources of the crate and of
# those below it, with their lines in crates.txt. So a run tries what has changed, and a run that was
# stopped goes on. At the end it prints what else `rt` said, and a count.
#
# The libraries below are those that `.ci/run` has left, if it has passed at this commit, or that
# `rt lib` makes of what `rt check` has kept.
#
# usage: tools/gate/check_must_fail_release.sh [NAME..]
set -uo pipefail
cd "$(dirname "$0")/../.." || exit
source tools/gate/lib.sh
trap 'kill $(jobs -p) 2>/dev/null; rm -rf "$work"' EXIT

most=150 # mutants of a list: its first check takes as long as the proof of the crate
at_once=${RT_JOBS:-$(lanes)}
kept=$PWD/out/rejected
copy=$work/copy
names=("$@")
[ $# -gt 0 ] || mapfile -t names < <(printf '%s\n' crates/*/must-fail-release | cut -d / -f 2)
mkdir -p "$kept" "$copy" "$work/lists" "$work/said"

# key SUM EDIT: the words by which a line is kept.
key() { echo "$1 $(sha256sum <"$2" | cut -d ' ' -f 1)"; }

# has_kept NAME SUM EDIT: the prover has rejected the mutant.
has_kept() { grep -qs "^$(key "$2" "$3") " "$kept/$1"; }

# lists NAME: lists of the mutants that are left to try, in files, and the lines of the others.
lists() {
    local edit sum
    sum=$(sum_of "$1") && touch "$kept/$1" || return
    grep "^$sum " "$kept/$1" >"$work/line"
    cp "$work/line" "$kept/$1" && echo "$sum" >"$work/$1.sum"
    for edit in "crates/$1/must-fail-release"/*.edit; do
        if has_kept "$1" "$sum" "$edit"; then
            grep "^$(key "$sum" "$edit") " "$kept/$1" | head -n 1 | cut -d ' ' -f 3-
        else
            echo "$edit" >>"$work/$1.left"
        fi
    done
    [ ! -e "$work/$1.left" ] || split -l "$most" "$work/$1.left" "$work/lists/$1."
}

# were_left NAME..: `rt ci` has proved the libraries of these crates, as they are, and left them.
# Those that `rt lib` has made have a stamp.
were_left() {
    local name
    [ -z "$(git status --porcelain)" ] &&
        grep -qs "^gate: commit $(git rev-parse HEAD), kit $(rt version)," out/passed || return
    for name; do [ ! -e "crates/$name/out/rlib/stamp" ] || return; done
}

# copies: the crates that are tried and those below them, with their libraries.
copies() {
    local list name part tried needed below
    mapfile -t tried < <(for list in "$work"/lists/*; do basename "${list%.*}"; done | sort -u)
    mapfile -t needed < <(for name in "${tried[@]}"; do crates_of "$name"; done | sort -u)
    mapfile -t below < <(for name in "${tried[@]}"; do crates_of "$name" | sed 1d; done | sort -u)
    grep -E "^($(IFS='|' && echo "${needed[*]}"))[: ]" crates.txt >"$copy/crates.txt"
    cp HANDLES "$copy" || return
    if ! were_left "${below[@]}"; then
        for name in "${below[@]}"; do
            (cd "crates/$name" && rt lib --jobs "$at_once") >"$work/log" 2>&1 ||
                { tail -n 40 "$work/log" && return 1; }
        done
    fi
    for name in "${needed[@]}"; do
        mkdir -p "$copy/crates/$name/out" || return
        for part in src specs proofs out/rlib; do
            [ ! -d "crates/$name/$part" ] || linked "crates/$name/$part" || return
        done
    done
    ! were_left "${below[@]}" || python3 tools/gate/stamps.py "$copy"
}

# linked FOLDER: has links to the files of a folder in the copy, or else copies of them.
linked() {
    cp -al "$1" "$copy/$1" 2>/dev/null || { rm -rf "${copy:?}/$1" && cp -a "$1" "$copy/$1"; }
}

# try_list LIST: tries its mutants, and keeps what was rejected.
try_list() {
    local name edit alone=() there=$work/tried.${1##*/} said=$work/said/${1##*/}
    name=$(basename "${1%.*}")
    cp -al "$copy" "$there" && mkdir "$there/crates/$name/must-fail" &&
        xargs python3 -m tools.gate.together "$there/crates/$name" <"$1" >"$said.all" 2>&1
    keep "$1"
    while read -r edit; do
        has_kept "$name" "$(cat "$work/$name.sum")" "$edit" || alone+=("$edit")
    done <"$1"
    [ ${#alone[@]} -eq 0 ] || { cp -t "$there/crates/$name/must-fail" "${alone[@]}" &&
        (cd "$there" && rt must-fail "$name") >>"$said.all" 2>&1; }
    keep "$1"
    grep -vE '^(rt: )?must-fail [^ ]+: refused, as it must be' "$said.all" >"$said.other"
    rm -rf "$there" "$said.all"
}

# keep LIST: keeps the lines of those of its mutants that are rejected by now.
keep() {
    local name edit line sum said=$work/said/${1##*/}
    name=$(basename "${1%.*}") && sum=$(cat "$work/$name.sum")
    while read -r edit; do
        line="must-fail $name/${edit##*/}: refused, as it must be"
        has_kept "$name" "$sum" "$edit" && continue
        line=$(grep -E -m 1 "^(rt: )?${line//./\\.}" "$said.all") || continue
        echo "$(key "$sum" "$edit") ${line#rt: }" >>"$kept/$name"
        echo "${line#rt: }" >>"$said.rejected"
    done <"$1"
}

# show: prints what was rejected since it was called last.
show() {
    local each
    for each in "$work/said"/*.other; do
        [ ! -e "$each" ] || { cat "${each%.other}.rejected" 2>/dev/null; mv "$each" "$each.shown"; }
    done
}

wanted=0
for name in "${names[@]}"; do
    edits=(crates/"$name"/must-fail-release/*.edit)
    if [ ! -f "${edits[0]}" ]; then
        echo "$name: no such crate with mutants"
        exit 2
    fi
    wanted=$((wanted + ${#edits[@]}))
    lists "$name" || exit 2
done

if compgen -G "$work/lists/*" >/dev/null; then
    copies || exit 2
    for list in $(wc -l "$work/lists"/* | sort -rn | awk '$2 != "total" { print $2 }'); do
        while [ "$(jobs -rp | wc -l)" -ge "$at_once" ]; do wait -n; show; done
        try_list "$list" &
    done
    while [ -n "$(jobs -rp)" ]; do wait -n; show; done
    show
    cat "$work/said"/*.other.shown
fi
for name in "${names[@]}"; do
    for edit in "crates/$name/must-fail-release"/*.edit; do
        ! has_kept "$name" "$(cat "$work/$name.sum")" "$edit" || passed=$((passed + 1))
    done
done
failed=$((wanted - passed))
finish

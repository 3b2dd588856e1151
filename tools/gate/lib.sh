# shellcheck shell=bash
# What the scripts that check have in common. Each sources it from the root of the repository. A check prints a line, and
# `finish` the count.

passed=0
failed=0
work=$(mktemp -d) # for files; it goes when the script ends
trap 'rm -rf "$work"' EXIT

# judge NAME STATUS: the check has passed if the status is 0. If not, the end of what it printed into $work/log is shown.
judge() {
    if [ "$2" -eq 0 ]; then
        passed=$((passed + 1))
        echo "$1: passed"
    else
        failed=$((failed + 1))
        echo "$1: failed"
        [ ! -e "$work/log" ] || tail -n 40 "$work/log"
    fi
}

# check NAME COMMAND..: the command succeeds. The line has what the command of the variable `note` makes of the log, which succeeds too.
check() {
    local status=0 said=
    "${@:2}" >"$work/log" 2>&1 || status=$?
    [ -z "${note:-}" ] || said=", $("$note" "$work/log")" || status=1
    judge "$1$said" "$status"
}

# check_tests NAME COMMAND..: the command succeeds and runs tests. The line has their number.
check_tests() { note=tests check "$@"; }
tests() { awk '/^test result: ok/ { count += $4 } END { print count + 0, "tests"; exit !count }' "$1"; }

# counted NAME COMMAND..: the command succeeds. The line has the last one that it printed.
counted() { note=last_line check "$@"; }
last_line() { tail -n 1 "$1"; }

# lanes: how many checks run side by side: as many as there are processors, and 4 GB of memory for
# each. A check with a second job takes less clock and over a fifth more processor time, so each has
# one.
lanes() {
    local processors memory
    processors=$(nproc)
    memory=$(awk '/^MemAvailable:/ { print int($2 / 4000000) }' /proc/meminfo)
    [ "$memory" -lt "$processors" ] && processors=$memory
    [ "$processors" -gt 0 ] || processors=1
    echo "$processors"
}

# has PROGRAM WHAT: the program is on the machine, or a line says that what needs it is skipped.
has() {
    command -v "$1" >/dev/null || { echo "$2: skipped, since there is no $1"; return 1; }
}

# finish: prints the count, after the name of the script. Its status is 0 if there were checks and none failed.
finish() {
    echo "${0##*/}: $passed passed, $failed failed"
    [ "$failed" -eq 0 ] && [ "$passed" -gt 0 ]
}

# exports_its_calls WORD..: `nm` with these words lists the calls of the sources, the version and the name of the compiler, and nothing else.
exports_its_calls() {
    diff <({ tools/cellarcove make symbols && printf 'cellarcove_%s\n' built_by version; } | sort) \
        <(nm --defined-only "$@" | awk 'NF == 3 { print $3 }' | sort)
}

# takes_debian FOLDER: below it cargo takes all packages from those of Debian.
takes_debian() { mkdir -p "$1/.cargo" && cp tools/gate/debian.toml "$1/.cargo/config.toml"; }

# builder: the Python that has hatchling and numpy, which makes wheels: the first one in the path, or Debian's.
builder() {
    local name
    for name in python3 /usr/bin/python3; do
        ! "$name" -c 'import hatchling, numpy, pip' 2>/dev/null || { echo "$name" && return; }
    done
    return 1
}

# without_rt: from here on the path has no `rt`, and all else of its folder.
without_rt() {
    local folder program
    folder=$(dirname "$(command -v rt)") && mkdir -p "$work/programs" || return
    for program in "$folder"/*; do
        [ "${program##*/}" = rt ] || ln -s "$program" "$work/programs"
    done
    PATH=$(sed "s|:$folder:|:$work/programs:|" <<<":$PATH:" | sed 's/^://; s/:$//')
    hash -r
}

# crates_of NAME: the crate and those below it, one a line.
crates_of() {
    local below
    echo "$1"
    for below in $(sed -nE "s/^$1( staticlib)?: //p" crates.txt); do
        [ ! -d "crates/$below" ] || crates_of "$below"
    done
}

# sum_of NAME: a checksum of the kit, of the sources of the crate and of those below it, and of their
# lines in crates.txt.
sum_of() {
    local below each lines='' sources=()
    for below in $(crates_of "$1" | sort -u); do
        lines+=$(sed -nE "/^$below( staticlib)?:/p" crates.txt)' '
        for each in "crates/$below"/{src,specs,proofs}; do
            [ ! -d "$each" ] || sources+=("$each")
        done
    done
    { rt version && cat HANDLES && echo "$lines" &&
        find "${sources[@]}" -type f | LC_ALL=C sort | xargs sha256sum; } |
        sha256sum | cut -d ' ' -f 1
}

# sums: the name of each crate and the checksum of its sources, a crate a line.
sums() {
    local name sum
    for name in crates/*; do
        name=${name#crates/}
        sum=$(sum_of "$name") && echo "$name $sum" || return
    done
}

# line_of NAME LOG: the line of the proof of a crate, if `rt ci` says next that the crate is proved. It
# rejects some of these lines. Of a crate whose proof it has kept, it need not print the line. This
# fails if it calls the crate neither proved nor kept.
line_of() {
    awk -v begin="== $1" -v proved="rt: $1 proved" -v kept="rt: $1 is kept" '
        /^== / { on = $0 == begin; line = "" }
        /^logic=/ { line = on && /^logic=proved / ? $0 : "" }
        ($0 == proved && line != "") || index($0, kept) == 1 { found = 1; print line; exit }
        END { exit !found }' "$2"
}

# keeps_verdicts LOG SUMS: out/verdicts keeps the checksum of each crate that `rt ci` calls proved or
# kept, and the line by which it says so, if it is the same as before the run. The time of the file is
# that of the run.
keeps_verdicts() {
    local name sum line
    mkdir -p out/verdicts
    while read -r name sum <&3; do
        line=$(line_of "$name" "$1") && [ "$(sum_of "$name")" = "$sum" ] || continue
        if [ -z "$line" ] && was_proved "$name"; then
            touch "out/verdicts/$name"
        else
            echo "$sum $line" >"out/verdicts/$name"
        fi
    done 3<"$2"
}

# was_proved NAME: `rt ci` has called these sources proved or kept.
was_proved() { grep -qs "^$(sum_of "$1") " "out/verdicts/$1"; }

# verdict_of NAME: the line that is kept of these sources.
verdict_of() { sed -n "s/^$(sum_of "$1") //p" "out/verdicts/$1" 2>/dev/null | grep .; }

# is_current FILE NAME: the file is there, and no source of the crate or of those below it is newer.
is_current() {
    local crate sources=()
    for crate in $(crates_of "$2" | sort -u); do sources+=("crates/$crate/src"); done
    [ -e "$1" ] && [ -z "$(find "${sources[@]}" -newer "$1" | head -n 1)" ]
}

# was_left NAME: `rt ci` has proved the crate as it is here, and left its library: no other command
# leaves one without a stamp, and neither a source nor the library is newer than what the last run of
# `rt ci` said of the crate. The library may be older than the sources, if an earlier run on this
# machine has made it. If not, it says which does not hold.
was_left() {
    local library=crates/$1/out/rlib said=out/verdicts/$1 why=
    if [ ! -d "$library/$1.rlib" ]; then
        why='is not there'
    elif [ -e "$library/stamp" ]; then
        why='has a stamp, which `rt ci` does not write'
    elif ! was_proved "$1"; then
        why='is of sources that `rt ci` has not proved'
    elif ! is_current "$said" "$1"; then
        why='is of sources that have changed since `rt ci` ran'
    elif [ "$library/$1.rlib/format" -nt "$said" ]; then
        why='has changed since `rt ci` ran'
    fi
    [ -z "$why" ] || { echo "$library/$1.rlib $why: run .ci/run" && return 1; }
}

# packed TOP FILE: the folder TOP of $work/packed as an archive, the same for the same files. If FILE
# ends in .xz, xz looks for what is repeated as far back as the libraries of Rattle are long.
packed() {
    tar -C "$work/packed" --sort=name --format=gnu --mtime="@${SOURCE_DATE_EPOCH:-0}" --owner=0 --group=0 --numeric-owner \
        --mode=u=rwX,go=rX -cf - "$1" | case $2 in *.xz) xz -T1 --lzma2=preset=3,dict=384MiB ;; *) gzip -9n ;; esac >"$2"
}

# package_num_integer RUST CRATE FOLDER: the package num-integer, which takes the crate from the folder beside its own.
package_num_integer() {
    local top
    top=num-integer-$(sed -nE 's/^version = "(.*)"$/\1/p' "$1/num-integer/Cargo.toml")
    rm -rf "$work/packed" && mkdir -p "$work/packed/$top" && cp -r "$1"/num-integer/{README.md,src} "$1"/LICENSE-* "$work/packed/$top" &&
        sed "s|path = \"..\"|path = \"../${2%.crate}\"|" "$1/num-integer/Cargo.toml" >"$work/packed/$top/Cargo.toml" && packed "$top" "$3/$top.crate"
}

# lines_return LANGUAGE FILE COMMAND..: the command runs the program of the lines of code in a language on the page docs/try, which it finds in
# the file, and each call returns what the comment of its export says.
lines_return() {
    local status
    node bindings/js/tests/lines.js "$1" >"$2" && "${@:3}" >"$work/returned" || return 1
    LC_ALL=C sort -u "$work/returned" | diff <(tools/cellarcove make tried | LC_ALL=C sort -u) -
}

# block PAGE LANGUAGE: the first block of a page in this language.
block() { awk -v begin="\`\`\`$2" '$0 == begin { on = 1; next } /^```$/ && on { exit } on' "$1"; }

# replaces_num_integer FOLDER: in a folder that has the two packages of this one and a program over num-bigint, the lines of their pages put
# them in the place of num-integer, and both have one trait.
replaces_num_integer() {
    local there=$work/replaced pages=$work/pages
    rm -rf "$there" "$pages" && mkdir -p "$there/src" "$pages" && cp "$1"/{cellarcove,num-integer}-*.crate "$there" || return 1
    tar -xzf "$there"/num-integer-*.crate -C "$pages" && tar -xzf "$there"/cellarcove-*.crate -C "$pages" || return 1
    cp tools/gate/replaced.rs "$there/src/main.rs"
    printf '[package]\nname = "replaced"\nedition = "2021"\n' | cat - <(block "$pages"/cellarcove-*/README.md toml) >"$there/Cargo.toml"
    printf 'num-bigint = "0.4"\nnum-integer = "0.1"\n' >>"$there/Cargo.toml"
    (cd "$there" && bash -e <(block "$pages"/num-integer-*/README.md sh) && cargo generate-lockfile --offline &&
        block "$pages"/num-integer-*/README.md toml >>Cargo.toml && cargo update --offline -p num-integer && cargo run --offline &&
        cargo tree --offline -i num-integer | grep -F "($there/num-integer-")
}

# calls_over_proved FILE [WORD..]: Rattle's compiler makes the archive of the calls for C, over the libraries that `rt ci` has proved and
# left. The words are for the compiler.
calls_over_proved() {
    local kit name crate=cellarcove_c file=$1 words=()
    kit=$(dirname "$(rt doc)")
    for name in $(crates_of "$crate" | sort -u); do
        [ "$name" = "$crate" ] && continue
        [ -d "crates/$name/out/rlib/$name.rlib" ] || { echo "crates/$name/out has no proved library: run \`rt ci\`" >&2 && return 1; }
        words+=(-L "dependency=$PWD/crates/$name/out/rlib")
    done
    for name in $(sed -n "s/^$crate staticlib: //p" crates.txt); do
        words+=(--extern "$name=$PWD/crates/$name/out/rlib/$name.rlib")
    done
    (cd "crates/$crate" && "$kit/bin/rattle" build --crate-name "$crate" src/lib.rt --crate-type staticlib \
        --extern "std=$kit/rlibs/std.rlib" -L "dependency=$kit/rlibs" ${words[@]+"${words[@]}"} --links "$crate=" --jobs 1 \
        --antt-project "$kit/rattle/logic/antt-project.json" --logic-built "$kit/logic_built" \
        --toolchain "$kit/toolchain" --backend llvm "${@:2}" -o "$file")
}

# SPDX-FileCopyrightText: 2026 The Cellarcove authors
# SPDX-License-Identifier: MIT OR Apache-2.0
# What bash completes of `intcalc`.
_intcalc() {
    local words=
    case $COMP_CWORD in
        1) words='{types}' ;;
        2) words='{calls}' ;;
    esac
    mapfile -t COMPREPLY < <(compgen -W "$words" -- "${COMP_WORDS[COMP_CWORD]}")
}
complete -F _intcalc intcalc

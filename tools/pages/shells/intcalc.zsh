#compdef intcalc
# SPDX-FileCopyrightText: 2026 The Cellarcove authors
# SPDX-License-Identifier: MIT OR Apache-2.0
# What zsh completes of `intcalc`.
_intcalc_calls() {
    local calls=(
{zsh}
    )
    _describe call calls
}
_arguments '1:type:({types})' '2:call:_intcalc_calls' '*:operand:'

# SPDX-FileCopyrightText: 2026 The Cellarcove authors
# SPDX-License-Identifier: MIT OR Apache-2.0
# What fish completes of `intcalc`.
complete -c intcalc -f
set -l second 'test (count (commandline -opc)) = 2'
complete -c intcalc -n 'test (count (commandline -opc)) = 1' -a '{types}' -d type
{fish}

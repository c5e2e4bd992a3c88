# shellcheck shell=bash disable=SC2154
# Sourced by mboxalind, figures, readme, .ci/run, oracle/check and oracle/campaign: where a built program is, how it is started, and whether it, or an
# archive, is what the crates say. Uses here, the repository's root.

# Is FILE there, and no older than what the crates are made of? What rt makes of a crate lies in its out/.
is_made() { # FILE
    [ -f "$1" ] && [ -z "$(find "$here/crates" "$here/crates.txt" -name out -prune -o -newer "$1" -type f -print -quit)" ]
}

# `rt ci` and `rt run` leave a program beside what it is made of. It is for x86-64 Linux, as the kit is.
program_at() { echo "$here/crates/$1/out/$1"; } # PROGRAM

is_fresh() { is_made "$(program_at "$1")"; } # PROGRAM

# Both archives of `host/archive --bare`, in FOLDER.
are_archives_fresh() { is_made "$1/libmboxalind.a" && is_made "$1/libbare.a"; } # FOLDER

# Takes the place of the shell that calls it.
launch() { exec "$(program_at "$1")" "${@:2}"; } # PROGRAM WORD..

# Makes FILE a command that is PROGRAM, for those that start it by a path without blanks.
write_launcher() { ln -s "$(program_at "$1")" "$2"; } # PROGRAM FILE

# Words that need no program: help, the version, mistaken words, completions. Their texts are in help/, which help/write writes from the
# programs' own, and tests/run holds against them.

# Prints files and ends, with the program's status where standard output can't be written.
print() { # FILE..
    local status=0
    cat -- "$@" 2>/dev/null || status=$?
    # nobody reads any more
    [ "$status" != 141 ] || exit 3
    [ "$status" = 0 ] || { echo 'script: file' >&2; exit 3; }
    exit 0
}

# Whether a word names a command of the program or of the launcher, by the text of its help.
is_command() { # WORD
    case $1 in '' | *[!a-z]*) return 1 ;; esac
    [ -f "$top/help/commands/$1" ]
}

# Prints the version in one line: of which sources, and whether they are proved.
print_version() {
    local text
    text=$(<"$top/help/version")
    find_program uasdisk
    [ "$is_proved" = 1 ] || text=${text%%, proved*}', unproved'
    print - <<<"$text, sources ${sums[uasdisk]:0:16}"
}

# Refuses words of the launcher's own, and ends.
refuse() { # TEXT
    say "$1"
    exit 2
}

# Tells of a word that is no command, as the program does, and ends.
refuse_command() { # WORD WHETHER-TO-GUESS
    {
        echo "error: unrecognized subcommand '$1'"
        [ "$2" = no ] || sed -n '/^Commands:/,/^$/s/^  \([a-z]*\) .*/\1/p' "$top/help/uasdisk" | WORD=$1 awk -f "$top/launcher/similar.awk"
        echo
        echo 'Usage: uasdisk <COMMAND>'
        echo
        echo "For more information, try '--help'."
    } >&2
    exit 2
}

print_completions() { # SHELL
    case $#:${1:-} in
        1:bash | 1:zsh | 1:fish) print "$top/completions/uasdisk.$1" ;;
        *) refuse 'completions are for bash, zsh and fish' ;;
    esac
}

# Answers words that need no program, and ends; it returns where the launcher or the program has to do something.
answer() { # WORDS..
    # in other words than printable ones of ASCII the program may find a fault before all else
    local LC_ALL=C
    if [ $# = 0 ]; then cat "$top/help/uasdisk" "$top/help/launcher" >&2; exit 2; fi
    case ${2:-} in -h | --help) ! is_command "$1" || print "$top/help/commands/$1" ;; esac
    case $1 in prove | serve | usb | many | completions) return ;; esac
    case $* in *[!\ -~]*) return ;; esac
    case $1 in
        -h | --help) print "$top/help/uasdisk" "$top/help/launcher" ;;
        -V | --version) print_version ;;
        help) answer_help "${@:2}" ;;
        -*) ;;
        *) is_command "$1" || refuse_command "$1" yes ;;
    esac
}

# Answers the words behind `help`.
answer_help() { # WORDS..
    case $# in
        0) print "$top/help/uasdisk" "$top/help/launcher" ;;
        1) is_command "$1" || refuse_command "$1" no; print "$top/help/commands/$1" ;;
    esac
}

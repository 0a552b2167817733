# Completion of uasdisk for bash, written by completions/write from the texts of help/.
_uasdisk() {
    local word=${COMP_WORDS[COMP_CWORD]} before=${COMP_WORDS[COMP_CWORD - 1]} words= files= name
    COMPREPLY=()
    case $before in
        --bad) return ;;
        --block-size) return ;;
        --color) COMPREPLY=($(compgen -W 'always auto never' -- "$word")); return ;;
        --depth) return ;;
        --head) return ;;
        --product) return ;;
        --serial) return ;;
        --sync) return ;;
        --tags) return ;;
        --vendor) return ;;
    esac
    if [ "$COMP_CWORD" = 1 ]; then
        COMPREPLY=($(compgen -W 'replay trace work decode make info dump fill audit draw capture help serve usb prove many completions --help --version' -- "$word"))
        return
    fi
    case ${COMP_WORDS[1]} in
        replay) words='--bad --tags --json -h --help' ;;
        trace) words='--bad --tags --color --json -h --help' ;;
        work) words='--tags --depth --sync -h --help' files=1 ;;
        decode) words='--color --json -h --help' ;;
        make) words='--force -h --help' files=1 ;;
        info) words='--json -h --help' files=1 ;;
        dump) words='-h --help' files=1 ;;
        fill) words='-h --help' files=1 ;;
        audit) words='--head --json -h --help' files=1 ;;
        draw) words='--bad --tags --page -h --help' ;;
        capture) words='--bad --tags -h --help' files=1 ;;
        help) words='replay trace work decode make info dump fill audit draw capture serve usb prove many completions' ;;
        serve) words='--bad --file -h --help' files=1 ;;
        usb) words='--read-only --serial --vendor --product --block-size --bad -h --help' files=1 ;;
        prove) words='-h --help decode serve usb' ;;
        many) words='-h --help replay trace work decode make info dump fill audit draw capture' files=1 ;;
        completions) words='-h --help bash zsh fish' ;;
    esac
    COMPREPLY=($(compgen -W "$words" -- "$word"))
    if [ -n "$files" ]; then
        # a name is one word, whatever stands in it
        compopt -o filenames 2>/dev/null
        while IFS= read -r name; do COMPREPLY+=("$name"); done < <(compgen -f -- "$word")
    fi
}
complete -F _uasdisk uasdisk ./uasdisk

# Building: the proved program, and the same unproved. What is under way ends at the first Ctrl-C, with all that it started.

room=
under_way=

needs_toolchain() {
    local kit
    command -v rt >/dev/null 2>&1 && return
    kit=$(sed -n 's/^Proved with `\([^ ]*\) .*/\1/p' "$top/docs/DECISIONS.md")
    say "the Rattle toolchain $kit isn't on this machine's PATH (its command rt): README.md says where it is"
    exit 127
}

# The processes below one, itself among them.
processes_below() { # PROCESS
    ps -eo pid=,ppid= 2>/dev/null | awk -v root="$1" '{ parent[$1] = $2 }
        END { for (one in parent) { for (up = one; up != root && (up in parent); up = parent[up]); if (up == root) print one } }'
}

# Ends what is under way, with all that it started, and the launcher.
cut_off() { # STATUS
    local all turn
    trap '' INT TERM HUP
    if [ -n "$under_way" ]; then
        all=$(processes_below "$under_way")
        kill -TERM -- "-$under_way" 2>/dev/null || true
        for turn in {1..30}; do kill -0 -- "-$under_way" 2>/dev/null || break; sleep 0.1; done
        # shellcheck disable=SC2086
        kill -KILL "$under_way" $all 2>/dev/null || true
    fi
    clear_line
    exit "$1"
}

# Begins a command in a session of its own, which no key of the terminal reaches: sets `under_way`.
begin() { # FOLDER COMMAND..
    trap 'cut_off 130' INT
    trap 'cut_off 143' TERM
    trap 'cut_off 129' HUP
    trap '[ -z "$room" ] || rm -rf "$room"' EXIT
    (cd "$1" && shift && exec setsid "$@") <&0 9>&- &
    under_way=$!
}

# Waits for it, and gives its status.
finish() {
    local status=0
    wait "$under_way" || status=$?
    under_way=
    return "$status"
}

clear_line() { [ ! -t 2 ] || printf '\r\033[K' >&2; }

# Whether the sources are those that a program was built of; else it says so.
are_same() { # NAME
    [ "$(sources_sum "$1")" != "${sums[$1]}" ] || return 0
    say 'the sources changed while the program was built, so nothing is kept: try again'
    return 1
}

# Gives the file that was built a second name, for the toolchain removes it once it has run, and shows how long it has been building.
watch_build() { # SECONDS
    local begun=$SECONDS shown= file
    while kill -0 "$under_way" 2>/dev/null; do
        for file in "$room"/made/*/*/*; do
            if [ -f "$file" ] && [ -x "$file" ]; then ln -f "$file" "$room/program" 2>/dev/null || true; fi
        done
        if [ -t 2 ] && [ "$SECONDS" != "$shown" ]; then
            shown=$SECONDS
            printf '\r\033[K%s' "building: $((shown - begun)) s of $1" >&2
        fi
        sleep 0.1
    done
    clear_line
}

# Has other calls wait that build the same program, where there is a cache.
lock() { # NAME
    command -v flock >/dev/null 2>&1 || return 0
    { mkdir -p "$cache" && : >"$cache/.$1.lock" && exec 9<"$cache/.$1.lock"; } 2>/dev/null || return 0
    flock -n 9 || { say 'another call is building: this one waits for it'; flock 9; }
}

# Leaves the unproved programs that were built last: each edit of the sources makes another.
forget_unproved() {
    find "$cache" -name '*.unproved' -printf '%T@ %p\0' 2>/dev/null | sort -zrn | tail -zn +9 | cut -zd ' ' -f 2- | xargs -r0 rm -f || true
}

# Builds a program unproved and keeps it: sets `found`. `rt try` runs what it builds on an input that keeps it busy for some seconds.
build() { # NAME
    needs_toolchain
    local last=$cache/$1.seconds kept=${sums[$1]}.unproved begun took
    lock "$1"
    find_program "$1"
    if [ -n "$found" ]; then say_unproved "$1" ''; exec 9<&-; return; fi
    took=$(cat "$last" 2>/dev/null || echo '60 to 180')
    say_unproved "$1" ", after a build of some $took s"
    room=$(mktemp -d)
    mkdir "$room/made"
    head -c 1048576 /dev/zero >"$room/input"
    begun=$SECONDS
    TMPDIR=$room/made begin "$top/crates/$1" rt try -- decode <"$room/input" >"$room/said" 2>&1
    watch_build "some $took s"
    if ! finish || [ ! -x "$room/program" ]; then
        tail -n 20 "$room/said" >&2
        say "the program couldn't be built"
        exit 126
    fi
    are_same "$1" || exit 126
    keep "$room/program" "$kept"
    forget_unproved
    echo "$((SECONDS - begun))" 2>/dev/null >"$last" || true
    exec 9<&-
    found=$cache/$kept
    if [ -x "$found" ]; then rm -rf "$room"; room=; else found=$room/program; fi
}

# Builds the proved program, or that of decode or of serve and usb, and puts it into the cache.
prove() { # [decode | serve | usb]
    local name of words watched=()
    case $#:${1:-} in
        0:) name=uasdisk of='' words=(-- --version) ;;
        1:decode) name=decode_program of=' of decode' words=() ;;
        1:serve | 1:usb) name=serve_program of=' of serve and usb' words=(-- --help) ;;
        *) refuse "prove takes no word, or decode, serve or usb: './uasdisk help prove' tells more" ;;
    esac
    find_program "$name"
    if [ "$is_proved" = 1 ]; then say "proved: $found"; exit; fi
    needs_toolchain
    say "building the proved program$of: $(minutes_of "$name") on four processors where nothing is kept, else what changed alone"
    if [ -t 2 ] && [ -x "$top/tests/progress" ]; then watched=("$top/tests/progress" --quiet "$name" --); fi
    begin "$top/crates/$name" "${watched[@]}" rt run "${words[@]}" </dev/null >&2
    finish || exit
    are_same "$name" || exit 1
    note "$name" "${sums[$name]}"
    keep "$top/crates/$name/out/$name" "${sums[$name]}"
    say "proved: $top/crates/$name/out/$name"
}

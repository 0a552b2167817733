# Which program belongs to the sources of this clone: told by the sums of files, their names and their contents.

declare -A sums=()

# The crates that a program is made of, by crates.txt, which names each below those that stand on it.
crates_of() { # NAME
    awk -F: -v program="$1" '!/^#/ && NF > 1 { split($1, head, " "); names[++count] = head[1]; needs[head[1]] = $2 }
        END { wanted[program] = 1
            for (k = count; k > 0; k--) if (names[k] in wanted) {
                print names[k]; n = split(needs[names[k]], low, " "); for (i = 1; i <= n; i++) wanted[low[i]] = 1 } }' "$top/crates.txt"
}

# The sum of a program's sources: of each file its name and the sum of its own content.
sources_sum() ( # NAME
    cd "$top"
    folders=()
    for crate in $(crates_of "$1"); do
        for kind in src specs proofs; do [ ! -d "crates/$crate/$kind" ] || folders+=("crates/$crate/$kind"); done
    done
    find -L "${folders[@]}" crates.txt HANDLES -type f -print0 | LC_ALL=C sort -z | xargs -0 b2sum -l 256 -- | b2sum -l 256 | cut -d ' ' -f 1
)

# The sum of a program that a clone holds, as it is noted beside it: of its sources and of itself.
noted() { # NAME SUM
    echo "$2 $(b2sum -l 256 <"$top/crates/$1/out/$1" | cut -d ' ' -f 1)"
}

# Notes beside the program that a clone holds that it was proved of the sources of a sum.
note() { # NAME SUM
    noted "$1" "$2" 2>/dev/null >"$top/crates/$1/out/$1.sum" || true
}

# Puts a program into the cache, whole or not at all. A cache that can't be written is no fault.
keep() { # PROGRAM NAME-THERE
    [ ! -x "$cache/$2" ] || return 0
    local part=$cache/.$2.$$
    { mkdir -p "$cache" && cp "$1" "$part" && chmod 755 "$part" && mv -f "$part" "$cache/$2"; } 2>/dev/null || rm -f "$part" 2>/dev/null || true
}

# The path of the proved program of a sum; fails where there is none.
proved_path() { # NAME SUM
    local program=$top/crates/$1/out/$1
    if [ ! -x "$cache/$2" ]; then
        [ -x "$program" ] && [ -f "$program.sum" ] && [ "$(<"$program.sum")" = "$(noted "$1" "$2")" ] || return 1
        keep "$program" "$2"
        echo "$program"
        return
    fi
    echo "$cache/$2"
}

# Finds the program of these sources among some, a proved one first: sets `found`, empty where none is kept, `is_proved` and `sums`.
find_program() { # NAME..
    local name
    is_proved=1
    for name; do
        [ -n "${sums[$name]:-}" ] || sums[$name]=$(sources_sum "$name")
        ! found=$(proved_path "$name" "${sums[$name]}") || return 0
    done
    is_proved=0
    for name; do
        found=$cache/${sums[$name]}.unproved
        [ ! -x "$found" ] || return 0
    done
    found=
}

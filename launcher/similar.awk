# Prints the tip for a word that is no command: those of the names, a line each, that are similar to it, the best last. It is what the
# program's parser prints; similar is a Jaro similarity above 0.7.

# How many letters of the word stand in a name near the same place: sets `kept` and `taken`, those letters in the order of each.
function match_letters(word, name,    reach, from, to, i, j, is_taken, count) {
    reach = int((length(word) > length(name) ? length(word) : length(name)) / 2) - 1
    if (reach < 0) reach = 0
    kept = taken = ""
    for (i = 1; i <= length(word); i++) {
        from = i > reach ? i - reach : 1
        to = i + reach < length(name) ? i + reach : length(name)
        for (j = from; j <= to; j++)
            if (!(j in is_taken) && substr(name, j, 1) == substr(word, i, 1)) { is_taken[j]; kept = kept substr(word, i, 1); break }
    }
    for (j = 1; j <= length(name); j++) if (j in is_taken) taken = taken substr(name, j, 1)
    return length(kept)
}

function similarity(word, name,    count, differing, i) {
    count = match_letters(word, name)
    if (count == 0) return 0
    for (i = 1; i <= count; i++) if (substr(kept, i, 1) != substr(taken, i, 1)) differing++
    return (count / length(word) + count / length(name) + (count - int(differing / 2)) / count) / 3
}

BEGIN { word = ENVIRON["WORD"] }

{
    likeness = similarity(word, $0)
    if (likeness <= 0.7) next
    place = ++found
    while (place > 1 && like[place - 1] > likeness) { names[place] = names[place - 1]; like[place] = like[place - 1]; place-- }
    names[place] = $0
    like[place] = likeness
}

END {
    if (!found) exit
    printf "\n  tip: %s: ", found == 1 ? "a similar subcommand exists" : "some similar subcommands exist"
    for (i = 1; i <= found; i++) printf "%s'%s'", (i > 1 ? ", " : ""), names[i]
    print ""
}

# The tables of commands and limits, read into arrays. The names of the files are the first two arguments.
#   name[i]            commands, in order
#   by, words, about, example      by command; lines of `about` are joined by blanks
#   options[c]         its options, joined by blanks
#   of, does [c, option]  the option's word, and what the option does
#   kind, low, high, called [c, word]      what a word is
#   limit[NAME], limits[i], limited[NAME]  values, names in order, what is limited

function rest(from, i, text) {
    for (i = from; i <= NF; i++) text = text (i > from ? " " : "") $i
    return text
}

function read_limits(path) {
    while ((getline < path) > 0) {
        if ($0 ~ /^#/ || NF == 0) continue
        limits[++limit_count] = $1
        limit[$1] = $2
        limited[$1] = rest(3)
    }
    close(path)
}

function read_word(c) {
    kind[c, $2] = $3
    if ($3 != "number") {
        called[c, $2] = rest(4)
        return
    }
    low[c, $2] = $4
    high[c, $2] = limit[$5]
    called[c, $2] = rest(6)
}

function read_commands(path, c) {
    while ((getline < path) > 0) {
        if ($1 == "command") {
            c = $2
            name[++command_count] = c
            known[c] = 1
        } else if ($1 == "by") by[c] = $2
        else if ($1 == "words") words[c] = rest(2)
        else if ($1 == "example") example[c] = rest(2)
        else if ($1 == "about") about[c] = about[c] (about[c] == "" ? "" : " ") rest(2)
        else if ($1 == "word") read_word(c)
        else if ($1 == "option") {
            options[c] = options[c] (options[c] == "" ? "" : " ") $2
            of[c, $2] = $3
            does[c, $2] = rest(4)
        }
    }
    close(path)
}

# The line of usage of a command.
function usage(c, line, count, option, i) {
    line = "coho " c (words[c] == "" ? "" : " " words[c])
    count = split(options[c], option, " ")
    for (i = 1; i <= count; i++) line = line " [" option[i] " " of[c, option[i]] "]"
    return line
}

# The text, with what is no printed character as `?`.
function shown(text) {
    gsub(/[\001-\037\177]/, "?", text)
    return text
}

function least(a, b) { return a < b ? a : b }

# How many letters must be put in, left out or exchanged to make one text the other.
function distance(a, b, i, j, above, left, cell) {
    for (j = 0; j <= length(b); j++) cell[j] = j
    for (i = 1; i <= length(a); i++) {
        above = cell[0]
        cell[0] = i
        for (j = 1; j <= length(b); j++) {
            left = least(least(cell[j], cell[j - 1]) + 1, above + (substr(a, i, 1) != substr(b, j, 1)))
            above = cell[j]
            cell[j] = left
        }
    }
    return cell[length(b)]
}

# The name that is nearest to the text, of a list joined by blanks; none where over half of it is different.
function nearest(text, list, count, item, i, best, found, far) {
    count = split(list, item, " ")
    best = length(text) / 2
    for (i = 1; i <= count; i++) {
        far = distance(text, item[i])
        if (far <= best && (found == "" || far < best)) {
            best = far
            found = item[i]
        }
    }
    return found
}

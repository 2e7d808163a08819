# words.awk COMMANDS LIMITS WORD..: reads the words of a command of the program.
#
# Where they are those of a command, it prints a line `PLACE WORD` for each that is neither the command nor an
# option, as `2 FILE`, with places from 1, and ends with status 0. Else it prints what is wrong, and ends with
# status 1.

function wrong(text, c) {
    print "coho: " text
    if (c != "") print "coho: usage: " usage(c)
    failed = 1
    exit 1
}

function quoted(text) { return "`" shown(text) "`" }

function unknown_command(text, list, i, near) {
    for (i = 1; i <= command_count; i++) list = list (i > 1 ? " " : "") name[i]
    near = nearest(shown(text), list)
    if (near == "") wrong("there is no command " quoted(text) "; `coho help` tells them all")
    wrong("there is no command " quoted(text) "; the nearest is `" near "`", near)
}

function unknown_option(c, text, near) {
    if (text == "-h" || text == "--help") wrong("`coho help " c "` tells what the command does", c)
    if (options[c] == "") wrong(c " has no options, and no word begins with `-`: " quoted(text), c)
    near = nearest(shown(text), options[c])
    if (near == "") wrong(c " has no option " quoted(text), c)
    wrong(c " has no option " quoted(text) "; the nearest is `" near "`", c)
}

function number_is(c, text, word) {
    if (text !~ /^(0|[1-9][0-9]*)$/ || length(text) > 9 || text + 0 < low[c, word] \
        || text + 0 > high[c, word])
        wrong(quoted(text) " is not " called[c, word] ": a number from " low[c, word] " to " high[c, word] \
            " is wanted, without leading zeros", c)
}

# Puts the options with their words aside. operand[] has the other words, place[] where they stand.
function take_options(c, i, option) {
    for (i = 4; i < ARGC; i++) {
        if (ARGV[i] == "") wrong("word " i - 2 " is empty", c)
        if (!((c, ARGV[i]) in of)) {
            if (ARGV[i] ~ /^-/) unknown_option(c, ARGV[i])
            operand[++operands] = ARGV[i]
            place[operands] = i - 2
            continue
        }
        option = ARGV[i]
        if (option in chosen) wrong("the option " option " stands twice", c)
        if (i + 1 >= ARGC || ARGV[i + 1] == "" || ARGV[i + 1] ~ /^-/)
            wrong("the option " option " has no word after it, " of[c, option], c)
        chosen[option] = ARGV[++i]
        place[option] = i - 2
    }
}

# The operands of the command, as many as its words ask for.
function take_operands(c, count, part, i, word) {
    count = split(words[c], part, " ")
    if (part[count - 1] == "..") {
        # E1 .. ED: as many as the number D before them, where that can be read
        for (i = 1; i <= count - 3; i++) if (part[i] == "D") word = i
        if (operands >= word) number_is(c, operand[word], "D")
        count = count - 3 + (operands >= word ? operand[word] : 1)
        for (i = 1; part[i] !~ /^E/; i++);
        for (; i <= count; i++) part[i] = "E" i - 3
    }
    if (operands < count) wrong("the word " part[operands + 1] " is missing", c)
    if (operands > count) wrong(quoted(operand[count + 1]) " is a word too many", c)
    for (i = 1; i <= count; i++) {
        word = part[i] ~ /^E/ ? "E" : part[i]
        if (kind[c, word] == "number") number_is(c, operand[i], word)
        named[place[i]] = word
    }
}

function read_options(c, count, option, i) {
    count = split(options[c], option, " ")
    for (i = 1; i <= count; i++) {
        if (!(option[i] in chosen)) continue
        if (kind[c, of[c, option[i]]] == "new" && chosen[option[i]] == operand[1])
            wrong("the option " option[i] " names FILE itself, which is not written over", c)
        named[place[option[i]]] = of[c, option[i]]
    }
}

BEGIN {
    read_limits(ARGV[2])
    read_commands(ARGV[1])
    c = ARGV[3]
    if (!(c in known)) unknown_command(c)
    if (by[c] != "program") wrong("these are not the words of `coho " c "`", c)
    take_options(c)
    take_operands(c)
    read_options(c)
    for (i = 2; i < ARGC - 2; i++) if (i in named) print i, named[i]
    exit 0
}
END { exit failed }

# help.awk COMMANDS LIMITS all DOCUMENTS EXAMPLES | command NAME | version | options NAME: what help prints.

# The text behind the head, with what is over 100 columns on lines below it.
function folded(head, text, indent, count, piece, i, line) {
    count = split(text, piece, " ")
    line = head
    if (length(head) > length(indent)) {
        print head
        line = indent
    }
    for (i = 1; i <= count; i++) {
        if (length(line) + length(piece[i]) >= 100) {
            print line
            line = indent
        }
        line = line (line ~ /[^ ]$/ ? " " : "") piece[i]
    }
    print line
}

function entry(c, text, count, option, i, indent) {
    indent = "                        "
    text = about[c]
    count = split(options[c], option, " ")
    for (i = 1; i <= count; i++)
        text = text (i == 1 ? "; " : ", ") option[i] " " of[c, option[i]] " " does[c, option[i]]
    folded(sprintf("coho %-19s", c (words[c] == "" ? "" : " " words[c])), text, indent)
    if (c in example) print indent "coho " example[c]
}

function all(documents, examples, i) {
    print "coho: mod-p cohomology rings of finite p-groups, p = 2, 3, 5, 7"
    print ""
    for (i = 1; i <= command_count; i++) entry(name[i])
    print ""
    print "Documents, in " documents ":"
    folded("using.md         ", "from a group in GAP to a text, and from a report to Singular, Macaulay2 " \
        "and SageMath", "                  ")
    print "formats.md        the presentation text, the answers, statuses and fault lines"
    print "conventions.md    orders, signs and choices, by which answers of two programs are compared"
    print "Presentations of well-known groups are in " examples ", with a list in README.md there."
}

function one(c, count, part, option, i) {
    print "usage: " usage(c)
    folded("", about[c] ".", "")
    count = split(words[c], part, " ")
    for (i = 1; i <= count; i++) {
        gsub(/[][]/, "", part[i])
        if (part[i] == "..") continue
        if (part[i] ~ /^E/) sub(/^E.*/, "E", part[i])
        if ((c, part[i]) in told) continue
        told[c, part[i]] = 1
        tell(c, part[i], "  " part[i])
    }
    count = split(options[c], option, " ")
    for (i = 1; i <= count; i++)
        printf "  %-12s %s\n", option[i] " " of[c, option[i]], does[c, option[i]]
    if (c in example) print "example: coho " example[c]
}

function tell(c, word, head) {
    if (kind[c, word] == "number")
        printf "%-14s %s, a number from %d to %d\n", head, called[c, word], low[c, word], high[c, word]
    else printf "%-14s %s\n", head, called[c, word]
}

BEGIN {
    read_limits(ARGV[2])
    read_commands(ARGV[1])
    if (ARGV[3] == "all") all(ARGV[4], ARGV[5])
    else if (ARGV[3] == "options") print options[ARGV[4]]
    else if (ARGV[3] == "version")
        for (i = 1; i <= limit_count; i++) printf "%-32s at most %d\n", limited[limits[i]], limit[limits[i]]
    else one(ARGV[4])
    exit 0
}

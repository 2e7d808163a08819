# known.awk COMMANDS LIMITS NAME: status 0 where NAME is a command; else what is wrong, on standard error.

BEGIN {
    read_limits(ARGV[2])
    read_commands(ARGV[1])
    if (ARGV[3] in known) exit 0
    for (i = 1; i <= command_count; i++) list = list (i > 1 ? " " : "") name[i]
    near = nearest(shown(ARGV[3]), list)
    text = "coho: there is no command `" shown(ARGV[3]) "`"
    print text (near == "" ? "; `coho help` tells them all" : "; the nearest is `" near "`") | "cat >&2"
    close("cat >&2")
    exit 1
}

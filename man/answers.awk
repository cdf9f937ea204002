# What `bus` answers to a command line that asks for help, or is wrong: the text on standard error, and status 2, as the program does,
# without a build. The version goes to standard output, with status 5, where the program has 0. Else it says nothing, and the status
# is 0 where that command reads standard input, 3 where it does not, and 4 where the program must be asked.
#
#     awk -v help=man/help -f man/answers.awk -- WORDS
#
# Commands, options, ranges and the version come from the texts of `--help`, which are kept in man/help. `examples/names` compares
# those and the answers here with what the program says.

BEGIN {
    count = ARGC - 1
    for (i = 1; i <= count; i++) if (ARGV[i] ~ /[^ -~]/ || ARGV[i] == "") exit 4
    read_help("bus")
    if (count == 0) answer(text)
    first = ARGV[1]
    if (first in is_command) exit answer_to(first)
    if (first == "--help" || first ~ /^-h/) answer(text)
    if (first == "--version" || first ~ /^-V/) {
        printf "%s", substr(text, 1, index(text, "\n"))
        exit 5
    }
    if (first !~ /^-/) refuse("unrecognized subcommand '" first "'", tip_of_command(first), usage)
    if (is_short(first)) refuse("unexpected argument '" first "' found", "", usage)
    near = nearest_option(long_name(first))
    if (first == "--" || first ~ /=/ || (near == "" && count > 1)) exit 4
    refuse("unexpected argument '" first "' found", tip_of_option(near), used_usage("", near))
}

# The status of a command line that the command takes. As in the program a value behind `=` is looked at at once, and one that is a
# word of its own before the next option that there is, or at the end.
function answer_to(command,    i, word, name, near) {
    read_help(command)
    for (i = 2; i <= count; i++) {
        word = ARGV[i]
        if (word == "--help" || word ~ /^-h/) {
            look_at_waiting()
            answer(text)
        }
        if (word == "--" && i == count) break
        if (waiting != "" && word !~ /^--[a-z]/ && is_wrong(waiting, value_of[waiting])) exit 4
        if (word !~ /^-/ || is_short(word)) refuse("unexpected argument '" word "' found", "", usage)
        if (word !~ /^--[a-z]/) exit 4
        name = long_name(word)
        if (!(name in takes)) {
            near = nearest_option(name)
            refuse("unexpected argument '--" name "' found", tip_of_option(near), used_usage(command, near))
        }
        look_at_waiting()
        if (!takes[name] && word ~ /=/) exit 4
        if (name in is_given) refuse("the argument '" named(name) "' cannot be used multiple times", "", usage)
        is_given[name] = 1
        given = given " " named(name)
        if (word ~ /=/) look_at(name, substr(word, index(word, "=") + 1))
        else if (takes[name]) {
            waiting = name
            if (i < count && ARGV[i + 1] ~ /^-./) {
                if (!(long_name(ARGV[i + 1]) in takes) && !is_short(ARGV[i + 1])) exit 4
                if (is_short(ARGV[i + 1])) refuse("unexpected argument '" ARGV[i + 1] "' found", "", usage)
            }
            if (i == count || ARGV[i + 1] ~ /^-./) refuse("a value is required for '" named(name) "' but none was supplied", "", "")
            value_of[name] = ARGV[++i]
        }
    }
    look_at_waiting()
    return command == "run" ? 3 : 0
}

# Looks at the value of the option that waits for that.
function look_at_waiting() {
    if (waiting != "") look_at(waiting, value_of[waiting])
    waiting = ""
}

# Refuses what is no value of this option.
function look_at(name, value,    why) {
    why = is_wrong(name, value)
    if (why) refuse("invalid value '" value "' for '" named(name) "': " why, "", "")
}

# Why this is no value of the option, if it is none.
function is_wrong(name, value) {
    if (value == "") return "cannot parse integer from empty string"
    if (value ~ /^[+]?0*[0-9]+$/) sub(/^[+]?0*/, "", value)
    else return "invalid digit found in string"
    if (value == "") value = "0"
    if (above(value, "18446744073709551615")) return "number too large to fit in target type"
    if (above(low[name], value) || above(value, high[name])) return value " is not in " low[name] "..=" high[name]
    return ""
}

# Whether one number in digits is above another.
function above(one, other) {
    return length(one) != length(other) ? length(one) > length(other) : ("n" one) > ("n" other)
}

function is_short(word) {
    return word ~ /^-[A-Za-z0-9]$/
}

function long_name(word) {
    sub(/^--/, "", word)
    sub(/=.*/, "", word)
    return word
}

function named(name) {
    return "--" name (takes[name] ? " <" name ">" : "")
}

# Reads a text of help: its usage, its commands and its options, and of these which take a value and of which range.
function read_help(command,    line, part, words, place) {
    text = usage = ""
    options = split("", option)
    split("", takes)
    while ((getline line < (help "/" command ".txt")) > 0) {
        text = text line "\n"
        if (line ~ /^Usage: /) usage = line
        if (line ~ /^[A-Z][a-z]*:$/ || line == "") part = line
        else if (part == "Commands:") {
            split(line, words, " ")
            command_at[++commands] = words[1]
            is_command[words[1]] = 1
        } else if (part == "Options:" && match(line, /--[a-z]+/)) {
            option[++options] = substr(line, RSTART + 2, RLENGTH - 2)
            takes[option[options]] = line ~ /<[a-z]+>/
            if (match(line, /[0-9]+ to [0-9]+/)) {
                split(substr(line, RSTART, RLENGTH), words, " to ")
                low[option[options]] = words[1]
                high[option[options]] = words[2]
            }
        }
    }
    close(help "/" command ".txt")
    if (text == "") exit 4
}

# The usage with the options that were given and the one that was meant. A command that has a usage of its own has that.
function used_usage(command, near) {
    if (usage ~ /< FILE/ || given near == "") return usage
    if (command == "") return "Usage: bus --" near " <COMMAND>"
    return "Usage: bus " command given (near == "" || near in is_given ? "" : " " named(near))
}

function tip_of_option(near) {
    return near == "" ? "" : "a similar argument exists: '--" near "'"
}

function nearest_option(name,    i, best, found, likeness) {
    best = 0.7
    for (i = 1; i <= options; i++) {
        likeness = jaro(name, option[i])
        if (likeness > 0.7 && likeness >= best) {
            best = likeness
            found = option[i]
        }
    }
    return found
}

# The commands that are like a word, the likest last.
function tip_of_command(word,    i, j, found, like, name, names) {
    for (i = 1; i <= commands; i++) {
        like = jaro(word, command_at[i])
        if (like <= 0.7) continue
        for (j = ++found; j > 1 && likeness[j - 1] > like; j--) {
            likeness[j] = likeness[j - 1]
            name[j] = name[j - 1]
        }
        likeness[j] = like
        name[j] = command_at[i]
    }
    for (i = 1; i <= found; i++) names = names (i > 1 ? ", " : "") "'" name[i] "'"
    if (found == 0) return ""
    return found == 1 ? "a similar subcommand exists: " names : "some similar subcommands exist: " names
}

# The Jaro similarity of two words, 0 to 1.
function jaro(one, other,    i, j, n, m, range, last, taken, matches, kept, found, swapped) {
    n = length(one)
    m = length(other)
    if (one == other) return 1
    range = int((n > m ? n : m) / 2) - 1
    if (range < 0) range = 0
    for (i = 1; i <= n; i++) {
        last = i + range < m ? i + range : m
        for (j = i > range ? i - range : 1; j <= last; j++)
            if (!(j in taken) && substr(one, i, 1) == substr(other, j, 1)) {
                taken[j] = 1
                kept[++matches] = substr(one, i, 1)
                break
            }
    }
    if (!matches) return 0
    for (j = 1; j <= m; j++) if (j in taken) if (kept[++found] != substr(other, j, 1)) swapped++
    return (matches / n + matches / m + (matches - int(swapped / 2)) / matches) / 3
}

# Prints a text, and ends.
function answer(words) {
    printf "%s", words > "/dev/stderr"
    exit 2
}

# Says what is wrong, with a tip and a usage where there are, and ends.
function refuse(what, tip, how) {
    answer("error: " what "\n\n" (tip == "" ? "" : "  tip: " tip "\n\n") (how == "" ? "" : how "\n\n") \
        "For more information, try '--help'.\n")
}

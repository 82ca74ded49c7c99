# Says in words what a report of oschk means: LC_ALL=C awk -f explain.awk <REPORT
# It reads the report's lines, looks up their sentences, and shows the place in the text with a caret. It judges nothing. The environment says what was
# asked: OSCHK_COMMAND; OSCHK_FIRST, OSCHK_SECOND and OSCHK_THIRD, the names behind it, and OSCHK_COUNT, how many they are; OSCHK_TURNS, OSCHK_ARRIVALS,
# OSCHK_CERT, OSCHK_BUDGET and OSCHK_UNKNOWN, the options; OSCHK_UNREADABLE, a file that can't be read. OSCHK_STATUS is the program's status, and
# OSCHK_SENTENCES the file of sentences.
BEGIN {
    command = ENVIRON["OSCHK_COMMAND"]
    with_texts = command == "run" || command == "show" || command == "replay"
    oil = with_texts ? ENVIRON["OSCHK_FIRST"] : ""
    c = with_texts ? ENVIRON["OSCHK_SECOND"] : ""
    schedule = command == "replay" ? ENVIRON["OSCHK_THIRD"] : ""
    certificate = command == "check" ? ENVIRON["OSCHK_FIRST"] : ""
    sentences = ENVIRON["OSCHK_SENTENCES"]
    while ((getline line < sentences) > 0) {
        if (line ~ /^#/ || split(line, part, / \| /) < 3) continue
        means[part[1]] = part[2]
        advice[part[1]] = part[3]
    }
    close(sentences)
    NAME = "[A-Za-z_][A-Za-z_0-9]*"
    TYPE = "(int8_t|int16_t|int32_t|uint8_t|uint16_t|uint32_t|bool|_Bool|int|unsigned)"
}

# A file's name as awk takes it: `-` alone would be the standard input.
function path(file) {
    return file == "-" ? "./-" : file
}

# A line of a text, without what makes a terminal jump.
function line_of(file, number,    text, at, found) {
    at = 0
    found = ""
    while (file != "" && (getline text < path(file)) > 0) {
        if (++at == number) {
            found = text
            break
        }
    }
    close(path(file))
    sub(/\r$/, "", found)
    gsub("[\001-\010\013-\037\177]", "?", found)
    return found
}

# The blanks before a column, and a caret: a tab for a tab, and nothing for the further bytes of a letter that has several.
function caret(text, column,    front, at, byte) {
    front = ""
    for (at = 1; at < column; at++) {
        byte = substr(text, at, 1)
        if (byte == "\t") front = front "\t"
        else if (byte < "\200" || byte > "\277") front = front " "
    }
    return front "^"
}

# `FILE:LINE:COLUMN: WHAT`, the line (of a long one the part around the place) and a caret.
function show_place(file, place, what,    at, text, cut) {
    split(place, at, ":")
    print (file == "" ? "" : file ":") place ": " what
    text = line_of(file, at[1])
    if (text == "") return
    cut = at[2] > 120 ? at[2] - 80 : 0
    text = substr(text, cut + 1, 200)
    print "    " text
    print "    " caret(text, at[2] - cut)
}

function advise(key) {
    if (key in advice) print "    " advice[key]
}

function say(key, more) {
    print key ": " means[key] more
    advise(key)
}

# What a directive that isn't taken is, with its recipe.
function at_directive(rest) {
    if (rest ~ ("^#[ \t]*define[ \t]+" NAME "\\(")) return "a macro with arguments isn't part of the profile: write a function, or the macro's text where it is used"
    if (rest ~ ("^#[ \t]*define[ \t]+" NAME "[ \t]*$")) return "a name that is defined without a number isn't part of the profile: leave the line out"
    if (rest ~ /^#[ \t]*define/) return "#define takes a new name and one integer, without sign, parentheses or operator: #define SIZE 4"
    if (rest ~ /^#[ \t]*(if|ifdef|ifndef|elif|else|endif)/) return "conditions of a preprocessor aren't part of the profile: leave out the lines that don't apply, and the # lines themselves"
    if (rest ~ /^#/) return "only #include and #define NAME NUMBER are part of the profile: leave the line out"
    return ""
}

# What begins with this word or byte, with its recipe.
function at_word(rest, before) {
    if (rest ~ /^["']/) return "strings and characters aren't part of the profile: write the character's number"
    if (rest ~ /^\.[0-9]/ || rest ~ /^\./ && before ~ /(^|[^A-Za-z_0-9])[0-9]+$/) return "floating point isn't part of the profile: count in integers of a fixed scale"
    if (rest ~ /^\./) return "structs aren't part of the profile: one variable (or array) for each field, as motor_speed for motor.speed"
    if (rest ~ /^(struct|union)([^A-Za-z_0-9]|$)/) return "structs and unions aren't part of the profile: one variable (or array) for each field"
    if (rest ~ /^enum([^A-Za-z_0-9]|$)/) return "enums aren't part of the profile: #define NAME NUMBER for each of its names"
    if (rest ~ /^typedef([^A-Za-z_0-9]|$)/) return "typedefs aren't part of the profile: write the type itself, as uint8_t"
    if (rest ~ /^(switch|case|default)([^A-Za-z_0-9]|$)/) return "switch isn't part of the profile: a chain of if and else if over one local"
    if (rest ~ /^goto([^A-Za-z_0-9]|$)/) return "goto isn't part of the profile: a loop or a test says the same"
    if (rest ~ /^:/ && before ~ ("^[ \t]*" NAME "[ \t]*$")) return "labels aren't part of the profile: a loop or a test says the same"
    if (rest ~ /^do([^A-Za-z_0-9]|$)/) return "do isn't part of the profile: write the body once before a while, or a while over a local that begins with true"
    if (rest ~ /^(break|continue)([^A-Za-z_0-9]|$)/) return "break and continue aren't part of the profile: put the test into the loop's condition"
    if (rest ~ /^(float|double)([^A-Za-z_0-9]|$)/) return "floating point isn't part of the profile: count in integers of a fixed scale"
    if (rest ~ /^(char|short|long|signed)([^A-Za-z_0-9]|$)/) return "write one of int8_t, int16_t, int32_t, uint8_t, uint16_t, uint32_t, bool, int or unsigned"
    if (rest ~ /^extern([^A-Za-z_0-9]|$)/) return "extern isn't part of the profile: declare the variable itself, in this text"
    if (rest ~ /^(inline|register|auto)([^A-Za-z_0-9]|$)/) return "leave this word out"
    if (rest ~ /^static([^A-Za-z_0-9]|$)/ && before !~ (TYPE "[ \t]*$")) return "a static local isn't part of the profile: declare it at file level"
    if (rest ~ /^\([ \t]*void[ \t]*\)/) return "an expression alone is no statement: leave it out"
    if (rest ~ /^sizeof([^A-Za-z_0-9]|$)/) return "sizeof isn't part of the profile: write the number"
    return ""
}

# What is wrong with a declaration at this place, with its recipe.
function at_declaration(rest, before) {
    if (rest ~ /^\*/ && before ~ ("(^|[^A-Za-z_0-9])(" TYPE "|void)[ \t*]*$")) return "pointers aren't part of the profile: name the variable itself, or use an index into an array"
    if (rest ~ /^\[/ && before ~ /\][ \t]*$/) return "arrays have one dimension: a[row * WIDTH + column]"
    if (rest ~ /^\[/ && before ~ ("(^|[^A-Za-z_0-9])" TYPE "[ \t]+" NAME "[ \t]*$")) return "an array is declared at file level alone, and isn't passed to a function"
    if (rest ~ /^\]/ && before ~ /\[[ \t]*$/) return "the length of an array is a number: a[4]"
    if (rest ~ /^[A-Za-z_]/ && before ~ /(^|[^A-Za-z_0-9])StatusType[ \t]+$/) return "the result of a service isn't taken: write the call alone, an error that it would return is a failure F2"
    if (rest ~ /^[A-Za-z_]/ && before ~ ("^[ \t]*(static|const|volatile|[ \t])*" NAME "[ \t]+$") && before !~ ("(^|[^A-Za-z_0-9])(" TYPE "|else|return)[ \t]+$"))
        return "the word before this is no type of the profile: those are int8_t, int16_t, int32_t, uint8_t, uint16_t, uint32_t, bool, int and unsigned"
    return ""
}

# What is wrong with a statement or an expression at this place, with its recipe.
function at_expression(rest, before,    called) {
    if (before ~ /(\)|(^|[^A-Za-z_0-9])else)[ \t]*$/ && rest ~ /^[A-Za-z_]/ || before ~ /(^|[^A-Za-z_0-9])(else|(if|while|for)[ \t]*\(.*\))[ \t]*$/ && rest ~ /^(\+\+|--)/)
        return "a body needs braces: if (..) { .. } else { .. }, also for one statement"
    if (rest ~ /^->/ || before ~ /-$/ && rest ~ /^>/) return "pointers aren't part of the profile: name the variable itself"
    if (rest ~ /^\*/ && before !~ /[A-Za-z_0-9)\]][ \t]*$/) return "pointers aren't part of the profile: name the variable itself, or use an index into an array"
    if (rest ~ /^&/ && before !~ /[A-Za-z_0-9)\]][ \t]*$/) return "addresses aren't part of the profile: name the variable itself"
    if (rest ~ /^\(/ && before ~ ("([][*=+/%<>&|^!~?:(,-]|return)[ \t]*" NAME "[ \t]*$")) {
        called = before
        sub(/[ \t]+$/, "", called)
        if (called ~ /(ActivateTask|TerminateTask|ChainTask|Schedule|GetResource|ReleaseResource)$/) return "the result of a service isn't taken: write the call alone, an error that it would return is a failure F2"
        return "a call stands alone or gives its result to a local: uint8_t v = f(); and then v in the expression"
    }
    if (rest ~ /^([-+*\/%&|^?=<>]|!=)/ && before ~ ("(^|[^A-Za-z_0-9])" NAME "[ \t]*\\([^()]*\\)[ \t]*$") && before !~ /(^|[^A-Za-z_0-9])(if|while|for)[ \t]*\([^()]*\)[ \t]*$/)
        return "a call stands alone or gives its result to a local: uint8_t v = f(); and then v in the expression"
    if (rest ~ /^(==|;)/ && before ~ ("^[ \t]*" NAME "[ \t]*(\\[[^]]*\\])?[ \t]*$")) return "an expression alone is no statement: leave it out, or set a variable to it"
    if (rest ~ /^,/ && before ~ /(^|[^A-Za-z_0-9])for[ \t]*\(/) return "each part of a for has one assignment alone"
    if (rest ~ /^([-+*\/%&|^=]|<<|>>)=?/ && before ~ /\][ \t]*$/) return "an element is set by = alone, as a statement of its own: a[i] = a[i] + 1;"
    if (rest ~ /^(([-+*\/%&|^]|<<|>>)?=|\+\+|--)/ && before ~ /[A-Za-z_0-9)][ \t]*$/) return "an assignment, ++ or -- is a statement of its own"
    return ""
}

# What stands at the place where C isn't taken, with its recipe; empty where nothing is known of it. A place at the begin of its line is looked at
# with the line before.
function construct(file, place,    at, text, rest, before, number, why) {
    split(place, at, ":")
    text = line_of(file, at[1])
    rest = substr(text, at[2])
    before = substr(text, 1, at[2] - 1)
    why = at_directive(rest)
    if (why == "") why = at_word(rest, before)
    if (why == "") why = at_declaration(rest, before)
    for (number = at[1] - 1; number > 0 && before ~ /^[ \t]*$/; number--) {
        before = line_of(file, number)
        sub(/\/\/.*/, "", before)
    }
    if (why == "") why = at_expression(rest, before)
    if (why == "" && before ~ ("^((static|const|volatile)[ \t]+)*" TYPE "[ \t]+" NAME "[^=;]*=[^=]")) why = "at file level an initialiser is a number, true or false, and for an array a list of these in braces"
    if (why == "" && at[2] == 1 && rest ~ ("^" NAME "[ \t]+" NAME)) why = "this word is no type of the profile: those are int8_t, int16_t, int32_t, uint8_t, uint16_t, uint32_t, bool, int and unsigned"
    return why
}

# What is known of an object or attribute of a usual OIL text, by its name.
function attribute_of(name) {
    if (name == "EVENT") return "events are outside of BCC1 and BCC2: leave EVENT objects and attributes out"
    if (name == "ALARM") return "leave the alarm out, and write an ISR of category 2 whose body activates its task"
    if (name ~ /^(MESSAGE|NETWORKMESSAGE|COM|NM|IPDU)$/) return "leave communication objects and attributes out"
    if (name ~ /^(STARTUPHOOK|ERRORHOOK|SHUTDOWNHOOK|PRETASKHOOK|POSTTASKHOOK)$/) return "set the hook to FALSE"
    return ""
}

# Notes the objects and attributes of a line of the CPU section that the profile leaves out.
function look_at_oil(text, number,    word, words, i) {
    words = split(text, word, /[^A-Za-z_0-9]+/)
    for (i = 1; i <= words; i++) {
        if (attribute_of(word[i]) == "" || text ~ (word[i] "[ \t]*=[ \t]*FALSE")) continue
        if (!(word[i] in found)) {
            found[word[i]] = number
            found_names[++found_count] = word[i]
        } else found_more[word[i]]++
    }
}

# What else an OIL text has, in its CPU section and outside of comments and strings, that the profile leaves out. In the line of the refused place that
# is what follows it: what stands before it would have been refused in its place.
function show_oil(file, place,    at, text, number, inside, comment, i, name, more) {
    split(place, at, ":")
    found_count = 0
    while (file != "" && (getline text < path(file)) > 0) {
        number++
        if (number == at[1]) {
            if (text ~ /^[ \t]*CPU([^A-Za-z_0-9]|$)/) inside = 1
            text = substr(text, at[2])
            sub(/^[A-Za-z_0-9]+/, "", text)
            comment = 0
        }
        gsub(/"[^"]*"/, "", text)
        gsub(/\/\*([^*]|\*+[^*\/])*\*+\//, " ", text)
        if (comment) {
            if (!sub(/^.*\*\//, "", text)) continue
            comment = 0
        }
        sub(/\/\/.*/, "", text)
        if (sub(/\/\*.*/, "", text)) comment = 1
        if (text ~ /^[ \t]*CPU([^A-Za-z_0-9]|$)/) inside = 1
        if (inside) look_at_oil(text, number)
    }
    close(path(file))
    for (i = 1; i <= found_count; i++) {
        name = found_names[i]
        more = name in found_more ? " (and " found_more[name] " more)" : ""
        if (i == 1) print "    what else this text has that the profile leaves out:"
        print "    " file ":" found[name] ": " name more ": " attribute_of(name)
    }
}

# The most turns that a limit on turns times a number allows.
function most_turns(count, limit,    turns, each) {
    turns = ENVIRON["OSCHK_TURNS"] + 0
    if (turns < 1) return
    each = count / turns
    if (each != int(each)) return
    if (each > limit) print "    one step alone is more than that: leave out code or variables"
    else print "    up to --turns=" int(limit / each) " are within this limit"
}

# How many names stand behind a command, 0 where the word is none.
function names_of(command) {
    if (command == "run" || command == "show") return 2
    if (command == "replay") return 3
    if (command == "check" || command == "make") return 1
    return 0
}

# Which words are missing, too many or out of their range, where that can be told.
function look_at_words(    count) {
    if (!names_of(command)) {
        print "    the first word is a command: run, show, replay, check or make"
        return
    }
    count = ENVIRON["OSCHK_COUNT"]
    if (count != names_of(command)) print "    " count " names stand behind " command ", and " names_of(command) " are wanted"
    if (ENVIRON["OSCHK_UNKNOWN"] != "") print "    " ENVIRON["OSCHK_UNKNOWN"] " is no option"
    if (command == "run" || command == "make") look_at_bounds(ENVIRON["OSCHK_TURNS"], ENVIRON["OSCHK_ARRIVALS"], ENVIRON["OSCHK_CERT"])
}

function look_at_bounds(turns, arrivals, cert) {
    if (turns == "") print "    --turns=K is missing, the most steps of a schedule"
    else if (turns !~ /^[0-9]+$/ || turns + 0 < 1 || turns + 0 > 512) print "    --turns is a number from 1 to 512"
    if (arrivals == "") print "    --arrivals=0 is missing"
    else if (arrivals != "0") print "    --arrivals is 0 today: look at single arrivals by replay"
    if (cert == "") print "    --cert=FILE is missing, the file that the certificate is written to"
    else if (cert == oil || cert == c) print "    the certificate needs a name of its own"
}

/^refused (OIL|C) RULE / {
    split($0, word, " ")
    file = word[2] == "OIL" ? oil : c
    show_place(file, word[6], "rule " word[4] ": " means[word[4]])
    advise(word[4])
    if (word[2] == "OIL") show_oil(file, word[6])
    next
}
/^refused (OIL|C) (BYTE|TOKEN|END|DIRECTIVE|NUMBER|DEPTH) at / {
    split($0, word, " ")
    file = word[2] == "OIL" ? oil : c
    key = word[2] " " word[3]
    show_place(file, word[5], means[key])
    why = word[2] == "C" && word[3] ~ /^(BYTE|TOKEN|DIRECTIVE)$/ ? construct(file, word[5]) : ""
    if (why != "") print "    " why
    else advise(key)
    if (word[2] == "OIL") show_oil(file, word[5])
    next
}
/^refused FORM C at / {
    split($0, word, " ")
    show_place(c, word[5], means["FORM"])
    advise("FORM")
    next
}
/^refused (POINTS|CELLS|SIZE|STATE) / {
    split($0, word, " ")
    say(word[2], ": " word[3] " of " word[5])
    if (word[2] == "SIZE" || word[2] == "STATE") most_turns(word[3], word[5])
    next
}
/^refused LENGTH / {
    split($0, word, " ")
    file = word[3] == "OIL" ? oil : word[3] == "C" ? c : word[3] == "SCHEDULE" ? schedule : certificate
    print file ": " means["LENGTH"] ": " word[5] " bytes"
    advise("LENGTH")
    next
}
/^refused (SCHEDULE|CERT) / {
    split($0, word, " ")
    show_place(word[2] == "CERT" ? certificate : schedule, word[5], means[word[2]])
    advise(word[2])
    next
}
/^(verdict )?fails F[1-9]/ {
    sub(/^verdict /, "")
    split($0, word, " ")
    key = word[2] == "F2" ? "F2 " word[3] : word[2]
    place = word[2] == "F2" ? word[5] : word[4]
    show_place(c, place, key ": " means[key])
    advise(key)
    next
}
/^verdict holds$/ { say("holds") }
/^verdict undecided$/ { say("undecided", " (" (ENVIRON["OSCHK_BUDGET"] != "" ? ENVIRON["OSCHK_BUDGET"] : 1000000) " lines)") }
/^done$/ { say("done") }
/^good / { say("good") }
/^not permitted / { say("not permitted") }
/^bad line / { say("bad line") }
/^bad verdict$/ { say("bad verdict") }
/^note N[1-6] at / {
    split($0, word, " ")
    show_place(oil, word[4], "note " word[2] ": " means[word[2]])
    advise(word[2])
}
/^oschk: usage$/ {
    say("usage")
    look_at_words()
}
/^oschk: read fault$/ {
    say("read fault")
    if (ENVIRON["OSCHK_UNREADABLE"] != "") print "    " ENVIRON["OSCHK_UNREADABLE"]
}
/^oschk: out of memory$/ { say("out of memory") }
END { if (ENVIRON["OSCHK_STATUS"] == 6) say("write fault") }

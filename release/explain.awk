# Reads script-lines.txt and then a script in which the program found a fault, and prints the faulty line and what is expected there.
#
# kind is `fault` or `twin`. number and line are those that the program prints. part is the part of the file in which the line is counted: 0 or 1
# for the first or second of two scripts, 2 for the order, and -1 if the file is one script.
BEGIN {
    FS = "\t"
    order["head"] = 0; order["attempt"] = 1; order["event"] = 2
}

# ---- the table

NR == FNR && /^(fault|twin)\t/ { expected[$1 " " $2 " " $3] = plain($4); next }
NR == FNR && /^(head|attempt|event)\t/ {
    word = $2
    sub(/ .*/, "", word)
    group[word] = $1
    form[word] = plain($2 ($3 == "" ? "" : "; " $3))
    words[++count] = word
}
NR == FNR { next }

# ---- the script

{
    sub(/\r$/, "")
    if ((part >= 0 || kind == "twin") && $0 == "=====") {
        at++
        own = 0
        next
    }
    if (part >= 0 && at + 0 != part)
        next
    own++
    split($0, word_of, " ")
    first = $0
    sub(/ .*/, "", first)
}
line > 0 && own == line {
    said = kind == "twin" ? expected["twin 8 the order"] : of_line()
    tell(FNR, said)
    exit
}
line == 0 && kind == "fault" && number == 9 && $0 ~ /^dest s3a:\/\/[^\/]*\/?$/ {
    tell(FNR, form["dest"])
    line = -1
    exit
}
line == 0 && kind == "twin" && is_told() {
    tell(FNR, whole)
    line = -1
    exit
}
/^(#|$)/ { next }
first in group {
    seen[first] = 1
    if (order[group[first]] > now)
        now = order[group[first]]
}
END {
    if (line != 0)
        exit
    if (kind == "twin") {
        print "expected: " expected["twin " number " all"]
    } else if (number == 4) {
        for (it = 1; it <= 4; it++)
            if (!(words[it] in seen))
                print "expected: " form[words[it]] of_part()
    } else {
        print "expected: " expected["fault " number " a script"] of_part()
    }
}

# Says in which of two scripts the fault is.
function of_part() {
    return part < 0 ? "" : part == 0 ? ", in the first script" : ", in the second script"
}

# ---- what is expected

# What is expected in the place of this line.
function of_line(    said) {
    if (number == 2 && first in group && order[group[first]] < now)
        return expected["fault 2 " (group[first] == "head" ? "a head line behind its group" : "an `attempt` or `file` behind its group")]
    if (number == 2 && first == "file" && now == 0)
        return expected["fault 2 a `file` before its group"]
    if (number == 2 && $0 ~ /^(mode (fail|append|replace)|unique (yes|no))$/)
        return expected["fault 2 `" first "` of magic"]
    if (number == 3)
        said = "a line that begins with " beginnings()
    else if (number == 2 || number == 11)
        said = form[first]
    else if (number == 6 && first == "dest")
        said = form["dest"]
    else if (number == 5)
        said = expected["fault 5 " (group[first] == "head" && first != "loss" ? "a head line" : "`" first "`")]
    else if (number == 8 && first != "attempt")
        said = expected["fault 8 an event"]
    else
        said = expected["fault " number " `" first "`"]
    if ((number == 2 || number == 3 || number == 11) && $0 ~ /^ |\t| $|  / && first != "file")
        said = said "; " expected["fault 2, 3, 11 blanks"]
    return said
}

# The words with which a line may begin here.
function beginnings(    it, said) {
    for (it = 1; it <= count; it++)
        if (order[group[words[it]]] >= now && (words[it] != "file" || now == 1))
            said = said (said == "" ? "" : " | ") words[it]
    return said
}

# Whether the fault of two scripts is about this line. If so, `whole` is what is expected.
function is_told() {
    whole = ""
    if (number == 4 && at == 1 && first == "job")
        whole = expected["twin 4 the line `job` of the second script"]
    else if (number == 5 && at == 1 && first == "dest")
        whole = expected["twin 5 the line `dest` of the second script"]
    else if (number == 6 && $0 == "mode replace")
        whole = expected["twin 6 the first `mode replace`"]
    else if (number == 7 && at == 1 && first == "loss")
        whole = expected["twin 7 the first `loss` of the second script"]
    return whole != ""
}

# A row of the table without its backticks.
function plain(text) {
    gsub(/`/, "", text)
    return text
}

# Prints the number of a line, its first 200 bytes, and what is expected in its place. Bytes that a terminal does not show, such as a byte order
# mark, are printed as `?`.
function tell(number, said,    it) {
    it = $0
    if (length(it) > 200) {
        it = substr(it, 1, 200)
        sub(/[\300-\377][\200-\277]*$/, "", it)
        it = it "..."
    }
    sub(/^\357\273\277/, "?", it)
    gsub(/[\001-\037\177]/, "?", it)
    print "line " number ": " it
    print "expected: " said
}

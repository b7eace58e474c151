# Reads the tables of docs/FIRST-VERSIONS.md and docs/RULES.md and prints one line for each instruction of each version:
# the version's first token, the opcode, and its operands with their types, as in "FFFE0101 1 D:0,3,4,5,6 S:0,1,2,11,12,13".
# Whatever is not spelled as these pages say is a fault, told on standard error.
function fault(what) {
    printf "%s, line %d: %s\n", FILENAME, FNR, what >"/dev/stderr"
    faulty = 1
}
function trimmed(text) {
    gsub(/^ +| +$/, "", text)
    return text
}
# "0 3" as "0,3"
function listed(types) {
    if (types !~ /^[0-9]+( [0-9]+)*$/)
        fault("no list of types: " types)
    gsub(/ /, ",", types)
    return types
}
# The operands of a cell; `free` has the types of D and S where they stand alone.
function spelled(cell, column,    out, token) {
    if (cell == "none")
        return ""
    while (cell != "") {
        if (match(cell, /^[DS]\[[0-9 ]+\]/)) {
            token = substr(cell, 1, RLENGTH)
            out = out " " substr(token, 1, 1) ":" listed(substr(token, 3, RLENGTH - 3))
        } else if (match(cell, /^[DS]/)) {
            token = substr(cell, 1, 1)
            out = out " " token ":" free[token, column]
        } else if (match(cell, /^[RU]/)) {
            out = out " " substr(cell, 1, 1)
        } else {
            fault("no operand: " cell)
            return out
        }
        cell = substr(cell, RLENGTH + 1)
        if (cell != "" && cell !~ /^ [^ ]/)
            fault("no operand: " cell)
        sub(/^ /, "", cell)
    }
    return out
}

BEGIN {
    FS = "|"
    split("FFFE0101 FFFF0101 FFFF0102 FFFF0103 FFFF0104", first, " ")
    split("FFFE0200 FFFE0300 FFFF0200 FFFF0300", later, " ")
    split("V2 V3 P2 P3", here, " ")
    for (k = 1; k <= 4; k++)
        column_of[here[k]] = k
}

FILENAME ~ /FIRST-VERSIONS/ && /^\| [DS] \|/ {
    for (k = 1; k <= 5; k++)
        free[trimmed($2), k] = listed(trimmed($(k + 2)))
}
FILENAME ~ /FIRST-VERSIONS/ && /^\| [0-9]+ \|/ {
    if (NF != 10)
        fault("not eight columns")
    for (k = 1; k <= 5; k++)
        if (trimmed($(k + 3)) != "-")
            print first[k], trimmed($2) spelled(trimmed($(k + 3)), k)
}

# "| 1 MOV, 6 RCP | D S | V2 V3 |", which the types further down complete
FILENAME ~ /RULES/ && /^\| [0-9]+ [A-Za-z]/ && NF == 5 && $4 ~ /^( [VP][23])+ $/ {
    count = split(trimmed($2), several, ", ")
    versions = split(trimmed($4), on, " ")
    for (k = 1; k <= count; k++)
        for (v = 1; v <= versions; v++) {
            split(several[k], one, " ")
            if (several[k] !~ /^[0-9]+ [A-Za-z0-9]+$/ || !(on[v] in column_of))
                fault("no opcode or no version: " several[k] " " on[v])
            rows++
            name[rows] = one[2]
            number[rows] = one[1]
            column[rows] = column_of[on[v]]
            operands[rows] = trimmed($3)
        }
}
# "| second S of TEX | - | - | 10 | 10 |"
FILENAME ~ /RULES/ && /^\| (free [DS]|((first|second) )?[DS] of [A-Z]+) \|/ {
    if (NF != 7)
        fault("not five columns")
    for (k = 1; k <= 4; k++)
        if (trimmed($(k + 2)) != "-")
            place[trimmed($2), k] = listed(trimmed($(k + 2)))
}

# The types of the nth operand of a kind, by its own row or the free one's.
function types_of(kind, nth, of, column,    ordinal) {
    ordinal = nth == 1 ? "first " : nth == 2 ? "second " : "other "
    if ((ordinal kind " of " of, column) in place)
        return place[ordinal kind " of " of, column]
    if ((kind " of " of, column) in place)
        return place[kind " of " of, column]
    return place["free " kind, column]
}

END {
    for (row = 1; row <= rows; row++) {
        line = later[column[row]] " " number[row]
        letters = operands[row] == "none" ? 0 : split(operands[row], letter, " ")
        split("", seen)
        for (k = 1; k <= letters; k++) {
            if (letter[k] ~ /^[DS]$/)
                line = line " " letter[k] ":" types_of(letter[k], ++seen[letter[k]], name[row], column[row])
            else if (letter[k] ~ /^[RU]$/)
                line = line " " letter[k]
            else {
                printf "no operand: %s of %s\n", letter[k], name[row] >"/dev/stderr"
                faulty = 1
            }
        }
        print line
    }
    exit faulty
}

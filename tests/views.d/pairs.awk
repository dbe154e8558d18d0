# Reads the .words files. Tells each pair of call and code of reference/calls.c that has no line there, and each `old`, `got` and `why` of view/names that no line shows.
# A code is a hexadecimal digit there, so b is 11; an old number has code 1.
function pattern(words,   text, c) {
    text = ""
    while (words != "") {
        c = substr(words, 1, 1)
        if (c == "{") { text = text ".*"; words = substr(words, index(words, "}") + 1) }
        else { text = text (c ~ /[A-Za-z0-9 ]/ ? c : "[" c "]"); words = substr(words, 2) }
    }
    return text
}
BEGIN {
    while ((getline line < forms) > 0) if (line ~ /^ *{ 0x/) {
        split(line, p, "\"")
        codes = p[n = split(line, p, "\"") - 1]
        number = substr(line, index(line, "0x") + 2, 2)
        for (i = 1; i <= length(codes); i++) { pair[number " " (index("0123456789ab", substr(codes, i, 1)) - 1)] = 1; pairs++ }
    }
    pair["ff 1"] = 1; pairs++
    while ((getline line < names) > 0) if (line ~ /^(old|got|why) /) {
        split(substr(line, 5), p, "|")
        if (line ~ /^old /) { pair[p[1] " 1"] = 1; pairs++; continue }
        lines++
        key[lines] = line; lineCall[lines] = p[1]; lineCode[lines] = substr(line, 1, 3) == "got" ? "-" p[2] : p[2]; linePattern[lines] = pattern(p[4]) "($|;)"
    }
}
/^#/ || /^$/ || /^version / { next }
{
    said = substr($0, index($0, " ; ") + 3)
    code = "0"
    if (match(said, /refused, code [0-9]+: /)) { code = substr(said, RSTART + 14, RLENGTH - 16); rest = substr(said, RSTART + RLENGTH) }
    else { rest = said; sub(/^[^:]*: (not met, )?/, "", rest) }
    had[$1 " " code] = 1
    for (i = 1; i <= lines; i++) if (!(i in shown) && (lineCall[i] == $1 || lineCall[i] == "*") && (lineCode[i] == code || (code == 0 && substr(lineCode[i], 1, 1) == "-")) && rest ~ ("^" linePattern[i])) shown[i] = 1
}
END {
    for (k in pair) if (!(k in had)) { print "no line for call and code " k; missing++ }
    for (i = 1; i <= lines; i++) if (!(i in shown) && lineCode[i] != 10) { print "not shown: " key[i]; missing++ }
    print "pairs: " pairs " pairs of call and code, " lines " lines of view/names, " missing + 0 " missing"
}

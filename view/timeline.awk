# Puts a trace into the page as data, in one pass: a line of symbols for each record, then what the records share, as JSON.
# A number is written in symbols of five bits, the low ones first; a symbol from 32 on says that more follow. A record's line has
#   the thread after it; depth * 8 + Swis on * 4 + tasks on * 2 + whether the tick count rose; the text's number, and the numbers that stand in it;
#   the object that the call names, 0 for none; then each part of the trace from 3 to 13 that is not empty: its number, how many numbers, the numbers; then 0.
# The lists of posted and active Swis (parts 6 and 7) are there where they changed. A text is a record's words with its numbers taken out, so there are few of them.
function shown(n,   text, low) {
    if (n in short) return short[n]
    text = ""
    for (n += 0; n >= 32;) { low = n % 32; text = text symbol[low + 32]; n = (n - low) / 32 }
    return text symbol[n]
}
function makeSymbols(   all, i) {
    all = "0123456789ABCDEFGHIJKLMNOPQRSTUVWXYZabcdefghijklmnopqrstuvwxyz-_"
    for (i = 0; i < 64; i++) symbol[i] = substr(all, i + 1, 1)
    for (i = 0; i < 1024; i++) short[i] = i < 32 ? symbol[i] : symbol[i % 32 + 32] symbol[int(i / 32)]
}
# Threads and objects by number: tasks from 0, Swis from 32, the interrupt 48, semaphores from 49, events from 65, mailboxes from 73, clocks from 81.
function makeLanes(   i) {
    for (i = 0; i < 32; i++) lane["T" i] = i
    for (i = 0; i < 16; i++) { lane["S" i] = 32 + i; lane["w" i] = 32 + i; lane["s" i] = 49 + i; lane["c" i] = 81 + i }
    for (i = 0; i < 8; i++) { lane["e" i] = 65 + i; lane["m" i] = 73 + i }
    lane["I"] = 48
}
# A text as a JSON string that is safe inside a page.
function quoted(text,   i, c, out) {
    out = ""
    for (i = 1; i <= length(text); i++) { c = substr(text, i, 1); out = out (c in escaped ? escaped[c] : c) }
    return "\"" out "\""
}
function makeEscapes(   i) {
    for (i = 1; i < 32; i++) escaped[sprintf("%c", i)] = sprintf("\\u%04x", i)
    escaped["\\"] = "\\\\"; escaped["\""] = "\\\""; escaped["<"] = "\\u003c"; escaped["\177"] = "\\u007f"
}
function namesOf(names,   i, text) {
    text = ""
    for (i = 0; i < 64; i++) if (i in names) text = text (text == "" ? "" : ",") "\"" i "\":" quoted(names[i])
    return "{" text "}"
}
# A record's words: its text's number and the numbers in it. In a text '#' stands for a number, '$' for a hexadecimal one (its length and its digits).
# There is room for so many texts; after that new words are written as they are, where '@' stands (the length and the words).
function wordsShown(words,   rest, form, numbers, token, kind) {
    rest = words; form = ""; numbers = ""; kind = call " " code " " outcome " " tableTold() " " (mark() == "!") " "
    while (match(rest, /0x[0-9a-f]+|[1-9][0-9]*|0/)) {
        token = substr(rest, RSTART, RLENGTH)
        if (RLENGTH > 2 && substr(token, 2, 1) == "x") { form = form substr(rest, 1, RSTART - 1) "$"; numbers = numbers shown(RLENGTH - 2) substr(token, 3) }
        else { form = form substr(rest, 1, RSTART - 1) "#"; numbers = numbers shown(token) }
        rest = substr(rest, RSTART + RLENGTH)
    }
    form = kind form rest
    if (form in textOf || texts < mostTexts) return shown(textNumber(form)) numbers
    rest = index(words, ": ")
    return shown(textNumber(kind "@: @")) shown(rest - 1) substr(words, 1, rest - 1) shown(length(words) - rest - 1) substr(words, rest + 2)
}
function textNumber(key) {
    if (!(key in textOf)) { textOf[key] = texts; textKey[texts++] = key }
    return textOf[key]
}
function recordShown(   named, i, row) {
    named = kindNamed in tableLetter ? tableLetter[kindNamed] numberNamed : ""
    row = shown(lane[runs]) shown(depth * 8 + swisOn * 4 + tasksOn * 2 + (tick != tickNow)) wordsShown(recordInWords()) shown(named in lane ? lane[named] + 1 : 0)
    for (i = 3; i <= 13; i++) {
        if (i == 6 || i == 7) { if (part[i] "" != listBefore[i]) row = row listShown(i); listBefore[i] = part[i] "" }
        else if (length(part[i]) > 1) row = row listShown(i)
    }
    return row "0"
}
function listShown(i,   p, n, j, text) {
    n = split(part[i], p, " ")
    text = shown(i) shown(n)
    for (j = 1; j <= n; j++) text = text shown(p[j])
    return text
}
# A text as [call, code, outcome, the table that the answer's value names or 0, whether it is marked, words of the call, words of what came of it]; the words
# have a colon between the two.
function textShown(key,   p, words) {
    split(key, p, " "); words = substr(key, length(p[1] p[2] p[3] p[4] p[5]) + 6)
    return "[\"" p[1] "\"," p[2] "," p[3] "," p[4] "," p[5] "," quoted(substr(words, 1, index(words, ": ") - 1)) "," quoted(substr(words, index(words, ": ") + 2)) "]"
}
# Copies the page, and each file that a line of it names, up to the place of the data or to the end.
function copy(file,   line, got) {
    while ((got = (getline line < file)) > 0 && line != "@DATA@") if (line ~ /^@page-?[a-z]*\.[a-z]+@$/) copy(folder substr(line, 2, length(line) - 2)); else print line
    if (got < 0) { print "timeline: " file ": cannot be read" > "/dev/stderr"; unread = 1; exit 2 }
}
BEGIN {
    makeSymbols(); makeLanes(); makeEscapes(); readNames(names)
    if (mostTexts == "") mostTexts = 16384
    texts = 0; records = 0; lastWords = ""; whole = 0; listBefore[6] = " "; listBefore[7] = " "
    folder = page; sub(/[^\/]*$/, "", folder)
    copy(page)
}
isLast() { lastWords = lastInWords(); whole = $0 ~ /^end/; next }
{
    readRecord()
    if (records % 4096 == 0) print (records ? "</script>" : "") "<script type=\"text/plain\" class=\"rows\">"
    print recordShown()
    records++
}
END {
    if (unread) exit 2
    if (lastWords == "") { print "timeline: the trace has no last line" > "/dev/stderr"; exit 2 }
    if (records) print "</script>"
    print "<script type=\"application/json\" id=\"log\">{\"title\":" quoted(title) ",\"records\":" records ",\"last\":" quoted(lastWords) ",\"whole\":" (whole ? "true" : "false") ",\"levels\":" quoted(levelsInWords()) ","
    print "\"modeName\":" namesOf(modeName) ",\"modeObject\":" namesOf(modeObject) ",\"kindName\":" namesOf(kindName) ",\"codeName\":" namesOf(codeName) ","
    print "\"tableName\":" namesOf(tableName) ",\"texts\":["
    for (i = 0; i < texts; i++) print textShown(textKey[i]) (i < texts - 1 ? "," : "")
    print "]}</script>"
    copy(page)
}

# Reads a trace (docs/TRACE.md) record by record, keeps the tables that it tells of, and puts a record into words. The words are those of view/names.
# It runs with mawk, gawk and busybox's awk: numbers of the trace are kept as they are written, and none above 2,147,483,647 goes through %d or %x.

# ---- the names

function readNames(file,   line, kind, key, p, got) {
    while ((got = (getline line < file)) > 0) {
        if (line == "" || substr(line, 1, 1) == "#") continue
        kind = substr(line, 1, index(line, " ") - 1)
        split(substr(line, length(kind) + 2), p, "|")
        key = p[1]
        if (kind == "table") { tableKind[key] = p[2]; tableSize[p[2]] = p[3]; tableName[key] = p[4]; tableLetter[p[2]] = p[5] }
        else if (kind == "call") readCall(key, p[2], p[3])
        else if (kind == "old") { oldWas[key] = p[2]; oldNow[key] = p[3] }
        else if (kind == "may") mayMake[key] = p[2]
        else if (kind == "got") gotWords[key, p[2], p[3]] = p[4]
        else if (kind == "code") codeName[key] = p[2]
        else if (kind == "why") { whys++; whyCall[whys] = key; whyCode[whys] = p[2]; whyTest[whys] = p[3]; whyWords[whys] = p[4] }
        else if (kind == "mode") { modeName[key] = p[2]; modeObject[key] = p[3] }
        else if (kind == "kind") kindName[key] = p[2]
        else if (kind == "fault") { faults++; faultWord[faults] = key; faultTest[faults] = p[2]; faultWords[faults] = p[3] }
    }
    if (got < 0) { print "views: " file " cannot be read" > "/dev/stderr"; namesMissing = 1; exit 2 }
    close(file)
    freshTables()
}
# A call's words; how many arguments it has; the kind of the object that it names, and as which argument; and whether it names switches, which its first argument does.
function readCall(key, who, words,   rest, at, place, n) {
    callWho[key] = who
    callWords[key] = words
    callArguments[key] = 0
    rest = words
    while ((at = index(rest, "{")) > 0) {
        n = substr(rest, at + 1, 1)
        place = substr(rest, at + 3, index(rest, "}") - at - 3)
        if (n + 0 > callArguments[key]) callArguments[key] = n + 0
        if (place in tableSize) { callKind[key] = place; callPlace[key] = n }
        if (place == "w") callSwitches[key] = 1
        rest = substr(rest, index(rest, "}") + 1)
    }
}
function freshTables() {
    mode[0] = 1; priority[0] = 0; taskObject[0] = 0; left[0] = 0; taskOutcome[0] = 0; taskValue[0] = 0
    swisOn = 1; tasksOn = 1; depth = 0; runs = "T0"; blocks = 0; units = 0
}

# ---- reading a record

function isLast() { return $0 ~ /^(end|cut|length|version) [0-9]+$/ }
# How many levels tasks have: the first record decides it for the whole log, and its line tells it. A log without a good record has 0.
NR == 1 { split($0, part, ";"); split(part[2], stateThen, " "); levels = stateThen[6] + 0 }
function logVersion() { return levels == 32 ? 2 : 1 }
# What is said of a log's levels; nothing where they are 16.
function levelsInWords() { return levels == 32 ? "32 levels (version 2)" : "" }
# Reads the line $0 and keeps what it tells: the call and its answer, what is so after it, and what it changed.
function readRecord(   f) {
    split($0, part, ";")
    split(part[1], f, " ")
    record = f[1]; tick = f[2]; caller = f[3]; call = sprintf("%02x", f[4])
    given[1] = f[5]; given[2] = f[6]; given[3] = f[7]; given[4] = f[8]
    code = f[9]; outcome = f[10]; value = f[11]; ranBefore = runs; runs = f[12]
    kindNamed = ""; numberNamed = ""
    if (call in callKind) { kindNamed = callKind[call]; numberNamed = given[callPlace[call]] }
    changedTasks = 0; changedObjects = 0; posts = 0; started = ""; made = ""; heapChanged = 0
    split(part[2], f, " ")
    tickNow = f[4]; current = f[5]; depth = f[1]
    if (f[2] != swisOn) { swisOn = f[2]; swisSince = record; swisBy = caller }
    if (f[3] != tasksOn) { tasksOn = f[3]; tasksSince = record; tasksBy = caller }
    if (code != 0) return
    if (length(part[3]) > 1) readTasks(part[3])
    if (length(part[4]) > 1) posts = split(part[4], post, " ") / 3
    if (length(part[5]) > 1) started = part[5] + 0
    if (length(part[8]) > 1) readSemaphores(part[8])
    if (length(part[9]) > 1) readEvents(part[9])
    if (length(part[10]) > 1) readMailboxes(part[10])
    if (length(part[11]) > 1) readSwis(part[11])
    if (length(part[12]) > 1) readClocks(part[12])
    if (length(part[13]) > 1) readHeap(part[13])
}
function readTasks(text,   f, n, i, t) {
    n = split(text, f, " ")
    for (i = 1; i < n; i += 7) {
        t = f[i]
        modeWas[t] = t in mode ? mode[t] : 0
        objectWas[t] = taskObject[t]
        changedTask[++changedTasks] = t
        noteUse("task", t, f[i + 1] != 0)
        mode[t] = f[i + 1]; priority[t] = f[i + 2]; taskObject[t] = f[i + 3]; left[t] = f[i + 4]; leftAt[t] = tickNow
        taskOutcome[t] = f[i + 5]; taskValue[t] = f[i + 6]
        if (mode[t] == 4 && modeWas[t] != 4) { andMask[t] = given[2]; orMask[t] = given[3] }
    }
}
# An object changed; when it went out of use, by whom is kept.
function noteChange(kind, n, used) {
    changedObjects++; changedKind[changedObjects] = kind; changedNumber[changedObjects] = n
    noteUse(kind, n, used)
}
function noteUse(kind, n, used) {
    if (!used && inUse[kind, n]) goneAt[kind, n] = record " by " threadName(caller)
    if (used && !inUse[kind, n]) made = kind
    inUse[kind, n] = used
}
# So many numbers of a list from its place i on, parted by spaces.
function listed(f, i, many,   text) {
    text = ""
    for (; many > 0; many--) text = text (text == "" ? "" : " ") f[i++]
    return text
}
function readSemaphores(text,   f, n, i, s) {
    n = split(text, f, " ")
    for (i = 1; i < n; i += 5 + f[i + 4]) {
        s = f[i]
        noteChange("semaphore", s, f[i + 1] + 0)
        semaphoreKind[s] = f[i + 2]; semaphoreCount[s] = f[i + 3]
        waitersAt["semaphore", s] = f[i + 4]; lineAt["semaphore", s] = listed(f, i + 5, f[i + 4])
    }
}
function readEvents(text,   f, n, i, e) {
    n = split(text, f, " ")
    for (i = 1; i < n; i += 4 + f[i + 3]) {
        e = f[i]
        noteChange("event", e, f[i + 1] + 0)
        eventBits[e] = f[i + 2]
        waitersAt["event", e] = f[i + 3]; lineAt["event", e] = listed(f, i + 4, f[i + 3])
    }
}
function readMailboxes(text,   f, n, i, m, at) {
    n = split(text, f, " ")
    for (i = 1; i < n; i = at + 1 + f[at]) {
        m = f[i]
        at = i + 3 + f[i + 2]
        noteChange("mailbox", m, f[i + 1] != 0)
        capacity[m] = f[i + 1]; messages[m] = f[i + 2]
        waitersAt["mailbox", m] = f[at]; lineAt["mailbox", m] = listed(f, at + 1, f[at])
    }
}
function readSwis(text,   f, n, i, s) {
    n = split(text, f, " ")
    for (i = 1; i < n; i += 7) {
        s = f[i]
        noteChange("Swi", s, f[i + 1] + 0)
        trigger[s] = f[i + 4]; posted[s] = f[i + 5]; taken[s] = f[i + 6]
    }
}
function readClocks(text,   f, n, i, c) {
    n = split(text, f, " ")
    for (i = 1; i < n; i += 6) {
        c = f[i]
        noteChange("clock", c, f[i + 1] + 0)
        clockSwi[c] = f[i + 2]; period[c] = f[i + 4]; clockLeft[c] = f[i + 5]; clockAt[c] = tickNow
    }
}
# The heap's blocks by their offsets: taken by a call that gave an offset, given back by one that named it.
function readHeap(text,   f, o) {
    split(text, f, " ")
    heapChanged = 1
    if (f[1] > blocks) { o = value; blockUnits[o] = f[2] - units; blockAt[o] = record; blockBy[o] = caller }
    else { o = given[1]; delete blockUnits[o]; delete blockAt[o]; delete blockBy[o] }
    blockNow = o; blocks = f[1]; units = f[2]
}

# ---- numbers and lists in words

# A 32-bit word in hexadecimal, by halves: busybox's awk has no format for those above 2,147,483,647.
function hexWord(n,   high) {
    high = int(n / 65536)
    return high > 0 ? sprintf("0x%x%04x", high, n - high * 65536) : sprintf("0x%x", n)
}
function round32(n) { return sprintf("%.0f", n >= 4294967296 ? n - 4294967296 : n < 0 ? n + 4294967296 : n) }
function plural(n, word) { return n " " word (n == 1 ? "" : "s") }
function signed(n) { return n == 4294967295 ? "-1" : n }
function threadName(t) { return t == "I" ? "the interrupt" : (substr(t, 1, 1) == "T" ? "task " : "Swi ") substr(t, 2) }
# Numbers parted by spaces as 'task 3', 'tasks 3, 4 and 5'; of more than six the first five.
function taskList(numbers,   n, p, i, told, text) {
    n = split(numbers, p, " ")
    told = n > 6 ? 5 : n
    for (i = 1; i <= told; i++) text = text (i == 1 ? "" : i == n ? " and " : ", ") p[i]
    return (n == 1 ? "task " : "tasks ") text (told < n ? " and " n - told " more" : "")
}
function inForm(form, n) {
    if (form == "n") return n
    if (form == "x") return hexWord(n)
    if (form == "p") return signed(n)
    if (form == "l") return n == 4294967295 ? "without end" : "limit " n
    if (form == "t") return plural(n, "tick")
    if (form == "b") return plural(n, "byte")
    if (form == "k") return n in kindName ? kindName[n] : "kind " n
    if (form == "w") return n == 1 ? "Swis" : n == 2 ? "tasks" : n == 3 ? "Swis and tasks" : "switches " n
    return form " " n
}
# Words with their places filled in.
function filled(words,   text, at, to, place, c) {
    text = ""
    while ((at = index(words, "{")) > 0) {
        to = index(words, "}")
        place = substr(words, at + 1, to - at - 1)
        c = substr(place, 1, 1)
        text = text substr(words, 1, at - 1) (substr(place, 2, 1) == ":" ? inForm(substr(place, 3), c == "v" ? value : given[c]) : placeInWords(place))
        words = substr(words, to + 1)
    }
    return text words
}
function placeInWords(place) {
    if (place == "caller") return threadName(caller)
    if (place == "may") return mayMake[callWho[call]]
    if (place == "number") return call
    if (place == "named") return numberNamed
    if (place == "object") return tableKind[tableTold()] " " numberNamed
    if (place == "table") return tableName[tableTold()]
    if (place == "last") return tableSize[tableKind[tableTold()]] - 1
    if (place == "gone") return goneInWords(tableKind[tableTold()], numberNamed)
    if (place == "state") return taskInWords(kindNamed == "task" ? numberNamed : value)
    if (place == "waiters") return waitersInWords(kindNamed, numberNamed)
    if (place == "messages") return plural(messages[numberNamed], "message")
    if (place == "clock") return "clock " clockOf(numberNamed)
    if (place == "unused") return unusedArgument()
    if (place == "most") return (kindNamed == "semaphore" ? semaphoreKind[numberNamed] : given[1]) % 2 == 1 ? 1 : 65535
    if (place == "size") return plural(blockUnits[given[1]] * 8, "byte")
    if (place == "run") return plural(largestRun() * 8, "byte")
    if (place == "bits") return hexWord(taskValue[value])
    if (place == "until") return untilInWords(substr(caller, 2))
    if (place == "depth") return depth
    if (place == "tick") return tickNow
    if (place == "were") return switchesInWords("were", value, " already")
    if (place == "are") return switchesInWords("are", swisOn + 2 * tasksOn, "")
    if (place == "stray") return strayInWords()
    if (place == "highest") return levels - 1
    if (place == "version") return logVersion()
    if (place == "was") return oldWas[call]
    if (place == "now") return oldNow[call]
    if (place == "swis") return "Swis are off" sinceInWords(swisSince, swisBy)
    return offInWords()
}
# The table that the answer's value names: with codes 3 and 11 that of the refused number, else none.
function tableTold() { return code == 3 || code == 11 ? value : 0 }
# An object that is not in use: what the records so far tell of it.
function goneInWords(kind, n) { return (kind, n) in goneAt ? "deleted at record " goneAt[kind, n] : "not made so far" }
# Until when the wait goes that the task began with this call; the count of ticks may go round before.
function untilInWords(t) {
    if (left[t] == 0) return ""
    return tickNow + left[t] < 4294967296 ? " until tick " round32(tickNow + left[t]) : " for " plural(left[t], "tick")
}
function sinceInWords(since, by) { return " since record " since " (" threadName(by) ")" }
function offInWords() {
    if (swisOn) return "tasks are off" sinceInWords(tasksSince, tasksBy)
    if (!tasksOn && swisSince == tasksSince) return "Swis and tasks are off" sinceInWords(swisSince, swisBy)
    return "Swis are off" sinceInWords(swisSince, swisBy) (tasksOn ? "" : ", tasks" sinceInWords(tasksSince, tasksBy))
}
# Does a word of bits have Swis' bit (1), or that of tasks (2)?
function hasSwis(bits) { return bits % 2 == 1 }
function hasTasks(bits) { return bits % 4 > 1 }
# The switches that the call names and whose bits are there are on, the others off: 'they were on', 'Swis were on, tasks off already'.
function switchesInWords(were, bits, already,   swis, tasks) {
    swis = hasSwis(bits); tasks = hasTasks(bits)
    if (given[1] == 3 && swis != tasks) return swis ? "Swis " were " on, tasks off" already : "tasks " were " on, Swis off" already
    return "they " were ((given[1] == 2 ? tasks : swis) ? " on" : " off" already)
}
# The key's bits that the call does not name: those of a switch by its name, the rest as they are.
function strayInWords(   text, rest) {
    text = hasSwis(given[2]) && !hasSwis(given[1]) ? "Swis" : hasTasks(given[2]) && !hasTasks(given[1]) ? "tasks" : ""
    rest = given[2] - given[2] % 4
    return text (text != "" && rest > 0 ? " and " : "") (rest > 0 ? hexWord(rest) : "")
}
function unusedArgument(   i) {
    for (i = callArguments[call] + 1; i <= 4; i++) if (given[i] != 0) return i
    return 0
}
function clockOf(swi,   c) {
    for (c = 0; c < tableSize["clock"]; c++) if (inUse["clock", c] && clockSwi[c] == swi) return c
    return ""
}
# The largest run of free units, in units.
function largestRun(   u, run, most) {
    run = 0; most = 0
    for (u = 0; u < 256; u++) {
        if (u * 8 in blockUnits) { u += blockUnits[u * 8] - 1; run = 0 }
        else if (++run > most) most = run
    }
    return most
}

# ---- tasks and objects in words

function taskInWords(t) { return modeName[mode[t]] (modeObject[mode[t]] == "" ? "" : " " modeObject[mode[t]] " " taskObject[t]) }
function waitersInWords(kind, n,   doing, front) {
    if (waitersAt[kind, n] + 0 == 0) return "nobody waits"
    front = lineAt[kind, n]
    sub(/ .*/, "", front)
    doing = waitersAt[kind, n] == 1 ? " waits" : " wait"
    return taskList(lineAt[kind, n]) doing (mode[front] == 5 ? " to read" : mode[front] == 6 ? " to write" : "")
}
# What an object has after the call.
function objectInWords(kindOf, n) {
    if (kindOf == "semaphore") return "count " semaphoreCount[n] atInWords(kindOf, n)
    if (kindOf == "event") return "bits " hexWord(eventBits[n]) atInWords(kindOf, n) (waitersAt[kindOf, n] > 0 && outcome != 2 ? masksInWords(lineAt[kindOf, n]) : "")
    if (kindOf == "mailbox") return messages[n] " of " plural(capacity[n], "message") atInWords(kindOf, n)
    if (kindOf == "Swi") return "trigger " hexWord(trigger[n])
    if (kindOf == "clock") return clockLeft[n] == 0 ? "stopped" : plural(clockTicks(n), "tick") " left"
    return ""
}
function atInWords(kindOf, n) { return waitersAt[kindOf, n] + 0 == 0 ? "" : ", " waitersInWords(kindOf, n) }
function masksInWords(t) {
    if (orMask[t] == 0) return " for all of " hexWord(andMask[t])
    return " for " (andMask[t] == 0 ? "" : "all of " hexWord(andMask[t]) " or ") "any of " hexWord(orMask[t])
}
# A clock's ticks left now: the trace told them when they were set, and each tick since took one.
function clockTicks(c) { return round32(clockLeft[c] - round32(tickNow - clockAt[c])) }
function heapInWords() { return plural(blocks, "block") ", " units * 8 " of 2048 bytes" }

# ---- the record in words

function callInWords(   text, i, n) {
    if (!(call in callWords)) { text = "call " call; n = 0 }
    else { text = filled(callWords[call]); n = callArguments[call] }
    for (i = n + 1; i <= 4; i++) if (given[i] != 0) text = text ", argument " i " = " given[i]
    return text
}
# The call's name and what it is on: its words up to the first comma.
function shortName(   words) {
    if (!(call in callWords)) return "call " call
    words = callWords[call]
    sub(/,.*/, "", words)
    return filled(words)
}
# Why the call was refused: the first of its reasons whose test holds.
function reasonInWords(   i) {
    for (i = 1; i <= whys; i++) if (whyCode[i] == code && (whyCall[i] == call || whyCall[i] == "*") && holds(whyTest[i])) return filled(whyWords[i])
    return codeName[code]
}
function holds(test) {
    if (test == "") return 1
    if (test == "unused") return unusedArgument() > 0
    if (test == "kind") return given[1] > 3
    if (test == "which") return given[1] < 1 || given[1] > 3
    if (test == "Swi") return substr(caller, 1, 1) == "S"
    if (test == "old") return call in oldWas
    if (test == "no block") return !(given[1] in blockUnits)
    if (test == "task 0") return numberNamed == 0
    if (test == "terminated") return mode[numberNamed] == 7
    if (test == "current") return numberNamed == current
    if (test == "posted") return posted[numberNamed] == 1
    if (test == "waiter") return waitersAt[kindNamed, numberNamed] > 0
    if (test == "first") return levels == 0
    print "views: the table of names has a test that is not known: " test > "/dev/stderr"
    exit 2
}
# Not met is a call that was accepted and has outcome 1; call 06 tells of an earlier one.
function isNotMet() { return code == 0 && outcome == 1 && kindNamed != "task" }
function mark() { return code != 0 || isNotMet() ? "!" : " " }
# What the answer says; a post that woke a task has that one's number as its value.
function resultInWords() {
    if ((call, outcome, "") in gotWords) return filled(gotWords[call, outcome, ""])
    if ((call, outcome, value) in gotWords) return filled(gotWords[call, outcome, value])
    if (value != 0 && ((call, outcome, "+") in gotWords)) return filled(gotWords[call, outcome, "+"])
    return ""
}
function joined(text, more) { return text == "" ? more : more == "" ? text : text "; " more }
function recordInWords(   text) {
    if (code != 0) return callInWords() ": refused, code " code ": " reasonInWords()
    text = resultInWords()
    if (isNotMet()) text = "not met, " text
    text = joined(joined(joined(text, tasksInWords()), postsInWords()), objectsInWords())
    if (started != "") text = joined(text, "now Swi " started (caller == "S" started ? " starts anew" : " starts") ", taken trigger " hexWord(taken[started]))
    else if (runs != ranBefore) text = joined(text, "now " threadName(runs) " runs")
    return callInWords() ": " (text == "" ? "done" : text)
}
# What became of tasks: a writer let in, timed out, slept enough, and other changes of mode but those that the call's own words tell.
function tasksInWords(   i, t, text, writer, late, slept) {
    for (i = 1; i <= changedTasks; i++) {
        t = changedTask[i]
        if (mode[t] != 1 || modeWas[t] < 2 || modeWas[t] > 6) {
            if (mode[t] != modeWas[t] && modeWas[t] != 0 && (mode[t] == 1 || mode[t] > 6)) text = joined(text, "task " t " " taskInWords(t))
        }
        else if (modeWas[t] == 2) slept = slept " " t
        else if (taskOutcome[t] == 1) late = late (late == "" ? "" : ", ") "task " t " at " modeObject[modeWas[t]] " " objectWas[t]
        else if (modeWas[t] == 6) writer = "woke task " t ", its word joins"
    }
    text = joined(text, writer)
    if (late != "") text = joined(text, "timed out: " late)
    if (slept != "") text = joined(text, "slept enough: " taskList(slept))
    return text
}
# The posts of Swis that the call made: its own, or those of the clocks that ran out.
function postsInWords(   i, c, text) {
    if (kindNamed == "Swi" && posts == 0 && index(callWords[call], "post") > 0) return "not posted"
    for (i = 1; i <= 3 * posts; i += 3) {
        c = post[i]
        if (c == 16) text = post[i + 2] == 1 ? "it was posted already" : "posted"
        else text = joined(text, "clock " c " posts Swi " post[i + 1] (post[i + 2] == 1 ? " (posted already)" : "") \
            (clockLeft[c] == 0 ? " and stops" : ", next in " clockLeft[c]))
    }
    return text
}
# The object that the call is on, and every other semaphore, event and mailbox that changed.
function objectsInWords(   i, k, n, same, text) {
    text = ""
    if (made != "") return ""
    same = outcome == 1 || kindNamed == "Swi" ? "" : ", as before"
    for (i = 1; i <= changedObjects; i++) {
        k = changedKind[i]; n = changedNumber[i]
        if (k == kindNamed && n == numberNamed) same = ""
        else if (k != "Swi" && k != "clock") text = joined(text, k " " n ": " objectInWords(k, n))
    }
    if (inUse[kindNamed, numberNamed] && kindNamed != "task") text = joined(objectInWords(kindNamed, numberNamed) same, text)
    if (heapChanged) text = joined(text, heapInWords())
    return text
}
function lastInWords(   last) {
    split($0, last, " ")
    if (last[1] == "end") return "end of the log: " plural(last[2], "record")
    return "the log is damaged at byte " last[2] ": " last[1] ", " faultInWords(last[1])
}
# What a fault means: the first of its lines whose test holds.
function faultInWords(word,   i) {
    for (i = 1; i <= faults; i++) if (faultWord[i] == word && holds(faultTest[i])) return filled(faultWords[i])
}

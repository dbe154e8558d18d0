# Tells what stands out in a trace: what is most likely the cause first, then what was refused or not met, who waits, who is ready and does
# not run, the heap, the switches. words.awk reads the records and keeps the tables; beside them this keeps what happened to them.

function times(n) { return n == 1 ? "once" : n " times" }
function percent(n, all) { return int(100 * n / all + .5) "%" }
function listing(text, more) { return text == "" ? more : text ", " more }
function isTask(t) { return substr(t, 1, 1) == "T" }
# 'task 3 (priority 5)'
function ranked(t) { return "task " t " (priority " signed(priority[t]) ")" }
function lasting(since, tickThen) { return "(" plural(record - since, "record") ", " plural(ticks - tickThen, "tick") ")" }
function span(since, tickThen) { return "since record " since " " lasting(since, tickThen) }
# The first word of the call: 'pend', 'post', 'restore' ..
function verb(   words) { words = callWords[call]; sub(/[ ,].*/, "", words); return words }

# ---- what is noted at each record

# Refused calls by code, call and object or switches (numbers outside their table together, an object apart from one that had its number before); calls
# not met, as code 0, by call and object. The first of each is kept whole.
function noteAnswer(   key, gone) {
    if (code == 0 && !isNotMet()) return
    gone = code == 11 && ((kindNamed, numberNamed) in goneAt) ? goneAt[kindNamed, numberNamed] : ""
    key = code SUBSEP call SUBSEP onWhat() SUBSEP gone
    if (!(key in misses)) {
        missKeys[++missMany] = key
        missCode[key] = code; missName[key] = shortName(); missKind[key] = kindNamed; missNumber[key] = numberNamed
        missFirst[key] = record; missBy[key] = caller
        missWhy[key] = code == 0 ? resultInWords() : reasonInWords()
        missGone[key] = gone
        missFree[key] = code == 8 ? 2048 - units * 8 : 0
        missAsked[key] = given[1]
        missSuch[key] = onWhat() == "" && (kindNamed != "" || (call in callSwitches))
        if ((call in oldWas) && logVersion() == 1) missOld[key] = 1
        if (code == 9) offKey = key
    }
    misses[key]++; missLast[key] = record; missesOf[code]++
    if (code == 11) noteUnused(kindNamed, numberNamed, gone)
    if (code == 0 && kindNamed == "mailbox" && verb() == "post") noteDrop(key)
}
# The number of the object that the call is on, or its switches; nothing where there is none such.
function onWhat() {
    if (call in callSwitches) return given[1] > 0 && given[1] < 4 ? given[1] : ""
    return numberNamed + 0 < tableSize[kindNamed] + 0 ? numberNamed : ""
}
# A call named an object not in use: all such calls since its deletion, or before it was made, together, and each call and who made it.
function noteUnused(kindOf, n, deleted,   key, by) {
    key = kindOf " " n SUBSEP deleted
    if (!(key in unusedCalls)) {
        unusedKeys[++unusedMany] = key
        unusedKind[key] = kindOf; unusedNumber[key] = n; unusedSince[key] = deleted; unusedFirst[key] = record
        if (deleted != "") unusedMade[key] = madeAt[kindOf, n]
        unusedNow[kindOf, n] = key
    }
    unusedCalls[key]++; unusedLast[key] = record
    if (verb() != "delete") unusedWanted[key] = 1
    by = shortName() " by " threadName(caller)
    if (!((key, by) in unusedTimes)) unusedBy[key, ++unusedCallers[key]] = by
    unusedTimes[key, by]++
}
# A message was dropped: what kept the mailbox's reader at that time? Kept is the most frequent wait; a reader that is ready or runs was only late.
function noteDrop(key,   doing, r) {
    if (!(key in dropsMost)) dropsMost[key] = 0
    if (numberNamed in reader) {
        r = reader[numberNamed]
        if (mode[r] == 1) return
        doing = "its reader, task " r ", " chainInWords(r, 4, 0)
    }
    else doing = "no task had read it"
    if (++drops[key, doing] > dropsMost[key]) { dropsMost[key] = drops[key, doing]; dropDoing[key] = doing }
}
# Who ran: the calls that each thread made, the ticks that came while it ran, and since when a ready task does not run.
function noteRunning(   i, t) {
    if (!(caller in calls)) threadKeys[++threadMany] = caller
    calls[caller]++
    if (depthBefore == 0 && depth > 0) under = ranBefore
    if (code == 0 && tickNow != tick) { ticks++; tickOf[under]++ }
    if (runs != ranBefore) {
        if (isTask(ranBefore) && mode[substr(ranBefore, 2)] == 1) noteHungry(substr(ranBefore, 2))
        if (isTask(runs)) noteFed(substr(runs, 2))
    }
    for (i = 1; i <= changedTasks; i++) {
        t = changedTask[i]
        if (mode[t] != 1) noteFed(t)
        else if (modeWas[t] != 1 && runs != "T" t) noteHungry(t)
    }
    if (started != "") { swiStart[started] = record; swiTick[started] = ticks; swiCalls[started] = ("S" started) in calls ? calls["S" started] : 0 }
}
function noteHungry(t,   i) {
    if (t == 0) return
    hungrySince[t] = record; hungryTick[t] = ticks
    for (i = 1; i <= threadMany; i++) {
        callsThen[t, threadKeys[i]] = calls[threadKeys[i]]
        ticksThen[t, threadKeys[i]] = tickOf[threadKeys[i]]
    }
}
function noteFed(t) {
    if (!(t in hungrySince)) return
    if (record - hungrySince[t] > hungerLong + 0) {
        hungerLong = record - hungrySince[t]; hungerTicks = ticks - hungryTick[t]
        hungerTask = t; hungerFrom = hungrySince[t]; hungerTo = record
    }
    delete hungrySince[t]
}
# Who posts and takes semaphores, who reads mailboxes, when an object was made and posted.
function noteObjects(   what, where, n) {
    if (code != 0) return
    if (made != "") noteMade(made, made == "task" ? changedTask[1] : changedNumber[1])
    n = numberNamed
    if (kindNamed == "clock" && changedObjects > 0) { if (clockLeft[n] == 0) { stoppedAt[n] = record; stoppedBy[n] = caller } else delete stoppedAt[n] }
    if (kindNamed != "semaphore" && kindNamed != "event" && kindNamed != "mailbox") return
    what = verb(); where = kindNamed " " n
    if (what == "post" && outcome != 1) {
        if (!(where in postCount)) postFirst[where] = record
        postCount[where]++; postLast[where] = record; postBy[where] = caller
        if (kindNamed == "semaphore") { if (caller == taker[n]) ownPosts[n]++; else otherPosts[n]++ }
    }
    if (what == "pend" && outcome == 0) {
        if (kindNamed == "semaphore") noteTake(n, caller)
        if (kindNamed == "mailbox" && isTask(caller)) reader[n] = substr(caller, 2)
    }
}
function noteMade(kindOf, n) {
    madeAt[kindOf, n] = record " by " threadName(caller)
    if (!((kindOf, n) in firstMade)) firstMade[kindOf, n] = record
    if ((kindOf, n) in unusedNow) { unusedAnew[unusedNow[kindOf, n]] = madeAt[kindOf, n]; delete unusedNow[kindOf, n] }
    if (kindOf == "semaphore") { taker[n] = ""; ownPosts[n] = 0; otherPosts[n] = 0; firstCount[n] = semaphoreCount[n] }
    if (kindOf == "mailbox") delete reader[n]
}
function noteTake(s, who) { taker[s] = who; takenAt[s] = record }
# A task was deleted: what it took it still holds, but its number may be another task's soon.
function noteDeleted(t,   s) { for (s = 0; s < tableSize["semaphore"]; s++) if (taker[s] == "T" t) taker[s] = "D" t }
function takerInWords(s) { return substr(taker[s], 1, 1) == "D" ? "task " substr(taker[s], 2) ", deleted since" : threadName(taker[s]) }
# Waits that begin and end, and who was passed by.
function noteTasks(   i, t, n) {
    for (i = 1; i <= changedTasks; i++) {
        t = changedTask[i]; n = objectWas[t]
        if (mode[t] == 0) noteDeleted(t)
        if (mode[t] >= 2 && mode[t] <= 6 && modeWas[t] != mode[t]) noteWait(t)
        if (modeWas[t] < 3 || modeWas[t] > 6 || mode[t] != 1) continue
        if (taskOutcome[t] == 1) noteLate(t, modeObject[modeWas[t]] " " n)
        else if (modeWas[t] == 3) { noteTake(n, "T" t); notePassed(t, n) }
        else if (modeWas[t] == 5) reader[n] = t
        if (overtaken[t] > worst[t] + 0) {
            worst[t] = overtaken[t]; worstAt[t] = n; worstFrom[t] = waitSince[t]; worstTo[t] = record
            worstTicks[t] = ticks - waitTick[t]; worstBy[t] = overtakersInWords(t)
        }
    }
}
function noteWait(t,   u) {
    waitSince[t] = record; waitTick[t] = ticks; passed[t] = 0
    if (overtaken[t] > 0) for (u = 1; u < 32; u++) delete overtakenBy[t, u]
    overtaken[t] = 0
}
function noteLate(t, where) {
    if (!(where in late)) { lateKeys[++lateMany] = where; lateFirst[where] = record; lateTask[where] = t }
    late[where]++
}
# A post at a semaphore went to task t: those that still wait there were passed by, and overtaken where they came before it.
function notePassed(t, s,   p, n, i) {
    n = split(lineAt["semaphore", s], p, " ")
    for (i = 1; i <= n; i++) {
        passed[p[i]]++
        if (waitSince[p[i]] + 0 < waitSince[t] + 0) { overtaken[p[i]]++; overtakenBy[p[i], t]++ }
        if (overtaken[p[i]] == 3 && !overtakenFirst) overtakenFirst = record
    }
}
function overtakersInWords(t,   u, text) {
    for (u = 1; u < 32; u++) if ((t, u) in overtakenBy) text = listing(text, ranked(u) " " times(overtakenBy[t, u]))
    return text
}
function noteHeap(   o) {
    if (!heapChanged) return
    o = blockNow
    if (o in blockUnits) { liveAt[o] = record; tookMany[caller]++; return }
    if (record - liveAt[o] > longLife) longLife = record - liveAt[o]
    gaveMany[caller]++
    delete liveAt[o]
}
# Posts of Swis, and of those the ones that found the Swi posted already: nothing was queued.
function notePosts(   i, key) {
    for (i = 1; i <= 3 * posts; i += 3) {
        key = (post[i] == 16 ? "calls" : "clock " post[i]) SUBSEP post[i + 1]
        if (!(key in swiPosts)) { postKeys[++postMany] = key; swiLost[key] = 0 }
        swiPosts[key]++
        if (post[i + 2] == 1 && ++swiLost[key] == 1) swiLostFirst[key] = record
    }
}
function noteSwitches() {
    noteSwitch("Swis", swisOn); noteSwitch("tasks", tasksOn)
    if (offKey != "" && swisOn && tasksOn) { missRestored[offKey] = record; offKey = "" }
    if (code != 0 || !(call in callSwitches)) return
    if (hasSwis(given[1])) noteTurn("Swis")
    if (hasTasks(given[1])) noteTurn("tasks")
}
function noteTurn(name) { if (verb() == "restore") restores[name]++; else offs[name]++ }
function noteSwitch(name, on) {
    if (!on && !(name in offSince)) { offSince[name] = record; offTick[name] = ticks; offBy[name] = caller }
    if (on && (name in offSince)) {
        if (record - offSince[name] > offLong[name] + 0) {
            offLong[name] = record - offSince[name]
            offFrom[name] = offSince[name]; offTo[name] = record; offLongBy[name] = offBy[name]
        }
        delete offSince[name]
    }
}

# ---- chains of waits

# A semaphore that is posted by whoever took it is a lock; one that others post is a signal.
function isLock(s) { return ownPosts[s] > otherPosts[s] || (ownPosts[s] + otherPosts[s] == 0 && firstCount[s] > 0) }
# The task that holds the lock that task t waits for, or nothing.
function holderOf(t,   s) {
    s = taskObject[t]
    return mode[t] == 3 && isLock(s) && isTask(taker[s]) ? substr(taker[s], 2) : ""
}
# What a task does; at a semaphore who took it last, and what that one does, and so on for so many steps. Records are told if asked for.
function chainInWords(t, steps, withRecords,   s, text) {
    if (mode[t] == 1 && runs == "T" t) return "runs"
    if (mode[t] == 1) return "is ready" (withRecords && (t in hungrySince) ? " and has not run since record " hungrySince[t] : "")
    s = taskObject[t]
    if (mode[t] != 3 || taker[s] == "" || taker[s] == "T" t) return taskInWords(t)
    text = "waits at semaphore " s ", last taken by " takerInWords(s) (withRecords ? " (record " takenAt[s] ")" : "")
    return isTask(taker[s]) && steps > 1 ? text ", which " chainInWords(substr(taker[s], 2), steps - 1, withRecords) : text
}
# The circle of waits that task t stands in, in words, or nothing; its tasks are marked, and when it closed is kept.
function circleInWords(t,   u, h, text, n) {
    u = t; text = ""; circleSince = 0; circleLimited = 0
    for (n = 0; n < 32; n++) {
        h = holderOf(u)
        if (h == "") return ""
        text = text (n == 0 ? "task " u : ", which") " waits for semaphore " taskObject[u] \
            (h == u ? ", which it took itself" : ", last taken by task " h) " (record " takenAt[taskObject[u]] ")"
        inCircle[u] = t
        if (waitSince[u] + 0 > circleSince) circleSince = waitSince[u] + 0
        if (left[u] > 0) circleLimited = 1
        u = h
        if (u == t) return text
    }
    return ""
}

# ---- findings. A finding has a rank (4 the replay itself is not sure past it, 3 nothing goes on or is sure past it, 2 strong, 1 worth a look, 0 not told
# on top) and the record where it began: of one rank the earliest is told first.

function finding(rank, since, text, more) {
    findings++
    findingRank[findings] = rank; findingSince[findings] = since + 0
    findingText[findings] = text (more == "" ? "" : "\n      " more)
}
function isLong(since) { return record - since > 20 && record - since > record / 10 }
function findCircles(   t, u, text) {
    for (t = 1; t < 32; t++) if (mode[t] == 3 && !(t in closed)) {
        split("", inCircle)
        if ((text = circleInWords(t)) == "") continue
        for (u in inCircle) closed[u] = 1
        finding(3, circleSince, "a circle of waits: " text,
            "nobody in it can go on" (circleLimited ? " before a limit runs out" : "") "; it closed at record " circleSince)
    }
}
function findWaits(   t, h) {
    for (t = 1; t < 32; t++) if (mode[t] >= 3 && mode[t] <= 6 && !(t in closed) && isLong(waitSince[t])) {
        h = holderOf(t)
        if (h != "") findHeld(t, h)
        else if (mode[t] == 3 && isLock(taskObject[t]) && substr(taker[taskObject[t]], 1, 1) == "D")
            finding(3, waitSince[t], ranked(t) " " chainInWords(t, 1, 1), "that task went without posting it")
        else if (overtaken[t] > 2)
            finding(2, overtakenFirst, ranked(t) " " taskInWords(t) ", which is served by priority, " span(waitSince[t], waitTick[t]),
                "served instead, though they came later: " overtakersInWords(t))
        else findQuiet(t, modeObject[mode[t]] " " taskObject[t])
    }
    for (t = 1; t < 32; t++) if (worst[t] > 4 && worst[t] > overtaken[t] + 0 && worstTo[t] - worstFrom[t] > record / 10)
        finding(2, overtakenFirst, ranked(t) " waited at semaphore " worstAt[t] ", which is served by priority, from record " worstFrom[t] " to " \
            worstTo[t] " (" plural(worstTicks[t], "tick") ")", "served instead, though they came later: " worstBy[t])
}
# A task waits long for a lock that another holds.
function findHeld(t, h,   text) {
    text = ranked(t) " " chainInWords(t, h in closed ? 2 : 6, 1)
    if (h in closed) finding(1, waitSince[t], text, "that one stands in the circle")
    else if (mode[h] == 7) finding(3, waitSince[t], text, "that task ended without posting it")
    else if ((h in hungrySince) && isLong(hungrySince[h]))
        finding(2, hungrySince[h] - 1, text, ranked(h) " does not come to run; since then ran " sharesSince(h))
    else finding(1, waitSince[t], text, "it waits " span(waitSince[t], waitTick[t]))
}
# A task waits long where posts came often and have stopped: none for a fifth of the log, and for ten times as long as between them before.
function findQuiet(t, where,   quiet, often) {
    if (postCount[where] < 5) return
    quiet = record - postLast[where]; often = (postLast[where] - postFirst[where]) / (postCount[where] - 1)
    if (quiet > record / 5 && quiet > 10 * often)
        finding(1, postLast[where], ranked(t) " " taskInWords(t) " " span(waitSince[t], waitTick[t]) ", and posts there have stopped",
            "the last came at record " postLast[where] " by " threadName(postBy[where]) ", until then one in " int(often) " records" stoppedInWords(postBy[where]))
}
# The clock that posts a Swi and was stopped, if there is one.
function stoppedInWords(who,   c) {
    if (substr(who, 1, 1) != "S") return ""
    for (c = 0; c < tableSize["clock"]; c++) if (inUse["clock", c] && clockSwi[c] == substr(who, 2) && clockLeft[c] == 0 && (c in stoppedAt))
        return "; clock " c ", which posts " threadName(who) ", was stopped at record " stoppedAt[c] " by " threadName(stoppedBy[c])
    return ""
}
# A Swi that does not end; a Swi that is posted faster than it ends; ready tasks that do not run. The first that is there is the cause of the next ones.
function findStarved(   starved, storm, n, p, swi) {
    starved = starvedInWords()
    n = split(part[7], p, " ")
    swi = n > 0 ? p[n] : ""
    if (swi != "" && isLong(swiStart[swi]) && (calls["S" swi] - swiCalls[swi]) * 4 > record - swiStart[swi])
        finding(3, swiStart[swi], "Swi " swi " started at record " swiStart[swi] " and has not ended since " lasting(swiStart[swi], swiTick[swi]), starved)
    else if ((storm = worstStorm()) != "") finding(2, swiLostFirst[storm], stormInWords(storm), starved)
    else if (starved != "") finding(2, starvedSince, starved, "")
    else if (hungerLong > record / 5 && hungerLong > 20)
        finding(1, hungerFrom, ranked(hungerTask) " was ready and did not run from record " hungerFrom " to " hungerTo " (" plural(hungerTicks, "tick") ")", "")
}
# Of the Swis that were posted already at a fifth of their posts, and ten times at least, the one that ran most.
function worstStorm(   i, key, p, best, most) {
    best = ""; most = -1
    for (i = 1; i <= postMany; i++) {
        key = postKeys[i]
        split(key, p, SUBSEP)
        if (swiLost[key] >= 10 && swiLost[key] * 5 >= swiPosts[key] && calls["S" p[2]] + 0 > most) { best = key; most = calls["S" p[2]] + 0 }
    }
    return best
}
function stormInWords(key,   p, c) {
    split(key, p, SUBSEP)
    c = substr(p[1], 7)
    return (p[1] == "calls" ? "calls post" : p[1] " (period " period[c] ") posts") " Swi " p[2] " faster than it ends: " \
        swiLost[key] " of " plural(swiPosts[key], "post") " found it posted already, first at record " swiLostFirst[key] \
        "; it made " percent(calls["S" p[2]], record) " of the calls"
}
# Ready tasks that have not run for a fifth of the log, and what ran since the first of them stopped.
function starvedInWords(   t, text, oldest) {
    oldest = 0
    for (t = 1; t < 32; t++) if ((t in hungrySince) && record - hungrySince[t] > record / 5 && record - hungrySince[t] > 20) {
        text = listing(text, ranked(t) " since record " hungrySince[t])
        if (!oldest || hungrySince[t] + 0 < hungrySince[oldest] + 0) oldest = t
    }
    if (!oldest) return ""
    starvedSince = hungrySince[oldest]
    return "ready and not run: " text "; since then ran " sharesSince(oldest)
}
# The three that ran most since task t stopped: by the ticks that came while they ran, by their calls where ticks are few.
function sharesSince(t,   i, n, x, much, best, most, done, all, text) {
    all = ticks - hungryTick[t] >= 10 ? ticks - hungryTick[t] : 0
    for (n = 1; n <= 3; n++) {
        best = ""; most = 0
        for (i = 1; i <= threadMany; i++) {
            x = threadKeys[i]
            much = all ? tickOf[x] - ticksThen[t, x] : calls[x] - callsThen[t, x]
            if (!(x in done) && much > most) { best = x; most = much }
        }
        if (best == "" || most * 50 < (all ? all : record - hungrySince[t])) break
        done[best] = 1
        text = listing(text, threadName(best) " " percent(most, all ? all : record - hungrySince[t]))
    }
    return text (all ? " of the ticks" : " of the calls")
}
function findMisses(   i, key, c, n, text) {
    for (i = 1; i <= missMany; i++) {
        key = missKeys[i]; c = missCode[key]; n = missNumber[key]
        if (c == 0) { if (key in dropsMost) findDrops(key, n); continue }
        text = missName[key] ", by " threadName(missBy[key]) " at record " missFirst[key] ": refused with code " c ": " missWhy[key]
        if (misses[key] > 1) text = text " (" missTimes(key) ", last at record " missLast[key] ")"
        if (c == 3) noteOutside(key, text)
        else if (key in missOld) noteOld(key, text)
        else if (c != 11) finding(c > 5 && c < 10 ? 2 : 1, missFirst[key], text, c == 8 ? roomInWords(key) : restoredInWords(key))
    }
}
function restoredInWords(key) { return key in missRestored ? "both switches were on again at record " missRestored[key] : "" }
function missTimes(key) { return times(misses[key]) (misses[key] > 1 && missSuch[key] ? " with such numbers" : "") }
# Messages were dropped at a full mailbox: strong, where its reader was kept from reading at a quarter of them.
function findDrops(key, n,   kept, more) {
    kept = dropsMost[key] * 4 >= misses[key]
    more = (dropsMost[key] == misses[key] ? "at that time " : "at " dropsMost[key] " of them ") dropDoing[key]
    finding(kept && misses[key] > 2 ? 2 : 1, missFirst[key], plural(misses[key], "message") " dropped at mailbox " n ", which was full: first at record " \
        missFirst[key] " by " threadName(missBy[key]) (misses[key] > 1 ? ", last at " missLast[key] : ""),
        kept ? more : "its reader was ready, but came too late")
}
# Numbers from outside their table are one finding: the first such call, and the others by name.
function noteOutside(key, text) {
    if (outsideKey == "") { outsideKey = key; outsideText = text }
    else if (++outsideMany <= 4) outsideOthers = listing(outsideOthers, missName[key] " (" times(misses[key]) ")")
}
function findOutside() {
    if (outsideKey == "") return
    finding(2, missFirst[outsideKey], outsideText,
        "no create gave that number: it came from outside, such as a packet, or from memory that was spoilt" \
        (outsideOthers == "" ? "" : "; likewise " outsideOthers) (outsideMany > 4 ? " and " plural(outsideMany - 4, "other") : ""))
}
# The numbers of older firmware are one finding too, told before all others: that unit did what the replay refuses. It wrote logs of version 1.
function noteOld(key, text) {
    if (oldKey == "") { oldKey = key; oldText = text }
    else oldOthers = listing(oldOthers, missName[key] " (" times(misses[key]) ")")
}
function findOld() {
    if (oldKey == "") return
    finding(4, missFirst[oldKey], oldText,
        "a unit with older firmware knew that number: from there on the replay may differ from what it did" (oldOthers == "" ? "" : "; likewise " oldOthers))
}
# An object not in use is one finding: it was deleted, too early where calls named it that were more than calls to delete it; or it was never
# made. One that was made later is not told.
function findUnused(   i, key, object, early) {
    for (i = 1; i <= unusedMany; i++) {
        key = unusedKeys[i]; object = unusedKind[key] " " unusedNumber[key]; early = key in unusedWanted
        if (unusedSince[key] != "")
            finding(early ? 2 : 1, unusedFirst[key],
                object " was deleted " (early ? "too early" : "already") ", at record " unusedSince[key] ": " unusedInWords(key, " since"),
                callersInWords(key) "; it was made at record " unusedMade[key] \
                (key in unusedAnew ? ", and its number was given anew at record " unusedAnew[key] : ""))
        else if (!(key in unusedAnew))
            finding(1, unusedFirst[key], object " was never made: " unusedInWords(key, ""),
                callersInWords(key) "; no create gave that number: it came from outside, or its create is missing")
    }
}
function unusedInWords(key, since,   n) {
    n = unusedCalls[key]
    return plural(n, "call") " on it" since (n == 1 ? " was" : " were") " refused with code 11, " \
        (n == 1 ? "at record " unusedFirst[key] : "first at record " unusedFirst[key] ", last at " unusedLast[key])
}
function callersInWords(key,   i, text) {
    for (i = 1; i <= unusedCallers[key] && i <= 4; i++)
        text = listing(text, unusedBy[key, i] " (" times(unusedTimes[key, unusedBy[key, i]]) ")")
    return text (i <= unusedCallers[key] ? " and " plural(unusedCallers[key] - 4, "other") : "")
}
# Why there was no room: the heap was in pieces, or old blocks do not come back.
function roomInWords(key) { return missFree[key] + 0 >= missAsked[key] + 0 ? missFree[key] " bytes were free then, but in pieces" : oldBlocksInWords() }
# Blocks that have lived longer than any block that was given back: who took them; and who gives blocks back.
function oldBlocksInWords(   o, i, x, old, by, text, gave) {
    old = 0
    for (o in liveAt) if (record - liveAt[o] > longLife) { old++; by[blockBy[o]]++ }
    for (i = 1; i <= threadMany; i++) {
        x = threadKeys[i]
        if (x in by) text = listing(text, threadName(x) " took " by[x])
        if (x in gaveMany) gave = listing(gave, threadName(x) " gave back " gaveMany[x])
    }
    if (old < 2) return heapInWords() " taken at the end, " plural(largestRun() * 8, "byte") " the largest free run"
    return old " of " plural(blocks, "block") " at the end are older than any that came back was (" plural(longLife, "record") "): " text \
        (gave == "" ? ", none came back" : "; in all " gave)
}
function oldBlocks(   o, old) { old = 0; for (o in liveAt) if (record - liveAt[o] > longLife) old++; return old }
function findHeap() {
    if (!(8 in missesOf) && units > 128 && oldBlocks() > 2) finding(1, record, "the heap fills: " heapInWords() " taken at the end", oldBlocksInWords())
}
function offSpan(name, told) { return told " are off " span(offSince[name], offTick[name]) ", by " threadName(offBy[name]) }
# Did the same calls turn both switches?
function isTogether() {
    if (("Swis" in offSince) != ("tasks" in offSince)) return 0
    if ("Swis" in offSince) return offSince["Swis"] == offSince["tasks"]
    return offs["Swis"] == offs["tasks"] && restores["Swis"] == restores["tasks"] && offFrom["Swis"] == offFrom["tasks"] && offTo["Swis"] == offTo["tasks"]
}
function findSwitches() {
    if (isTogether()) findSwitch("Swis", "Swis and tasks")
    else { findSwitch("Swis", "Swis"); findSwitch("tasks", "tasks") }
}
function findSwitch(name, told) {
    if (name in offSince) {
        if (isLong(offSince[name])) finding(3, offSince[name], offSpan(name, told) ", and were not restored", "")
    }
    else if (offs[name] > restores[name] + 0 && !(9 in missesOf))
        finding(1, offFrom[name], told " were switched off " times(offs[name]) " and restored " times(restores[name] + 0),
            "they were off longest from record " offFrom[name] " to " offTo[name] " (" threadName(offLongBy[name]) ")")
}

# ---- telling

function section(name) { print ""; print name }
function isBefore(i, j) { return findingRank[i] != findingRank[j] ? findingRank[i] > findingRank[j] : findingSince[i] < findingSince[j] }
function tellFindings(   i, best, told) {
    findCircles(); findWaits(); findStarved(); findMisses(); findOutside(); findOld(); findUnused(); findSwitches(); findHeap()
    for (told = 0; told < 6; told++) {
        best = 0
        for (i = 1; i <= findings; i++) if (findingRank[i] > 0 && (!best || isBefore(i, best))) best = i
        if (!best) break
        findingRank[best] = 0
        if (told < 2) section(told == 0 ? "Most likely the cause:" : "Also stands out:")
        print "  " findingText[best]
    }
    if (told == 0) section("Nothing stands out.")
}
function tellMisses(   i, c, key, told) {
    for (c = 0; c < 12; c++) if (c in missesOf) {
        section((c == 0 ? "Not met: " : "Refused with code " c " (" codeName[c] "): ") times(missesOf[c]))
        told = 0
        for (i = 1; i <= missMany; i++) if (missCode[key = missKeys[i]] == c && ++told <= 5)
            print "  " missName[key] ", " missTimes(key) ", first at record " missFirst[key] " by " threadName(missBy[key]) \
                (misses[key] > 1 ? ", last at " missLast[key] : "") ": " missWhy[key] \
                laterInWords(key)
        if (told > 5) print "  and " plural(told - 5, "other call")
    }
}
# Of an object that was not made so far: when it was.
function laterInWords(key,   kindOf, n) {
    kindOf = missKind[key]; n = missNumber[key]
    return missCode[key] == 11 && missGone[key] == "" && ((kindOf, n) in firstMade) ? "; made later, at record " firstMade[kindOf, n] : ""
}
function tellWaits(   t, told, text) {
    told = 0
    for (t = 1; t < 32; t++) if (mode[t] >= 2 && mode[t] <= 6) {
        if (told++ == 0) section("Waiting at the end:")
        text = ranked(t) " " taskInWords(t) (mode[t] == 4 ? masksInWords(t) : "") " " span(waitSince[t], waitTick[t])
        text = text (left[t] == 0 ? ", without end" : ", " ticksLeft(t) " left")
        if (passed[t] > 0) text = text "; " plural(passed[t], "post") " went to others" (overtaken[t] > 0 ? ", to later ones: " overtakersInWords(t) : "")
        if (mode[t] == 3 && taker[taskObject[t]] != "") text = text "; last taken by " takerInWords(taskObject[t]) " (record " takenAt[taskObject[t]] ")"
        print "  " text
    }
    told = 0
    for (t = 1; t < 32; t++) if (t in hungrySince) {
        if (told++ == 0) section("Ready at the end, but not running:")
        print "  " ranked(t) " " span(hungrySince[t], hungryTick[t])
    }
}
function ticksLeft(t) { return plural(round32(left[t] - round32(tickNow - leftAt[t])), "tick") }
function tellShares(   i, n, x, best, done) {
    section("Who ran: share of the calls" (ticks ? ", and of the ticks that came while it ran" : ""))
    for (n = 1; n <= threadMany && n <= 10; n++) {
        best = ""
        for (i = 1; i <= threadMany; i++) { x = threadKeys[i]; if (!(x in done) && (best == "" || calls[x] > calls[best])) best = x }
        done[best] = 1
        printf "  %-13s %4s%s\n", threadName(best), percent(calls[best], record), (ticks && best != "I" ? sprintf(" %4s", percent(tickOf[best], ticks)) : "")
    }
}
function tellHeap(   n, o, oldest, told) {
    if (blocks == 0) return
    section("Heap at the end: " heapInWords() " taken, the largest free run has " plural(largestRun() * 8, "byte") (blocks > 3 ? "; the oldest blocks:" : ""))
    for (n = 1; n <= 3 && n <= blocks; n++) {
        oldest = ""
        for (o in liveAt) if (!(o in told) && (oldest == "" || liveAt[o] + 0 < liveAt[oldest] + 0)) oldest = o
        told[oldest] = 1
        print "  offset " oldest ", " plural(blockUnits[oldest] * 8, "byte") ", taken at record " liveAt[oldest] " by " threadName(blockBy[oldest])
    }
}
function tellRest(   i, key, p, told) {
    for (i = 1; i <= lateMany; i++) {
        if (i == 1) section("Waits that timed out:")
        if (i <= 8) print "  at " lateKeys[i] ", " times(late[lateKeys[i]]) ", first at record " lateFirst[lateKeys[i]] " (task " lateTask[lateKeys[i]] ")"
    }
    if (lateMany > 8) print "  and at " plural(lateMany - 8, "other object")
    told = 0
    for (i = 1; i <= postMany; i++) if (swiLost[key = postKeys[i]] > 0) {
        if (told++ == 0) section("Posts of a Swi that was posted already:")
        split(key, p, SUBSEP)
        if (told <= 8) print "  Swi " p[2] " by " p[1] ", " swiLost[key] " of " plural(swiPosts[key], "post") ", first at record " swiLostFirst[key]
    }
    if (told > 8) print "  and " told - 8 " more"
    if (("Swis" in offSince) && isTogether()) section(offSpan("Swis", "Swis and tasks"))
    else {
        if ("Swis" in offSince) section(offSpan("Swis", "Swis"))
        if ("tasks" in offSince) section(offSpan("tasks", "Tasks"))
    }
    if (depth > 0) section("The log ends in an interrupt, at depth " depth)
}

BEGIN { readNames(names); ticks = 0; under = "T0"; record = 0 }
isLast() { last = lastInWords(); next }
{
    depthBefore = depth
    readRecord()
    noteAnswer(); noteObjects(); noteTasks(); noteRunning(); noteHeap(); notePosts(); noteSwitches()
}
END {
    if (namesMissing || NR == 0) exit 2
    print (last == "" ? "the trace breaks off after record " record : last) ", " plural(ticks, "tick") (levelsInWords() == "" ? "" : ", " levelsInWords())
    if (record == 0) exit
    tellFindings(); tellMisses(); tellWaits(); tellShares(); tellHeap(); tellRest()
}

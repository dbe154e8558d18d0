# Tells a trace in words, a line for each record, each as it comes. Variables choose lines, and the trace is always read from its start:
#   from, to         record numbers
#   thread           T3, S2 or I: calls that it made or that changed it
#   object           s0 e1 m2 w3 c4 h (semaphore, event, mailbox, Swi, clock, heap): calls that name it or changed it
#   refused, notmet  1: refused calls, calls that were not met; both: either
function bad(text) { print "explain: " text > "/dev/stderr"; exit 2 }
# Did the call change the object? A Swi changes too when it is posted, starts or ends.
function isIn(kind, number,   i) {
    for (i = 1; i <= changedObjects; i++) if (changedKind[i] == kind && changedNumber[i] == number) return 1
    if (kind != "Swi") return 0
    for (i = 2; i <= 3 * posts; i += 3) if (post[i] == number) return 1
    return caller == "S" number && index(part[7], " " number " ") == 0
}
function isOfThread(   i) {
    if (caller == thread) return 1
    if (thread == "I") return depth != depthBefore
    if (threadLetter == "S") return isIn("Swi", threadNumber)
    for (i = 1; i <= changedTasks; i++) if (changedTask[i] == threadNumber) return 1
    return 0
}
function isOfObject() {
    if (object == "h") return heapChanged || (call in callWords) && index(callWords[call], "heap") > 0
    return kindNamed == objectKind && numberNamed == objectNumber || isIn(objectKind, objectNumber)
}
function isChosen() {
    if (from != "" && record + 0 < from) return 0
    if ((refused || notmet) && !(refused && code != 0) && !(notmet && isNotMet())) return 0
    if (thread != "" && !isOfThread()) return 0
    return object == "" || isOfObject()
}
function readOptions(   k) {
    if (thread != "" && thread !~ /^([TS][0-9]+|I)$/) bad("a thread is T0 to T31, S0 to S15 or I")
    if (object != "" && object !~ /^([swemc][0-9]+|h)$/) bad("an object is s0 to s15, e0 to e7, m0 to m7, w0 to w15 (a Swi), c0 to c15 or h (the heap)")
    threadLetter = substr(thread, 1, 1); threadNumber = substr(thread, 2) + 0
    for (k in tableLetter) if (tableLetter[k] == substr(object, 1, 1)) objectKind = k
    objectNumber = substr(object, 2) + 0
    from += 0
}
BEGIN { readNames(names); readOptions() }
NR == 1 && levelsInWords() != "" { print "the log has " levelsInWords() ": task priorities go to " (levels - 1) }
NR == 1 { printf "%7s %7s %-3s   %s\n", "record", "tick", "by", "the call: what came of it; the object now; who runs now" }
isLast() { print lastInWords(); next }
to != "" && $1 > to + 0 { next }
{
    depthBefore = depth
    readRecord()
    if (isChosen()) { printf "%7s %7s %-3s %s %s\n", record, tick, caller, mark(), recordInWords(); fflush() }
}

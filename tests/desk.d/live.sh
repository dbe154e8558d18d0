# shellcheck shell=sh disable=SC2154
# A log that is still being written, and a reader that goes away.

# Two records, a pause, the rest: what is there before the pause is over. Explain has a heading too.
slowly() { head -c 40 "$sample"; sleep 2; tail -c +41 "$sample"; }
at_once() { # LINES WORD..: that many lines are there a second after the start
    lines=$1
    shift
    slowly | "$@" >"$room/live" 2>&1 &
    sleep 1
    early=$(grep -c '' "$room/live")
    wait
    [ "$early" = "$lines" ]
}
check 'replay tells each record as it comes' at_once 2 "$desk/replay"
check 'replay: and then the rest' [ "$(cat "$room/live")" = "$told" ]
for awk in mawk gawk original-awk; do
    command -v $awk >/dev/null || { missing $awk; continue; }
    use_awk $awk
    check "explain tells each record as it comes, by $awk" at_once 3 env PATH="$room/awk:$PATH" "$desk/explain"
    check "explain, by $awk: and then the rest" [ "$(tail -n 1 "$room/live")" = 'end of the log: 5 records' ]
done
mkfifo "$room/fifo"
slowly >"$room/fifo" &
"$desk/explain" "$room/fifo" >"$room/live" 2>&1 &
sleep 1
check 'explain of a named pipe tells each record as it comes' [ "$(grep -c '' "$room/live")" = 3 ]
wait

# The first bytes of a log of version 2 come one by one: its third byte, the version, alone too. Its first call makes a task at 31.
in_drops() {
    for byte in 1 2 3 4 5; do
        tail -c "+$byte" "$room/levels.log" | head -c 1
        sleep 0.1
    done
    tail -c +6 "$room/levels.log"
}
for command in replay explain; do
    in_drops | "$desk/$command" >"$room/live" 2>&1
    "$desk/$command" "$room/levels.log" >"$room/whole" 2>&1
    check "$command: a log of version 2 in drops" cmp -s "$room/live" "$room/whole"
    case $command in
    replay) check 'replay: in drops it has 32 levels' [ "$(head -n 1 "$room/live")" = '1 0 0 1 T1' ] ;;
    *) check 'explain: in drops it has 32 levels' like "$(cat "$room/live")" 'the log has 32 levels*: task 1*' ;;
    esac
done

# A reader that goes away: nothing is said, the status is 0, and no process stays.
gone() { # WORD..: its status where the reader takes one line
    { "$@" 2>"$room/said"; echo $? >"$room/status"; } | head -n 1 >/dev/null
    [ "$(cat "$room/status")" = 0 ] && [ ! -s "$room/said" ]
}
ignoring() { (trap '' PIPE; "$@"); }
for command in replay explain summary timeline; do
    check "$command: a reader that goes" gone "$desk/tebalung" $command "$room/long.log"
    check "$command: a reader that goes, and SIGPIPE is ignored" ignoring gone "$desk/tebalung" $command "$room/long.log"
done
check 'no process stays' none_running desk
endless() { while cat "$sample"; do :; done 2>/dev/null; }
(endless | timeout 20 "$desk/replay" | head -n 3 >"$room/three"; echo over >"$room/over") &
sleep 3
check 'a log without end ends with its reader' [ -f "$room/over" ]
wait

# Who is killed has not done it: the program, the view, or the program with what waits for it.
killed() { # CHECK COMMAND FOLDER: the process that has FOLDER in its words and, with a fourth word, its parent
    (sleep 3 | "$desk/tebalung" "$2" >"$room/out" 2>"$room/err"; echo $? >"$room/status") &
    sleep 1
    for process in $(left_running "$3"); do
        [ $# -eq 3 ] || kill -KILL "$(sed -n 's/^PPid:.//p' "${process%/cmdline}/status")"
        kill -KILL "$(echo "$process" | cut -d / -f 3)"
    done
    wait
    check "$1 is killed: status 2" [ "$(cat "$room/status")" = 2 ]
    check "$1 is killed: said" like "$(cat "$room/err")" '*tebalung: * was ended*'
}
# The cat that writes is killed in the middle: the text is not whole, also where SIGPIPE is ignored.
writer_killed() { # CHECK COMMAND [WORD]: called by WORD
    ({ cat "$sample"; sleep 2; cat "$sample"; sleep 1; cat "$sample"; } 2>/dev/null | ${3:-} "$desk/tebalung" "$2" >"$room/out" 2>"$room/err"; echo $? >"$room/status") &
    sleep 1
    found=0
    for process in /proc/[0-9]*; do
        [ "$(cat "$process/comm" 2>/dev/null):$(readlink "$process/fd/1")" = "cat:$room/out" ] || continue
        kill -KILL "${process#/proc/}" && found=$((found + 1))
    done
    wait
    check "$1: it was there" [ "$found" = 1 ]
    check "$1: status 2" [ "$(cat "$room/status")" = 2 ]
    check "$1: said" like "$(cat "$room/err")" "tebalung: $2 was ended*"
    check "$1: one line" [ "$(grep -c '' "$room/err")" = 1 ]
    check "$1: nothing of the text is said" not like "$(cat "$room/err")" '*[?]*'
}
not() { ! "$@"; }
for command in replay explain; do
    writer_killed "$command: who writes is killed" $command
    writer_killed "$command: who writes is killed, and SIGPIPE is ignored" $command ignoring
done
killed 'the program' replay desk/target/bin
killed 'the view' explain desk/view
killed 'the program, with what waits for it,' replay desk/target/bin both

# shellcheck shell=sh disable=SC2154
# What can go wrong with a log or an output, for each command and each short name: one line is said, nothing is written, and the status is right.

each() { # NAME WORD..: all rows for the command WORD.., which is called NAME
    name=$1
    shift
    row "$name: a log that is not there" 2 '' "tebalung: $room/nosuch.log: no such file" "$@" "$room/nosuch.log"
    row "$name: a folder" 2 '' "tebalung: $room: is a folder; name one log" "$@" "$room"
    row "$name: two logs" 2 '' "tebalung: *: takes one log, and 'a' and 'b' are two" "$@" a b
    row "$name: an empty name" 2 '' "tebalung: *: the log's name is empty" "$@" ''
    row "$name: no such option" 2 '' "tebalung: *: there is no option --hepl (*)" "$@" --hepl
    row "$name: --help" 0 'tebalung *Status: 0 done;*' '' "$@" --help
    row "$name: -h after a log" 0 'tebalung *Status: 0 done;*' '' "$@" "$room/nosuch.log" -h
    row "$name: an error while it is read" 2 '' "tebalung: /proc/self/mem: Input/output error" "$@" /proc/self/mem
    row "$name: closed standard input" 2 '' 'tebalung: standard input: is closed' with_closed_input "$@"
    row "$name: closed standard input, and a log" 0 '*' '' with_closed_input "$@" "$room/good.log"
    row "$name: closed standard output" 2 '' 'tebalung: standard output: is closed' with_closed_output "$@" "$room/good.log"
    row "$name: closed standard error" 2 '' '' with_closed_error "$@" "$room/nosuch.log"
    row "$name: a folder as standard input" 2 '' 'tebalung: standard input: Is a directory' with_input / "$@"
    row "$name: '-' is standard input" 0 '?*' '' with_input "$room/good.log" "$@" -
    row "$name: an empty log" 0 '?*' '' "$@" "$room/empty.log"
    for damaged in cut length version neither mixed; do
        case $damaged in neither | mixed) fault=version ;; *) fault=$damaged ;; esac
        row "$name: the log '$damaged' with the fault $fault" 1 "*$fault*" '' "$@" "$room/$damaged.log"
        row "$name: the same by standard input" 1 "*$fault*" '' with_input "$room/$damaged.log" "$@"
    done
    row "$name: a log of version 2" 0 '?*' '' "$@" "$room/levels.log"
    [ ! -c /dev/full ] || row "$name: a full disk" 2 '' 'tebalung: standard output: no space left on the device' with_output /dev/full "$@" "$room/good.log"
}
with_closed_input() { "$@" <&-; }
with_closed_output() { "$@" >&-; }
with_closed_error() { "$@" 2>&-; }
with_input() { # FILE WORD..
    from=$1
    shift
    "$@" <"$from"
}
with_output() { # FILE WORD..
    to=$1
    shift
    "$@" >"$to"
}

without_kit() {
    rm -rf "$desk/target"
    env -i PATH="$room/tools" "$desk/tebalung" "$@"
}

for command in replay explain summary timeline; do
    each "tebalung $command" "$desk/tebalung" "$command"
    [ ! -x "$desk/$command" ] || each "./$command" "$desk/$command"
done
row 'replay: the text' 0 "$told" '' "$desk/replay" "$sample"
try "$desk/replay" "$top/crates/replay/data/log"
check "replay: the text of crates/replay, to the byte" cmp -s "$room/out" "$top/crates/replay/stdout"
row 'replay: an empty log' 0 'end 0' '' "$desk/replay" "$room/empty.log"
# Version 2 means 32 levels: a task at 31 and one at 16, none at 32; no Swi at 16; task 1 set to 15 lets the one at 16 run.
levels='1 0 0 1 T1
2 0 0 2 T1
3 4 0 0 T1
4 4 0 0 T1
5 0 0 31 T2
6 4 0 0 T2
'
row 'replay: a log of version 2' 0 "${levels}end 6" '' "$desk/replay" "$room/levels.log"
row 'replay: versions 2 and 1 in one log' 1 "${levels}version 120" '' "$desk/replay" "$room/mixed.log"
row 'replay: versions 1 and 2 in one log' 1 "*${nl}version 100" '' "$desk/replay" "$room/version.log"
row 'replay: a version that is neither' 1 'version 0' '' "$desk/replay" "$room/neither.log"
row 'explain: a log of version 2' 0 "the log has 32 levels (version 2): task priorities go to 31$nl record *: a priority is -1 or 1 to 31$nl*end of the log: 6 records" '' "$desk/explain" "$room/levels.log"
row 'explain: nothing of levels in a log of version 1' 0 " record *${nl}end of the log: 5 records" '' "$desk/explain" "$sample"
row 'explain: versions 2 and 1 in one log' 1 "*the log is damaged at byte 120: version, the record's version is not the first record's (2)" '' "$desk/explain" "$room/mixed.log"
row 'explain: versions 1 and 2 in one log' 1 "*the log is damaged at byte 100: version, the record's version is not the first record's (1)" '' "$desk/explain" "$room/version.log"
row 'explain: a version that is neither' 1 "*the log is damaged at byte 0: version, the record's version is neither 1 nor 2" '' "$desk/explain" "$room/neither.log"
row 'summary: a log of version 2' 0 "end of the log: 6 records, 0 ticks, 32 levels (version 2)$nl*" '' "$desk/tebalung" summary "$room/levels.log"
row 'timeline: a log of version 2' 0 '*"levels":"32 levels (version 2)"*' '' "$desk/timeline" "$room/levels.log"
row 'timeline: a log of version 1' 0 '*"levels":""*' '' "$desk/timeline" "$sample"
row 'help: what the fault version is' 0 "*'version' (its version is neither 1 nor 2, or not the first record's)*" '' "$desk/tebalung" help replay
row 'timeline: no page for a log that is not there' 2 '' '?*' "$desk/timeline" "$room/nosuch.log"
row 'no kit and nothing built' 2 '' "tebalung: trace is not built yet, and building needs the Rattle kit: *" without_kit explain "$sample"

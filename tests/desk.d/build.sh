# shellcheck shell=sh disable=SC2154
# Building, with a stand-in for rt: what is said, the lock, Ctrl-C, failures, and when it is done again.

b=$room/b
fresh() { # a checkout that is not built, of six parts
    rm -rf "$b"
    clone b
    printf '%s\n' '# six parts' 'basics:' 'rules: basics' 'text: rules' 'desk: rules text' 'replay: desk' 'trace: rules text' >"$b/crates.txt"
    : >"$room/kit/calls"
}
later() { touch -d '+2 seconds' "$1"; } # saved after all that is there
soon() { # WORD..: waits until it is true, ten seconds at most
    for _ in 1 2 3 4 5 6 7 8 9 10 11 12 13 14 15 16 17 18 19 20 21 22 23 24 25 26 27 28 29 30 31 32 33 34 35 36 37 38 39 40 41 42 43 44 45 46 47 48 49 50; do
        if "$@"; then return; fi
        sleep 0.2
    done
    return 1
}
unlocked() { flock -n "$b/target/front.lock" true; }

# The first time, and the second.
fresh
row 'the first time: the text, and what is said' 0 "$told" "tebalung: replay is not built yet; that takes some minutes, this once${nl}tebalung: replay is proved and built, this once: * of 5 parts, 0:0*" "$b/replay" "$sample"
check 'the first time: rt is called once' [ "$(cat "$room/kit/calls")" = 'run replay' ]
row 'the second time: nothing is said' 0 "$told" '' "$b/replay" "$sample"
check 'the second time: rt is not called' [ "$(calls)" = 1 ]
row 'explain needs one part more' 0 '*create a task*' 'tebalung: trace is not built yet; *tebalung: trace is proved and built, this once: * of 4 parts, 0:0*' "$b/explain" "$sample"
check 'explain: rt is called for trace' [ "$(tail -n 1 "$room/kit/calls")" = 'run trace' ]
row 'build has nothing to do' 0 'both programs are built: replay and trace' '' "$b/tebalung" build
check 'build has nothing to do: rt is not called' [ "$(calls)" = 2 ]
fresh
row 'build builds both' 0 'both programs are built: replay and trace' 'tebalung: both programs are not built yet; *tebalung: both programs are proved and built, this once: * of 6 parts, 0:0*' "$b/tebalung" build
check 'build: rt is called once for each' [ "$(cat "$room/kit/calls")" = "run replay${nl}run trace" ]

# A change: of a source, of a folder of sources, of the list, of the kit's name; not of an edit.
for changed in crates/basics/src/lib.rt crates/rules/specs crates.txt KIT; do
    later "$b/$changed"
    row "$changed is newer" 0 "$told" "tebalung: replay is older than the sources${nl}tebalung: replay is proved and built anew: * of 5 parts, 0:0*" "$b/replay" "$sample"
    find "$b" -newer "$b/target/front.begun" -exec touch -r "$b/target/front.begun" {} +
    row "$changed is newer: only once" 0 "$told" '' "$b/replay" "$sample"
done
n=$(calls)
find "$b/crates" -name '*.edit' -exec touch -d '+2 seconds' {} +
row 'an edit is newer' 0 "$told" '' "$b/replay" "$sample"
check 'an edit is newer: rt is not called' [ "$(calls)" = "$n" ]
rm "$b/target/bin/replay"
row 'a program was deleted' 0 "$told" '*replay is not built yet*' "$b/replay" "$sample"
rm "$b/target/stamp/replay"
touch "$b/target/bin/replay"
row 'a program that rt did not finish' 0 "$told" '*proved and built anew*' "$b/replay" "$sample"
fresh
(DESK_PAUSE=0.3 "$b/replay" "$sample" >"$room/out1" 2>&1) &
soon [ -f "$b/crates/text/out/rlib/stamp" ]
touch "$b/crates/basics/src/lib.rt"
wait
n=$(calls)
row 'a source was saved during the build' 0 "$told" '*proved and built anew*' "$b/replay" "$sample"
check 'a source was saved during the build: rt is called again' [ "$(calls)" = $((n + 1)) ]

# Two at once, and many.
fresh
(DESK_PAUSE=0.5 "$b/replay" "$sample" >"$room/out1" 2>"$room/err1") &
soon [ -s "$b/target/front.lock" ]
row 'a second one waits, and says for what' 0 "$told" 'tebalung: process [0-9]* builds replay; waiting: * of 5 parts, 0:0*' "$b/replay" "$sample"
wait
check 'the first one is right too' [ "$(cat "$room/out1")" = "$told" ]
check 'two at once: rt is called once' [ "$(cat "$room/kit/calls")" = 'run replay' ]
many() { # CHECK: eight replays, four explains and a build
    for k in 1 2 3 4 5 6 7 8; do (DESK_PAUSE=0.1 "$b/replay" "$sample" >"$room/many.$k" 2>/dev/null; echo $? >>"$room/many.$k") & done
    for k in 9 10 11 12; do (DESK_PAUSE=0.1 "$b/explain" "$sample" >"$room/many.$k" 2>/dev/null; echo $? >>"$room/many.$k") & done
    (DESK_PAUSE=0.1 "$b/tebalung" build >"$room/many.13" 2>/dev/null; echo $? >>"$room/many.13") &
    wait
    for k in 1 2 3 4 5 6 7 8; do check "$1: replay $k of 8" [ "$(cat "$room/many.$k")" = "$told${nl}0" ]; done
    for k in 9 10 11 12; do check "$1: explain $((k - 8)) of 4" [ "$(sed -n '7p;$p' "$room/many.$k")" = "end of the log: 5 records${nl}0" ]; done
    check "$1: the build" [ "$(cat "$room/many.13")" = "both programs are built: replay and trace${nl}0" ]
    check "$1: never two rts at once" not grep -q 'two at once' "$room/kit/calls"
}
not() { ! "$@"; }
fresh
many 'nothing built, many at once'
echo '// changed' >>"$b/crates/basics/src/lib.rt"
later "$b/crates/basics/src/lib.rt"
many 'a source changed, many at once'
fresh
"$b/tebalung" build >"$room/out1" 2>&1
: >"$room/kit/calls"
later "$b/crates/basics/src/lib.rt"
(DESK_PAUSE=0.2 "$b/replay" "$sample" >"$room/out1" 2>&1) &
(DESK_PAUSE=0.2 "$b/replay" "$sample" >"$room/out2" 2>&1) &
wait
check 'a touched source, two at once: the first' [ "$(tail -n 6 "$room/out1")" = "$told" ]
check 'a touched source, two at once: the second' [ "$(tail -n 6 "$room/out2")" = "$told" ]
check 'a touched source, two at once: never two rts at once' not grep -q 'two at once' "$room/kit/calls"

fresh
(cd "$b/crates/trace" && DESK_PAUSE=0.5 rt run >"$room/out1" 2>&1 </dev/null) &
soon [ -s "$room/kit/calls" ]
row 'an rt that was called by hand is waited for' 0 "$told" '*tebalung: waiting for process [0-9]*, an rt that was called by hand*' "$b/replay" "$sample"
wait
check 'an rt that was called by hand: never two at once' [ "$(cat "$room/kit/calls")" = "run trace${nl}run replay" ]

# How far it is: on a terminal one line, rewritten; else a line a minute. (Seconds are short here.)
mkdir "$room/quick"
# shellcheck disable=SC2016
printf '#!/bin/sh\ncase $1 in 1) exec %s 0.02 ;; *) exec %s "$@" ;; esac\n' "$(command -v sleep)" "$(command -v sleep)" >"$room/quick/sleep"
chmod +x "$room/quick/sleep"
fresh
try env PATH="$room/quick:$PATH" DESK_PAUSE=1.2 "$b/replay" "$sample"
check 'without a terminal: a line a minute' [ "$(grep -c 'proved and built, this once: [0-9] of 5 parts, 0:0[0-9]' "$room/err")" -ge 3 ]
check 'without a terminal: the count rises' [ "$(sed -n 's/.*: \([0-9]\) of 5 parts.*/\1/p' "$room/err" | sort -u | wc -l)" -ge 2 ]
check 'without a terminal: nothing is rewritten' not grep -q "$(printf '\r')" "$room/err"
if have script; then
    fresh
    TERM=vt100 DESK_PAUSE=0.7 script -q -c "'$b/replay' '$sample'" "$room/typed" >"$room/screen" </dev/null
    check 'on a terminal: one line, rewritten' [ "$(grep -c 'this once: 0 of 5 parts, 0:00.*this once: [1-5] of 5 parts, 0:0[0-9]' "$room/screen")" = 1 ]
    check 'on a terminal: it fits into 80 columns' [ "$(tr '\r' '\n' <"$room/screen" | sed 's/^.\[K//' | awk '/^tebalung/ && length < 81 { n++ } length > 80 { n = -99 } END { print (n > 2) }')" = 1 ]
    check 'on a terminal: the text is after it' [ "$(tr -d '\r' <"$room/screen" | grep -A 5 '1 0 0 1 T1$' | tail -n 5 | tail -n 1)" = 'end 5' ]
fi

# Ended in the middle: what is proved is kept, and neither a process nor a lock is left.
ended() { # SIGNAL STATUS SHELL
    fresh
    # shellcheck disable=SC2086
    DESK_STICK=rules timeout --preserve-status -s "$1" 2 $3 "$b/tebalung" replay "$sample" >"$room/out" 2>"$room/err"
    status=$? err=$(cat "$room/err")
    check "$1 during a build, $3: status $2" [ "$status" = "$2" ]
    check "$1 during a build, $3: said" like "$err" "*0:0?${nl}tebalung: stopped; what is proved so far is kept"
    check "$1 during a build, $3: no process" none_running kit
    check "$1 during a build, $3: no process of ours" none_running b
    check "$1 during a build, $3: no lock" soon unlocked
    check "$1 during a build, $3: what is proved is kept" [ -f "$b/crates/basics/out/rlib/stamp" ]
    row "$1 during a build, $3: then it goes on" 0 "$told" '?*' "$b/replay" "$sample"
    check "$1 during a build, $3: what was proved is not proved again" not grep -q 'for basics$' "$b/target/front.out"
}
for shell in sh bash 'busybox sh'; do ! command -v "${shell%% *}" >/dev/null || ended INT 130 "$shell"; done
ended TERM 143 sh
ended HUP 129 sh
fresh
(DESK_PAUSE=0.5 "$b/replay" "$sample" >"$room/out1" 2>&1) &
soon [ -s "$b/target/front.lock" ]
try timeout --preserve-status -s INT 1 "$b/replay" "$sample"
check 'INT while waiting: status' [ "$status" = 130 ]
wait
check 'INT while waiting: the other goes on' [ "$(tail -n 6 "$room/out1")" = "$told" ]

# Killed: its rt goes on, and another waits for it; when that is killed too, another takes over at once.
killed() { kill -KILL "$(cut -d ' ' -f 1 "$b/target/front.lock")"; }
fresh
(DESK_PAUSE=0.6 "$b/replay" "$sample" >"$room/out1" 2>&1) &
soon grep -q run "$room/kit/calls"
killed
row 'the builder was killed, and its rt goes on: waited for' 0 "$told" 'tebalung: process * builds replay; waiting: *' "$b/replay" "$sample"
check 'the builder was killed: rt was called once' [ "$(cat "$room/kit/calls")" = 'run replay' ]
check 'the builder was killed: no process' none_running b
fresh
(DESK_PAUSE=60 "$b/replay" "$sample" >"$room/out1" 2>&1) &
soon grep -q run "$room/kit/calls"
killed
for process in $(left_running kit | sed 's,/proc/\([0-9]*\)/.*,\1,'); do kill -KILL "-$process" 2>/dev/null; done
soon unlocked
row 'a lock of the dead is taken over' 0 "$told" 'tebalung: replay is not built yet; *' "$b/replay" "$sample"

# Who tells of a build is told to end by a signal, and ends without it too.
# shellcheck disable=SC2016
deaf() { timeout -k 1 20 sh -c 'trap "" TERM; exec "$0" "$@"' "$@"; }
fresh
row 'where TERM is ignored a build ends too' 0 "$told" '?*' deaf "$b/replay" "$sample"

# What cannot be done: one sentence, status 2.
fresh
row 'a crate is not proved' 2 '' '*tebalung: replay could not be built: the library text did not build, * (all that rt said is in */target/front.out)' env DESK_FAIL=text "$b/replay" "$sample"
check 'a crate is not proved: no lock' unlocked
row 'rt leaves no program' 2 '' '*tebalung: replay could not be built: rt says that it is proved, and left no *' env DESK_BIN="$room/nosuch" "$b/replay" "$sample"
row 'a crate is not proved: mended' 0 "$told" '?*' "$b/replay" "$sample"
echo '// changed' >>"$b/crates/basics/src/lib.rt"
later "$b/crates/basics/src/lib.rt"
row 'a change is not proved: the old program is not run' 2 '' '*tebalung: replay could not be built: the library rules did not build, *' env DESK_FAIL=rules "$b/replay" "$sample"
fresh
row 'no kit' 2 '' 'tebalung: replay is not built yet, and building needs the Rattle kit: put its rt on the PATH, or set RATTLE_HOME' env PATH="$room/tools" "$b/replay" "$sample"
row 'RATTLE_HOME names no kit' 2 '' 'tebalung: replay is not built yet, and building needs the Rattle kit: *' env RATTLE_HOME="$room/nosuch" "$b/replay" "$sample"
cp -R "$room/kit" "$room/other"
tail -n 1 "$b/KIT" >"$room/other/KIT-ID"
row 'the last kit that is named' 0 "$told" '?*' env PATH="$room/other/bin:$PATH" "$b/replay" "$sample"
fresh
echo 'another kit' >"$room/other/KIT-ID"
row 'another kit' 2 '' "tebalung: replay is not built yet, and the kit at $room/other is 'another kit', not '$kits' as in the file KIT: *" env PATH="$room/other/bin:$PATH" "$b/replay" "$sample"
row 'another kit by RATTLE_HOME' 2 '' "tebalung: replay is not built yet, and the kit at $room/other is *" env RATTLE_HOME="$room/other" "$b/replay" "$sample"
row 'the right kit by RATTLE_HOME' 0 "$told" '?*' env RATTLE_HOME="$room/kit" PATH="$room/tools" "$b/replay" "$sample"
row 'another kit, and all is built with the right one' 0 "$told" '' env PATH="$room/other/bin:$PATH" "$b/replay" "$sample"
later "$b/crates.txt"
row 'no kit, and the program is old' 2 '' 'tebalung: replay is older than the sources, and building needs the Rattle kit: *' env PATH="$room/tools" "$b/replay" "$sample"
rm "$b/KIT"
row 'no file KIT' 2 '' 'tebalung: replay is older than the sources, and the file KIT, which names the kit, is not there' "$b/replay" "$sample"

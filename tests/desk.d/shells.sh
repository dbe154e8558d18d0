# shellcheck shell=sh disable=SC2154
# Every shell, and every awk.

# shellcheck disable=SC2002
piped() { cat "$sample" | "$@"; }
closed() { "$@" <&-; }
full() { "$@" >/dev/full; }
first_line() { "$@" | head -n 1; }
ignoring() { (trap '' PIPE; "$@"); }
heading=' record    tick by    the call: what came of it; the object now; who runs now'
cp "$sample" "$room/two${nl}words\\t"
for shell in sh dash bash 'bash --posix' 'busybox sh'; do
    command -v "${shell%% *}" >/dev/null || { missing "$shell"; continue; }
    # shellcheck disable=SC2086
    by() { $shell "$desk/tebalung" "$@"; }
    row "$shell: replay" 0 "$told" '' by replay "$sample"
    row "$shell: standard input" 0 "$told" '' piped by replay
    row "$shell: explain" 0 '*create a task, priority 5*' '' by explain "$sample"
    row "$shell: timeline" 0 '<!DOCTYPE html>*</html>' '' by timeline "$sample"
    row "$shell: a damaged log" 1 '*length 100' '' by replay "$room/length.log"
    row "$shell: a damaged log, explained" 1 '*damaged at byte 100*' '' by explain "$room/length.log"
    row "$shell: no such file" 2 '' 'tebalung: nosuch: no such file' by replay nosuch
    row "$shell: no such option" 2 '' 'tebalung: explain: there is no option --x *' by explain --x
    row "$shell: closed input" 2 '' 'tebalung: standard input: is closed' closed by replay
    row "$shell: an error" 2 '' 'tebalung: /proc/self/mem: Input/output error' by replay /proc/self/mem
    row "$shell: a full disk" 2 '' 'tebalung: standard output: no space left on the device' full by replay "$sample"
    row "$shell: -o" 0 '' '' by replay -o "$room/written" "$sample"
    check "$shell: -o: written" [ "$(cat "$room/written")" = "$told" ]
    row "$shell: the name of a log" 0 "$told" '' by replay "$room/two${nl}words\\t"
    row "$shell: help" 0 'tebalung: replays*' '' by help
    row "$shell: a reader that goes" 0 '1 0 0 1 T1' '' first_line by replay "$room/long.log"
    rm -f "$room/written"
done

# A tee that does not tell that it could not write.
if have busybox; then
    mkdir -p "$room/tee"
    ln -sf "$(command -v busybox)" "$room/tee/tee"
    row 'busybox tee: replay' 0 "$told" '' env PATH="$room/tee:$PATH" "$desk/replay" "$sample"
    row 'busybox tee: a full disk' 2 '' 'tebalung: standard output: no space left on the device' full env PATH="$room/tee:$PATH" "$desk/replay" "$sample"
fi

for awk in mawk gawk 'gawk --posix' original-awk 'busybox awk'; do
    command -v "${awk%% *}" >/dev/null || { missing "$awk"; continue; }
    use_awk "$awk"
    with() { PATH="$room/awk:$PATH" "$@"; }
    row "$awk: explain" 0 '*create a task, priority 5*end of the log: 5 records' '' with "$desk/explain" "$sample"
    row "$awk: explain, by a pipe" 0 '*create a task, priority 5*end of the log: 5 records' '' piped with "$desk/explain"
    row "$awk: summary" 0 '?*' '' with "$desk/tebalung" summary "$sample"
    row "$awk: timeline" 0 '<!DOCTYPE html>*</html>' '' with "$desk/timeline" "$sample"
    row "$awk: a damaged log" 1 '*damaged at byte 100*' '' with "$desk/explain" "$room/cut.log"
    row "$awk: a full disk" 2 '' 'tebalung: standard output: no space left on the device' full with "$desk/explain" "$room/long.log"
    row "$awk: a reader that goes" 0 "$heading" '' first_line with "$desk/explain" "$room/long.log"
    row "$awk: a reader that goes, and SIGPIPE is ignored" 0 "$heading" '' ignoring first_line with "$desk/explain" "$room/long.log"
done
mkdir -p "$room/few"
for word in sh cat tee tail readlink tr sed uname find; do ln -sf "$(command -v "$word")" "$room/few/$word"; done
row 'no awk' 2 '' 'tebalung: awk is not there, and explain needs it' env PATH="$room/few" "$desk/explain" "$sample"
row 'no awk, but replay needs none' 0 "$told" '' env RATTLE_HOME="$room/kit" PATH="$room/few" "$desk/replay" "$sample"

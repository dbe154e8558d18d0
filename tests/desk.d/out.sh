# shellcheck shell=sh disable=SC2154
# -o FILE: written beside it and moved at the end, so that a failure leaves nothing behind and an old FILE as it was.

t=$desk/tebalung
mkdir "$room/o" && cd "$room/o" || exit
only() { # NAME..: these are all the files in the folder
    [ "$(ls -A)" = "$*" ]
}
holds() { [ "$(cat "$1")" = "$2" ]; }

for command in replay explain summary timeline; do
    "$t" $command "$sample" >"$room/expected"
    row "$command -o" 0 '' '' "$t" $command -o f "$sample"
    check "$command -o: the same as without" cmp -s f "$room/expected"
    check "$command -o: nothing else" only f
    echo old >f
    row "$command -o over an old file" 0 '' '' "$t" $command -of "$sample"
    check "$command -o over an old file: the same" cmp -s f "$room/expected"
    echo old >f
    row "$command -o: a log that is not there" 2 '' 'tebalung: nosuch: no such file' "$t" $command -o f nosuch
    check "$command -o: the old file is as it was" holds f old
    row "$command -o: an error while it is read" 2 '' 'tebalung: /proc/self/mem: Input/output error' "$t" $command -o f /proc/self/mem
    check "$command -o: after an error the old file is as it was" holds f old
    check "$command -o: after an error nothing else" only f
    rm f
    row "$command -o: an error, and no old file" 2 '' '?*' "$t" $command -o f /proc/self/mem
    check "$command -o: an error, and no old file: none" only
    row "$command -o of a damaged log" 1 '' '' "$t" $command -o f "$room/cut.log"
    check "$command -o of a damaged log: written" grep -q cut f
    rm f
done
row '-o before and after the log' 0 '' '' "$t" replay "$sample" -o f
check '-o after the log: written' holds f "$told"
row '-o - is standard output' 0 "$told" '' "$t" replay -o - "$sample"
row '-o /dev/null' 0 '' '' "$t" replay -o /dev/null "$sample"
check '/dev/null is still there' [ -c /dev/null ]
row '-o /dev/stdout' 0 "$told*" '' sh -c "'$t' replay -o /dev/stdout '$sample' | cat"
[ ! -c /dev/full ] || row '-o /dev/full' 2 '' 'tebalung: /dev/full: no space left on the device' "$t" replay -o /dev/full "$sample"
row '-o a folder' 2 '' 'tebalung: .: is a folder; name a file' "$t" replay -o . "$sample"
row '-o in no folder' 2 '' 'tebalung: no/f: there is no folder no/' "$t" replay -o no/f "$sample"
cp "$sample" log
row '-o the log itself' 2 '' 'tebalung: log: is the log itself; name another file' "$t" replay -o log log
row '-o the log itself, by another name' 2 '' 'tebalung: ./log: is the log itself; name another file' "$t" replay -o ./log log
row '-o the log itself, by standard input' 2 '' 'tebalung: log: is the log itself; name another file' sh -c "'$t' replay -o log <log"
check '-o the log itself: it is whole' cmp -s log "$sample"
ln -s f link
echo old >f
row '-o a link' 0 '' '' "$t" replay -o link "$sample"
check '-o a link: still a link' [ -L link ]
check '-o a link: its file is written' holds f "$told"
rm f link log
echo old >victim
# shellcheck disable=SC2016
row '-o where a link waits for the part' 2 '' 'tebalung: f: cannot be written' sh -c 'ln -s victim f.part$$ && exec "$0" replay -o f "$1"' "$t" "$sample"
check '-o where a link waits for the part: its file is as it was' holds victim old
rm victim f.part*
for name in 'two words' '-f' 'back\slash' "new${nl}line"; do
    row "-o '$name'" 0 '' '' "$t" replay -o "$name" "$sample"
    check "-o '$name': written" holds "./$name" "$told"
    rm "./$name"
done
(umask 027 && "$t" replay -o f "$sample")
check '-o: the rights are those of a new file' [ -n "$(find f -perm 640)" ]
mkfifo pipe
cat pipe >"$room/through" &
row '-o a pipe' 0 '' '' "$t" replay -o pipe "$sample"
wait
check '-o a pipe: passed on' holds "$room/through" "$told"
check '-o a pipe: it is still one' [ -p pipe ]
rm -f f pipe

# A disk that is full before the end, and one that is ended: neither leaves a part.
if can_be_nobody && mkdir small && mount -t tmpfs -o size=64k none small 2>/dev/null; then
    for command in replay explain timeline; do
        echo old >small/f
        row "$command -o on a full disk" 2 '' 'tebalung: small/f: no space left on the device' "$t" $command -o small/f "$room/long.log"
        check "$command -o on a full disk: the old file is as it was" holds small/f old
        check "$command -o on a full disk: nothing else" [ "$(ls -A small)" = f ]
    done
    umount small
else
    missing 'a small disk'
fi
rmdir small 2>/dev/null
for signal in INT TERM HUP; do
    timeout -s $signal 1 sh -c "{ cat '$sample'; sleep 20; } | '$t' replay -o f" 2>/dev/null
    sleep 0.5
    check "replay -o, ended by $signal: nothing is left" only
    (sleep 20 | TMPDIR=. timeout -s $signal 1 "$t" timeline >"$room/page" 2>/dev/null) &
    sleep 2
    check "timeline, ended by $signal: no page" [ ! -s "$room/page" ]
    check "timeline, ended by $signal: nothing is left" only
done

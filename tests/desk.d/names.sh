# shellcheck shell=sh disable=SC2154
# Names and places: of logs, of the checkout, of the folder that one is in, of links.

# Each name is in a folder of its own, and is called from there, by its whole path, and as a log that is damaged.
named() { # NAME
    mkdir -p "$room/in"
    cp "$sample" "$room/in/$1"
    cd "$room/in" || return
    for command in replay explain summary timeline; do
        "$desk/tebalung" "$command" "$sample" >"$room/expected"
        try "$desk/tebalung" "$command" -- "$1"
        [ "$command" != timeline ] || entitle "$1"
        check "$command: the name '$1'" same_as_expected
        row "$command: the name '$1', by its path" 0 '?*' '' "$desk/tebalung" "$command" "$room/in/$1"
    done
    row "replay: the name '$1' without '--'" 0 "$told" '' "$desk/replay" "$1"
    rm -f -- "$1"
    row "replay: '$1' is not there: one line" 2 '' 'tebalung: *: no such file' "$desk/replay" -- "$1"
    check "replay: '$1' is not there: one line only" [ "$(grep -c '' "$room/err")" = 1 ]
    cd "$room" || return
}
# The expected page with the title of this name in the place of the sample's: control characters are '?', and what would end a JSON string or
# the script around it is escaped.
entitle() { # NAME
    title=$(printf %s "$1" | LC_ALL=C tr '[:cntrl:]' '?' | sed 's/\\/\\\\/g;s/"/\\"/g;s/</\\u003c/g') awk '
        { at = index($0, "{\"title\":\"sample.log\",") }
        at { $0 = substr($0, 1, at + 9) ENVIRON["title"] substr($0, at + 20); n++ }
        { print }
        END { if (n != 1) print "the sample has " n + 0 " titles" }' "$room/expected" >"$room/entitled"
    mv "$room/entitled" "$room/expected"
}
same_as_expected() { [ "$status" = 0 ] && [ -z "$err" ] && cmp -s "$room/out" "$room/expected"; }

# shellcheck disable=SC1003,SC2016
for name in 'a log' ' ' '-dash.log' '-x' '--refusal' 'a\tb\\c' '\' '*' '?' "it's" '"' '$HOME' '`id`' '~' '#' '=' 'a=b' 'é' 'x:y' '<!--<script>' '&lt;'; do named "$name"; done
named "two${nl}lines"
named "end${nl}"
named "$(printf 'tab\there\033[31m')"
# (Of a name that is no UTF-8 an awk may tell the title otherwise.)
latin=$(printf 'caf\351.log')
cp "$sample" "$room/in/$latin"
for command in replay explain summary; do
    "$desk/tebalung" "$command" "$sample" >"$room/expected"
    try "$desk/tebalung" "$command" "$room/in/$latin"
    check "$command: a name that is no UTF-8" same_as_expected
done
row 'timeline: a name that is no UTF-8' 0 '<!DOCTYPE html>*</html>' '' "$desk/timeline" "$room/in/$latin"
head -c 99 "$sample" >"$room/in/$latin"
row 'replay: a name that is no UTF-8, and a damaged log' 1 '*cut 80' '' "$desk/replay" "$room/in/$latin"
ln -s /proc/self/mem "$room/in/m$latin"
row 'replay: a name that is no UTF-8 and cannot be read' 2 '' "tebalung: $room/in/m*.log: Input/output error" "$desk/replay" "$room/in/m$latin"

# The title that a page is given: this one is nothing else.
cp "$desk/view/timeline.awk" "$room/kept.awk"
echo 'BEGIN { printf "%s", title }' >"$desk/view/timeline.awk"
titled() { # NAME TITLE
    cp "$sample" "$room/in/$1"
    try "$desk/timeline" "$room/in/$1"
    check "timeline: the title of '$1'" [ "$out" = "$2" ]
}
titled 'a log' 'a log'
titled 'a\tb\\c' 'a\tb\\c'
titled '<b>&"' '<b>&"'
titled "two${nl}lines" 'two?lines'
titled "end${nl}" 'end?'
cp "$room/kept.awk" "$desk/view/timeline.awk"

# Other folders.
cd / || exit
row 'from another folder' 0 "$told" '' "$desk/replay" "$sample"
cd "$desk/view" || exit
row 'by a path with ..' 0 "$told" '' ../replay ../crates/trace/data/sample.log
cd "$desk" || exit
row 'sh tebalung' 0 "$told" '' sh tebalung replay "$sample"
row 'sh replay' 0 "$told" '' sh replay "$sample"
row 'by the PATH' 0 "$told" '' env PATH="$desk:$PATH" replay "$sample"
row 'CDPATH' 0 "$told" '' env CDPATH="$room:/" ./replay "$sample"
row 'the folder is gone' 0 "$told" '*' sh -c "mkdir '$room/gone' && cd '$room/gone' && rmdir '$room/gone' && '$desk/replay' '$sample'"

# Links.
mkdir "$room/links" && cd "$room/links" || exit
ln -s "$desk/replay" direct
ln -s direct again
ln -s "$desk/tebalung" teb
ln -s "$desk" whole
ln -s ../desk/explain relative
row 'a link to a short name' 0 "$told" '' ./direct "$sample"
row 'a link to a link, by the PATH' 0 "$told" '' env PATH="$room/links:$PATH" again "$sample"
row 'a link to tebalung' 0 "$told" '' ./teb replay "$sample"
row 'a link to the checkout' 0 "$told" '' whole/replay "$sample"
row 'a relative link' 0 '*create a task*' '' ./relative "$sample"
ln -s "$sample" sample.log
row 'a link to a log' 0 "$told" '' ./direct sample.log
ln -s nowhere dangling.log
row 'a link to no log' 2 '' 'tebalung: dangling.log: no such file' ./direct dangling.log

# The checkout's own name.
cd "$room" || exit
"$desk/timeline" "$sample" >"$room/expected"
# shellcheck disable=SC1003,SC2016
for name in 'the desk' '-d' 'back\\slash\t' "quo'te" 'a$b' "new${nl}line" '*'; do
    clone "odd/$name"
    finish "odd/$name"
    cd "$room/odd" || exit
    row "a checkout named '$name': replay" 0 "$told" '' "./$name/replay" "$sample"
    row "a checkout named '$name': explain" 0 '*create a task, priority 5*' '' "./$name/explain" "$sample"
    try "./$name/timeline" "$sample"
    check "a checkout named '$name': timeline" same_as_expected
    cd -- "$name" || exit
    row "in a checkout named '$name'" 0 "$told" '' ./replay "$sample"
    row "in a checkout named '$name', by its path" 0 "$told" '' "$room/odd/$name/tebalung" replay "$sample"
    cd "$room" && rm -rf odd
done

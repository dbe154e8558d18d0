# shellcheck shell=sh disable=SC2154
# A second user, and a checkout that cannot be written.

can_be_nobody || return 0
chmod -R a+rX "$room/kit" "$desk"
cp "$sample" "$room/secret.log"
chmod 600 "$room/secret.log"
for command in replay explain summary timeline; do
    row "$command: a second user on a built checkout" 0 '?*' '' as_nobody "$desk/tebalung" $command "$sample"
    row "$command: a log that may not be read" 2 '' "tebalung: $room/secret.log: cannot be read; its rights do not allow it" as_nobody "$desk/tebalung" $command "$room/secret.log"
    row "$command -o where one may not write" 2 '' "tebalung: $room/f: its folder cannot be written" as_nobody "$desk/tebalung" $command -o "$room/f" "$sample"
done
touch "$room/mine"
row '-o over a file that is another'\''s' 2 '' "tebalung: $room/mine: cannot be written; its rights do not allow it" as_nobody "$desk/replay" -o "$room/mine" "$sample"
chmod -R a-w "$desk"
row 'a checkout that cannot be written, and is built' 0 "$told" '' as_nobody "$desk/replay" "$sample"
chmod -R u+w "$desk"
if [ -x /lib64/ld-linux-x86-64.so.2 ]; then
    row 'no kit, and the checkout is built' 0 "$told" '' as_nobody env -i PATH="$room/tools" "$desk/replay" "$sample"
else
    missing 'a loader for x86-64 programs'
fi
row '--version by a second user' 0 'tebalung *' '' as_nobody "$desk/tebalung" --version
clone b
chmod -R a+rX "$room/b"
row 'a second user on a checkout that is not built' 2 '' "tebalung: replay is not built yet, and $room/b cannot be written: ask its owner to run 'tebalung build'" as_nobody "$room/b/replay" "$sample"
finish b
chmod -R a+rX "$room/b"
touch -d '+2 seconds' "$room/b/crates.txt"
row 'a second user where sources are newer' 2 '' "tebalung: replay is older than the sources, and $room/b cannot be written: ask its owner to run 'tebalung build'" as_nobody "$room/b/replay" "$sample"
check 'rt was not called for a second user' [ ! -s "$room/kit/calls" ]

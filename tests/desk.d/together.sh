# shellcheck shell=sh disable=SC2154
# Many at once on a built checkout: all are right, and no toolchain is called.

"$desk/explain" "$room/long.log" >"$room/words"
"$desk/replay" "$room/long.log" >"$room/lines"
right() { [ "$(cat "$1.status")" = 0 ] && cmp -s "$1" "$2"; }
cd "$room" || exit
for k in 1 2 3 4 5 6 7 8; do ("$desk/replay" long.log >"replay.$k" 2>&1; echo $? >"replay.$k.status") & done
for k in 1 2 3 4; do ("$desk/explain" long.log >"explain.$k" 2>&1; echo $? >"explain.$k.status") & done
wait
for k in 1 2 3 4 5 6 7 8; do check "replay $k of 8" right "replay.$k" lines; done
for k in 1 2 3 4; do check "explain $k of 4" right "explain.$k" words; done
check 'no toolchain was called' [ ! -s "$room/kit/calls" ]
check 'nothing is left behind' [ "$(ls "$desk/target")" = "bin${nl}stamp" ]

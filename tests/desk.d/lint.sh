# shellcheck shell=sh disable=SC2154
# The scripts themselves.

if have shellcheck; then
    check 'shellcheck: the front' shellcheck -x -a "$top/tebalung" "$top/replay" "$top/explain" "$top/timeline"
    check 'shellcheck: its parts' shellcheck "$top/front/build.sh" "$top/front/package.sh"
    check 'shellcheck: the tests' shellcheck "$self" "$parts/rt" "$parts"/*.sh
fi
for name in replay explain timeline; do check "$name is three lines" [ "$(grep -c '' "$top/$name")" = 3 ]; done
for file in tebalung replay explain timeline front/build.sh front/package.sh; do
    for shell in dash bash 'busybox sh'; do
        command -v "${shell%% *}" >/dev/null || { missing "$shell"; continue; }
        # shellcheck disable=SC2086
        check "$shell can read $file" $shell -n "$top/$file"
    done
done
check "view/run is gone" [ ! -e "$top/view/run" ]

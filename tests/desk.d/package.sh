# shellcheck shell=sh disable=SC2154
# The package: unpacked in a bare folder it needs neither a kit nor a checkout nor an environment.

have git tar || return 0
t=$desk/tebalung
row 'no commit' 2 '' 'tebalung: package: which commit it is of is not known: *' "$t" package -o "$room/p.tar"
check 'no commit: no tar' [ ! -e "$room/p.tar" ]
g() { git -C "$desk" -c user.name=x -c user.email=x@x "$@" >/dev/null 2>&1; }
echo target/ >"$desk/.gitignore"
g init && g add -A && g commit -m x
touch "$desk/target/stamp/replay" "$desk/target/stamp/trace"
commit=$(git -C "$desk" rev-parse --short=12 HEAD)
version="tebalung $commit (kit $kits, package for x86-64 Linux)"
row '--version in a checkout' 0 "tebalung $commit (kit *)" '' "$t" --version
if [ ! -d "$room/kit/toolchain" ]; then
    missing 'the kit'
    return 0
fi
row 'without the kit' 2 '' 'tebalung: package: the loader and the C library are those of the Rattle kit: *' env -i PATH="$room/tools" "$t" package -o "$room/p.tar"
row 'package -o' 0 '' '' "$t" package -o "$room/p.tar"
"$t" package >"$room/q.tar"
check 'package to standard output: the same bytes' cmp -s "$room/p.tar" "$room/q.tar"
row 'package on a full disk' 2 '' 'tebalung: /dev/full: no space left on the device' "$t" package -o /dev/full
echo '# changed' >>"$desk/view/names"
row 'package of what is not committed' 0 '' '' "$t" package -o "$room/q.tar"
check 'package of what is not committed: it says so' [ "$(tar tf "$room/q.tar" | sed -n 1p)" = "tebalung-$commit-changed/" ]

# What the package has to write: what the checkout does.
for command in replay explain summary timeline; do "$t" $command "$sample" >"$room/$command.expected"; done
mkdir "$room/bare"
tar xf "$room/p.tar" -C "$room/bare"
p=$room/bare/tebalung-$commit
cd "$p" || exit
mv "$desk" "$room/away"
check 'one folder, named after the commit' [ "$(ls -A "$room/bare")" = "tebalung-$commit" ]
the_same() { # CHECK COMMAND WORD..: the command WORD.. writes what COMMAND does in the checkout, to the byte
    what=$1 wanted=$room/$2.expected
    shift 2
    try "$@"
    if [ "$status" != 0 ] || [ -n "$err" ]; then failed "$what" "status $status (${err:-nothing said})"; else check "$what" cmp -s "$room/out" "$wanted"; fi
}
tried() { # HOW WORD..: the package, called by WORD..
    how=$1
    shift
    row "$how: --version" 0 "$version" '' "$@" ./tebalung --version
    row "$how: replay" 0 "$told" '' "$@" ./replay crates/trace/data/sample.log
    for command in replay explain summary timeline; do the_same "$how: $command, the same" $command "$@" ./tebalung $command crates/trace/data/sample.log; done
    the_same "$how: ./explain" explain "$@" ./explain crates/trace/data/sample.log
    the_same "$how: ./timeline" timeline "$@" ./timeline crates/trace/data/sample.log
    row "$how: a damaged log" 1 '*version 100' '' "$@" ./replay "$room/version.log"
    row "$how: no log" 2 '' 'tebalung: nosuch: no such file' "$@" ./replay nosuch
    row "$how: build has nothing to do" 0 'both programs are built: replay and trace' '' "$@" ./tebalung build
    row "$how: package" 2 '' "tebalung: this is a package already: copy $p" "$@" ./tebalung package
}
if [ "$(uname -m)" = x86_64 ] || have qemu-x86_64; then
    tried 'no environment' env -i
    if can_be_nobody; then tried 'another user' as_nobody env -i; fi
    chmod -R a-w "$p"
    tried 'cannot be written' env -i
    chmod -R u+w "$p"
fi
# The programs open no library but the package's own.
if [ "$(uname -m)" = x86_64 ] && have strace; then
    strace -e trace=open,openat -o "$room/opened" lib/ld-linux-x86-64.so.2 --library-path lib bin/replay crates/trace/data/sample.log >/dev/null 2>&1
    check 'no library of the system is opened' [ "$(sed -n 's/.*"\(.*\.so[.0-9]*\)".*= [0-9].*/\1/p' "$room/opened")" = lib/libc.so.6 ]
fi
# A system that has busybox alone, and no C library.
static() { [ "$(uname -m)" = x86_64 ] && have busybox unshare chroot && ! ldd "$(command -v busybox)" >/dev/null 2>&1; }
if can_be_nobody && static; then
    r=$room/root
    mkdir -p "$r/bin" "$r/proc" "$r/dev" "$r/tmp"
    chmod 777 "$r/tmp"
    cp "$(command -v busybox)" "$r/bin/busybox"
    for applet in sh cat tee tail awk readlink tr sed mktemp rm mv uname printf; do ln -s busybox "$r/bin/$applet"; done
    cp -R "$p" "$r/package"
    mknod -m 666 "$r/dev/null" c 1 3
    # shellcheck disable=SC2016
    in_root() { unshare -m sh -c 'mount -t proc proc "$0/proc" && unset TMPDIR && exec chroot --userspec=65534:65534 "$0" /bin/sh -c "cd /package && $1"' "$r" "$1"; }
    if [ "$(in_root 'echo here')" = here ]; then
        row 'a system of busybox alone: replay' 0 "$told" '' in_root './replay crates/trace/data/sample.log'
        for command in explain summary timeline; do the_same "a system of busybox alone: $command" $command in_root "./tebalung $command crates/trace/data/sample.log"; done
        row 'a system of busybox alone: --version' 0 "$version" '' in_root './tebalung --version'
    else
        missing 'a root of its own'
    fi
else
    missing 'an x86-64 processor with a static busybox'
fi
mv "$room/away" "$desk"

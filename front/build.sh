# Proving and building programs, once: read by `tebalung` where one is not built. It uses of `tebalung`: here, programs, find_kit, name_kits, find_stale, absolute, say, die.
# shellcheck shell=sh disable=SC2034,SC2154

terminal() { [ -t 2 ] && [ "${TERM:-dumb}" != dumb ]; }
called() { if [ $# -eq 1 ]; then echo "$1"; else echo 'both programs'; fi; } # PROGRAM..

# The crates that programs are made of, themselves too, a line each, in the order in which rt comes to them.
parts_of() { # PROGRAM..
    awk -v wanted="$*" '
        function visit(name,    more, m, k) {
            if (name in seen || !(name in below)) return
            seen[name]
            m = split(below[name], more, " ")
            for (k = 1; k <= m; k++) visit(more[k])
            print name
        }
        { sub(/#.*/, "") }
        split($0, half, ":") == 2 { gsub(/[ \t]/, "", half[1]); below[half[1]] = half[2] }
        END {
            n = split(wanted, todo, " ")
            for (i = 1; i <= n; i++) visit(todo[i])
        }' "$here/crates.txt"
}

# How far a build is, by the last crate that rt came to: those before it are done. On a terminal one line that is rewritten, and fits into 80 columns.
tell_progress() { # WHAT PARTS SINCE
    ready=$(awk '
        FILENAME != told { file++; told = FILENAME }
        file == 1 { before[$1] = FNR - 1; next }
        /^rt: [A-Za-z0-9_]*: begins with / { come($2) }
        /^rt: chose --jobs [0-9]* for / { come($NF) }
        function come(name) { sub(/:$/, "", name); if (name in before && before[name] > ready) ready = before[name] }
        END { print ready + 0 }' "$here/target/front.parts" "$here/target/front.out" 2>/dev/null)
    passed=$(($(date +%s) - $3))
    line=$(printf '%s: %d of %d parts, %d:%02d' "$1" "${ready:-0}" "$2" $((passed / 60)) $((passed % 60)))
    if terminal; then printf '\r\033[Ktebalung: %s' "$line" >&2; else say "$line"; fi
}
end_progress() { ! terminal || printf '\r\033[K' >&2; }

# Tells it again, each second on a terminal, else each minute, until it is ended, or `tebalung` or its rt is gone: a signal may be lost on its way to a
# shell that has just begun, or be ignored. It is to hold no lock.
keep_telling() { # WHAT PARTS SINCE RT
    nap='' turn=0
    trap 'kill ${nap:+"$nap"} 2>/dev/null; exit 0' TERM
    while kill -0 $$ 2>/dev/null && kill -0 "$4" 2>/dev/null; do
        sleep 1 &
        nap=$!
        wait "$nap" 2>/dev/null
        turn=$((turn + 1))
        if terminal || [ $((turn % 60)) -eq 0 ]; then tell_progress "$@"; fi
    done
}

# One builds at a time. The kernel holds the lock for as long as `tebalung` or the rt that it started lives: none can be left behind. Who has it
# leaves in its file what others tell while they wait: process, start, parts, programs.
take_lock() { # PROGRAM..
    { command exec 9>>"$here/target/front.lock"; } 2>/dev/null || die "$here/target/front.lock: cannot be written"
    trap 'end_progress; exit 130' INT
    turn=0
    until fault=$(flock -n 9 2>&1); do
        [ -z "$fault" ] || die "building needs a lock, and there is none to be had: $fault (flock is part of util-linux)"
        if terminal || [ $((turn % 60)) -eq 0 ]; then tell_waiting || turn=-1; fi
        sleep 1
        turn=$((turn + 1))
    done
    [ "$turn" -eq 0 ] || end_progress
    leave_note "$@"
    turn=0
    while find_rt; do
        [ $((turn % 60)) -ne 0 ] || say "waiting for process $who, an rt that was called by hand"
        sleep 1
        turn=$((turn + 1))
    done
    trap - INT
}
leave_note() { # PROGRAM..
    parts_of "$@" >"$here/target/front.parts"
    parts=$(grep -c '' "$here/target/front.parts") since=$(date +%s)
    echo "$$ $since $parts $(called "$@")" >"$here/target/front.lock"
}
tell_waiting() { read -r who since parts names <"$here/target/front.lock" && tell_progress "process $who builds $names; waiting" "$parts" "$since"; }

# An rt that was called by hand takes no lock of ours. Two at once would wait for each other and tell nothing of it, so it is waited for.
find_rt() {
    # shellcheck disable=SC2013
    for process in $(grep -l -a -z '/rt$' /proc/[0-9]*/cmdline 2>/dev/null); do
        case $(readlink "${process%cmdline}cwd")/ in "$(absolute)"/*) who=${process%/cmdline} who=${who#/proc/} && return ;; esac
    done
    return 1
}

# Ends rt and all that it started, which are a session of their own, and waits until the lock is free. What is proved stays proved.
stop_building() { # STATUS
    trap '' INT TERM HUP
    builder=${builder:-${!:-}}
    kill ${teller:+"$teller"} ${builder:+"$builder" "-$builder"} 2>/dev/null
    wait 2>/dev/null
    kill -KILL ${builder:+"-$builder"} 2>/dev/null
    exec 9>&-
    for _ in 1 2 3 4 5 6 7 8 9 10; do ! flock -n "$here/target/front.lock" true || break; sleep 0.1; done
    end_progress
    say "stopped; what is proved so far is kept"
    exit "$1"
}

# What a session of its own does, in the checkout: rt proves, builds and runs each program in its crate's folder, and leaves it in out/, which an rt ci
# or a clean-up may empty. So it is put to the others, and its mark is as old as the start.
# shellcheck disable=SC2016
steps='for program; do
    (cd "crates/$program" && "$0" run) || exit
    [ -x "crates/$program/out/$program" ] || { rm -f "target/bin/$program"; continue; }
    cp "crates/$program/out/$program" "target/bin/$program.new" && mv -f "target/bin/$program.new" "target/bin/$program" || exit
    touch -r target/front.begun "target/stamp/$program" || exit
done'

# Has rt prove and build them, and leaves its status. A source that is saved meanwhile is newer than the start, so the next call builds again.
prove() { # WHAT PROGRAM..
    what=$1
    shift
    teller='' builder=''
    leave_note "$@"
    : >"$here/target/front.begun"
    : >"$here/target/front.out"
    trap 'stop_building 130' INT
    trap 'stop_building 143' TERM
    trap 'stop_building 129' HUP
    tell_progress "$what" "$parts" "$since"
    (cd -- "${here:-/}" && exec setsid sh -c "$steps" "$rt" "$@") >"$here/target/front.out" 2>&1 </dev/null &
    builder=$!
    (exec 9>&- && keep_telling "$what" "$parts" "$since" "$builder") &
    teller=$!
    wait "$builder"
    status=$?
    kill "$teller" 2>/dev/null
    wait "$teller" 2>/dev/null
    trap - INT TERM HUP
    end_progress
}

# Says why it cannot be done, or which kit does it.
check_kit() { # WHY
    mkdir -p "$here/target/bin" "$here/target/stamp" 2>/dev/null
    for folder in "$here/target" "$here/target/bin" "$here/target/stamp" "$here"/crates/*/out; do
        [ -w "$folder" ] || { [ "${folder%/out}" != "$folder" ] && [ ! -e "$folder" ]; } || die "$1, and $(absolute) cannot be written: ask its owner to run 'tebalung build'"
    done
    find_kit || die "$1, and building needs the Rattle kit: put its rt on the PATH, or set RATTLE_HOME"
    name_kits 2>/dev/null || die "$1, and the file KIT, which names the kit, is not there"
    there=$("$rt" version 2>&1 </dev/null) || die "$1, and $rt does not say which kit it is of: $there"
    grep -qxF -e "$there" "$here/KIT" || die "$1, and the kit at $kit is '$there', not '$kits' as in the file KIT: put that one's rt on the PATH, or set RATTLE_HOME"
}

build() { # PROGRAM..
    what="$(called "$@") is"
    [ $# -eq 1 ] || what="$(called "$@") are"
    how='proved and built anew' why="$what older than the sources" more=''
    for program; do
        [ -x "$programs/$program" ] || how='proved and built, this once' why="$what not built yet" more='; that takes some minutes, this once'
    done
    check_kit "$why"
    take_lock "$@"
    # shellcheck disable=SC2086
    if find_stale "$@"; then
        set -- $stale
        say "$why$more"
        prove "$what $how" "$@"
        if [ "$status" -ne 0 ]; then
            die "$(called "$@") could not be built: $(sed -n '/./h
                $ { g; s/^rt: //; p; }' "$here/target/front.out") (all that rt said is in $(absolute)/target/front.out)"
        fi
        for program; do
            [ -x "$programs/$program" ] || die "$program could not be built: rt says that it is proved, and left no $(absolute)/crates/$program/out/$program"
        done
    fi
    exec 9>&-
}

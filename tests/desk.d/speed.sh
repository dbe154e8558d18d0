# shellcheck shell=sh disable=SC2154
# How long it takes, on this checkout itself.

python=/usr/bin/python3
[ -x $python ] || python=python3
have $python || return 0

# Two scripts: the program as it stands, with the kit's loader where the system has none, and in an emulator on another processor; and the checkout's
# own ./replay, whose marks are not for the stand-in of this test.
tools=$kit/toolchain loader='' emulator=''
[ -x /lib64/ld-linux-x86-64.so.2 ] || loader="'$tools/lib/ld-linux-x86-64.so.2' --library-path '$tools/lib'"
[ -z "$loader" ] || [ "$(uname -m)" = x86_64 ] || emulator=$(command -v qemu-x86_64) || emulator=''
printf '#!/bin/sh\nexec %s %s "%s/replay" "$@"\n' "$emulator" "$loader" "$bin" >"$room/alone"
own=PATH="'$room/tools'"
[ -z "$kit" ] || own=RATTLE_HOME="'$kit'"
printf '#!/bin/sh\n%s exec "%s/replay" "$@"\n' "$own" "$top" >"$room/ours"
chmod +x "$room/alone" "$room/ours"

# A replay of the sample takes at most three times as long as `python3 -c pass`: the middle of 21 each, in turns. Where programs run in an emulator
# the program's own time is taken off.
cat >"$room/turns.py" <<'EOF'
import statistics, subprocess, sys, time
def took(*words):
    start = time.perf_counter()
    subprocess.run(words, stdout=subprocess.DEVNULL, check=True)
    return 1000 * (time.perf_counter() - start)
room, sample, emulated = sys.argv[1:]
times = [(took(room + '/ours', sample), took(sys.executable, '-c', 'pass'), took(room + '/alone', sample) if emulated else 0) for _ in range(21)]
ours, theirs, alone = (statistics.median(each) for each in zip(*times))
print(round(ours), round(theirs), round(alone), int(ours - alone <= 3 * theirs))
EOF
found=$($python "$room/turns.py" "$room" "$sample" "$emulator")
echo "speed: a replay of the sample, python3 -c pass, and what an emulator takes of it, in milliseconds: ${found% *}"
check 'a replay of the sample is quick' [ "${found##* }" = 1 ]

# A long log takes at most five times the processor's time of the program alone, with all tools that pass the text on. (They run beside it:
# where processors are free it takes little longer.) DESK_LONG is its length in megabytes.
$python - "$room/long.log" "$room/longest.log" "${DESK_LONG:-200}" <<'EOF'
import sys
part = open(sys.argv[1], 'rb').read() * 5
with open(sys.argv[2], 'wb') as out:
    for _ in range(int(sys.argv[3]) * 1000000 // len(part)):
        out.write(part)
EOF
took() { # WORD..: milliseconds by the clock, and of the processor
    $python -c 'import resource, subprocess, sys, time
start = time.perf_counter()
subprocess.run(sys.argv[1:], stdout=subprocess.DEVNULL)
used = resource.getrusage(resource.RUSAGE_CHILDREN)
print(round(1000 * (time.perf_counter() - start)), round(1000 * (used.ru_utime + used.ru_stime)))' "$@"
}
alone=$(took "$room/alone" "$room/longest.log")
ours=$(took "$room/ours" "$room/longest.log")
echo "speed: ${DESK_LONG:-200} MB by the program alone and by ./replay, in milliseconds by the clock and of the processor: $alone and $ours"
check 'a long log stays quick' [ "${ours#* }" -le $((5 * ${alone#* })) ]

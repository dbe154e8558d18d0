# shellcheck shell=sh disable=SC2154
# The words of the command line: commands, help, options, '--' and '-'.

t=$desk/tebalung
listed() { "$t" help | grep -q "^  tebalung $1 "; }
row 'no command: help and status 2' 2 '' 'tebalung: replays*tebalung replay *tebalung build *Status:*' "$t"
row 'help' 0 'tebalung: replays*tebalung replay *tebalung timeline *tebalung --version *Status:*' '' "$t" help
row '--help' 0 'tebalung: replays*' '' "$t" --help
row '-h' 0 'tebalung: replays*' '' "$t" -h
for command in replay explain summary timeline package build help; do
    row "help $command" 0 "tebalung $command*" '' "$t" help $command
    row "$command --help" 0 "tebalung $command*" '' "$t" $command --help
    check "help lists $command" listed $command
done
row 'help of no command' 2 '' "tebalung: there is no command 'nosuch' (*" "$t" help nosuch
row 'help of two' 2 '' 'tebalung: help: takes one command' "$t" help replay explain
row 'no such command' 2 '' "tebalung: there is no command 'repaly' (*" "$t" repaly "$sample"
row 'a word that would be a function of the script' 2 '' "tebalung: there is no command 'version' (*" "$t" version
row 'two commands in one word' 2 '' "tebalung: there is no command 'replay explain' (*" "$t" 'replay explain'
row 'a log for a command' 2 '' "tebalung: there is no command '$room/good.log'; to replay that log: tebalung replay $room/good.log" "$t" "$room/good.log"
row 'a full disk for help' 2 '' 'tebalung: standard output: cannot be written' sh -c "'$t' help >/dev/full"
row 'closed output for help' 2 '' 'tebalung: standard output: is closed' sh -c "'$t' help >&-"
row '--version' 0 "tebalung * (kit $kits)" '' "$t" --version
row "'--' ends the options" 2 '' 'tebalung: --help: no such file' "$t" replay -- --help
row "'--' and a log" 0 "$told" '' "$t" replay -- "$sample"
row "'-' after '--' is standard input" 0 "$told" '' sh -c "'$t' replay -- - <'$sample'"
row 'standard input without a name' 0 "$told" '' sh -c "'$t' replay <'$sample'"
row 'an option without its value' 2 '' 'tebalung: replay: -o needs a value' "$t" replay -o
row 'an option with an empty value' 2 '' 'tebalung: replay: -o takes the name of a file' "$t" replay -o '' "$sample"
row 'an option of another command' 2 '' 'tebalung: replay: there is no option --from (*' "$t" replay --from 3 "$sample"
row 'a value for an option that has none' 2 '' 'tebalung: explain: --refused takes no value' "$t" explain --refused=yes "$sample"
row 'build takes no log' 2 '' 'tebalung: build: takes no log' "$t" build "$sample"
row 'two options in one word' 2 '' 'tebalung: explain: there is no option *' "$t" explain '--refused --not-met' "$sample"
for bad in 0 -1 x '' 1.5 0x10 99999999999999999999; do
    row "--from $bad" 2 '' "tebalung: explain: --from takes the number of a record, not '$bad'" "$t" explain --from "$bad" "$sample"
done
row '--from after --to' 2 '' 'tebalung: explain: there is no record from 4 to 3' "$t" explain --from 4 --to 3 "$sample"
for bad in T32 S16 T t3 I1 '' T03; do
    row "--thread $bad" 2 '' "tebalung: explain: --thread takes *, not '$bad'" "$t" explain --thread "$bad" "$sample"
done
for bad in m m100 0m M0 '' m01 s16 e8 m8 w16 c16 s20 x0 h0 hh; do
    row "--object $bad" 2 '' "tebalung: explain: --object takes *, not '$bad'" "$t" explain --object "$bad" "$sample"
done

# What the options are to a view: this one tells its variables.
echo 'END { print from "|" to "|" thread "|" which "|" refused "|" notmet }' >"$desk/view/explain.awk"
: >"$desk/view/words.awk"
row 'no option is an empty variable' 0 '|||||' '' "$t" explain "$sample"
row '--from and --to' 0 '2|10||||' '' "$t" explain --from 2 --to 10 "$sample"
row '--to=N' 0 '|7||||' '' "$t" explain "$sample" --to=7
for thread in T0 T9 T29 T31 S0 S15 I; do row "--thread $thread" 0 "||$thread|||" '' "$t" explain --thread $thread "$sample"; done
row '--refused --not-met' 0 '||||1|1' '' "$t" explain --refused "$sample" --not-met
echo 'END { print object }' >"$desk/view/explain.awk"
for object in s0 s9 s15 e0 e7 m0 m7 w10 w15 c9 c15 h; do row "--object $object" 0 "$object" '' "$t" explain --object $object "$sample"; done

# The checks of mc_replay beside its stored run: lines that are refused, lists that are cut short, and streams that
# fail. ci/test reads this file.

# A list without events, with a wrong answer that is passed over: the list, and what is written of it.
write_short_list() {
    printf 'list 1 short\nconfig 64 64 32 2 1 64 1 1\nhands 1\nanswer NotAllowed 7\nwhy is passed over\nend\n' >"$room/list"
    printf 'list 1 short\nanswer Ok\nclass 1 free [] order [] evictions 0\n' >"$room/played"
    printf 'totals pool 0 moved 0 rescues 0 nomem 0 busy 0 automove 0\nend\n' >>"$room/played"
}

# refuses NAME MESSAGE LINE..: a list that is played, and then these lines, of which nothing is written.
refuses() {
    name=$1
    cp "$room/list" "$room/lists"
    cp "$room/played" "$room/want"
    printf '%s\n' "$2" >"$room/want-stderr"
    shift 2
    printf '%s\n' "$@" >>"$room/lists"
    run_on "$room/lists"
    wants "$name" 2
}

# A line of each kind that can't be read. The first list has six lines.
check_refused_lines() {
    refuses "no list" "mc_replay: line 7" 'frob'
    refuses "a comment and an empty line are counted" "mc_replay: line 9" '# a comment' '' 'lists 1'
    refuses "no configuration" "mc_replay: line 8" 'list 2' 'hands 1'
    refuses "seven numbers of a configuration" "mc_replay: line 8" 'list 2' 'config 64 64 32 2 1 64 1'
    refuses "nine numbers of a configuration" "mc_replay: line 8" 'list 2' 'config 64 64 32 2 1 64 1 1 1'
    refuses "a configuration that is refused" \
        "mc_replay: line 8: the number of stripes must be from 1 to 64" 'list 2' 'config 64 64 32 2 1 64 65 1'
    refuses "no hand" "mc_replay: line 9: the hands must be from 1 to 64" 'list 2' 'config 64 64 32 2 1 64 1 1' 'hands 0'
    refuses "65 hands" "mc_replay: line 9: the hands must be from 1 to 64" 'list 2' 'config 64 64 32 2 1 64 1 1' 'hands 65'
    while read -r event; do
        refuses "refused: $event" "mc_replay: line 11" 'list 2' 'config 64 64 32 2 1 64 1 1' 'hands 1' 'e 0 TakeSlabs' "$event" \
            'answer Ok' end
    done <<'ROWS'
f 0 GiveSlabs
e x GiveSlabs
e 0 giveslabs
e 0 GiveSlabs 0
e 0 Cut 0
e 0 Cut 0 0 0
e 0 Fill 0 0 0
e 0 Pop -1
e 0 Pop +1
e 0 Pop 18446744073709551616
e 0 GiveSlabs :
e 0 GiveSlabs : Grow
e 0 GiveSlabs : Grow 1,
e 0 GiveSlabs : Grow 1 Grow 1
e 0 GiveSlabs : Grow 1 : Grow 1
e 0 GiveSlabs : Passed Frobbed
e 0 GiveSlabs : BeginMove -2 0
e 0 : Grow 1
list 3
config 64 64 32 2 1 64 1 1
end
ROWS
}

# What is cut short is refused by the number of the line that isn't there.
check_cut_lists() {
    refuses "cut behind the first line" "mc_replay: line 8" 'list 2'
    refuses "cut behind the configuration" "mc_replay: line 9" 'list 2' 'config 64 64 32 2 1 64 1 1'
    refuses "cut behind the hands" "mc_replay: line 10" 'list 2' 'config 64 64 32 2 1 64 1 1' 'hands 1'
    refuses "cut behind an event" "mc_replay: line 11" 'list 2' 'config 64 64 32 2 1 64 1 1' 'hands 1' 'e 0 TakeSlabs'
    refuses "cut behind the answer" "mc_replay: line 11" 'list 2' 'config 64 64 32 2 1 64 1 1' 'hands 1' 'answer Ok'
    cp "$room/played" "$room/want"
    : >"$room/want-stderr"
    head -c -1 "$room/list" >"$room/lists"
    run_on "$room/lists"
    wants "a last line without an end" 0
    sed 's/$/\r/' "$room/list" >"$room/lists"
    run_on "$room/lists"
    wants "lines that end with CR LF" 0
    told
    run_on /dev/null
    wants "no list at all" 0
}

# Streams that fail.
check_replay_streams() {
    run_on "$room" # a directory opens, and can't be read
    told 'mc_replay: read'
    wants "a directory as standard input" 3
    if [ -c /dev/full ]; then
        timeout 60 "$program" <crates/mc_replay/stdin >/dev/full 2>"$room/stderr"
        status=$?
        : >"$room/stdout"
        told 'mc_replay: write'
        wants "a full device" 3
    fi
    # more than the program holds back and a pipe takes, of which the reader takes one byte
    for _ in 1 2 3 4 5 6 7 8 9 10; do cat crates/mc_replay/stdin; done >"$room/lists"
    { timeout 60 "$program" <"$room/lists" 2>"$room/stderr"; echo $? >"$room/status"; } | head -c 1 >"$room/first"
    status=$(cat "$room/status")
    : >"$room/stdout"
    told 'mc_replay: write'
    wants "a closed pipe" 3
}

check_replay() {
    find_builds mc_replay
    write_short_list
    for program in $builds; do
        build=$(basename "$program")
        if [ ! -x "$program" ]; then
            bad "$build" "it isn't built"
            continue
        fi
        check_refused_lines
        check_cut_lists
        check_replay_streams
    done
}

# The checks of the built program: statuses and streams, which no contract says. ci/test reads this file.
# `rt ci` leaves the program in crates/mcslab/out, as LLVM builds it and as Rattle's own compiler does.

# find_builds NAME: sets builds to those of the program that the gate left
find_builds() {
    builds=$gate/crates/$1/out/$1
    # not there where Rattle's own compiler can't build it, which rt ci says
    [ ! -e "$builds.by-rattle" ] || builds="$builds $builds.by-rattle"
}

# run_on INPUT ARGS..: runs the program, and leaves its status and what it wrote.
run_on() {
    input=$1
    shift
    timeout 60 "$program" "$@" <"$input" >"$room/stdout" 2>"$room/stderr"
    status=$?
}

# wants NAME STATUS: the last run ended so, and its streams are those of $room/want and $room/want-stderr.
wants() {
    name="$build: $1"
    if [ "$status" -ne "$2" ]; then
        bad "$name" "status $status in place of $2; standard error: $(head -c 300 "$room/stderr")"
    elif ! cmp -s "$room/want" "$room/stdout"; then
        bad "$name" "standard output: $(cmp "$room/want" "$room/stdout" 2>&1 | head -n 1); it begins: $(head -c 300 "$room/stdout")"
    elif ! cmp -s "$room/want-stderr" "$room/stderr"; then
        bad "$name" "standard error: $(head -c 300 "$room/stderr")"
    else
        ok "$name"
    fi
}

# told LINE: nothing on standard output, and this line on standard error (none: nothing)
told() {
    : >"$room/want"
    : >"$room/want-stderr"
    [ $# -eq 0 ] || printf '%s\n' "$1" >"$room/want-stderr"
}

# replies LINE..: these lines on standard output, each with CR LF, and nothing on standard error
replies() {
    printf '%s\r\n' "$@" >"$room/want"
    : >"$room/want-stderr"
}

check_examples() {
    for script in examples/*.txt; do
        base=${script%.txt}
        cp "$base.stdout" "$room/want"
        : >"$room/want-stderr"
        [ ! -f "$base.stderr" ] || cp "$base.stderr" "$room/want-stderr"
        wanted=0
        [ ! -f "$base.status" ] || wanted=$(cat "$base.status")
        run_on "$script"
        wants "example $(basename "$base")" "$wanted"
        [ ! -f "$base.threads" ] || check_in_threads "$script"
    done
}

# check_in_threads SCRIPT: an example with --threads. Beside it stands what is written, line for line, and where that depends on the
# schedule, each line that may be written, parted by ' | '.
check_in_threads() {
    name="$build: example $(basename "$1" .txt) in threads"
    run_on "$1" --threads
    wrong=$(awk '
        NR == FNR { may[FNR] = $0; lines = FNR; next }
        { written = FNR; line = $0; fits = 0; ends = sub(/\r$/, "", line); count = split(may[FNR], them, / [|] /) }
        { for (i = 1; i <= count; i++) if (them[i] == line && ends) fits = 1 }
        !fits && !wrong { wrong = FNR; print "line " FNR ": " line }
        END { if (!wrong && written != lines) print written + 0 " lines in place of " lines }' "${1%.txt}.threads" "$room/stdout")
    if [ "$status" -ne 0 ] || [ -s "$room/stderr" ]; then
        bad "$name" "status $status; standard error: $(head -c 300 "$room/stderr")"
    elif [ -n "$wrong" ]; then
        bad "$name" "$wrong"
    else
        ok "$name"
    fi
}

# Each refusal of a configuration by its number, in the order of the tests. The script is refused too, and isn't read.
check_configurations() {
    printf '1 frob\n' >"$room/refused"
    while read -r number arguments; do
        told "mcslab: config: $number"
        # shellcheck disable=SC2086
        run_on "$room/refused" $arguments
        wants "refused: $arguments" 1
    done <<'ROWS'
1 --page 7
1 --page 7 --first 0 --factor x
1 --page 16392
2 --first 23
2 --first 1025
2 --first 23 --factor x
3 --factor x
3 --factor 2
3 --factor 2/1/1
3 --factor 100000/1
3 --factor 1/1
3 --factor 2/0
3 --factor 65536/1
3 --factor /
4 --max 511
4 --max 40
4 --max 1032
5 --limit 1023
5 --limit 66560
6 --stripes 0
6 --stripes 65
7 --page 16384 --limit 65536
8 --bulk 0
8 --bulk 257
ROWS
}

# What the reader of options refuses. Its text isn't fixed, so only the stream and the status are looked at.
check_options() {
    while read -r arguments; do
        # shellcheck disable=SC2086
        run_on "$room/refused" $arguments
        if [ "$status" -eq 1 ] && [ ! -s "$room/stdout" ] && [ -s "$room/stderr" ] && ! grep -q '^mcslab: ' "$room/stderr"; then
            ok "$build: refused: $arguments"
        else
            bad "$build: refused: $arguments" "status $status; standard error: $(head -c 300 "$room/stderr")"
        fi
    done <<'ROWS'
--page
--page x
--page -1
--page 18446744073709551616
--page 1024 --page 1024
--automove 3
--automove x
--automove 18446744073709551616
--automove 1 --automove 1
--frob
more
ROWS
    run_on "$room/refused" --help
    # the options, the eight refusals, and the forms of lines
    if [ "$status" -eq 0 ] && grep -q -- '--stripes <' "$room/stdout" && grep -q '^  8  --bulk ' "$room/stdout" &&
        grep -q '^  reassign SRC DST ' "$room/stdout" && [ ! -s "$room/stderr" ]; then
        ok "$build: --help"
    else
        bad "$build: --help" "status $status; standard error: $(head -c 300 "$room/stderr")"
    fi
}

# Options that are taken show in the statistics.
check_taken() {
    printf '1 set 1 10 0\nstats slabs\n' >"$room/script"
    replies 'STORED 1' 'STAT 4:chunk_size 104' 'STAT 4:chunks_per_page 9' 'STAT 4:total_pages 1' \
        'STAT 4:total_chunks 9' 'STAT 4:used_chunks 1' 'STAT 4:free_chunks 8' 'STAT active_slabs 1' \
        'STAT total_malloced 1024' END
    run_on "$room/script" --factor 5/4
    wants "--factor 5/4" 0
    run_on "$room/script" --factor 00005/4
    wants "--factor 00005/4" 0
    replies 'STORED 1' 'STAT 1:chunk_size 512' 'STAT 1:chunks_per_page 2' 'STAT 1:total_pages 1' \
        'STAT 1:total_chunks 2' 'STAT 1:used_chunks 1' 'STAT 1:free_chunks 1' 'STAT active_slabs 1' \
        'STAT total_malloced 1024' END
    run_on "$room/script" --first 400
    wants "--first 400" 0
    replies 'TOO_LARGE 1' 'STAT active_slabs 0' 'STAT total_malloced 0' END
    run_on "$room/script" --max 96
    wants "--max 96" 0
    replies 'STORED 1' 'STAT 2:chunk_size 128' 'STAT 2:chunks_per_page 128' 'STAT 2:total_pages 1' \
        'STAT 2:total_chunks 128' 'STAT 2:used_chunks 1' 'STAT 2:free_chunks 127' 'STAT active_slabs 1' \
        'STAT total_malloced 16384' END
    run_on "$room/script" --page 16384 --limit 65536 --first 64 --stripes 64 --bulk 256
    wants "a page of 16384 bytes" 0
    {
        printf '1 set %s 61 0\n' 1 2 3 4 5 6
        printf '1 del %s\n' 1 2 3 4 5 6
        printf 'window\n'
    } >"$room/script"
    replies 'STORED 1' 'STORED 2' 'STORED 3' 'STORED 4' 'STORED 5' 'STORED 6' \
        'DELETED 1' 'DELETED 2' 'DELETED 3' 'DELETED 4' 'DELETED 5' 'DELETED 6' 'WINDOW 4 0 OK'
    run_on "$room/script" --automove 1
    wants "--automove 1" 0
    run_on "$room/script" --automove=01
    wants "--automove=01" 0
    head -c -15 "$room/want" >"$room/shorter"
    printf 'WINDOW none\r\n' | cat "$room/shorter" - >"$room/want"
    run_on "$room/script" --automove 2
    wants "--automove 2" 0
    printf '1 set 1 61 0\n1 set 2 61 0\n1 set 3 61 0\n1 get 1\n' >"$room/script"
    replies 'STORED 1' 'STORED 2' 'STORED 3' 'NOT_FOUND 1'
    run_on "$room/script" --limit 2047
    wants "--limit 2047 is one page" 0
}

# Scripts of no line, of the greatest length and one byte longer, and where the last line has no end.
check_lengths() {
    told
    run_on /dev/null
    wants "an empty script" 0
    head -c 1048576 /dev/zero | tr '\0' '#' >"$room/script"
    run_on "$room/script"
    wants "a comment of 1,048,576 bytes" 0
    printf '#' >>"$room/script"
    told 'mcslab: script: too long'
    run_on "$room/script"
    wants "a comment of 1,048,577 bytes" 2
    printf '1 frob\n' >"$room/long"
    cat "$room/script" >>"$room/long"
    run_on "$room/long"
    wants "too long is told before a bad line" 2
    told 'mcslab: script: line 2'
    printf '1 set 1 3 7\n1 se' >"$room/script"
    run_on "$room/script"
    wants "a last line that is cut off" 2
    replies 'NOT_FOUND 1' 'STAT active_slabs 0' 'STAT total_malloced 0' END
    printf '1 del 1\r\nstats slabs' >"$room/script"
    run_on "$room/script"
    wants "a last line without an end" 0
}

# Turns that run out while a held item holds up a move. What comes before is replied, and nothing more.
check_turns() {
    {
        printf '1 set %s 61 0\n' 1 2 3 4 5 6 7 8
        printf '1 hold 1\nreassign 4 1\nturn 1000000\nturn 1\n1 get 1\n'
    } >"$room/script"
    replies 'STORED 1' 'STORED 2' 'STORED 3' 'STORED 4' 'STORED 5' 'STORED 6' 'STORED 7' 'STORED 8' \
        'HELD 1' OK 'TURN WENT 1 0 1 1000000 0'
    echo 'mcslab: turns' >"$room/want-stderr"
    run_on "$room/script"
    wants "a turn more than 1,000,000" 5
}

# Streams that fail.
check_streams() {
    run_on "$room" # a directory opens, and can't be read
    told 'mcslab: read'
    wants "a directory as standard input" 3

    if [ -c /dev/full ]; then
        timeout 60 "$program" <examples/first-path.txt >/dev/full 2>"$room/stderr"
        status=$?
        : >"$room/stdout"
        told 'mcslab: write'
        wants "a full device" 3
        timeout 60 "$program" --help </dev/null >/dev/full 2>"$room/stderr"
        status=$?
        wants "a full device, --help" 3
    fi

    # a megabyte of replies, of which the reader takes one byte
    awk 'BEGIN { for (i = 0; i < 20000; i++) print "stats slabs" }' >"$room/script"
    { timeout 60 "$program" <"$room/script" 2>"$room/stderr"; echo $? >"$room/status"; } | head -c 1 >"$room/first"
    status=$(cat "$room/status")
    : >"$room/stdout"
    wants "a closed pipe" 3

    # a few bytes may be taken before the pipe is closed
    { timeout 60 "$program" <examples/first-path.txt 2>"$room/stderr"; echo $? >"$room/status"; } | head -c 1 >"$room/first"
    status=$(cat "$room/status")
    case $status in
    0 | 3) ok "$build: a pipe that is closed early" ;;
    *) bad "$build: a pipe that is closed early" "status $status; standard error: $(head -c 300 "$room/stderr")" ;;
    esac
}

# The statistics of a memory without moves and with pages of class 1 alone, told behind all replies: pages, chunks, used ones, bytes.
last_texts() {
    [ "$1" -eq 0 ] || printf 'STAT 1:%s\r\n' 'chunk_size 48' 'chunks_per_page 21' "total_pages $1" "total_chunks $2" "used_chunks $3" \
        "free_chunks $(($2 - $3))"
    printf '%s\r\n' "STAT active_slabs $1" "STAT total_malloced $4" END 'STAT slab_global_page_pool 0' 'STAT slab_reassign_running 0' \
        'STAT slabs_moved 0' 'STAT slab_reassign_rescues 0' 'STAT slab_reassign_evictions_nomem 0' 'STAT slab_reassign_busy_items 0' END
}

# What every schedule gives, and what ends a run in threads: nothing is written before all threads have ended.
check_threads() {
    told
    last_texts 0 0 0 0 >"$room/want"
    run_on /dev/null --threads
    wants "--threads, an empty script" 0
    awk 'BEGIN { for (i = 1; i <= 5; i++) for (w = 4; w >= 1; w--) print w, "set", 10 * w + i, 3, 7 }' >"$room/script"
    {
        printf 'STORED %s\r\n' 11 12 13 14 15 21 22 23 24 25 31 32 33 34 35 41 42 43 44 45
        last_texts 1 21 20 1024
    } >"$room/want"
    for _ in 1 2 3 4 5 6 7 8 9 10; do
        run_on "$room/script" --threads
        cmp -s "$room/want" "$room/stdout" || break
    done
    wants "--threads, four workers with keys of their own" 0
    printf '2 set 1 3 7\n1 frob 3\n' >"$room/script"
    told 'mcslab: script: line 2'
    run_on "$room/script" --threads
    wants "--threads, a bad line" 2
    told 'mcslab: config: 6'
    run_on "$room/script" --threads --stripes 0
    wants "--threads, a refused configuration" 1
    told 'mcslab: read'
    run_on "$room" --threads
    wants "--threads, a directory as standard input" 3
    : >"$room/stdout"
    told 'mcslab: write'
    if [ -c /dev/full ]; then
        timeout 60 "$program" --threads <examples/two-workers.txt >/dev/full 2>"$room/stderr"
        status=$?
        wants "--threads, a full device" 3
    fi
    awk 'BEGIN { for (i = 0; i < 20000; i++) print "stats slabs" }' >"$room/script"
    { timeout 60 "$program" --threads <"$room/script" 2>"$room/stderr"; echo $? >"$room/status"; } | head -c 1 >"$room/first"
    status=$(cat "$room/status")
    wants "--threads, a closed pipe" 3
}

# Drawn scripts, always the same, of which the program writes what the plain one does.
check_drawn() {
    if python3 bench/compare --scripts 200 --lines 600 --seed 3001 --bytes 60000 --program "$program" --keep "$room/differences" \
        >"$room/compared" 2>&1; then
        ok "$build: as the plain program: $(head -n 1 "$room/compared")"
    else
        bad "$build: not as the plain program" "$(head -c 600 "$room/compared")"
    fi
}

# What mcmap shows of examples stands beside them, as .map, .json and .classes, and in docs/, as .svg. Readers of XML and of JSON take them.
check_maps() {
    for stored in examples/*.map examples/*.json examples/*.classes docs/*.svg; do
        case $stored in *.svg) view=--svg ;; *.json) view=--json ;; *.classes) view=--classes ;; *) view= ;; esac
        cp "$stored" "$room/want"
        : >"$room/want-stderr"
        # shellcheck disable=SC2086
        run_on "examples/$(basename "${stored%.*}").txt" $view
        wants "$stored" 0
    done
    if python3 -c 'import sys, xml.dom.minidom as x; [x.parse(p) for p in sys.argv[1:]]' docs/*.svg 2>"$room/stderr"; then
        ok "$build: the charts are well-formed"
    else
        bad "$build: the charts are well-formed" "$(tail -n 1 "$room/stderr")"
    fi
    if python3 -c 'import sys, json; [json.loads(line) for p in sys.argv[1:] for line in open(p)]' examples/*.json 2>"$room/stderr"; then
        ok "$build: the maps are JSON, one in a line"
    else
        bad "$build: the maps are JSON, one in a line" "$(tail -n 1 "$room/stderr")"
    fi
    run_on /dev/null --help --json # the help goes before another view
    if [ "$status" -eq 0 ] && grep -q -- '--classes' "$room/stdout" && [ ! -s "$room/stderr" ]; then
        ok "$build: --help"
    else
        bad "$build: --help" "status $status; standard error: $(head -c 300 "$room/stderr")"
    fi
}

# What a browser shows of the page of an example stands beside the example, as .seen: its text at each place of the slider.
check_pages() {
    for stored in examples/*.seen; do
        run_on "examples/$(basename "${stored%.*}").txt" --html
        cp "$room/stdout" "$room/page.html"
        python3 ci/page "$room/page.html" "$room/page.png" >"$room/seen" 2>"$room/stderr"
        case $? in
        0)
            if cmp -s "$stored" "$room/seen"; then
                ok "$build: $stored"
            else
                bad "$build: $stored" "$(diff "$stored" "$room/seen" | head -n 5)"
            fi
            ;;
        3) ok "$build: $stored, which nobody read, as there is no Chromium" ;;
        *) bad "$build: $stored" "$(head -c 300 "$room/stderr")" ;;
        esac
    done
}

# What mcmap refuses. The script is refused, too, and isn't read where the options are.
check_map_refusals() {
    printf '1 set 1 3 7\n1 frob\n' >"$room/script"
    while read -r wanted line arguments; do
        told "mcmap: $(echo "$line" | tr _ ' ')"
        # shellcheck disable=SC2086
        run_on "$room/script" $arguments
        wants "refused: $arguments" "$wanted"
    done <<'ROWS'
2 script:_line_2;_mcmap_--check_prints_why
2 script:_line_2;_mcmap_--check_prints_why --svg
2 script:_line_2;_mcmap_--check_prints_why --json
1 config:_3;_mcmap_--check_prints_why --factor 1.25
1 config:_3;_mcmap_--check_prints_why --svg --factor 1.25
1 config:_3;_mcmap_--check_prints_why --classes --factor 1.25
1 config:_6;_mcmap_--check_prints_why --stripes 0
1 one_of_--json,_--svg,_--html,_--classes_and_--check_at_a_time --json --svg
1 one_of_--json,_--svg,_--html,_--classes_and_--check_at_a_time --check --page 7 --classes
1 one_of_--json,_--svg,_--html,_--classes_and_--check_at_a_time --check --check
1 --threads:_a_map_is_of_one_thread;_mcslab_has_threads --threads
ROWS
    for arguments in '--page x' '--frob' 'more'; do
        # shellcheck disable=SC2086
        run_on "$room/script" $arguments
        if [ "$status" -eq 1 ] && [ ! -s "$room/stdout" ] && grep -q '^mcmap: error' "$room/stderr"; then
            ok "$build: refused: $arguments"
        else
            bad "$build: refused: $arguments" "status $status; standard error: $(head -c 300 "$room/stderr")"
        fi
    done
    head -c 1048577 /dev/zero | tr '\0' '#' >"$room/script"
    for view in '' --svg --check; do
        told 'mcmap: script: too long'
        # shellcheck disable=SC2086
        run_on "$room/script" $view
        wants "a comment of 1,048,577 bytes $view" 2
    done
    { sed '/^stats/d' examples/how-a-page-moves.txt; printf 'reassign 4 1\n1 hold 3\n%s\nturn 1\n' 'turn 1000000'; } >"$room/script"
    sed '/^map at the end/,$d' examples/how-a-page-moves.map >"$room/want"
    echo 'mcmap: turns' >"$room/want-stderr"
    run_on "$room/script"
    wants "a turn more than 1,000,000, behind a map" 5
    { printf '1 set 1 3 7\n'; yes "$(printf '# map\n1 get 1')" | head -n 1002; } >"$room/script.moments"
    told 'mcmap: --html: more than 500 moments'
    run_on "$room/script.moments" --html
    wants "501 moments --html" 1
    told 'mcmap: turns'
    run_on "$room/script" --svg
    wants "a turn more than 1,000,000 --svg" 5
}

# What --check says: of options and of a script that are right, of each kind of wrong line, and of options.
check_words() {
    told
    echo 'nothing is wrong' >"$room/want"
    run_on examples/how-a-page-moves.txt --check
    wants "--check" 0
    cat >"$room/script" <<'ROWS'
# each line but this one and the next is wrong
1 get 1
0 get 1
64 set 1 3 7
1 set x 3 7
1 set 1 4097 7
1 set 1 3 -7
1 set 1 3
1 hold
reassign 4
reassign 4 x
reassign x 1
automove 3
turn 0
window 1
stats items
1 frob 1
frob
turn 5 6
automove
1 gett	x
ROWS
    cat >"$room/want" <<'ROWS'
line 3: "0" is no worker: it is 1 to 63
line 4: "64" is no worker: it is 1 to 63
line 5: "x" is no key: it is a number below 2^64
line 6: "4097" is no count of words: an item has 0 to 4096
line 7: "-7" is no base: it is a number below 2^64
line 8: "set" has a key, a count of words and a base: <worker> set <key> <n> <base>
line 9: "hold" has one key, as get, del, hold, drop and touch have
line 10: "reassign" has two classes: reassign <src> <dst>
line 11: "x" is no destination: it is a class, or 0 for the pool
line 12: "x" is no source: it is a class, or -1 for any
line 13: "3" is no mode: automove <mode> has 0, 1 or 2
line 14: "0" is no count of turns: turn <n> has 1 to 1000000
line 15: "1" is too much: window is alone
line 16: "items" is no statistic: it is stats or stats slabs
line 17: "frob" is no command of a worker: it is set, get, del, hold, drop or touch
line 18: "frob" is no command: it is a worker with set, get, del, hold, drop or touch, or reassign, automove, window, turn or stats
line 19: "6" is too much: it has one number
line 20: "automove" has a number behind it
line 21: "gett?x" is no command of a worker: it is set, get, del, hold, drop or touch
ROWS
    echo 'mcmap: 19 lines of the script are wrong' >"$room/want-stderr"
    run_on "$room/script" --check
    wants "--check of each kind of wrong line" 2
    echo 'mcmap: the options are wrong' >"$room/want-stderr"
    while read -r line arguments; do
        echo "$line" | tr _ ' ' >"$room/want"
        # shellcheck disable=SC2086
        run_on "$room/script" --check $arguments
        wants "--check $arguments" 1
    done <<'ROWS'
--factor:_1.25_isn't_NUM/DEN;_write_5/4 --factor 1.25
--factor:_2_isn't_NUM/DEN;_write_2/1 --factor=2
--factor:_1.0625_isn't_NUM/DEN;_write_17/16 --factor 1.0625
--factor:_x_isn't_NUM/DEN --factor x
--factor:_.5_isn't_NUM/DEN --factor .5
--factor:_1:_the_growth_factor_must_be_above_1,_with_a_numerator_of_at_most_65535 --factor 1/1
--page:_7:_the_page_size_must_be_a_multiple_of_8_from_64_to_16384_bytes --page 7
--first:_23:_the_first_size_must_be_from_24_bytes_to_the_page_size --first 23
--max:_511:_the_greatest_size_must_be_a_multiple_of_8_from_the_first_size_to_the_page_size --max 511
--limit:_1023:_the_limit_must_have_room_for_1_to_64_pages --limit 1023
--stripes:_65:_the_number_of_stripes_must_be_from_1_to_64 --stripes 65
--bulk:_0:_the_number_of_chunks_a_turn_must_be_from_1_to_256 --bulk 0
ROWS
}

# Streams of mcmap that fail.
check_map_streams() {
    for view in '' --svg --check; do
        told 'mcmap: read'
        # shellcheck disable=SC2086
        run_on "$room" $view
        wants "a directory as standard input $view" 3
    done
    if [ -c /dev/full ]; then
        for view in '' --json --svg --html --classes --check --help; do
            told 'mcmap: write'
            # shellcheck disable=SC2086
            timeout 60 "$program" $view <examples/how-a-page-moves.txt >/dev/full 2>"$room/stderr"
            status=$?
            : >"$room/stdout"
            wants "a full device $view" 3
        done
    fi
    told 'mcmap: write'
    awk 'BEGIN { for (i = 0; i < 2000; i++) print "# map" }' >"$room/script"
    { timeout 60 "$program" <"$room/script" 2>"$room/stderr"; echo $? >"$room/status"; } | head -c 1 >"$room/first"
    status=$(cat "$room/status")
    wants "a closed pipe" 3
}

check_program() {
    find_builds mcslab
    for program in $builds; do
        build=$(basename "$program")
        if [ ! -x "$program" ]; then
            bad "$build" "it isn't built"
            continue
        fi
        check_examples
        check_configurations
        check_options
        check_taken
        check_lengths
        check_turns
        check_streams
        check_threads
        check_drawn
    done
    find_builds mcmap
    for program in $builds; do
        build=$(basename "$program")
        if [ ! -x "$program" ]; then
            bad "$build" "it isn't built"
            continue
        fi
        check_maps
        check_pages
        check_map_refusals
        check_words
        check_map_streams
    done
}

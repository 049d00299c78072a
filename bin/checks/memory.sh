# Checks of what the program does with too little memory: in less and less address space, and with each of its allocations refused. They
# stand in a file of their own, which bin/test reads.

# --- In less and less address space

# in_kilobytes KILOBYTES WORD..: runs the program in KILOBYTES of address space; the shell, which may have long words to pass, has no limit.
in_kilobytes() { prlimit --as=$(($1 * 1024)) "$program" "${@:2}"; }
in_50_megabytes() { in_kilobytes 51200 "$@"; }

# whole_or_none FROM STEP FILE WORD..: runs the program with FILE in FROM KB of address space, and in STEP KB less each time, until it can no
# longer be loaded. It ends as it does with ample memory; or prints nothing, and says that memory ran out, or that there is no device. If the
# stack has no room to grow, the kernel ends it (139). Sets how often each came: `whole`, `short`, `lacking`, `stackless`.
whole_or_none() {
    local kilobytes from=$1 step=$2 file=$3 wanted what
    shift 3
    what="'${*//${zeros-0..0}/0..0}'"
    whole=0 short=0 lacking=0 stackless=0
    run "$@" <"$file"
    wanted=$status$output$errors
    for ((kilobytes = from; kilobytes > 0; kilobytes -= step)); do
        keep in_kilobytes "$kilobytes" "$@" <"$file"
        case $status in
            127) break ;;
            139) [ -z "$output" ] || fail "$what in $kilobytes KB: no stack, and $output"; stackless=$((stackless + 1)) ;;
            3) short=$((short + 1)); ends "$what in $kilobytes KB" 3 '' $'memory\n' ;;
            *)
                if [ "$status$output$errors" = "$wanted" ]; then
                    whole=$((whole + 1))
                else
                    lacking=$((lacking + 1))
                    ends "$what in $kilobytes KB" 4 '' $'device\n'
                fi
                ;;
        esac
    done
}

# comes_short FROM STEP FILE WORD..: the same. It is whole at some sizes, short of memory at others, and without a stack at four at most.
comes_short() {
    whole_or_none "$@"
    if [ "$whole" -gt 0 ] && [ "$short" -gt 0 ] && [ "$stackless" -le "${most_stackless-4}" ]; then pass; else
        fail "${*:4:1} in less and less memory: $whole times whole, $short times out of memory, $stackless without a stack"
    fi
    echo "${*:4:1}: in $whole sizes whole, in $short out of memory, in $stackless without a stack"
}

# A lesson of 512 updates, 200 names in turn. Command lines that are taken, also by a program that finds no device, or no memory for a thread,
# and others, which are refused as such, with a text, if there is memory for clap to read them. The numbers have 100,000 zeros in front, so
# that at some sizes there is memory for the words and none for clap.
words_in_less_and_less() {
    local port zeros words
    echo 'table 3 st string 33 30000 server_key' >"$scene"
    awk 'BEGIN { for (i = 0; i < 512; i++) printf "update 3 %d 30000 =k n%03d\n", i + 1, i % 200 }' >>"$scene"
    comes_short 8192 16 "$scene" lesson
    port=$(free_port)
    zeros=$(repeat 100000 0)
    for words in "round --threads=2 --tracks=${zeros}3" "round --tracks ${zeros}3 --threads=2 --" 'lesson --' \
        "join --turns=${zeros}5 --port=$port --name=a --peer=b" "join --peer - --name=--x --port $port --turns ${zeros}5 --"; do
        whole_or_none 4608 16 examples/two-updates.scene $words
        if [ "$short" -gt 0 ] && [ "$stackless" -le 4 ]; then pass; else
            fail "'${words//$zeros/0..0}' in less and less memory: $short times out of memory, $stackless without a stack"
        fi
    done
    for words in "round --threads=2 --tracks=${zeros}3 --tracks=3" "round --threads=9 --tracks=${zeros}3" \
        "join --turns=${zeros}5 --port=$port --name= --peer=b" "serve --turns=${zeros}5 --port=$port --name a"; do
        run $words <examples/two-updates.scene
        ends "'${words//$zeros/0..0}'" 2 '' "$errors"
        [ -n "$errors" ] || fail "'${words//$zeros/0..0}': standard error is empty"
        most_stackless=0 comes_short 4608 16 examples/two-updates.scene $words
    done
}

# long_keys COUNT: prints that many updates of a table `t1` of string keys with 8,180 bytes each.
long_keys() {
    awk -v count="$1" 'BEGIN {
        for (i = 0; i < 8180; i++) long = long "k"
        print "table 1 t1 string 8192 0 gpc0"
        for (i = 1; i <= count; i++) print "update 1 " i " 0 =" long i " 5"
    }'
}

subcommands_in_less_and_less() {
    long_keys 256 >"$scene"
    cp "$scene" "$scratch/long"
    comes_short 81920 2048 "$scene" lesson
    run lesson <"$scene"
    sed -n 's/^[0-9A-F]*$/stream &/p' "$scratch/output" >"$scratch/streams"
    cat "$scratch/streams" >>"$scratch/long"
    comes_short 81920 2048 "$scratch/long" check
    { head -n 1 "$scene"; echo 'moment 4294967296'; cat "$scratch/streams"; } >"$scratch/learned"
    comes_short 81920 2048 "$scratch/learned" learn
    { printf '%s\n' 'table 1 t1 integer 4 30000 gpc0' 'open 1'
        repeat_lines 20000 'track 0 4294967296 %d add gpc0 1'
        printf '%s\n' 'copy 1 push 512 4294967296' 'ack 1 512' events; } >"$scene"
    comes_short 81920 2048 "$scene" table
    { printf '%s\n' 'table 1 t1 integer 4 30000 gpc0'
        repeat_lines 20000 'track 1 4294967296 %d add gpc0 1'
        printf '%s\n' 'copy 1 1 push 512 4294967296' 'teach 1' 'deliver 1 learner 100 4294967296' 'session 1' 'events 1'; } >"$scene"
    comes_short 81920 2048 "$scene" world
    { printf 'node a\nlisten 10.0.0.5:10000\ntable 1 t1 integer 4 0\n'; repeat 8000000 '#'; echo; } >"$scene"
    comes_short 81920 2048 "$scene" run --check
}

# A round in 2 MB less each time: it is whole, no thread can be started, or memory runs out. The first two come.
round_in_less_and_less() {
    local whole short lacking stackless
    whole_or_none 131072 2048 /dev/null round --threads 2 --tracks 3
    if [ "$whole" -gt 0 ] && [ "$lacking" -gt 0 ] && [ "$stackless" -eq 0 ]; then pass; else
        fail "a round in less and less memory: $whole whole, $lacking without a thread, $stackless without a stack"
    fi
}

# least_kilobytes WORD..: prints the address space, in KB, in which the program can do what these words ask for, to 64 KB. With one arena, since
# the C library reserves 64 MB of address space for each.
least_kilobytes() {
    local low=0 high=262144 middle
    while [ $((high - low)) -gt 64 ]; do
        middle=$(((low + high) / 2))
        if MALLOC_ARENA_MAX=1 in_kilobytes "$middle" "$@" >"$scratch/output" 2>&1; then high=$middle; else low=$middle; fi
    done
    echo "$high"
}

# 8,000 changes of eight rows in each round, with which their events go: the rows keep their slots, and the log of their numbers is swept.
# Unswept, it would take 3 MB more in the longer run.
changes_in_the_same_memory() {
    local few many
    few=$(least_kilobytes round --threads 8 --tracks 1000 --rounds 4)
    many=$(least_kilobytes round --threads 8 --tracks 1000 --rounds 54)
    if [ "$few" -lt 262144 ] && [ $((many - few)) -le 1024 ]; then pass; else fail "432,000 changes of 8 rows take $many KB of address space, 32,000 take $few"; fi
    echo "8 rows: 32,000 changes in $few KB, 432,000 in $many KB"
}

memory() {
    local subcommand
    repeat 100000000 '#' >"$scene"
    for subcommand in lesson check learn table world; do
        keep in_50_megabytes "$subcommand" <"$scene"
        ends "$subcommand of a scene of 100 MB in 50 MB" 3 '' $'memory\n'
    done
    for subcommand in serve join; do
        keep in_50_megabytes "$subcommand" --turns 1 --port "$(free_port)" --name b --peer a <"$scene"
        ends "$subcommand of a scene of 100 MB in 50 MB" 3 '' $'memory\n'
    done
    keep in_50_megabytes learn <examples/learner-acks.scene
    slurp examples/learner-acks.learn
    ends 'learn of a short scene in 50 MB' 0 "$text" ''
    words_in_less_and_less
    subcommands_in_less_and_less
    changes_in_the_same_memory
    counted bin/checks/nodes.py memory
}

# --- Each allocation refused in turn

# refuses_each FILE WORD..: the program with FILE, once for each of its allocations, which is refused, and again with all that come after it.
refuses_each() {
    local option file=$1
    shift
    for option in '' --all; do
        keep bin/checks/refusing.py $option program "$program" "$@" <"$file"
        if [ "$status" -eq 0 ]; then pass; else fail "$*: an allocation refused"; fi
        printf '%s' "$output$errors"
    done
}

# refused_node serve|join|rejoin FILE: the same of a node with a far side, which is in refusing.py; that of `rejoin` refuses the version of the
# first hello.
refused_node() {
    local option
    for option in '' --all; do
        keep bin/checks/refusing.py $option "$1" "$program" "$2"
        if [ "$status" -eq 0 ]; then pass; else fail "$1: an allocation refused"; fi
        printf '%s' "$output$errors"
    done
}

# meets CRATE TEST OPTION CALL..: a test of a crate of tests, as the gate built it, once for each of its allocations, which is refused; with
# the option --all, so are all that come after it. It passes each time, and memory runs out for each of the calls, which are in order by name.
meets() {
    local tests=crates/$1/out/$1_tests name="$1, $2" met wanted
    if ! { [ -x "$tests" ] && "$tests" --list | grep -qx "growth::$2: test"; }; then
        if [ "$scenes_only" = true ]; then echo "$name: not tried, since it is not built"; else fail "$name: $tests has no such test"; fi
        return
    fi
    wanted=$(printf '%s\n' "${@:4}")
    keep bin/checks/refusing.py $3 tests "$tests" "growth::$2"
    met=$(sed -n 's/^memory ran out for \(.*\): [1-9][0-9]*$/\1/p' "$scratch/output")
    if [ "$status" -eq 0 ] && [ "$met" = "$wanted" ]; then pass; else fail "$name: memory ran out for other calls"; fi
    printf '%s' "$output$errors"
}

refused_calls() {
    meets tests_tables calls_again '' ack 'ack of a wide row' close copy 'copy of a wide row' learn 'learn of a wide row' open \
        'open of a fifth session' purge track 'track in a full table' 'track in a full table of wide rows' 'track of a row that is there' \
        'track of a wide row' 'track of a wide row that is there'
    meets tests_tables tracks_from_a_seat_again '' held::track
    meets tests_tables copies_from_a_seat_again '' held::copy
    meets tests_tables unlocks_again '' unlock
    meets tests_tables begins_another_round_again '' next_round
    meets tests_tables answers_without_memory --all 'settle, track, slide, checkpoint, held::begin_anew and take all the same'
    meets tests_data plans_again '' plan
    meets tests_data plans_by_adding_again '' 'plan by adding'
    meets tests_data teaches_again '' teach
    meets tests_data closes_a_learner '' feed
    meets tests_data answers_without_memory --all 'row, feed and check_plan all the same'
}

refused_growth() {
    refused_calls
    refuses_each examples/two-updates.scene lesson
    refuses_each examples/one-name-twice.scene lesson
    refuses_each examples/verdicts/one-name-twice.scene check
    refuses_each examples/learner-in-pieces.scene learn
    refuses_each examples/scripts/cell-copy-ack.script table
    refuses_each examples/worlds/world-one-session.script world
    printf 'node a\nlisten 10.0.0.5:10000\npeer b 10.0.0.6:10000\ntable 1 t1 integer 4 0\n' >"$scene"
    refuses_each "$scene" run --check
    refuses_each /dev/null round --threads 2 --tracks 3
    refused_node serve examples/two-updates.scene
    refused_node join examples/two-updates.scene
    refused_node rejoin examples/two-updates.scene
}

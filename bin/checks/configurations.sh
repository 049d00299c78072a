# Checks of `run --check`. They stand in a file of their own, which bin/test reads.

# checked_is ANSWER WHAT: ANSWER is `taken`, maybe with warnings, or how the lines begin that say why `run --check` refuses the
# configuration in $scene. Warnings may stand behind these.
checked_is() {
    local heads warned
    run run --check <"$scene"
    case $1 in
        taken)
            ends "run --check of $2" 0 '' "$errors"
            if LC_ALL=C grep -Evq '^(line [1-9][0-9]*|configuration): warning: [ -~]+$' "$scratch/errors"; then
                fail "run --check of $2: it is taken, but standard error is:"
                head -c 2000 "$scratch/errors" | cat -v
            else
                pass
            fi
            ;;
        *)
            ends "run --check of $2" 1 '' "$errors"
            heads=$(sed -E '/^[a-z0-9 ]+: warning: /Q; s/: .*//' "$scratch/errors" | paste -sd, | sed 's/,/, /g')
            warned=$(sed -E '1,/^[a-z0-9 ]+: warning: /d; /^[a-z0-9 ]+: warning: /d' "$scratch/errors")
            if [ "$heads" = "$1" ] && [ -z "$warned" ] && ! LC_ALL=C grep -q '[^ -~]' "$scratch/errors"; then
                pass
            else
                fail "run --check of $2: $1 is refused, but standard error is:"
                head -c 2000 "$scratch/errors" | cat -v
            fi
            ;;
    esac
}

short_configurations() {
    local begin= answer lines
    while IFS=$'\t' read -r answer lines; do
        case $answer in
            '' | '#'*) continue ;;
            begin) begin=${lines#-}; continue ;;
        esac
        [ "$lines" != - ] || lines=
        printf '%b' "$begin$lines" >"$scene"
        checked_is "$answer" "$begin$lines"
    done <examples/configuration-lines.tsv
}

# Each of these files is a configuration, or begins one, with the sentences that it gets behind `#! `.
mistakes() {
    local name
    for name in examples/mistakes/*.conf; do
        run run --check <"$name"
        ends "run --check of $name" 1 '' "$(sed -n 's/^#! //p' "$name")"$'\n'
    done
}

# What is legal and surely meant otherwise, with the sentences that it gets. The node itself says nothing of it.
warnings() {
    local name
    for name in examples/warnings/*.conf; do
        run run --check <"$name"
        sed -n 's/^#! //p' "$name" >"$scratch/warnings"
        slurp "$scratch/warnings"
        ends "run --check of $name" 0 '' "$text"
    done
}

# Limits that take long configurations: 15 peers, 64 tables, names of 255 bytes.
long_configurations() {
    local needed=$'node a\nlisten 10.0.0.5:10000\ntable 1 t1 integer 4 0\n' longest
    { printf '%s' "$needed"; repeat_lines 15 'peer b%d'; } >"$scene"
    checked_is taken '15 peers'
    { printf '%s' "$needed"; repeat_lines 16 'peer b%d'; } >"$scene"
    checked_is 'line 19' '16 peers'
    { printf '%s' "$needed"; repeat_lines 63 'table 2%d u%d integer 4 0'; } >"$scene"
    checked_is taken '64 tables'
    { printf '%s' "$needed"; repeat_lines 64 'table 2%d u%d integer 4 0'; } >"$scene"
    checked_is 'line 67' '65 tables'
    { printf '%s' "$needed"; repeat_lines 64 'table 2%d u%d integer 5 0'; } >"$scene"
    checked_is "$(printf ', line %d' {4..23} | cut -c3-)" '64 refused tables: 20 faults'
    printf '%s\n' {a..s} >"$scene"
    checked_is "$(printf 'line %d, ' {1..19})configuration" '19 refused lines, and three that lack'
    longest=$(repeat 255 n)
    { printf '%s' "$needed"; printf 'peer %s\nsection %s\ntable 2 %s integer 4 0\n' "$longest" "$longest" "$longest"; } >"$scene"
    checked_is taken 'names of 255 bytes'
    { printf '%s' "$needed"; printf 'peer %sn\n' "$longest"; } >"$scene"
    checked_is 'line 4' 'a peer with a name of 256 bytes'
    { printf '%s' "$needed"; printf 'section %sn\n' "$longest"; } >"$scene"
    checked_is 'line 4' 'a section with a name of 256 bytes'
    { printf 'node %sn\nlisten 10.0.0.5:10000\ntable 1 t1 integer 4 0\n' "$longest"; } >"$scene"
    checked_is 'line 1' 'a node with a name of 256 bytes'
}

# Standard input that can't be read, standard error that can't be written, and too little memory.
configuration_devices() {
    run run --check </
    ends 'run --check: standard input is a directory' 4 '' $'configuration: Is a directory\n'
    run run --check <&-
    ends 'run --check: standard input is closed' 4 '' $'configuration: Bad file descriptor\n'
    run run </
    ends 'run: standard input is a directory' 4 '' $'configuration: Is a directory\n'
    run run <&-
    ends 'run: standard input is closed' 4 '' $'configuration: Bad file descriptor\n'
    keep errors_are_full run --check </dev/null
    ends 'run --check: standard error is full' 4 '' ''
    repeat 100000000 '#' >"$scene"
    keep in_50_megabytes run --check <"$scene"
    ends 'run --check of a configuration of 100 MB in 50 MB' 3 '' $'memory\n'
}

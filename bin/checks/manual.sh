# Checks of the manual page of `run`, of the configurations that it shows, of the unit, and of the alerts. They stand in a file of their
# own, which bin/test reads. What can't be checked here is said, and not counted; with DIGBARO_ALL_CHECKS=1 it fails.

page=docs/peers_node.8

# has COMMAND WHAT: whether the command is there. If not, says that WHAT isn't checked.
has() {
    command -v "$1" >/dev/null && return
    if [ "${DIGBARO_ALL_CHECKS-}" = 1 ]; then fail "no $1 for $2"; else echo "skipped: no $1 for $2"; fi
    return 1
}

# shown FIRST: prints the literal text of the page that begins with this line.
shown() {
    awk -v first="$1" '/^\.Bd/ { text = ""; inside = 1; next }
        /^\.Ed/ { if (inside && index(text, first) == 1) printf "%s", text; inside = 0; next }
        inside { text = text $0 "\n" }' "$page"
}

page_is_sound() {
    local title
    keep man --warnings=w -l "$page"
    ends 'man -l of the manual page' 0 "$output" ''
    for title in NAME SYNOPSIS DESCRIPTION CONFIGURATION ADMIN HTTP METRICS 'EXIT STATUS' "WHAT ISN'T SHARED" 'WHAT MAY BE LOST' SECURITY \
        EXAMPLES; do
        if grep -q "^$title" "$scratch/output"; then pass; else fail "the manual page has no $title"; fi
    done
}

# A frontend and defaults, which the fragment in the page leaves out.
haproxy_takes_it() {
    { printf 'global\n    localpeer lb1\ndefaults\n    mode http\n    timeout connect 1s\n    timeout client 1s\n    timeout server 1s\n'
        shown 'peers mesh'; } >"$scratch/haproxy.cfg"
    keep haproxy -c -f "$scratch/haproxy.cfg"
    ends 'haproxy -c of the configuration in the manual page' 0 "$output" "$errors"
}

# The unit, with another program that is there in place of the one that it starts.
unit_is_sound() {
    local line
    for line in Restart=always StartLimitIntervalSec=0; do
        if grep -qx "$line" dist/digbaro.service; then pass; else fail "the unit has no line $line, so it may give up"; fi
    done
    sed 's|/usr/bin/peers_node|/bin/true|' dist/digbaro.service >"$scratch/digbaro.service"
    keep systemd-analyze verify --man=no "$scratch/digbaro.service"
    ends 'systemd-analyze verify of the unit' 0 '' ''
    keep systemd-analyze security --no-pager --offline=true --threshold=15 "$scratch/digbaro.service"
    ends 'systemd-analyze security of the unit, which is to be 1.5 at most' 0 "$output" ''
}

# Each alert is raised and is silent as the test of the rules says, and names only metrics that docs/FORMATS.md has.
alerts_are_sound() {
    local name
    keep promtool check rules dist/digbaro.rules.yml
    ends 'promtool check rules' 0 "$output" "$errors"
    keep promtool test rules dist/digbaro.rules.test.yml
    ends 'promtool test rules' 0 "$output" "$errors"
    for name in $(grep -o '\(digbaro\|haproxy\)_[a-z_]*' dist/digbaro.rules.yml | sort -u); do
        if grep -q "\`$name[\`{]" docs/FORMATS.md; then pass; else fail "docs/FORMATS.md has no metric $name, of which an alert speaks"; fi
    done
}

# 9100 is the port of Prometheus's node_exporter.
no_port_of_another() {
    if grep -nrw -e 9100 README.md docs dist examples/mistakes examples/warnings; then fail 'an example has port 9100'; else pass; fi
}

manual() {
    no_port_of_another
    shown 'node node' >"$scene"
    if [ -s "$scene" ]; then checked_is taken 'the configuration in the manual page'; else fail 'the manual page shows no configuration'; fi
    ! has man 'the manual page' || page_is_sound
    ! has haproxy 'the configuration in the manual page' || haproxy_takes_it
    ! has systemd-analyze 'the unit' || unit_is_sound
    ! has promtool 'the alerts' || alerts_are_sound
}

# Sourced by build.sh: runs a command that proves crates and says on standard error how far it is. `rt` takes them one after the other, and it goes by what
# that leaves: in crates/NAME/out it makes rlib anew when it begins with a crate that has something to prove, and rlib/stamp when that is proved.

# plan NAME: the crates that NAME stands on, one to a line, and NAME at the end.
plan() {
    NAME=$1 awk -F: '
        function visit(name,    used, at, count) {
            if (!(name in uses) || name in seen) return
            seen[name]
            count = split(uses[name], used, " ")
            for (at = 1; at <= count; at++) visit(used[at])
            print name
        }
        { sub(/#.*/, "") }
        NF > 1 { sub(/^[ \t]+/, "", $1); sub(/[ \t].*/, "", $1); uses[$1] = $2 }
        END { visit(ENVIRON["NAME"]) }' "$root/crates.txt"
}

# Whether standard error is a terminal that can rewrite a line.
rewritable() { [ -t 2 ] && [ "${TERM:-dumb}" != dumb ]; }

# rewrite [TEXT]: puts TEXT, or nothing, in the place of a terminal's line.
rewrite() { if rewritable; then printf '\r%s\033[K' "${1:-}" >&2; fi; }

# How long the command has been running.
elapsed() {
    seconds=$(($(date +%s) - began))
    if [ "$seconds" -lt 60 ]; then echo "$seconds s"; else echo "$((seconds / 60)) min $((seconds % 60)) s"; fi
}

# numbered TEXT: TEXT between how many crates are proved of how many, and the time.
numbered() { printf "[%${#total}d/%d] %s, %s" "$count" "$total" "$1" "$(elapsed)"; }

# finish NAME: counts the crate. Where lines stay it gets one, unless it was proved before.
finish() {
    finished="$finished$1 " count=$((count + 1))
    if ! rewritable && [ -n "$(find "$root/crates/$1/out" -maxdepth 0 -newer "$mark" 2>/dev/null)" ]; then
        printf '%s\n' "$(numbered "$1")" >&2
    fi
}

# Finishes the crates that are proved by now, with all before the last that was begun; `now` has that one if it isn't proved, `next` the first of the others.
look() {
    begun=$(find "$root/crates" -mindepth 2 -maxdepth 2 -name out -newer "$mark" 2>/dev/null)
    stamped=$(find "$root/crates" -mindepth 4 -maxdepth 4 -path '*/out/rlib/stamp' -cnewer "$mark" 2>/dev/null)
    last=''
    for crate in $plan; do
        case $begun$stamped in *"/crates/$crate/out"*) last=$crate ;; esac
    done
    now='' next=''
    for crate in $plan; do
        case $finished in *" $crate "*) [ "$crate" != "$last" ] || last=''; continue ;; esac
        if [ -z "$last" ]; then
            next=${next:-$crate}
        elif [ "$crate" != "$last" ]; then
            finish "$crate"
        else
            last=''
            case $stamped in *"/crates/$crate/out/rlib/stamp"*) finish "$crate" ;; *) now=$crate ;; esac
        fi
    done
}

# Says what is waited for. Between two crates that is the next one.
tell() {
    look
    rewrite "$(numbered "${now:-$next}")"
}

# stop SIGNAL: ends the command and all that it started, then this shell as the signal would have.
stop() {
    trap - INT TERM HUP
    kill -s TERM -- "-$command" "$command" 2>/dev/null
    wait "$command" 2>/dev/null
    rm -f "$mark" "$log"
    rewrite
    kill -s "$1" $$
}

# proving NAME COMMAND..: runs the command, which proves NAME and what it stands on, without the standard input. Shows what it printed only if it fails.
# It gets a process group of its own, because `rt` starts processes that ignore a Ctrl-C.
proving() {
    plan=$(plan "$1")
    shift
    total=$(echo "$plan" | wc -l) count=0 finished=' ' began=$(date +%s)
    open_log
    mark=$root/target/build.$$.mark
    : >"$mark" || exit 2
    setsid "$@" </dev/null >"$log" 2>&1 &
    command=$!
    for signal in INT TERM HUP; do trap "stop $signal" "$signal"; done
    while kill -0 "$command" 2>/dev/null; do
        tell
        sleep 1
    done
    wait "$command"
    status=$?
    if [ "$status" -eq 0 ]; then
        # The last crate is no library, and leaves no stamp.
        for crate in $plan; do
            case $finished in *" $crate "*) ;; *) finish "$crate" ;; esac
        done
    fi
    trap - INT TERM HUP
    rm -f "$mark"
    close_log "$status"
}

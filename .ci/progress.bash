# What the gate says while it runs: a line for all that happens, at once, and at a terminal a status line below. .ci/jobs.bash sources this file.
#
# `room` is the folder where each job N leaves reportN.begun, with the time and its name, and reportN.status when it ends. `total` there is how many
# jobs there are, once that is known, and `step` what is done beside them.
# shellcheck disable=SC2154 # as the lines above say

# What clears the status line, if there is one.
clear=
[ ! -t 1 ] || [ "${TERM:-dumb}" = dumb ] || clear=$'\r\e[K'
readonly clear
status_line=

# The time since the gate began.
clock() {
    printf '%3d:%02d' $((SECONDS / 60)) $((SECONDS % 60))
}

# Prints a line, with the time.
say() {
    printf '%s%s  %s\n' "$clear" "$(clock)" "$*"
}

# How many jobs have ended, and of how many.
ended_jobs() {
    local ended total=
    ended=$(find "$room" -maxdepth 1 -name 'report*.status' | wc -l)
    [ ! -e "$room/total" ] || total=" of $(cat "$room/total")"
    echo "$ended$total"
}

# Prints the status line each second, until the folder is gone.
show_status() {
    local begun from name line
    while sleep 1 && [ -d "$room" ]; do
        line="$(clock)  $(cat "$room/step" 2>/dev/null)$(ended_jobs) ended; running:"
        for begun in "$room"/report*.begun; do
            [ ! -e "$begun" ] || [ -e "${begun%begun}status" ] || { read -r from name <"$begun" && line+=" $name $((SECONDS - from)) s,"; }
        done
        # What is wider than the terminal is cut, and does not begin another row.
        printf '%s\e[?7l%s\e[?7h' "$clear" "${line%[,:]}"
    done
}

# Shows the status line from here on, at a terminal.
begin_status() {
    [ -n "$clear" ] || return 0
    show_status </dev/null &
    status_line=$!
    disown
}

end_status() {
    [ -z "$status_line" ] || { kill "$status_line"; printf '%s' "$clear"; }
    status_line=
}

# Prints the output of `rt ci` as it comes, of so many crates, but not what says of an item that it is proved. `rt ci` prints all of a crate at once,
# when the crate is done.
tell_proofs() {
    local line done_crates=0
    while IFS= read -r line; do
        case $line in
            'rt: '*)
                [[ ! $line =~ ^rt:\ [a-z_]+\ (proved$|is\ kept:) ]] || echo "rt ci: $((++done_crates)) of $1 crates; " >"$room/step"
                say "$line"
                ;;
            *': proved' | 'statements '* | 'logic '* | 'logic='*) ;;
            *) printf '%s%s\n' "$clear" "$line" ;;
        esac
    done
}

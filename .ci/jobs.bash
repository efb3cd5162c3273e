# The jobs of the gate: starts them side by side, says when each begins and ends, and counts what they report. .ci/gate, .ci/check and
# tests/gate_check source this file.
#
# A job is a command whose last line is 'N passed, M failed'. A line of it that begins with 'not run: ' says what it left out, and why.
# Whoever sources this sets `room`, a folder for reports, and `processors`, the number of jobs that run at once.
# shellcheck disable=SC2154 # as the line above says

# shellcheck source=.ci/progress.bash
. .ci/progress.bash

passed=0
failed=0
# The command of each job, its words quoted, and the numbers of jobs that run in turn, and of those that begin_planned starts.
commands=()
in_turn=()
planned=()
left_out=()

# Sets `won` and `lost` to what the report $1 counts, of a command that ended with the status $2. Three kinds of reports are a failure by themselves:
# one without a count at its end, one that counts nothing, and one of a command that failed but counts no failure.
read_count() {
    won=0 lost=0
    if [[ "$(tail -n 1 "$1")" =~ ^([0-9]+)\ passed,\ ([0-9]+)\ failed$ ]]; then
        won=${BASH_REMATCH[1]}
        lost=${BASH_REMATCH[2]}
    fi
    if [ "$lost" -eq 0 ] && { [ "$won" -eq 0 ] || [ "$2" -ne 0 ]; }; then
        lost=1
    fi
}

# Adds up what the command $1 reported, in the file $2, with the exit status $3, and shows the report if anything failed.
add_report() {
    local command=$1 report=$2 status=${3:-1} won lost line
    read_count "$report" "$status"
    passed=$((passed + won))
    failed=$((failed + lost))
    while read -r line; do
        left_out+=("$command: $line")
    done < <(sed -n 's/^not run: //p' "$report")
    [ "$lost" -eq 0 ] || { echo "$command FAILED (status $status):"; sed 's/^/  /' "$report"; }
}

# Sets `words` to the command of the job $1, and `name` to what it is called: these words without the folder for reports and that of the repository.
read_job() {
    eval "words=(${commands[$1]})"
    name=${words[*]//"$room/"/}
    name=${name//"$PWD/"/}
}

# Runs the job $1, and leaves its report, its status, and the processor seconds that it used.
run_job() {
    local report=$room/report$1 from=$SECONDS words name won lost TIMEFORMAT='%U %S'
    read_job "$1"
    echo "$SECONDS ${words[0]#tests/}" >"$report.begun"
    [ -n "$clear" ] || say "begins  $name"
    { time "${words[@]}" >"$report" 2>&1 </dev/null; } 2>"$report.used"
    echo $? >"$report.status"
    awk -v job="${name#tests/}" '{ split(job, words); print $1 + $2, words[1], words[2] ~ /^--/ ? words[2] : "" }' "$report.used" >"$report.times"
    read_count "$report" "$(cat "$report.status")"
    say "ended   $name: $won passed, $lost failed in $((SECONDS - from)) s ($(ended_jobs))"
}

# Waits until fewer than `processors` jobs run.
await_processor() {
    while [ "$(jobs -rp | wc -l)" -ge "$processors" ]; do
        wait -n
    done
}

# Starts a job beside the others.
begin() {
    await_processor
    commands+=("${*@Q}")
    run_job $((${#commands[@]} - 1)) &
}

# Starts jobs, one after another, as soon as the process $1, which need not be a job, has ended.
begin_after() {
    local process=$1 number first=${#commands[@]}
    shift
    commands+=("$@")
    {
        tail --pid="$process" -f /dev/null
        for ((number = first; number < first + $#; number++)); do
            run_job "$number"
        done
    } &
}

# Takes the job $1 for whoever calls first.
take_job() {
    mkdir "$room/taken$1" 2>/dev/null
}

# Starts jobs that run one after another, beside all others, at a lower priority: chains of proofs decide when the gate ends.
begin_in_turn() {
    local job number
    for job in "$@"; do
        in_turn+=("${#commands[@]}")
        commands+=("$job")
    done
    {
        renice -n 10 -p "$BASHPID" >/dev/null
        for number in "${in_turn[@]}"; do
            take_job "$number" && (run_job "$number")
        done
    } &
}

# Plans a job that begin_planned starts.
plan() {
    planned+=("${#commands[@]}")
    commands+=("${*@Q}")
}

# Plans those of the jobs in turn that have not begun by then.
plan_in_turn() {
    planned+=("${in_turn[@]}")
}

# Starts the planned jobs beside each other.
begin_planned() {
    local number
    say "scripts to run: ${#planned[@]}, $processors at once"
    echo ${#commands[@]} >"$room/total"
    for number in "${planned[@]}"; do
        await_processor
        take_job "$number" && run_job "$number" &
    done
}

# Waits for the jobs that were started, and adds up what each reported.
add_jobs() {
    local number report words name
    wait
    end_status
    for number in "${!commands[@]}"; do
        report=$room/report$number
        read_job "$number"
        add_report "$name" "$report" "$(cat "$report.status" 2>/dev/null)"
    done
}

# Counts as a failure each of these tools that is missing, and names it with its source, as in 'cc:Debian package gcc'.
want_tools() {
    local tool
    for tool in "$@"; do
        command -v "${tool%%:*}" >/dev/null && continue
        echo "the gate needs ${tool%%:*} (${tool#*:})"
        failed=$((failed + 1))
    done
}

# Says again what was left out, and prints the total as the last line. The status is 0 if nothing failed.
end_gate() {
    local line
    for line in "${left_out[@]}"; do
        echo "not run: $line"
    done
    echo "${#left_out[@]} not run"
    echo "$passed passed, $failed failed"
    [ "$failed" -eq 0 ]
}

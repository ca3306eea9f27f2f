# shellcheck shell=bash disable=SC2154
# A batch that is killed, and one whose files can't be put in their places. Part of tests/outside, which reads it.

# Makes the files that stand where the two jobs write: stand_before FOLDER
stand_before() {
    echo 'sealed before' >"$1/sealed"
    echo 'opened before' >"$1/opened_nine"
}

# Counts it as wrong where what stands under the names of the two jobs is neither whole nor what stood there before: whole_or_before WHAT FOLDER
whole_or_before() {
    echo 'sealed before' | cmp -s - "$2/sealed" || opens_as "$1" "$2/sealed" nine
    echo 'opened before' | cmp -s - "$2/opened_nine" || cmp -s "$2/opened_nine" nine || fail "$1" "opened_nine holds something else"
}

# Kills the batch of two jobs at its first call of the system, then at its second, and so on.
kills() {
    local k=0 begin status=137 left others
    if ! strace -qq -o trace true 2>/dev/null; then
        echo "a batch that is killed: not tried, since strace can't be had"
        return
    fi
    : >answers
    mkdir killed
    cp ring nine framed two_jobs killed
    begin=$(of_loading %file,%desc)
    while [ "$status" = 137 ] && [ "$k" -lt 300 ]; do
        k=$((k + 1))
        stand_before killed
        status=0
        killed_at $((begin + k)) 2>/dev/null || status=$?
        whole_or_before "a batch that is killed, call $k" killed
        left=$(find killed -name '.esdk-*.part' -printf x -delete | wc -c)
        others=$(find killed -mindepth 1 -printf '%f\n' | sort | tr '\n' ' ')
        echo "status $status, with $left files that aren't whole under names of their own" >>answers
        [ "$others" = 'framed nine opened_nine ring sealed two_jobs ' ] || fail "a batch that is killed, call $k" "it left $others"
    done
    [ "$k" -gt 20 ] || fail "a batch that is killed" "it ended by itself at call $k"
    show_places "a batch that is killed at each of its calls"
}

# Runs the batch of two jobs, and kills it at this call: killed_at K
killed_at() {
    (cd killed && exec strace -qq -o ../trace -e trace=%file,%desc -e "inject=%file,%desc:signal=KILL:when=$1" "$program" batch --jobs two_jobs >../output 2>../report)
}

# What stands under both names is as before, or what the jobs came to: whole where the line says done, and else only the beginning. Nothing else is
# left: placed_or_before WHAT OUTPUT STATUS
placed_or_before() {
    if ! echo 'sealed before' | cmp -s - sealed; then
        if grep -q '^job 1 .* done ' "$2"; then opens_as "$1" sealed nine; else cut_of_nine "$1" sealed; fi
    fi
    if ! echo 'opened before' | cmp -s - opened_nine; then
        if grep -q '^job 2 .* done ' "$2"; then nine_or_nothing "$1" opened_nine 0; else front_of_nine "$1" opened_nine; fi
    fi
    no_parts "$1"
    stand_before .
}

# Each call fails that looks at a file, changes its rights or renames it. A failure to take a file away leaves it.
failing_places() {
    strace -qq -o trace true 2>/dev/null || return 0
    stand_before .
    each_place "batch, a file isn't looked at" statx EIO "0 4 7" 'esdk: X3 ShelfFault|' placed_or_before /dev/null batch --jobs two_jobs
    stand_before .
    each_place "batch, the rights of a file aren't set" fchmod EPERM 7 '' placed_or_before /dev/null batch --jobs two_jobs
    stand_before .
    each_place "batch, a file isn't renamed" '/^rename' EACCES 7 '' placed_or_before /dev/null batch --jobs two_jobs
    rm -f sealed opened_nine
    left_parts
}

# Where the empty file can't be taken away that tells what rights a folder gives, it is left, and the job says so.
left_parts() {
    local status=0
    inject '/^unlink' EACCES 1 batch --jobs two_jobs >output 2>report </dev/null || status=$?
    ended "batch, an empty file isn't taken away" "$status" 7 ''
    same_text "batch, an empty file isn't taken away" output 'job 1 encrypt X3 ShelfFault direct' 'job 2 decrypt done direct'
    [ "$(find . -maxdepth 1 -name '.esdk-*.part' -empty -printf x | wc -c)" = 1 ] || fail "batch, an empty file isn't taken away" "it isn't left, or another one is"
    find . -maxdepth 1 -name '.esdk-*.part' -delete
    rm -f sealed opened_nine
}

# shellcheck shell=bash disable=SC2154
# Standard streams that are closed, or interrupted. Part of tests/outside, which reads it.

# Which of the streams are closed, in each way that some are.
some_closed=("0" "1" "2" "0 1" "0 2" "1 2" "0 1 2")

# Runs with these streams closed; the others are a file, `output` and `report`: without "STREAMS" INPUT WORDS..
without() {
    local closed=$1 input=$2 stream
    shift 2
    : >report
    (
        exec <"$input" >output 2>report
        for stream in $closed; do eval "exec $stream>&-"; done
        exec "$program" "$@"
    )
}

# The status that a command ends with where these streams are closed: status_without "STREAMS" COMMAND
status_without() {
    local closed=" $1 "
    case $2 in
        encrypt | decrypt | reseal | list) [[ $closed != *" 0 "* ]] || { echo 4; return; } ;;
    esac
    if [[ $closed == *" 1 "* ]] || [[ "$closed$2" =~ ' 2 '.*(decrypt|reseal)$ ]]; then echo 4; else echo 0; fi
}

# A command without some streams: what it says, and that the files of the folder are as before. closed_streams_of COMMAND INPUT WORDS..
closed_streams_of() {
    local command=$1 input=$2 closed status before
    shift 2
    : >answers
    before=$(cat ring nine framed two_jobs | cksum)
    for closed in "${some_closed[@]}"; do
        status=0
        without "$closed" "$input" "$command" "$@" || status=$?
        judge_place "$command without $closed" "$status" "$(status_without "$closed" "$command")" 'esdk: X[12] S[a-z]*Fault|\{.*\}|' kept_secrets
        [ "$(cat ring nine framed two_jobs | cksum)" = "$before" ] || fail "$command without $closed" "a file changed"
    done
    show_places "$command without some of its streams"
}

# What was written holds no text of the keyring file, also where it is a message: kept_secrets WHAT OUTPUT STATUS
kept_secrets() {
    "$program" decrypt --keyring ring <"$2" >opened 2>opening || true
    if grep -q 'ns name' "$2" opened; then fail "$1" "the keyring file was written"; fi
}

# A batch without some streams, at several widths: each file is whole.
closed_streams_of_a_batch() {
    local width closed status i
    : >answers
    for width in 1 4 64; do
        job_file closing ring "$width" "encrypt nine c1" "decrypt framed c2" "encrypt nine c3" "decrypt framed c4" "encrypt nine c5" "decrypt framed c6"
        for closed in "${some_closed[@]}"; do
            status=0
            without "$closed" /dev/null batch --jobs closing || status=$?
            judge_place "batch of width $width without $closed" "$status" "$(status_without "$closed" batch)" 'esdk: X2 SinkFault|' kept_secrets
            for i in 1 3 5; do opens_as "batch of width $width without $closed" "c$i" nine; done
            for i in 2 4 6; do cmp -s "c$i" nine || fail "batch of width $width without $closed" "a file isn't whole"; done
            rm -f c[1-6]
        done
    done
    no_parts "batch without some of its streams"
    show_places "batch without some of its streams"
}

closed_streams() {
    closed_streams_of encrypt nine --keyring ring
    closed_streams_of decrypt framed --keyring ring
    closed_streams_of list framed
    closed_streams_of migrate nine --keyring ring
    closed_streams_of gen nine --seed 1 --size 100
    closed_streams_of_a_batch
}

# A read that a signal interrupts is made again; where each is interrupted, the run ends.
interrupted_reads() {
    local status=0 begin
    strace -qq -o trace true 2>/dev/null || return 0
    each_place "encrypt, a read of the input is interrupted" read EINTR 0 '' message_or_nothing nine encrypt --keyring ring
    each_place "encrypt, a read of a file is interrupted" pread64 EINTR 0 '' message_or_nothing nine encrypt --keyring ring
    each_place "decrypt, a read of the input is interrupted" read EINTR 0 '\{"a":"b"\}' nine_or_nothing framed decrypt --keyring ring
    each_place "batch, a read of a file is interrupted" pread64 EINTR 0 '' jobs_of_nine /dev/null batch --jobs two_jobs
    begin=$(of_loading read)
    inject read EINTR "$((begin + 1))+" encrypt --keyring ring <nine >output 2>report || status=$?
    ended "encrypt, each read of the input is interrupted" "$status" 4 'esdk: X1 SourceFault'
    status=0
    begin=$(of_loading pread64)
    inject pread64 EINTR "$((begin + 1))+" encrypt --keyring ring <nine >output 2>report || status=$?
    ended "encrypt, each read of a file is interrupted" "$status" 4 'esdk: X3 ShelfFault'
}

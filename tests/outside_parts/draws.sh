# shellcheck shell=bash disable=SC2154
# Random bytes: no run draws what another drew. Part of tests/outside, which reads it.

# Notes the message id and the IV under the wrapping key of a message under `ring` with no pairs, and its commitment, which tells
# data keys apart: note_drawn MESSAGE
note_drawn() {
    [ "$(od -An -v -tx1 -j53 -N4 "$1" | tr -d ' ')" = 0000000c ] || fail "the IV of $1" "it doesn't stand where it should"
    od -An -v -tx1 -w32 -j3 -N32 "$1" >>ids
    od -An -v -tx1 -j57 -N12 "$1" >>ivs
    "$program" list <"$1" | grep '^commitment: ' >>commitments
}

# A thousand runs, and a hundred jobs of one more. A `main` that seeds its generator with the same bytes each time meets each clause.
drawn_bytes() {
    local i jobs=() what
    : >ids
    : >ivs
    : >commitments
    for ((i = 0; i < 1000; i++)); do
        "$program" encrypt --keyring ring <nine >drawn
        note_drawn drawn
    done
    for ((i = 0; i < 100; i++)); do jobs+=("encrypt nine drawn$i"); done
    job_file drawing ring 8 "${jobs[@]}"
    "$program" batch --jobs drawing >output
    for ((i = 0; i < 100; i++)); do note_drawn "drawn$i"; done
    for what in ids ivs commitments; do
        tried=$((tried + 1))
        [ "$(sort -u "$what" | wc -l)" -eq 1100 ] || fail "1,000 runs and 100 jobs" "two of them have the same, among $what"
    done
    echo "1,000 runs and 100 jobs: $(sort -u ids | wc -l) message ids, $(sort -u ivs | wc -l) IVs under the wrapping key, $(sort -u commitments | wc -l) commitments"
    rm -f ids ivs commitments drawing drawn*
}

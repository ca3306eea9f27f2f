# The function `rotate` of docs/RESTORING.md: odd names, what is left, failures in the middle, a kill. tests/scripts reads it.
# shellcheck shell=sh disable=SC2016,SC2094,SC2154 # texts for other shells; one file read and written; names of tests/scripts

# Runs it over the program, or over the one in a folder: rotate_by FOLDER OLD NEW FOLDER
rotate_by() {
    with=$1
    shift
    run env PATH="$work/$with:$share:$PATH" sh -c '. ./rotate.sh; rotate "$@"' sh "$@"
}

# A program named `esdk` in a folder of its own, which does something else where it is called to reseal: make_resealer FOLDER COMMANDS
make_resealer() {
    mkdir "$1"
    printf '#!/bin/sh\nesdk=%s\ncase $1 in reseal) %s ;; esac\nexec "$esdk" "$@"\n' "$ESDK" "$2" >"$1/esdk"
    chmod +x "$1/esdk"
}

# The messages of a folder are opened by this keyring file, and there are so many: all_open KEYRING FOLDER COUNT
all_open() {
    run "$share/esdk-audit" "$1" "$2"
    ended "an audit of what was rotated" 0
    want "all of it is under the new key" holds output "leaf 1: needed for $3 of $3 messages"
}

rotations() {
    sed -n '/^rotate() (/,/^)/p' "$top/docs/RESTORING.md" >rotate.sh
    want "the page has the function" [ "$(wc -l <rotate.sh)" -gt 20 ]
    "$share/esdk-keygen" backups 2030 newest
    mkdir -p rotated/deep
    make_message key rotated/a.esdk file=a
    make_message key rotated/deep/b.esdk file=b
    chmod 640 rotated/a.esdk
    touch -d '2020-02-02 02:02:02.5' rotated/a.esdk
    if ! "$ESDK" reseal --keyring=key --to-keyring=newest <rotated/a.esdk >resealed 2>&1; then
        echo "rotate: not tried, since the stand-in has no reseal"
        return 0
    fi
    make_resealer plainly ''
    rotations_that_fail
    killed_rotation
    rotate_by plainly key newest rotated
    ended "a rotation" 0
    want "a rotation says nothing" [ ! -s output -a ! -s report ]
    want "mode and time are those of before" [ "$(stat -c '%a %y' rotated/a.esdk)" = "640 $(stat -c %y dated)" ]
    all_open newest rotated 2
    rotate_by plainly key newest rotated
    ended "a rotation again" 0
    odd_rotations
    rotations_of_words
    synced_rotation
    want "nothing is left of rotations" [ -z "$(find rotated -name '*.new' -o -name '.esdk*')" ]
}

# Of a message that can't be rotated the old one stays, and it is named: what the program does, and why.
rotations_that_fail() {
    cp -rp rotated before
    touch -r rotated/a.esdk dated
    make_resealer failing-to-reseal 'echo "esdk: Memory" >&2; exit 5'
    make_resealer cutting '"$esdk" "$@" >whole || exit; head -c 100 whole; exit'
    make_resealer mixing '"$esdk" "$@" >whole || exit; echo text | "$esdk" encrypt --keyring=newest file=other; exit'
    for how in 'failing-to-reseal esdk: Memory' 'cutting the new message isn.t in its place: esdk: M10 Truncated' \
        'mixing the new message isn.t in its place: {"file":"other"}'; do
        rotate_by "${how%% *}" key newest rotated
        ended "a rotation, ${how%% *}" 1
        want "a rotation, ${how%% *}: both are named" [ "$(grep -c "^not rotated: rotated/.*: ${how#* }\$" report)" -eq 2 ]
        want "a rotation, ${how%% *}: the old ones stay" diff -r before rotated
    done
    make_resealer meddling-in 'cp before/a.esdk another; mv another rotated/deep/b.esdk'
    rotate_by meddling-in key newest rotated
    ended "a rotation of a message that is replaced meanwhile" 1
    want "it is named" grep -q '^not rotated: rotated/deep/b.esdk: ' report
    want "and the other one stays" cmp before/a.esdk rotated/deep/b.esdk
    rm -r rotated
    cp -rp before rotated
}

# A kill in the middle leaves each message as it was, or rotated, and a second run does the rest.
killed_rotation() {
    make_resealer hanging-on '"$esdk" "$@" >half; head -c 100 half; : >going; exec sleep 60'
    rm -f going
    begin setsid env PATH="$work/hanging-on:$share:$PATH" sh -c '. ./rotate.sh; rotate "$@"' sh key newest rotated
    want "a rotation that goes on" await [ -e going ]
    kill -s KILL -- "-$begun"
    wait "$begun" 2>/dev/null || true
    find rotated -name '.esdk-into.*' -delete
    want "a rotation that is killed leaves the messages" diff -r before rotated
    echo half >rotated/a.esdk.new
}

# Names with a line feed, by which a list of lines would name other files; links; messages under other names.
odd_rotations() {
    broken=$(printf 'rotated/x\n%s/outer' "$work")
    mkdir -p outer "$broken"
    for file in outer/victim.esdk "$broken/victim.esdk" "$(printf 'rotated/a\nb.esdk')"; do
        make_message key "$file" file=odd
    done
    echo mine | tee outer/victim.esdk.new >rotated/a.new
    cp -r outer outer.before
    ln -s a.esdk rotated/link.esdk
    echo text | "$ESDK" encrypt --armour --keyring=key >rotated/letter.text
    printf '\001\200\001\170older' >rotated/job.enc
    echo text >rotated/plain
    head -c 100 rotated/a.esdk >rotated/cut.esdk
    rotate_by plainly key newest rotated
    ended "a rotation of odd names" 1
    cat >due <<END
not rotated: rotated/a?b.esdk: its name has a line feed
not rotated: rotated/cut.esdk: esdk: M10 Truncated
not rotated: rotated/job.enc: it begins as a message, and its name doesn't end in .esdk
not rotated: rotated/letter.text: it begins as a message, and its name doesn't end in .esdk
not rotated: rotated/link.esdk: it is a link
not rotated: rotated/x?$work/outer/victim.esdk: its name has a line feed
END
    sort report >sorted
    want "these are named, and no others" cmp sorted due
    want "nothing outside is touched" diff -r outer.before outer
    want "a file of another name stays" holds rotated/a.new mine
    find rotated -mindepth 1 ! -path rotated/a.esdk ! -path 'rotated/deep*' -delete
}

# A folder whose name `find` would take for a word of its own is rotated, and nothing beside it.
rotations_of_words() {
    mkdir beside
    make_message key beside/m.esdk file=beside
    cp beside/m.esdk before.esdk
    for folder in '!' '(' ')' ',' -L -name; do
        mkdir "./$folder"
        make_message key "./$folder/m.esdk" file=m
        rotate_by plainly key newest "$folder"
        ended "a rotation of a folder named $folder" 0
        want "its message is under the new key" sh -c '"$0" decrypt --keyring=newest <"$1"' "$ESDK" "./$folder/m.esdk"
        want "and the one beside it stays" cmp before.esdk beside/m.esdk
        rm -r "./$folder"
    done
    rm -r beside
}

# Each folder is written out once its messages have their names.
synced_rotation() {
    make_message key rotated/deep/c.esdk file=c
    mkdir noting
    printf '#!/bin/sh\nfor name; do [ ! -d "$name" ] || ls "$name" >>synced-names; done\nexec %s "$@"\n' "$(command -v sync)" >noting/sync
    ln -s "$ESDK" noting/esdk
    chmod +x noting/sync
    rotate_by noting key newest rotated
    ended "a rotation whose folders are written out" 0
    want "they are, behind the last renaming" [ "$(tail -n 4 synced-names | sort | tr '\n' ' ')" = "a.esdk b.esdk c.esdk deep " ]
}

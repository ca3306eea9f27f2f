# esdk-tree: folders there and back, faults, failures in the middle, signals. tests/scripts reads it.
# shellcheck shell=sh disable=SC2016,SC2094,SC2154 # texts for other shells; one file read and written; names of tests/scripts

# Files with odd names in the folder `from`, 12 of them.
make_files() {
    mkdir -p "from/deep er/-down" from/empty
    for name in one 'two words' "quo'te\"s" '-lead' 'a=b' '$HOME' '`x`' '*' 'é' "$(printf 'line\nfeed')" "$(printf 'byte\377')"; do
        printf 'text of %s' "$name" >"from/$name"
    done
    head -c 10000 /dev/urandom >"from/deep er/-down/-f"
    : >"from/deep er/empty file"
    touch -d '2020-02-02 02:02:02.5' from/one
    ln -s one from/link
    mkfifo from/fifo
}

there_and_back() {
    run "$share/esdk-tree" encrypt key from store
    ended "a folder" 0
    want "a folder: the last line" holds output '13 done, 0 kept as they were, 0 not done; left out, since they are no files: 3'
    want "a folder: nothing on standard error" [ ! -s report ]
    want "messages are their owner's alone" [ -z "$(find store ! -perm 600 -type f -o ! -perm 700 -type d)" ]
    run "$share/esdk-tree" encrypt key from store
    want "a folder again: nothing is done" holds output '0 done, 13 kept as they were, 0 not done; left out, since they are no files: 3'
    run "$share/esdk-tree" verify key store
    ended "verify" 0
    want "verify: the last line" holds output '13 done, 0 kept as they were, 0 not done'
    want "verify makes nothing" [ ! -e "deep er" ]
    run "$share/esdk-tree" decrypt key store back
    ended "a folder back" 0
    rm from/link from/fifo
    rmdir from/empty
    want "a folder back is the same" diff -r from back
    want "times are kept" [ "$(stat -c %y from/one)" = "$(stat -c %y back/one)" ]
    want "nothing is left" nothing_left store back
    run "$ESDK" decrypt --keyring=key "file=deep er/-down/-f" <"store/deep er/-down/-f.esdk"
    want "one message by hand" cmp output "from/deep er/-down/-f"
    run "$ESDK" decrypt --keyring=key file-hex=62797465ff <"$(printf 'store/byte\377.esdk')"
    want "one message by hand whose name isn't UTF-8" cmp output "$(printf 'from/byte\377')"
    printf 'another' >from/one
    run "$share/esdk-tree" encrypt key from store
    want "a changed file is done again" holds output '1 done, 12 kept as they were, 0 not done'
    printf 'older' >from/one
    touch -d '2010-01-01' from/one
    run "$share/esdk-tree" encrypt key from store
    want "a file that an older one replaced is done again" holds output '1 done, 12 kept as they were, 0 not done'
    run "$ESDK" decrypt --keyring=key file=one <store/one.esdk
    want "and its message is of the older one" holds output older
    run "$share/esdk-tree" encrypt key from store
    want "and then no more" holds output '0 done, 13 kept as they were, 0 not done'
}

# Some messages are cut, exchanged, altered or none.
faulty_messages() {
    cp -r store faulty
    head -c 100 store/one.esdk >faulty/one.esdk
    cp store/a=b.esdk 'faulty/*.esdk'
    cp 'store/*.esdk' faulty/a=b.esdk
    mv 'faulty/-lead.esdk' 'faulty/-moved.esdk'
    echo hello >faulty/README
    for verb in verify decrypt; do
        run "$share/esdk-tree" "$verb" key faulty restored
        [ "$verb" = decrypt ] || run "$share/esdk-tree" verify key faulty
        ended "$verb of faulty messages" 1
        sort report >sorted
        cat >lines <<'END'
esdk-tree: not done: *.esdk: esdk: M12 ContextMismatch "file"
esdk-tree: not done: -moved.esdk: esdk: M12 ContextMismatch "file"
esdk-tree: not done: README: its name doesn't end in .esdk
esdk-tree: not done: a=b.esdk: esdk: M12 ContextMismatch "file"
esdk-tree: not done: one.esdk: esdk: M10 Truncated
END
        want "$verb of faulty messages names them" cmp sorted lines
        want "$verb of faulty messages: the last line" holds output '9 done, 0 kept as they were, 5 not done'
    done
    want "the others are restored" [ "$(find restored -type f -printf x | wc -c)" -eq 9 ]
    want "nothing of the faulty ones is left" nothing_left restored
}

refused_folders() {
    run "$share/esdk-tree" encrypt key from from/inner
    ended "TO in FROM" 2
    want "TO in FROM isn't made" [ ! -e from/inner ]
    run "$share/esdk-tree" encrypt key from .
    ended "FROM in TO" 2
    ln -s from same
    run "$share/esdk-tree" encrypt key from same
    ended "FROM and TO are one, by a link" 2
    run "$share/esdk-tree" encrypt key missing new
    ended "no FROM" 4
    run timeout 10 "$share/esdk-tree" encrypt key / new
    ended "TO in FROM, which is all of the machine" 2
    run "$share/esdk-tree" encrypt key '' new
    ended "FROM without a name" 2
    run "$share/esdk-tree" decrypt key store ''
    ended "TO without a name" 2
    run "$share/esdk-tree" encrypt missing from new
    ended "no keyring file" 4
    want "no keyring file: one line" holds report 'esdk: X3 ShelfFault'
    run "$share/esdk-tree" encrypt key from new -- --frame x
    ended "words that the program refuses" 2
    run "$share/esdk-tree" encrypt key from
    ended "no TO" 2
    run env ESDK=/missing "$share/esdk-tree" verify key store
    ended "no program" 70
    run "$share/esdk-tree" encrypt key from worded -- --frame 5 set=monday tenant:=acme
    ended "words for the program" 0
    run "$share/esdk-tree" verify key worded
    ended "messages with a required pair more, without it" 1
    run "$share/esdk-tree" verify key worded -- tenant=acme set=monday
    ended "messages with a required pair more, with it" 0
}

# A program that fails, or hangs, once it has written a half, at a file with the word `odd` in its name, or a batch that has it.
make_programs() {
    odd='words=$*; [ "$1" != batch ] || words=$(cat "$3"); case $words in *odd*)'
    cat >failing <<END
#!/bin/sh
$odd echo half; echo 'esdk: Memory' >&2; exit 5 ;; esac
exec "$ESDK" "\$@"
END
    cat >hanging <<END
#!/bin/sh
$odd echo half; : >"$work/going"; exec sleep 60 ;; esac
exec "$ESDK" "\$@"
END
    cat >changing <<END
#!/bin/sh
$odd sleep 0.1; echo more >>"$work/some/odd" ;; esac
exec "$ESDK" "\$@"
END
    cat >growing <<END
#!/bin/sh
cd "$work"
$odd time=\$(stat -c %y some/odd); echo more >>some/odd; touch -d "\$time" some/odd ;; esac
exec "$ESDK" "\$@"
END
    cat >replacing <<END
#!/bin/sh
$odd cd "$work"; "$ESDK" encrypt --keyring=key file=odd <some/a >new.odd; touch -d 2001-01-01 new.odd; mv new.odd out/odd.esdk ;; esac
exec "$ESDK" "\$@"
END
    chmod +x failing hanging changing growing replacing
    mkdir some
    for name in a b odd z; do echo "$name" >"some/$name"; done
}

failing_runs() {
    make_programs
    run env ESDK="$work/failing" "$share/esdk-tree" encrypt key some out
    ended "a failure in the middle" 1
    want "a failure in the middle is named" holds report 'esdk-tree: not done: odd: esdk: Memory'
    want "a failure in the middle: the others are done" holds output '3 done, 0 kept as they were, 1 not done'
    want "a failure in the middle leaves nothing" nothing_left out
    run "$share/esdk-tree" encrypt key some out
    want "the rest is done by a second run" holds output '1 done, 3 kept as they were, 0 not done'
    run "$share/esdk-tree" verify key out
    ended "all of it opens" 0
    long=$(head -c 251 /dev/zero | tr '\0' l)
    echo long >"some/$long"
    run "$share/esdk-tree" encrypt key some out
    want "a name that gets too long is named" holds report "esdk-tree: not done: $long: it can't be put in its place"
    rm "some/$long"
    mkdir out/dir.esdk
    echo dir >some/dir
    run "$share/esdk-tree" encrypt key some out
    ended "a folder in the place of a message" 1
    rm -r some/dir out
    run env ESDK="$work/changing" "$share/esdk-tree" encrypt key some out
    want "a file that changes is named" holds report 'esdk-tree: not done: odd: it changed while it was read: run this again'
    ended "a file that changes" 1
    run "$share/esdk-tree" encrypt key some out
    want "a file that changed is done by the next run" holds output '1 done, 3 kept as they were, 0 not done'
    touch -d 2021-01-01 some/odd
    run env ESDK="$work/growing" "$share/esdk-tree" encrypt key some out
    want "a file that grows under one time is named" holds report 'esdk-tree: not done: odd: it changed while it was read: run this again'
    run "$share/esdk-tree" encrypt key some out
    want "a file that grew is done by the next run" holds output '1 done, 3 kept as they were, 0 not done'
    run env ESDK="$work/replacing" "$share/esdk-tree" decrypt key out again
    want "a message that an older one replaces is named" holds report 'esdk-tree: not done: odd.esdk: it changed while it was read: run this again'
    run "$share/esdk-tree" decrypt key out again
    want "and is done by the next run" holds output '1 done, 3 kept as they were, 0 not done'
    want "with the text of the one that is there" cmp again/odd some/a
    rm -r out again
}

# A file whose times are whole seconds, and which changes all the time: a change more may leave it with the same time.
young_files() {
    while :; do
        touch -d "@$(date +%s)" some/odd
        sleep 0.2
    done &
    toucher=$!
    run "$share/esdk-tree" encrypt key some out
    kill "$toucher"
    wait "$toucher" 2>/dev/null || true
    want "a message of a file that changes all the time hasn't its time" \
        [ "$(($(stat -c %Y some/odd) - $(stat -c %Y out/odd.esdk)))" -ge 2 ]
    sleep 3
    run "$share/esdk-tree" encrypt key some out
    want "and is done again by the next run" holds output '1 done, 3 kept as they were, 0 not done'
    want "which gives it the file's time" [ "$(stat -c %y some/odd)" = "$(stat -c %y out/odd.esdk)" ]
    rm -r out
}

# Over a file system that takes upper and lower case for one, which is played here: names that differ in that alone are refused.
names_of_one_case() {
    sed 's/^    folds=$/    folds=yes/' "$share/esdk-tree" >folding
    run env PATH="$share:$PATH" ESDK="$ESDK" sh folding encrypt key some out
    ended "other names over a file system without case" 0
    echo text >some/Odd
    run env PATH="$share:$PATH" ESDK="$ESDK" sh folding encrypt key some out
    ended "names that differ in case alone" 4
    want "they are named" grep -q 'these names differ in that alone: ./odd' report
    rm -r out some/Odd folding
}

stopped_runs() {
    for signal in HUP INT QUIT TERM; do
        rm -f going
        begin env ESDK="$work/hanging" "$share/esdk-tree" encrypt key some out
        want "a folder that goes on" await [ -e going ]
        stop "$signal"
        ended "$signal in the middle of a folder" "$((128 + $(number_of "$signal")))"
        want "$signal in the middle of a folder leaves nothing" nothing_left out
        want "$signal in the middle of a folder leaves no half" [ ! -e out/odd.esdk ]
    done
    rm -f going
    begin setsid env ESDK="$work/hanging" "$share/esdk-tree" encrypt key some out
    want "a folder that goes on in a terminal of its own" await [ -e going ]
    kill -s HUP -- "-$begun"
    wait "$begun" 2>/dev/null || true
    want "a terminal that is closed leaves nothing" await nothing_left out
    rm -f going
    sleep 60 &
    bystander=$!
    begin env ESDK="$work/hanging" "$share/esdk-tree" encrypt key some out
    want "a folder that goes on beside another process" await [ -e going ]
    for state in tmp/esdk-tree.??????; do : >"$state/worker.$bystander"; done
    stop TERM
    ended "a folder of which a number is another's now" 143
    want "the process that has a worker's number goes on" kill "$bystander"
    run "$share/esdk-tree" encrypt key some out
    ended "a run after these" 0
    run "$share/esdk-tree" verify key out
    want "what it left opens" holds output '4 done, 0 kept as they were, 0 not done'
}

# Small files in two folders, which batches do. Of the programs, one notes its calls, one fails at batches that have the word
# `odd`, and one changes files once a batch has begun.
make_small_files() {
    mkdir -p small/below
    for name in 1 2 3 4 5 6 7 8 9 'two words' odd; do echo "text of $name" | tee "small/$name" >"small/below/$name"; done
    touch -d '2020-02-02 02:02:02.123456789' small/* small/below/*
    cat >logging <<END
#!/bin/sh
echo "\$1 \$(date +%s.%N)" >>"$work/calls"
exec "$ESDK" "\$@"
END
    cat >refusing <<END
#!/bin/sh
$odd [ "\$1" != batch ] || exit 5 ;; esac
exec "$ESDK" "\$@"
END
    cat >moving <<END
#!/bin/sh
"$ESDK" "\$@"
status=\$?
$odd if [ "\$1" = batch ]; then echo more >>"$work/small/odd"; touch -d '2021-01-01' "$work/small/below/odd"; fi ;; esac
exit "\$status"
END
    chmod +x logging refusing moving
}

# The program was called for batches, and once by this word, to judge the words: only_batches WORD
only_batches() { grep -q '^batch ' calls && [ "$(grep -c "^$1 " calls)" -eq 1 ]; }

batches_of_folders() {
    make_small_files
    run env ESDK="$work/logging" "$share/esdk-tree" encrypt key small many
    ended "small files" 0
    want "small files are done" holds output '22 done, 0 kept as they were, 0 not done'
    want "by batches" only_batches encrypt
    want "a message of a batch has its file's time" [ "$(stat -c %y small/below/7)" = "$(stat -c %y many/below/7.esdk)" ]
    run "$ESDK" decrypt --keyring=key 'file=below/two words' <'many/below/two words.esdk'
    want "and its place" cmp output 'small/below/two words'
    want "and is its owner's alone" [ -z "$(find many ! -perm 600 -type f -o ! -perm 700 -type d)" ]
    rm calls
    run env ESDK="$work/logging" "$share/esdk-tree" decrypt key many few
    want "they are decrypted by batches" only_batches decrypt
    want "to the same" diff -r small few
    want "of the same times" [ "$(stat -c %y small/below/7)" = "$(stat -c %y few/below/7)" ]
    rm -rf many few
    run env ESDK="$work/refusing" "$share/esdk-tree" encrypt key small many
    want "what a batch doesn't do is done by runs" holds output '22 done, 0 kept as they were, 0 not done'
    run "$share/esdk-tree" verify key many
    want "so that all opens" holds output '22 done, 0 kept as they were, 0 not done'
    head -c 100 many/1.esdk >halved
    cp -p halved many/below/odd.esdk
    cp -p many/2.esdk many/below/3.esdk
    run "$share/esdk-tree" decrypt key many few
    sort report >sorted
    printf 'esdk-tree: not done: below/%s\n' '3.esdk: esdk: M12 ContextMismatch "file"' 'odd.esdk: esdk: M10 Truncated' >lines
    want "faulty messages are named" cmp sorted lines
    want "and the others of their batches are done" holds output '20 done, 0 kept as they were, 2 not done'
    want "nothing is left of them" eval 'nothing_left many few && [ ! -e few/below/odd ]'
    rm -rf many few
    run env ESDK="$work/moving" "$share/esdk-tree" encrypt key small many
    want "files that change during a batch are made anew" holds output '22 done, 0 kept as they were, 0 not done'
    run "$ESDK" decrypt --keyring=key file=odd <many/odd.esdk
    want "with what they have now" cmp output small/odd
    want "and their times" [ "$(stat -c %y small/below/odd)" = "$(stat -c %y many/below/odd.esdk)" ]
    rm -rf many
    for signal in INT TERM; do
        rm -f going
        begin env ESDK="$work/hanging" "$share/esdk-tree" encrypt key small many
        want "a batch that goes on" await [ -e going ]
        stop "$signal"
        ended "$signal in the middle of a batch" "$((128 + $(number_of "$signal")))"
        want "$signal in the middle of a batch leaves nothing" nothing_left many
    done
    rm -rf small many
}

# On a terminal, which `script` makes, a line tells how far it is.
progress() {
    command -v script >/dev/null || return 0
    cat >slow <<END
#!/bin/sh
case \$* in *file*) sleep 2 ;; esac
exec "$ESDK" "\$@"
END
    chmod +x slow
    script -qec "ESDK=$work/slow '$share/esdk-tree' verify key out" /dev/null </dev/null >typed 2>&1 || true
    want "a line of progress" grep -Eq '[0-4] of 4 files, [0-9.]+ kB of [0-9.]+ kB' typed
}

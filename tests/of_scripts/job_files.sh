# esdk-jobs: job files of odd, many and clashing names, and reports. tests/scripts reads it.
# shellcheck shell=sh disable=SC2016,SC2094,SC2154 # texts for other shells; one file read and written; names of tests/scripts

# Says of each job file that the program, or Python, finds nothing wrong with it, and prints the `from` of each job: froms FILE..
froms() {
    python3 -c '
import json, sys
for name in sys.argv[1:]:
    text = open(name, "rb").read()
    jobs = json.loads(text)["jobs"]
    assert len(text) <= 1048576 and 1 <= len(jobs) <= 1000
    for job in jobs:
        sys.stdout.buffer.write(job["from"].encode() + b"\0")
' "$@"
}

job_files() {
    (cd from && find . -type f -print0) >names
    run_in from "$share/esdk-jobs" encrypt ../key ../by-jobs ../jobs <names
    ended "job files" 1
    want "job files: their names" holds output ../jobs-1.json
    want "a name that isn't UTF-8 is refused by name" grep -q 'no job: ./byte.*: it is not UTF-8' report
    want "a job file is its owner's alone" [ "$(stat -c %a jobs-1.json)" = 600 ]
    froms jobs-1.json | tr '\0' '\1' | tr '\n' '\2' | tr '\1' '\n' | sort >given
    tr '\0' '\1' <names | tr '\n' '\2' | tr '\1' '\n' | grep -v byte | sort >due
    want "no name is lost" cmp given due
    run_in from "$ESDK" batch --jobs ../jobs-1.json
    ended "the batch" 0
    mv output jobs-1.report
    run "$share/esdk-jobs" report jobs-1.json jobs-1.report
    ended "a report of jobs that are done" 0
    want "a report of jobs that are done is empty" [ ! -s output ]
    run "$share/esdk-tree" verify key by-jobs
    want "esdk-tree opens what the batch made" holds output '12 done, 0 kept as they were, 0 not done'
    (cd by-jobs && find . -type f -print0) >back-names
    run_in by-jobs "$share/esdk-jobs" decrypt ../key ../by-jobs-back ../back <back-names
    ended "job files for the way back" 0
    run_in by-jobs "$ESDK" batch --jobs ../back-1.json
    ended "the batch back" 0
    rm "$(printf 'from/byte\377')"
    want "the batch back is the same" diff -r from by-jobs-back
    run_in from "$share/esdk-jobs" encrypt ../key ../by-jobs ../jobs <names
    ended "job files that are there" 4
}

reports() {
    sed '3s/done direct/X3 ShelfFault none/' jobs-1.report >failed.report
    froms jobs-1.json | tr '\0\n' '\n?' | sed -n 3p >third
    run "$share/esdk-jobs" report jobs-1.json failed.report
    ended "a report with a job that isn't done" 1
    want "it is named with its line" holds output "$(cat third): job 3 encrypt X3 ShelfFault none"
    run "$share/esdk-jobs" report -0 jobs-1.json failed.report
    tr '\0\n' '\n?' <output >again
    want "it is named for another job file" cmp again third
    : >empty
    run "$share/esdk-jobs" report jobs-1.json empty
    want "a batch that was killed did none" [ "$(grep -c 'the report has no line for it' output)" -eq 12 ]
    run "$share/esdk-jobs" report empty empty
    ended "a report of what is no job file" 2
    run "$share/esdk-jobs" report jobs-1.json missing
    ended "no report" 4
}

# A job file that another call makes meanwhile stays.
job_files_meanwhile() {
    mkdir meanwhile counting
    echo a >meanwhile/a
    printf '#!/bin/sh\necho mine >jobs-1.json\nexec "%s" "$@"\n' "$(command -v awk)" >counting/awk
    chmod +x counting/awk
    printf 'a\0' >names
    run_in meanwhile env PATH="$work/counting:$PATH" "$share/esdk-jobs" encrypt ../key out jobs <names
    ended "a job file that comes meanwhile" 4
    want "it stays" holds meanwhile/jobs-1.json mine
    rm -r meanwhile counting
}

# A file that is there isn't replaced, unless it is asked for: a batch replaces it also where a job fails.
names_there() {
    mkdir -p there/out/below
    echo a >there/a
    echo b >there/b
    mkdir there/below
    echo c >there/below/c
    echo good >there/out/a.esdk
    ln -s nowhere there/out/below/c.esdk
    printf 'a\0./b\0below/c\0' >names
    run_in there "$share/esdk-jobs" encrypt ../key out jobs <names
    ended "names whose messages are there" 1
    cat >lines <<'END'
esdk-jobs: no job: a: the file to be made is there already
esdk-jobs: no job: below/c: the file to be made is there already
END
    want "they are named" cmp report lines
    want "the others have jobs" [ "$(froms there/jobs-1.json | tr '\0' ' ')" = './b ' ]
    rm -f there/jobs-1.json
    run_in there "$share/esdk-jobs" encrypt --replace ../key out jobs <names
    ended "names whose messages are there, with --replace" 0
    want "they have jobs, too" [ "$(froms there/jobs-1.json | tr '\0' ' ')" = 'a ./b below/c ' ]
    rm -f there/jobs-1.json
    printf 'b/\0b/.\0' >names
    run_in there "$share/esdk-jobs" encrypt ../key out jobs <names
    want "names that are no files' are refused" [ "$(grep -c 'has the part .., or is no name' report)" -eq 2 ]
    rm -r there
}

# Those that a batch left undone are done by a second job file, where the first one left the beginning of a file, or an empty one.
undone_jobs() {
    mkdir -p undone/from undone/store
    echo text >undone/from/a
    echo text >undone/from/b
    printf 'a\0b\0' >names
    run_in undone/from "$share/esdk-jobs" encrypt ../../key ../store ../jobs <names
    run_in undone/from "$ESDK" batch --jobs ../jobs-1.json
    cp undone/store/b.esdk undone/kept
    head -c 100 undone/kept >undone/store/b.esdk
    printf 'a.esdk\0b.esdk\0' >names
    run_in undone/store "$share/esdk-jobs" decrypt ../../key ../back ../back <names
    run_in undone/store "$ESDK" batch --jobs ../back-1.json
    ended "a batch with a job that fails" 7
    cp output undone/back-1.json.report
    : >undone/back/b
    cp undone/kept undone/store/b.esdk
    run_in undone/store sh -c '"$1" report -0 ../back-1.json ../back-1.json.report | "$1" decrypt --replace ../../key ../back ../again' sh "$share/esdk-jobs"
    ended "a job file of those that weren't done" 0
    want "it has these alone" [ "$(froms undone/again-1.json | tr '\0' ' ')" = 'b.esdk ' ]
    run_in undone/store "$ESDK" batch --jobs ../again-1.json
    ended "the batch of those" 0
    want "and then all are there" diff -r undone/from undone/back
    rm -r undone
}

# What is made is its owner's alone, under each umask, where a folder with a default ACL gives rights.
job_rights() {
    has_acls "rights of job files" || return 0
    for entry in '' ,u:1001:rwx; do
        for mask in 000 022 077; do
            open_folder "jobs$entry" "$entry"
            printf 'a/b/c\0' >names
            run sh -c 'umask "$1"; exec "$2" encrypt key "$3/$1/to" "$3/$1"' sh "$mask" "$share/esdk-jobs" "jobs$entry" <names
            ended "a job file under umask $mask where a folder gives rights$entry" 0
            want "it is its owner's alone" [ "$(stat -c %a "jobs$entry/$mask-1.json")" = 600 ]
            want "its folders are, too" [ "$(find "jobs$entry/$mask" -type d -perm 700 | wc -l)" -eq 4 ]
        done
    done
}

# Files that can't be made, and a disk that is full.
jobs_without_room() {
    printf 'a\0b\0' >names
    run "$share/esdk-jobs" encrypt key roomless missing/jobs <names
    ended "a prefix in no folder" 4
    want "a prefix in no folder: one line" holds report "esdk-jobs: missing/jobs-1.json can't be made or written"
    run env TMPDIR="$work/missing" "$share/esdk-jobs" encrypt key roomless roomless <names
    ended "no folder for notes" 4
    seq 1 200 | tr '\n' '\0' >names
    for blocks in 0 4; do
        run sh -c 'trap "" XFSZ; ulimit -f "$2"; exec "$1" encrypt key roomless roomless' sh "$share/esdk-jobs" "$blocks" <names
        ended "files of $blocks blocks at the most" 4
    done
    run sh -c 'exec "$1" encrypt key roomless roomless >/dev/full' sh "$share/esdk-jobs" <names
    ended "names of job files that can't be written" 4
    want "no job file is left" [ ! -e roomless-1.json ]
    run sh -c 'exec "$1" report jobs-1.json empty >/dev/full' sh "$share/esdk-jobs"
    ended "a report that can't be written" 4
    want "nothing is left of job files without room" nothing_left .
}

# What steers a terminal or turns the direction of writing isn't told, and letters are.
told_names() {
    printf 'e\303\251 \346\227\245 \360\237\230\200 \303\200/..\0' >names
    printf 'c0\033[31m del\177 c1\302\233 bidi\342\200\256\342\201\246\330\234 line\342\200\250/..\0' >>names
    printf 'byte\233 cut\342\200 long\340\202\233/..\0' >>names
    run "$share/esdk-jobs" encrypt key told told <names
    ended "names that steer a terminal" 1
    {
        printf 'esdk-jobs: no job: e\303\251 \346\227\245 \360\237\230\200 \303\200/..: it has the part .., or is no name\n'
        printf 'esdk-jobs: no job: c0?[31m del? c1? bidi??? line?/..: it has the part .., or is no name\n'
        printf 'esdk-jobs: no job: byte? cut?? long???/..: it is not UTF-8\n'
        echo 'esdk-jobs: no names have jobs, and there is no job file'
    } >lines
    want "they are told without that" cmp report lines
}

many_names() {
    seq -f 'from/a name like this one, %.0f' 1 2500 | tr '\n' '\0' >names
    run "$share/esdk-jobs" encrypt key many many <names
    ended "2,500 names" 0
    want "2,500 names: three job files" [ "$(wc -l <output)" -eq 3 ]
    froms many-1.json many-2.json many-3.json >given
    want "2,500 names: none is lost" cmp given names
    # Names of control characters have six bytes for each in JSON, so that fewer than 1000 have room.
    awk 'BEGIN { for (i = 0; i < 3000; i++) long = long "\001"; for (i = 0; i < 150; i++) printf "%s%d\n", long, i }' |
        tr '\n' '\0' >names
    run "$share/esdk-jobs" encrypt key wide wide <names
    ended "150 names of 3,000 control characters" 0
    want "150 such names: nine job files" [ "$(wc -l <output)" -eq 9 ]
    froms wide-1.json wide-2.json wide-3.json wide-4.json wide-5.json wide-6.json wide-7.json wide-8.json wide-9.json >given
    want "150 such names: no file too long, and none is lost" cmp given names
}

refused_names() {
    mkdir clash
    cp key clash
    printf '%s\0' a a.esdk b ./b ../clash/b '' / . >names
    run_in clash "$share/esdk-jobs" encrypt key . j <names
    ended "names that clash" 1
    cat >lines <<'END'
esdk-jobs: no job: a: the file to be made is one that is read
esdk-jobs: no job: ./b: another name gives the same file to be made
esdk-jobs: no job: ../clash/b: it has the part .., or is no name
esdk-jobs: no job: : it has the part .., or is no name
esdk-jobs: no job: /: it has the part .., or is no name
esdk-jobs: no job: .: it has the part .., or is no name
END
    want "names that clash are named" cmp report lines
    want "the others have jobs" [ "$(froms clash/j-1.json | tr '\0' ' ')" = "a.esdk b " ]
    rm clash/j-1.json
    ln -s . clash/self
    for folder in ../clash self ././/; do
        printf 'a\0a.esdk\0' >names
        run_in clash "$share/esdk-jobs" encrypt key "$folder" j <names
        want "a folder by another name, $folder" grep -q 'no job: a: the file to be made is one that is read' report
        rm clash/j-1.json
    done
    printf 'key.esdk\0j-7.json.esdk\0plain\0.esdk\0' >names
    run_in clash "$share/esdk-jobs" decrypt ../clash/key . j <names
    ended "the keyring file, a job file, and names without .esdk" 1
    want "none of these has a job" [ "$(grep -c 'no job: ' report)" -eq 4 ]
    printf 'a\nb\n' >names
    run "$share/esdk-jobs" encrypt key new j <names
    ended "a list of lines" 2
    run "$share/esdk-jobs" encrypt key new j </dev/null
    ended "an empty list" 0
    run "$share/esdk-jobs" encrypt key new "$(printf 'a\nb')" </dev/null
    ended "a prefix with a line feed" 2
    want "nothing is left of job files" nothing_left .
}

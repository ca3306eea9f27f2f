# esdk-keygen: key files, and the names that it refuses. tests/scripts reads it.
# shellcheck shell=sh disable=SC2016,SC2094,SC2154 # texts for other shells; one file read and written; names of tests/scripts

keys() {
    run "$share/esdk-keygen" backups 2026 key
    ended "a key" 0
    want "a key file's form" grep -Eqx 'backups 2026 [0-9a-f]{64}' key
    want "a key file has one line" [ "$(wc -l <key)" -eq 1 ]
    want "a key file is its owner's alone" [ "$(stat -c %a key)" = 600 ]
    cp key first
    run "$share/esdk-keygen" backups 2026 key
    ended "a key file that is there" 4
    want "a key file isn't replaced" cmp key first
    run "$share/esdk-keygen" backups 2026 other
    want "another key is another one" [ "$(cat key)" != "$(cat other)" ]
    ln -s nowhere dangling
    mkdir folder
    for file in dangling folder /dev/null missing/key folder/; do
        run "$share/esdk-keygen" backups 2026 "$file"
        ended "a key as $file" 4
    done
    want "a link to nowhere is as it was" [ ! -e nowhere ]
    run "$share/esdk-keygen" -- -n --help ./-k
    ended "a key under names with dashes" 0
    run "$share/esdk-keygen" 'é' 'ü' accents
    ended "a key under names with accents" 0
    printf 'text' | "$ESDK" encrypt --keyring=accents >message
    run "$ESDK" decrypt --keyring=accents <message
    want "the program takes the key file" holds output text
    run sh -c 'trap "" XFSZ; ulimit -f 0; exec "$1" backups 2026 full' sh "$share/esdk-keygen"
    ended "a key file that can't be written" 4
    want "a key file that can't be written isn't left" [ ! -e full ]
}

# Makes a folder that gives rights to what is made in it, whatever the umask: open_folder FOLDER ENTRY
open_folder() { mkdir -p "$1" && setfacl -d -m "u::rwx,g::rwx,o::r-x$2" "$1"; }

# Whether there are default ACLs here; else it says that they aren't tried.
has_acls() {
    if command -v getfacl >/dev/null && command -v setfacl >/dev/null && open_folder probed ,u:1001:rwx 2>/dev/null; then return 0; fi
    echo "$1: not tried, since there are no ACLs here"
    return 1
}

# Under each umask, in folders with a default ACL, of which some name a user. (The middle digit bounds what an ACL gives, too.)
key_rights() {
    has_acls "rights of keys" || return 0
    for entry in '' ,u:1001:rwx; do
        for mask in 000 022 077; do
            open_folder "keys$entry" "$entry"
            run sh -c 'umask "$1"; exec "$2" backups 2026 "$3"' sh "$mask" "$share/esdk-keygen" "keys$entry/$mask"
            ended "a key under umask $mask where a folder gives rights$entry" 0
            want "it is its owner's alone" [ "$(stat -c %a "keys$entry/$mask")" = 600 ]
        done
        want "nothing else is there" [ "$(find "keys$entry" -type f | wc -l)" -eq 3 ]
    done
}

# The function `new` of the pages, which makes keyring files: under each umask, in a folder with a default ACL.
new_of_pages() {
    has_acls "files that the pages' \`new\` makes" || return 0
    open_folder news ,u:1001:rwx
    for page in USAGE RESTORING; do
        sed -n '/^new() /p' "$top/docs/$page.md" >new.sh
        want "docs/$page.md has it in one line" [ "$(wc -l <new.sh)" -eq 1 ]
        for mask in 000 077; do
            run sh -c 'umask "$1"; . ./new.sh; echo secret | new "$2"' sh "$mask" "news/$page.$mask"
            ended "new of docs/$page.md under umask $mask where a folder gives rights" 0
            want "it is its owner's alone" [ "$(stat -c %a "news/$page.$mask")" = 600 ]
        done
        run sh -c '. ./new.sh; echo other | new "$1"' sh "news/$page.077"
        want "new of docs/$page.md over a file: a status" [ "$status" -ne 0 ]
        want "it writes over none" holds "news/$page.077" secret
    done
    rm -r news new.sh
}

# A key is never in a file that others can open: what has the name before it is empty.
key_writing() {
    has_acls "a key while it is written" || return 0
    open_folder watched ,u:1001:rwx
    make_slow_sync watching '*[!/]'
    begin env PATH="$work/watching:$PATH" "$share/esdk-keygen" backups 2026 watched/key
    want "a key that is written" await [ -e syncing ]
    find watched -type f -size +0 -printf '%m\n' >modes
    wait "$begun"
    want "a key that is written is in a file of its owner's alone" holds modes 600
    rm syncing
}

# refused_words SCRIPT LINE WORD..: the words are refused with this line.
refused_words() {
    script=$1 line=$2
    shift 2
    run "$share/$script" "$@"
    ended "$script $*" 2
    want "$script $*: one line" holds report "$script: $line; see $script --help"
}

# What these scripts say of wrong words, and of their version.
words_of_scripts() {
    for name in esdk-audit esdk-into esdk-jobs esdk-keygen; do
        run "$share/$name" --version
        ended "$name --version" 0
        want "$name --version" holds output "$name $(cat "$top/VERSION")"
    done
    refused_words esdk-keygen "NAMESPACE, NAME and FILE are missing"
    refused_words esdk-keygen "NAME and FILE are missing" backups
    refused_words esdk-keygen "FILE is missing" backups 2026
    refused_words esdk-keygen "a word too many: mo?e" backups 2026 file "$(printf 'mo\033e')"
    refused_words esdk-into "FILE and COMMAND are missing"
    refused_words esdk-into "COMMAND is missing behind a??b" "$(printf 'a\302\233b')"
    refused_words esdk-into "no command: -x" file -x
    refused_words esdk-into "no file: folder/" folder/ echo
    refused_words esdk-audit "KEYRING and FOLDER are missing"
    refused_words esdk-audit "FOLDER is missing" key
    refused_words esdk-audit "not -- behind FOLDER: a=b" key folder a=b
    refused_words esdk-jobs "no command: encrypt, decrypt, audit or report is missing"
    refused_words esdk-jobs "no command of esdk-jobs: encrpyt" encrpyt
    refused_words esdk-jobs "TO is missing" decrypt key
    refused_words esdk-jobs "PREFIX is missing" encrypt --replace key to
    refused_words esdk-jobs "KEYRING is empty" encrypt '' to prefix
    refused_words esdk-jobs "a word too many: more" decrypt key to prefix more
    refused_words esdk-jobs "no pair KEY=VALUE: tenant" audit key prefix tenant
    refused_words esdk-jobs "REPORT is missing" report -0 jobs
}

# What bash offers for the options of these scripts, and behind one.
completed_options() {
    mkdir completed
    want "completion of an option" [ "$(offers _esdk_jobs esdk-jobs decrypt --)" = --replace ]
    want "completion behind an option" [ "$(offers _esdk_jobs esdk-jobs decrypt --replace key compl)" = completed ]
    for name in audit into jobs keygen; do
        want "completion of the first option of esdk-$name" [ "$(offers "_esdk_$name" "esdk-$name" --v)" = --version ]
    done
}

# refused_name WHAT NAMESPACE NAME
refused_name() {
    run "$share/esdk-keygen" "$2" "$3" refused
    ended "$1" 2
    want "$1: no file, and a sentence" [ ! -e refused -a -s report ]
}

key_names() {
    long=$(head -c 1024 /dev/zero | tr '\0' n)
    refused_name "an empty namespace" '' 2026
    refused_name "an empty name" backups ''
    refused_name "a namespace with a space" 'my backups' 2026
    refused_name "a name with a space" backups '2026 '
    refused_name "a namespace of 1025 bytes" "${long}n" 2026
    refused_name "a name of 1025 bytes" backups "${long}n"
    refused_name "a name that isn't UTF-8" backups "$(printf 'a\377')"
    refused_name "a name with half a pair of surrogates" backups "$(printf '\355\240\200')"
    refused_name "the namespace of AWS KMS" aws-kms 2026
    refused_name "a namespace that reads as JSON" '{' 2026
    refused_name "a name that reads as JSON" "$(printf '\t')" '{"'
    run "$share/esdk-keygen" "$long" "$long" long
    ended "names of 1024 bytes" 0
    run "$ESDK" encrypt --keyring=long </dev/null
    ended "the program takes names of 1024 bytes" 0
    run "$share/esdk-keygen" backups 2026
    ended "a word too few" 2
}

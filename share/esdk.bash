# Completion in bash for esdk and its scripts.

# Files whose names begin like the word.
_esdk_files() {
    compopt -o filenames 2>/dev/null
    mapfile -t COMPREPLY < <(compgen -f -- "$1")
}

_esdk_folders() {
    compopt -o filenames 2>/dev/null
    mapfile -t COMPREPLY < <(compgen -d -- "$1")
}

# Of these words those that begin like the last one: _esdk_words WORD WORDS
_esdk_words() { mapfile -t COMPREPLY < <(compgen -W "$2" -- "$1"); }

# The options of a command of the program.
_esdk_options() {
    case $1 in
        encrypt) echo --keyring --frame --max-keys --armour ;;
        decrypt) echo --keyring --max-keys --max-unit --allow-uncommitted --armour ;;
        extract) echo --keyring --from --at --count ;;
        list) echo --allow-uncommitted --armour ;;
        batch | audit) echo --jobs ;;
        gen) echo --seed --size ;;
        migrate) echo --keyring --retire ;;
        reseal) echo --keyring --to-keyring --frame --max-unit --allow-uncommitted ;;
    esac
}

# In the checkout `esdk` is the script, which has more words.
_esdk_commands() {
    echo encrypt decrypt extract list batch audit gen migrate reseal
    [ "$1" != ./esdk ] || echo help version build built wide install library package try
}

_esdk() {
    local word=${COMP_WORDS[COMP_CWORD]} before=${COMP_WORDS[COMP_CWORD - 1]} at=1
    COMPREPLY=()
    if [ "$COMP_CWORD" -eq 1 ]; then
        _esdk_words "$word" "$(_esdk_commands "$1")"
        return
    fi
    # An option and its value may be one word, which bash splits at `=`.
    [ "$word" != = ] || word=
    [ "$before" != = ] || before=${COMP_WORDS[COMP_CWORD - 2]}
    [ "${COMP_WORDS[1]}" != try ] || at=2
    case $before in
        --keyring | --to-keyring | --from | --jobs) _esdk_files "$word" ;;
        --frame | --max-keys | --max-unit | --at | --count | --seed | --size | --retire) ;;
        install | library | package) _esdk_folders "$word" ;;
        try) _esdk_words "$word" "encrypt decrypt extract list gen migrate reseal" ;;
        *) case $word in -*) _esdk_words "$word" "$(_esdk_options "${COMP_WORDS[at]}")" ;; esac ;;
    esac
}

# Of the options that a script takes as its first word those that begin like it; fails where it is no option: _esdk_first WORD
_esdk_first() {
    [[ $COMP_CWORD -eq 1 && $1 == -* ]] || return 1
    _esdk_words "$1" "--help --version"
}

_esdk_keygen() {
    local word=${COMP_WORDS[COMP_CWORD]}
    COMPREPLY=()
    if _esdk_first "$word"; then return; fi
    if [ "$COMP_CWORD" -eq 3 ]; then _esdk_files "$word"; fi
}

_esdk_into() {
    local word=${COMP_WORDS[COMP_CWORD]}
    COMPREPLY=()
    if _esdk_first "$word"; then return; fi
    case $COMP_CWORD in
        1) _esdk_files "$word" ;;
        2) mapfile -t COMPREPLY < <(compgen -c -- "$word") ;;
        *) _esdk_files "$word" ;;
    esac
}

_esdk_tree() {
    local word=${COMP_WORDS[COMP_CWORD]}
    COMPREPLY=()
    if _esdk_first "$word"; then return; fi
    case $COMP_CWORD:${COMP_WORDS[1]}:$word in
        1:*) _esdk_words "$word" "encrypt verify decrypt" ;;
        *:encrypt:-*) _esdk_words "$word" "--delete --list" ;;
        *:verify:-*) _esdk_words "$word" --list ;;
        *:decrypt:-*) _esdk_words "$word" --replace ;;
        2:*) _esdk_files "$word" ;;
        3:* | 4:*) _esdk_folders "$word" ;;
    esac
}

_esdk_archive() {
    local word=${COMP_WORDS[COMP_CWORD]}
    COMPREPLY=()
    if _esdk_first "$word"; then return; fi
    case $COMP_CWORD:${COMP_WORDS[1]} in
        1:*) _esdk_words "$word" "make list check restore get" ;;
        2:*) _esdk_files "$word" ;;
        3:* | 4:make | 4:restore | 5:get) _esdk_folders "$word" ;;
        *:make) _esdk_words "$word" "--zstd --part" ;;
    esac
}

_esdk_audit() {
    local word=${COMP_WORDS[COMP_CWORD]}
    COMPREPLY=()
    if _esdk_first "$word"; then return; fi
    case $COMP_CWORD in
        1) _esdk_files "$word" ;;
        2) _esdk_folders "$word" ;;
    esac
}

_esdk_jobs() {
    local word=${COMP_WORDS[COMP_CWORD]} at=$COMP_CWORD
    COMPREPLY=()
    if _esdk_first "$word"; then return; fi
    if [[ $at -gt 2 && ${COMP_WORDS[2]} == --replace ]]; then at=$((at - 1)); fi
    case $at:${COMP_WORDS[1]}:$word in
        1:*) _esdk_words "$word" "encrypt decrypt audit report" ;;
        2:encrypt:-* | 2:decrypt:-*) _esdk_words "$word" --replace ;;
        2:report:-*) _esdk_words "$word" -0 ;;
        3:encrypt:* | 3:decrypt:*) _esdk_folders "$word" ;;
        *) _esdk_files "$word" ;;
    esac
}

complete -F _esdk esdk
complete -F _esdk_archive esdk-archive
complete -F _esdk_audit esdk-audit
complete -F _esdk_keygen esdk-keygen
complete -F _esdk_into esdk-into
complete -F _esdk_tree esdk-tree
complete -F _esdk_jobs esdk-jobs

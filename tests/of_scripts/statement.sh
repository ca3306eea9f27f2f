# What docs/trusted reaches, and what it finds stale, over a copy of the sources that is changed. tests/scripts reads it.
# shellcheck shell=sh disable=SC2016,SC2154 # texts for other shells; names of tests/scripts

make_statement() {
    mkdir statement
    (cd "$top" && tar -cf - crates.txt docs/trusted docs/statement docs/AUDIT.md docs/CALLING.md docs/PROOFS.md docs/TRUSTED.md crates/*/specs crates/*/src) |
        tar -xf - -C statement
    # The guide counts the lines of the file that is changed here.
    sed -i 's/Aes.antt` ([0-9]*)/Aes.antt`/' statement/docs/AUDIT.md
    changed=statement/crates/cipher_spec/specs/Aes.antt
    cp "$changed" unchanged
    run statement/docs/trusted --write
    ended "the statement is written" 0
    reached=$(definitions)
}

# How many definitions the contract reaches.
definitions() { statement/docs/trusted --count | sed -n '3s/^[^|]*|[^|]*| \([0-9,]*\) .*/\1/p' | tr -d ,; }

# `rcon`, which the ciphers' tables rest on, has this right side, and this stands at the end of its file: says WHAT RCON MORE
says() {
    sed "s/^rcon i = .*/$2/" unchanged >"$changed"
    printf '\n%b\n' "$3" >>"$changed"
    want "$1: it is a change" sh -c '! cmp -s unchanged "$1"' sh "$changed"
}

# The contract reaches so many definitions more than it did: reaches WHAT MORE
reaches() { want "$1: the definitions" [ "$(definitions)" -eq $((reached + $2)) ]; }

# The page is current, or it is said not to be: found WHAT STATUS
found() {
    run statement/docs/trusted --check
    ended "$1" "$2"
    want "$1: the page is named" [ "$(grep -c "^docs/TRUSTED.md isn't current" output)" -eq "$2" ]
}

# What is cited is reached, however it is called, and what is only bound isn't.
reached_definitions() {
    only='abbrev pub only_here : ℕ → ℕ\nonly_here n = n'
    says "a definition that nothing cites" '&' "$only"
    reaches "a definition that nothing cites" 0
    found "a definition that nothing cites" 0
    says "a definition that is cited" 'rcon i = xtimes (only_here (i - 1)) 1 ∷ []' "$only"
    reaches "a definition that is cited" 1
    found "a definition that is cited" 1
    says "a variable of its name" 'rcon only_here = xtimes (only_here - 1) 1 ∷ []' "$only"
    reaches "a variable of its name" 0
    says "a constructor" 'rcon i = elim (Once i) [ Once n ↦ n ∷ [] ]' 'pub data Only : Type 0 where\n  Once : ℕ → Only'
    reaches "a constructor" 1
    says "a definition of another file, renamed" 'rcon i = other i ∷ []' ''
    sed -i '0,/^use /s//use Rattle.cipher_spec.specs.Ghash.{only_here as other}\n&/' "$changed"
    printf '\n%b\n' "$only" >>statement/crates/cipher_spec/specs/Ghash.antt
    reaches "a definition of another file, renamed" 1
}

# A page that isn't of these sources is told, and is written anew.
stale_statements() {
    says "a definition that says something else" 'rcon i = xtimes i 1 ∷ []' ''
    found "a definition that says something else" 1
    run statement/docs/trusted --write
    ended "what is stale is written" 0
    found "what was written is current" 0
    want "the page has the text of the sources" grep -qx 'rcon i = xtimes i 1 ∷ \[\]' statement/docs/TRUSTED.md
    sed -i '/^What must be believed in order/s/[0-9] definitions/9& /' statement/docs/PROOFS.md
    run statement/docs/trusted --check
    ended "other counts in docs/PROOFS.md" 1
    want "other counts in docs/PROOFS.md: they are named" holds output "docs/PROOFS.md isn't current: docs/trusted --write writes it anew"
    run statement/docs/trusted --write
    sed -i '0,/([0-9]* lines)/s//(1 lines)/' statement/docs/AUDIT.md
    run statement/docs/trusted --check
    ended "other counts in docs/AUDIT.md" 1
    want "other counts in docs/AUDIT.md: they are named" holds output "docs/AUDIT.md isn't current: docs/trusted --write writes it anew"
    run statement/docs/trusted --write
    sed -i '0,/#L[0-9]*)/s//#L1)/' statement/docs/AUDIT.md
    run statement/docs/trusted --check
    ended "another line in a link of docs/AUDIT.md" 1
    want "another line in a link of docs/AUDIT.md: it is named" holds output "docs/AUDIT.md isn't current: docs/trusted --write writes it anew"
    run statement/docs/trusted --write
    sed -i 's/\[`effect_of`\]/[`effect_of_none`]/' statement/docs/AUDIT.md
    run statement/docs/trusted --check
    ended "a link of docs/AUDIT.md to what no source defines" 1
    want "a link of docs/AUDIT.md to what no source defines is said" grep -q 'docs/AUDIT.md links to what .* effect_of_none' report
    sed -i 's/\[`effect_of_none`\]/[`effect_of`]/' statement/docs/AUDIT.md
    sed -i 's/^lock_fault h only key =$/lock_fault h key only =/' statement/docs/AUDIT.md
    run statement/docs/trusted --check
    ended "what docs/AUDIT.md quotes and no source has" 1
    want "what docs/AUDIT.md quotes and no source has is said" grep -q 'docs/AUDIT.md quotes what no file of specs/ has' report
    cp "$top/docs/AUDIT.md" statement/docs
    sed -i 's/OpensWholeBytes no_limits/OpensWhole no_limits/' statement/docs/CALLING.md
    run statement/docs/trusted --check
    ended "what docs/CALLING.md shows otherwise than the sources" 1
    want "what docs/CALLING.md shows otherwise than the sources is said" grep -q 'docs/CALLING.md shows .open_pieces. otherwise' report
    cp "$top/docs/CALLING.md" statement/docs
    cp statement/docs/TRUSTED.md page
    says "a name that nothing defines" 'rcon i = xtimes (nowhere i) 1 ∷ []' ''
    run statement/docs/trusted --write
    ended "a name that nothing defines" 1
    want "a name that nothing defines is said" grep -q 'rcon.*nowhere' report
    want "a name that nothing defines: nothing is written" cmp page statement/docs/TRUSTED.md
    run statement/docs/trusted --all
    ended "words that docs/trusted doesn't take" 2
}

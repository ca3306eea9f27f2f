# Messages as lines of base64, beside what coreutils' base64 makes of them. tests/scripts reads it.
# shellcheck shell=sh disable=SC2154 # names of tests/scripts

# A message of vectors/ as text is decrypted as it is itself: as_text WHAT FILE NAME
as_text() {
    run "$ESDK" decrypt --keyring=vectors.key --armour <"$2"
    want "$3, $1: the same status" [ "$status" -eq "$(cat "$3.status")" ]
    want "$3, $1: the same text" cmp output "$3.text"
    want "$3, $1: the same line" cmp report "$3.line"
}

# The messages of vectors/ in the forms in which a text of base64 comes.
armoured_vectors() {
    printf 'esdk-vectors first %s\n' 000102030405060708090a0b0c0d0e0f101112131415161718191a1b1c1d1e1f >vectors.key
    for file in "$top"/vectors/ciphertexts/*; do
        name=${file##*/}
        run "$ESDK" decrypt --keyring=vectors.key <"$file"
        echo "$status" >"$name.status"
        mv output "$name.text"
        mv report "$name.line"
        base64 -w 76 "$file" >armoured
        as_text "as base64 -w 76 has it" armoured "$name"
        base64 -w 0 "$file" >one-line
        as_text "in one line" one-line "$name"
        sed 's/$/\r/' armoured >returns
        as_text "with carriage returns" returns "$name"
        base64 -w 64 "$file" >lines-of-64
        as_text "in lines of 64" lines-of-64 "$name"
        base64 -w 1 "$file" >short-lines
        as_text "in lines of one character" short-lines "$name"
        "$ESDK" list <"$file" >listing
        run "$ESDK" list --armour <armoured
        want "$name: the same listing" cmp output listing
        if [ -e "$top/vectors/armoured/$name" ]; then
            want "$name: the text of vectors/armoured" cmp "$top/vectors/armoured/$name" armoured
        fi
        rm -f "$name".* armoured one-line returns lines-of-64 short-lines listing
    done
}

# What the program writes is what base64 -w 76 writes of the same message, and base64 -d reads it.
armoured_by_esdk() {
    for size in 0 1 2 3 18 19 20 56 57 58 1000 4096 100000; do
        head -c "$size" /dev/urandom >text
        run "$ESDK" encrypt --keyring=key --armour purpose=test <text
        ended "$size bytes as text" 0
        mv output armoured
        base64 -d <armoured >message
        want "$size bytes: base64 -d reads it, and base64 -w 76 writes it" sh -c 'base64 -w 76 message | cmp - armoured'
        run "$ESDK" decrypt --keyring=key <message
        want "$size bytes: the message is opened" cmp output text
        run "$ESDK" decrypt --keyring=key --armour <armoured
        want "$size bytes: the text is opened" cmp output text
        for width in 0 16 60 64; do
            base64 -w "$width" <message >other-lines
            run "$ESDK" decrypt --keyring=key --armour <other-lines
            want "$size bytes: the text is opened by lines of $width" cmp output text
        done
    done
    "$ESDK" encrypt --keyring=key --armour <text | "$ESDK" decrypt --keyring=key --armour >output 2>report
    want "from one to the other" cmp output text
}

# Texts that are no base64: fault_of_text LINE COMMAND..
fault_of_text() {
    line=$1
    shift
    "$@" >altered
    run "$ESDK" decrypt --keyring=key --armour <altered
    ended "$*" 1
    want "$*: $line" holds report "esdk: $line"
}

armour_refused() {
    : >text
    "$ESDK" encrypt --keyring=key --armour <text >armoured
    fault_of_text 'M27 BadArmour 1' sed '1s/./!/' armoured
    fault_of_text 'M27 BadArmour 20' sed '2s/./-/' armoured
    fault_of_text 'M27 BadArmour 1' sed '1s/^/ /' armoured
    fault_of_text 'M10 Truncated' head -n 1 armoured
    fault_of_text 'M27 BadArmour 19' head -c 75 armoured
    fault_of_text 'M27 BadArmour 1' printf 'AgR'
    fault_of_text 'M27 BadArmour 2' printf 'AgR4!!!!'
    fault_of_text 'M1 BadVersion 3' printf 'AwAA!!!!'
    fault_of_text 'M10 Truncated' printf '\n\n'
    fault_of_text 'M27 BadArmour 1' base64 -d armoured
}

# The programs of docs/CALLING.md, built and run as the page says. tests/library reads it.
# shellcheck shell=bash disable=SC2154 # names of tests/library

# The program of a language in docs/CALLING.md, the first or the one of a number: page LANGUAGE FILE [NUMBER]
page() {
    mkdir -p "$(dirname "$2")"
    awk -v fence="\`\`\`$1" -v number="${3-1}" '$0 == fence && ++met == number { inside = 1; next } inside && /^```/ { exit } inside' \
        "$top/docs/CALLING.md" >"$2"
    [ "$(wc -l <"$2")" -ge 3 ] && [ "$(wc -l <"$2")" -le 30 ]
}

# Each of these programs prints the text that came back, and nothing else.
says_hello() { "$@" >shown && [ "$(cat shown)" = hello ]; }

page_in_c() {
    page c page.c && cc -std=c11 "${strict[@]}" -o page_c page.c -L"$folder" -lesdk "-Wl,-rpath,$folder" && says_hello ./page_c && no_room_in_c
}

# A message of twelve keys has no room in the program, which says so, and opens no front of it.
no_room_in_c() {
    local status=0
    mkdir -p twelve_keys
    python3 - >twelve_keys/backups.key <<'END'
import json

keys = [{"raw": {"namespace": "backups", "name": str(n), "key": "AAECAwQFBgcICQoLDA0ODxAREhMUFRYXGBkaGxwdHh8="}} for n in range(12)]
print(json.dumps({"version": 1, "ring": {"multi": {"generator": keys[0], "children": keys[1:]}}}, separators=(",", ":")), end="")
END
    (cd twelve_keys && ../page_c >shown 2>said) || status=$?
    [ "$status" -eq 1 ] && [ ! -s twelve_keys/shown ] && [ "$(cat twelve_keys/said)" = "-1 " ]
}

page_in_python() { page python page.py && PYTHONPATH=$top/bindings/python says_hello python3 page.py; }

# new_keys make|text FILE
new_keys() { PYTHONPATH=$top/bindings/python python3 "$parts/new_keys.py" "$@"; }

new_keys_in_c() {
    new_keys make old.esdk && head -c -1 old.esdk >cut.esdk && page c new_keys.c 2 &&
        cc -std=c11 "${strict[@]}" -o move new_keys.c -L"$folder" -lesdk "-Wl,-rpath,$folder" &&
        ./move <old.esdk >moved.esdk && says_hello new_keys text moved.esdk &&
        ! ./move <cut.esdk >half.esdk 2>of_cut && [ "$(cat of_cut)" = "1010 M10 Truncated" ] && ! new_keys text half.esdk >of_half 2>&1
}

new_keys_in_python() { new_keys make old.esdk && page python new_keys.py 2 && PYTHONPATH=$top/bindings/python says_hello python3 new_keys.py; }

# It is found by pkg-config, where that is here, in a folder of two words.
page_in_rust() {
    local words=()
    ln -sfn "$folder" "a folder"
    [ -n "$(lacking pkg-config)" ] || words=(-u ESDK_LIBRARY PKG_CONFIG_PATH="$work/a folder")
    words+=(CARGO_TARGET_DIR="$work/rust_page")
    page rust page/src/main.rs
    printf '[package]\nname = "page"\nedition = "2021"\n[dependencies]\nesdk = { path = "%s" }\n' "$top/bindings/rust" >page/Cargo.toml
    says_hello env "${words[@]}" cargo run -q --offline --manifest-path page/Cargo.toml
}

page_in_go() {
    page go page_go/main.go
    printf 'module page\n\ngo 1.19\n\nrequire esdk.invalid/esdk v0.0.0\n\nreplace esdk.invalid/esdk => %s\n' "$top/bindings/go" >page_go/go.mod
    go_words
    (cd page_go && go build -o ../page_from_go .) && says_hello ./page_from_go
}

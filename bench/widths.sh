# Both programs and both widths of the ciphers in turns, for bench/run, which reads this file.
# shellcheck shell=bash disable=SC2154 # names of bench/run

wide=$(readlink -m "${ESDK_WIDE:-$top/crates/esdk_tool/out/esdk_tool_wide}")
kept=${KEPT:+$(readlink -m "$KEPT")}

# The program that times the ciphers of one width, at a few lengths and in a second or two: time_width NAME
# Where KEPT has one of that name, it is that one.
time_width() {
    if [ -z "$kept" ] || [ ! -x "$kept/$1" ]; then
        make_kernels
        sed -i -e 's/^const SHORT: usize = .*;/const SHORT: usize = 65;/' -e 's/^const LONG: .*/const LONG: [usize; 2] = [4096, 65_536];/' \
            -e '/^    320, 384, /,/^];/d' -e 's/^const ROUNDS: usize = .*;/const ROUNDS: usize = 10;/' \
            repository_kernel_times/crates/kernel_times/src/main.rt
        run_repository kernel_times
        [ -z "$kept" ] || install -D repository_kernel_times/crates/kernel_times/out/kernel_times "$kept/$1"
        mv repository_kernel_times/crates/kernel_times/out/kernel_times "$1"
        rm -rf repository_kernel_times
    else
        cp "$kept/$1" .
    fi
}

# Each program's turn: it encrypts the 64 MiB once, and decrypts them twice.
take_wide_turns() {
    local each name
    for each in "$program" "$wide" $beside; do
        name=$(basename "$each")
        run_once "$name encrypt" plain /dev/null "$each" encrypt --keyring ring
        run_once "$name decrypt" message written "$each" decrypt --keyring ring
        cmp plain written
        run_once "$name decrypt" message /dev/null "$each" decrypt --keyring ring
    done
}

# Each round: the ciphers of both widths, and those of `times_before`, OpenSSL without AES instructions, and three turns of each
# program, in a folder of their own. Of a command that takes a quarter of a second few runs are left alone by other work.
measure_widths() (
    local i
    mkdir widths
    cd widths || exit
    make_ready
    [ -x "$wide" ] || { echo "bench/run: there is no program $wide: ./esdk wide builds it" >&2; exit 70; }
    time_width times_of_16_bytes
    WIDE=1 time_width times_of_32_bytes
    [ -z "$kept" ] || [ ! -x "$kept/times_before" ] || cp "$kept/times_before" .
    head -c 67108864 /dev/urandom >plain
    "$program" encrypt --keyring ring <plain >message
    for ((i = 0; i < long_runs; i++)); do
        ./times_of_16_bytes | sed 's/^/16 /' >>kernels
        ./times_of_32_bytes | sed 's/^/32 /' >>kernels
        [ ! -x times_before ] || ./times_before | sed 's/^/before /' >>kernels
        ask_openssl
        for _ in 1 2 3; do take_wide_turns; done
    done
    echo "$without $without_long" >openssl
)

# Each call of the ciphers, in planes of 16 bytes and of 32, and which part each is of the ciphers before, where there are such.
show_steps() {
    echo
    echo "Each call: least ns in planes of 16 bytes and of 32, and of the ciphers before, and which part of these the first two are"
    awk '
        NF == 5 && $2 !~ /by_blocks/ {
            call = $2 " " $3
            ns = $5 / $4
            if (!(call in seen)) { seen[call]; name_of[++n] = call; length_of[n] = $3 }
            if (!(($1, call) in least) || ns < least[$1, call]) least[$1, call] = ns
        }
        END {
            printf "%-18s %11s %11s %11s %7s %7s\n", "call, bytes", "16: ns", "32: ns", "before: ns", "16", "32"
            for (i = 1; i <= n; i++) {
                if (name_of[i] ~ /^(seal|open) / && length_of[i] < 65 && length_of[i] % 16) continue
                a = least[16, name_of[i]]; b = least[32, name_of[i]]
                printf "%-18s %11.1f %11.1f", name_of[i], a, b
                if (("before", name_of[i]) in least) {
                    was = least["before", name_of[i]]
                    printf " %11.1f %7.2f %7.2f", was, a / was, b / was
                }
                print ""
            }
        }' widths/kernels
}

# At each length the least time of both widths; and of each program its rates, beside those of OpenSSL and of the first program.
show_widths() {
    echo
    echo "Sealing in place, with 72 bytes of associated data: least ns in planes of 16 bytes and of 32, which part of the first the second is, and MB/s beside OpenSSL without AES instructions"
    read -r without without_long <widths/openssl
    awk -v without="$without" -v without_long="$without_long" '
        $2 == "seal" {
            ns = $5 / $4
            if (!(($1, $3) in least)) { if ($1 == 16) length_of[++n] = $3; least[$1, $3] = ns }
            if (ns < least[$1, $3]) least[$1, $3] = ns
        }
        END {
            printf "%9s %11s %11s %7s %9s %9s %10s %7s %7s\n", "bytes", "16: ns", "32: ns", "part", "16: MB/s", "32: MB/s", "OpenSSL", "16", "32"
            for (i = 1; i <= n; i++) {
                m = length_of[i]
                if (m < 65 && m % 16 && m != 1) continue
                a = least[16, m]; b = least[32, m]
                theirs = m == 4096 ? without : m == 65536 ? without_long : 0
                printf "%9d %11.1f %11.1f %7.2f %9.1f %9.1f", m, a, b, b / a, m / a * 1000, m / b * 1000
                if (theirs) printf " %10.1f %7.2f %7.2f", theirs, m / a * 1000 / theirs, m / b * 1000 / theirs
                print ""
            }
        }' widths/kernels
    show_steps
    echo
    echo "64 MiB: the rate by the least time of the processor, how many times that is the rate of OpenSSL without AES instructions in calls of 4,096 bytes, and which part of the first program's time it takes"
    awk -v without="$without" '
        { cpu = $4 + $5 }
        !(($1, $2) in least) { if (!($1 in seen)) { seen[$1]; name_of[++n] = $1 }; least[$1, $2] = cpu }
        cpu < least[$1, $2] { least[$1, $2] = cpu }
        END {
            printf "%-24s %9s %9s %7s %9s %9s %7s\n", "program", "encrypt", "OpenSSL", "part", "decrypt", "OpenSSL", "part"
            for (i = 1; i <= n; i++) {
                printf "%-24s", name_of[i]
                for (j = 1; j <= 2; j++) {
                    word = j == 1 ? "encrypt" : "decrypt"
                    rate = 67.108864 / least[name_of[i], word]
                    printf " %9.1f %9.2f %7.2f", rate, rate / without, least[name_of[i], word] / least[name_of[1], word]
                }
                print ""
            }
        }' widths/runs
}

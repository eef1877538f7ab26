#!/bin/sh
# Runs a drive on input that is no script and on broken, long and large scripts: robust.sh DRIVE [WITHOUT]
# It must end well, answer as the oracle does, in memory that does not grow and in time that grows with the input.
# WITHOUT are calls that the drive does not have, as for compare.sh. Needs GNU coreutils and /usr/bin/time.
set -eu
[ $# -ge 1 ] || { sed -n 2,4p "$0" >&2; exit 2; }
case $1 in
    /*) drive=$1 ;;
    *) drive=$PWD/$1 ;;
esac
without=${2:-}
cd "$(dirname "$0")"
cargo build --release --offline --quiet
oracle=$PWD/target/release/oracle
work=$PWD/target/robust
rm -rf "$work"
mkdir -p "$work"
cd "$work"
export LC_ALL=C
most=8192 # KB
failed=0

fail() { # WHAT
    echo "FAILED: $1"
    failed=$((failed + 1))
}

row() { # NAME FILE: runs the drive on a file
    ended=0
    timeout 600 /usr/bin/time -q -o used -f '%U %S %M' "$drive" < "$2" > answers 2> /dev/null || ended=$?
    "$oracle" run < "$2" > expected
    read -r user system peak < used
    seconds=$(echo "$user $system" | awk '{ printf "%.2f", $1 + $2 }')
    printf '%-34s %11d %9d %8s %8d\n' "$1" "$(wc -c < "$2")" "$(wc -l < "$2")" "$seconds" "$peak"
    [ "$ended" -eq 0 ] || fail "$1: ended with $ended"
    cmp answers expected || fail "$1: answers otherwise, $work/$2"
    [ "$peak" -le $most ] || fail "$1: $peak KB"
}

made() { # NAME: the row of the input that comes on standard input, which stays if it fails
    file=$(echo "$1" | tr ' ,' '-_')
    cat > "$file"
    before=$failed
    row "$1" "$file"
    [ "$failed" -ne "$before" ] || rm "$file"
}

script() { # SEED LINES KINDS
    "$oracle" random --seed "$1" --lines "$2" --kinds "$3" --without "$without" --script "script$1" --answers /dev/null
}

many() { # COUNT: so many times lines that are as long as a line may be, or one byte beside
    awk -v count="$1" 'function zeros(n) { return sprintf("%0" n "d", 0) }
        BEGIN { for (i = 0; i < count; i++) for (n = 4094; n <= 4097; n++) {
            print "register " zeros(n - 11) "10"
            print "lent clock " zeros(n - 11)
            print "#" zeros(n - 1)
            print "start-model " zeros(n - 16) " 1 2"
            print zeros(n) } }'
}

printf '%-34s %11s %9s %8s %8s\n' input bytes lines 'CPU s' 'peak KB'
random() { head -c "$1" /dev/urandom; }
random 40000000 | made 'random bytes'
random 20000000 | tr '\000-\177' '[\n*128]' | made 'random, every second a newline'
random 20000000 | tr '\000-\360' '[\n*241]' | made 'random, nearly all newlines'
random 80000000 | tr -dc ' -~\n' | made 'random, printable'
random 80000000 | tr -dc 'a-z0-9 \n-' | made 'random, letters and digits'

script 1 400000 stateless,sessions,runs,mode
awk 'BEGIN { srand(1) } { print substr($0, 1, int(rand() * (length($0) + 1))) }' script1 | made 'script, lines cut'
awk 'BEGIN { srand(2) } { at = int(rand() * 40); print substr($0, 1, at) (rand() < 0.5 ? "\n" : "") substr($0, at + 1) }' script1 | made 'script, lines cut in two'
tr ' ' '\000' < script1 | made 'script, NUL for each space'
tr '0' '\000' < script1 | made 'script, NUL for each 0'
tr '\n' '\r' < script1 | made 'script, no newlines'
sed 's/$/\r/' script1 | made 'script, CR before each newline'
for bytes in 1 2 4095 65535 65536 65537 131072 1000003; do
    head -c $bytes script1 | made "script, its first $bytes bytes"
done
printf 'register 10' | made 'one line, no newline'
: | made nothing

head -c 40000000 /dev/zero | made 'NUL bytes'
head -c 40000000 /dev/zero | tr '\000' '\n' | made newlines
yes '' | head -c 40000000 | tr '\n' ' ' | made spaces
{ head -c 1000000 /dev/zero | tr '\000' x; printf '\nregister 10\n'; } | made 'line of 1 MB, then a line'
head -c 200000000 /dev/zero | tr '\000' 1 | made 'line of 200 MB, no newline'
{ printf '#'; head -c 200000000 /dev/zero; printf '\nregister 10'; } | made 'comment of 200 MB, then a line'
many 600 | made 'lines of 4,094 to 4,097 bytes'
many 600 | tr -d '\n' | fold -w 4095 | made 'lines of 4,095 bytes'
many 600 | tr '0' '\000' | made 'lines of 4,094 to 4,097 with NULs'

# Time and memory over size.
script 2 4200000 all
for mega in 10 50 100; do
    head -c ${mega}000000 script2 > part
    row "script of $mega MB" part
    eval "seconds$mega=$seconds"
done
echo "$seconds10 $seconds100" | awk '{ exit !($2 <= 15 * $1 + 0.5) }' || fail "100 MB take $seconds100 s, 10 MB $seconds10 s"

# Reads of few bytes.
head -c 3000000 script2 > part
"$oracle" run < part > expected
dd if=part obs=61 status=none | timeout 600 "$drive" > answers 2> /dev/null || fail 'reads of few bytes: status'
cmp answers expected || fail 'reads of few bytes: answers otherwise'

# Ends that are closed or full. Where nobody takes the answers the drive must end, with 0, with 1 or by the signal.
end() { # NAME STATUS
    case $2 in
        0 | 1 | 141) echo "$1: ended with $2" ;;
        *) fail "$1: ended with $2" ;;
    esac
}
{ ended=0; timeout 60 "$drive" < part 2> /dev/null || ended=$?; echo $ended > used; } | head -1 > answers
end 'output closed after a line' "$(cat used)"
head -1 expected | cmp - answers || fail 'output closed after a line: answers otherwise'
ended=0; timeout 60 "$drive" < part 2> /dev/null > /dev/full || ended=$?; end 'output full' $ended
ended=0; timeout 60 "$drive" < part 2> /dev/null >&- || ended=$?; end 'no output' $ended
ended=0; timeout 60 "$drive" <&- > answers 2> /dev/null || ended=$?; end 'no input' $ended
[ ! -s answers ] || fail 'no input: answers'

echo "$failed failed"
[ $failed -eq 0 ] && rm -r "$work"

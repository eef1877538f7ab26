#!/bin/sh
# Makes the list that the gate replays, crates/drive/stdin and stdout: the scripts here and random lines, with the original's answers.
set -eu
cd "$(dirname "$0")"
cargo build --release --offline --quiet
oracle=target/release/oracle
list=../crates/drive
part=target/part.script
: > "$list/stdin"
add() { # SEED LINES KINDS
    "$oracle" random --seed "$1" --lines "$2" --kinds "$3" --script "$part" --answers /dev/null
    cat "$part" >> "$list/stdin"
}
add 1 2500 frames-out
add 2 1200 frames-in
add 9 700 motor-side
add 3 600 tables
add 5 800 models
# lines.script has calls on a session that has not started, so that what starts one comes after it.
cat lines.script >> "$list/stdin"
cat runs.script mode.script worst.script accident.script >> "$list/stdin"
# The same again with every frame taken by the entry that the session is lent to.
LC_ALL=C sed 's/^frame /frame-lent /' lines.script runs.script mode.script accident.script >> "$list/stdin"
add 6 1400 sessions
add 7 2000 runs
add 8 3000 mode
# The function over all calls; then runs again with every start, answer and patch by it.
cat lent.script >> "$list/stdin"
may_be_lent='get-u32|get-f32|write-u32|write-f32|fresh-state|store|mode|clock|sent|send-timeout|send-failed|slept|patch'
LC_ALL=C sed -E "s/^($may_be_lent)( |\$)/lent &/" runs.script mode.script >> "$list/stdin"
add 4 700 bad
printf '# The last line has no newline.\nregister 10' >> "$list/stdin"
"$oracle" run < "$list/stdin" > "$list/stdout"
wc -l "$list/stdin" "$list/stdout"

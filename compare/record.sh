#!/usr/bin/env bash
# Records the original's answers for the replays: writes replay/stdin, and stdin and stdout of locate/
# and tokenize/, in the folder crates/, or in the folder named.
#
#   MINIJINJA_SRC=FOLDER compare/record.sh [FOLDER]
set -eu

here=$(cd "$(dirname "$0")" && pwd)
crates=${1:-$here/../crates}
new=$(mktemp -d)
trap 'rm -rf "$new"' EXIT

compare() {
    cargo run --quiet --release --offline --manifest-path "$here/Cargo.toml" -- "$@"
}

# Nothing is written unless all of it could be recorded.
compare record --count 4000 --seed 1 >"$new/texts"
compare record-find --count 3000 --seed 1 "$new/questions" "$new/answers"
compare record-read --count 3400 --seed 1 "$new/templates" "$new/readings"
mkdir -p "$crates/replay" "$crates/locate" "$crates/tokenize"
cat "$new/texts" >"$crates/replay/stdin"
cat "$new/questions" >"$crates/locate/stdin"
cat "$new/answers" >"$crates/locate/stdout"
cat "$new/templates" >"$crates/tokenize/stdin"
cat "$new/readings" >"$crates/tokenize/stdout"
echo "$crates/replay/stdin: $(wc -l <"$crates/replay/stdin") answers"
echo "$crates/locate/stdin, stdout: $(wc -l <"$crates/locate/stdin") questions and their answers"
echo "$crates/tokenize/stdin, stdout: $(wc -l <"$crates/tokenize/stdin") templates and their readings"

#!/bin/sh
# The program's exit statuses, its output and its one line on standard error. Run after `make wallet`.
set -u
unset OP_WALLET_MASTER
cd "$(dirname "$0")/.." || exit 1
wallet=bin/wallet
folder=$(mktemp -d)
trap 'rm -rf "$folder"' EXIT
failed=0

# check NAME STATUS LINE: compares with what the last run left
check() {
    if [ "$status" -eq "$2" ] && [ "$(cat "$folder/err")" = "$3" ] && cmp -s "$folder/out" "$folder/want"; then
        echo "ok      $1"
    else
        echo "FAILED  $1: status $status, standard error: $(cat "$folder/err")"
        failed=1
    fi
}

# A fresh journal for each run.
fresh() {
    rm -f "$folder/journal"
}

# run WORDS.. < INPUT
run() {
    "$wallet" "$@" > "$folder/out" 2> "$folder/err"
    status=$?
}

cp crates/wallet/stdout "$folder/want"
run apply "$folder/journal" < crates/wallet/stdin
check 'the same asset twice' 0 ''

printf 'OPWJ\0\0\0\001\001\0\0\0\021\002' > "$folder/front"
if ! head -c 14 "$folder/journal" | cmp -s - "$folder/front"; then
    echo 'FAILED  the journal has one frame, with a round of version 2 of seventeen bytes'
    failed=1
fi

: > "$folder/want"
fresh
run apply "$folder/journal" < /dev/null
check 'no input' 0 ''

usage='usage: wallet apply JOURNAL'
run < crates/wallet/stdin
check 'no words' 2 "$usage"
run apply < crates/wallet/stdin
check 'no journal' 2 "$usage"
run apply -j < crates/wallet/stdin
check 'a journal with a dash in front' 2 "$usage"
run apply '' < crates/wallet/stdin
check 'an empty name of a journal' 2 "$usage"
run serve wallet.journal < crates/wallet/stdin
check 'another command' 2 "$usage"
run apply wallet.journal more < crates/wallet/stdin
check 'a word too many' 2 "$usage"
run apply "$(head -c 4097 /dev/zero | tr '\0' j)" < crates/wallet/stdin
check 'a name of 4097 bytes' 2 "$usage"
run apply "$(head -c 4096 /dev/zero | tr '\0' j)" < /dev/null
check 'a file that cannot be opened: its name is too long' 5 "wallet: a call on the journal's file failed"

# malformed NAME SECRET: the program ends before it reads a byte, and before it makes a journal
malformed() {
    fresh
    {
        OP_WALLET_MASTER="$2" "$wallet" apply "$folder/journal" > "$folder/out" 2> "$folder/err"
        status=$?
        cat > "$folder/rest"
    } < crates/wallet/stdin
    check "$1" 2 "$usage"
    if [ -e "$folder/journal" ] || ! cmp -s "$folder/rest" crates/wallet/stdin; then
        echo "FAILED  $1: the input was read, or a journal was made"
        failed=1
    fi
}

digits=0123456789abcdefABCDEF98765432100123456789abcdefABCDEF9876543210
malformed 'an empty master secret' ''
malformed 'a master secret of 63 digits' "${digits%?}"
malformed 'a master secret of 65 digits' "${digits}0"
malformed 'a master secret with a letter that is no digit' "${digits%?}g"
malformed 'a master secret that is no text' "$(printf '\377\376')"

fresh
OP_WALLET_MASTER=$digits "$wallet" apply "$folder/journal" < /dev/null > "$folder/out" 2> "$folder/err"
status=$?
check 'a master secret of 64 digits in either case' 0 ''

printf 'OPWJ\0\0\0\002\0\0' > "$folder/journal"
run apply "$folder/journal" < crates/wallet/stdin
check 'a journal of another version' 3 'wallet: the journal spells no legal history'

fresh
run apply "$folder/journal" < /
check 'an input that cannot be read' 4 'wallet: a read of the input failed'

printf 'HTTP/1.1 400 Bad Request\r\nconnection: close\r\ncontent-length: 38\r\ncontent-type: application/json\r\n\r\n{"error":{"at":214,"code":"bad_http"}}' > "$folder/refusal"
cat crates/wallet/stdout "$folder/refusal" > "$folder/want"
fresh
{ cat crates/wallet/stdin; printf X; } | "$wallet" apply "$folder/journal" > "$folder/out" 2> "$folder/err"
status=$?
check 'a rest that is no request' 10 'wallet: the rest of the input begins with no request'

if [ -c /dev/full ]; then
    : > "$folder/want"
    : > "$folder/out"
    fresh
    "$wallet" apply "$folder/journal" < crates/wallet/stdin > /dev/full 2> "$folder/err"
    status=$?
    check 'an output that takes nothing' 6 'wallet: a write of the output failed'
fi

# The journal is locked while it is open: a second program on it fails, and the first goes on.
: > "$folder/want"
: > "$folder/first_out"
fresh
mkfifo "$folder/pipe"
"$wallet" apply "$folder/journal" < "$folder/pipe" > "$folder/first_out" 2> "$folder/first_err" &
first=$!
exec 3> "$folder/pipe"
head -c 107 crates/wallet/stdin >&3
tries=0
while [ ! -s "$folder/first_out" ] && [ "$tries" -lt 60 ]; do
    sleep 1
    tries=$((tries + 1))
done
cp "$folder/journal" "$folder/before"
run apply "$folder/journal" < crates/wallet/stdin
check 'a journal that another program holds open' 5 "wallet: a call on the journal's file failed"
if ! cmp -s "$folder/journal" "$folder/before"; then
    echo 'FAILED  the program without the lock changed the journal'
    failed=1
fi
{
    tail -c +108 crates/wallet/stdin
    sed 's/USD/EUR/' crates/wallet/stdin | head -c 107
} >&3
exec 3>&-
wait "$first"
status=$?
sed 's/USD/EUR/' crates/wallet/stdout | head -c 140 > "$folder/added"
cat crates/wallet/stdout "$folder/added" > "$folder/want"
mv "$folder/first_out" "$folder/out"
mv "$folder/first_err" "$folder/err"
check 'the program that holds the journal' 0 ''

tail -c +141 crates/wallet/stdout > "$folder/known"
cat "$folder/known" "$folder/known" > "$folder/want"
{
    head -c 107 crates/wallet/stdin
    sed 's/USD/EUR/' crates/wallet/stdin | head -c 107
} > "$folder/both"
run apply "$folder/journal" < "$folder/both"
check 'both assets of the program that held the journal are there' 0 ''

exit $failed

#!/bin/sh
# Runs the program on one journal: adds an asset, adds it again in a second run, and shows what is refused.
cd "$(dirname "$0")/.." || exit 1
folder=$(mktemp -d)
trap 'rm -rf "$folder"' EXIT

# show TITLE FILE: sends a file of requests, and shows it with the replies
show() {
    echo "--- $1"
    cat "examples/$2"
    echo
    echo '--- the replies:'
    bin/wallet apply "$folder/journal" < "examples/$2"
    status=$?
    echo
    echo "--- status $status"
    echo
}

show 'a first run adds USD' add-asset.http
echo '--- the journal, in hexadecimal:'
od -An -tx1 "$folder/journal"
echo
show 'a second run on the same journal knows it' add-asset.http
show 'a path that is no route, and a body without a scale' refused.http
show 'a head that is none' malformed.http

#!/usr/bin/env bash
# Misuses of books and banks that the check must refuse. They are refused before anything is proved, so they cannot be
# must-fail edits: each is written into a small client beside a copy of the crates that it needs, and the check must stop
# with the error that is named. Prints a line for each; exits 1 where one is not refused so.
# usage: tests/misuse.sh
set -u
cd "$(dirname "${BASH_SOURCE[0]}")/.."
work=$(mktemp -d)
trap 'rm -rf "$work"' EXIT

# the crates that the client needs, from the bottom up: the book's and what they rest on
needed=$(awk -F': *' '!/^#/ && NF { name[++n] = $1; deps[$1] = $2 }
    END { need["book"] = 1
        for (i = n; i > 0; i--) if (name[i] in need) { k = split(deps[name[i]], d, " "); for (j = 1; j <= k; j++) need[d[j]] = 1 }
        for (i = 1; i <= n; i++) if (name[i] in need) print name[i] }' crates.txt)
mkdir -p "$work/crates/client/src"
for name in $needed; do
    grep "^$name:" crates.txt >>"$work/crates.txt"
    # without what earlier checks left there: the check finds by itself what is proved already
    tar -c --exclude="crates/$name/out" "crates/$name" | tar -x -C "$work"
done
echo 'client: digest bank book' >>"$work/crates.txt"

# a client whose book takes a bank and filters a subtable; what it does then is given
client() {
    cat >"$work/crates/client/src/lib.rt" <<END
//! A client of books.
#![tactic(auto)]

use bank::Filtering;
use bank::Matching;
use book::Book;
use digest::budget::Budget;

/// Filters a subtable of the bank.
pub fn filter_one<B: Filtering + Drop>(bank: B, budget: &mut Budget) {
    let mut book = Book::new(bank);
    let _ = book.filter(0, budget);
    $1
}
END
    (cd "$work/crates/client" && rt check 2>&1)
}

failed=0

# what is misused, the error that must be given, and what the client does
refused() {
    local said
    if said=$(client "$3"); then
        echo "misuse: $1: NOT REFUSED"
        failed=1
    elif printf '%s' "$said" | grep -qF "error[$2]"; then
        echo "misuse: $1: refused by $2"
    else
        echo "misuse: $1: refused, but not by $2"
        printf '%s\n' "$said" | grep 'error' | head -3
        failed=1
    fi
}

if ! said=$(client 'let _ = book.end();'); then
    echo 'misuse: the client without a misuse is refused'
    printf '%s\n' "$said" | grep 'error' | head -3
    exit 1
fi
refused 'an ended book filtered' borrow-e0382 'let _ = book.end(); let _ = book.filter(0, budget);'
refused 'a bank used after a book took it' borrow-e0382 'let _ = bank.count(); let _ = book.end();'
refused 'a bank given to two books' borrow-e0382 'let twin = Book::new(bank); let _ = twin.end(); let _ = book.end();'
refused 'a book copied' borrow-e0382 'let copy = book; let _ = copy.end(); let _ = book.end();'
refused 'a book let go without ending it' linear-value-let-go ''
exit "$failed"

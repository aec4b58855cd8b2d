#!/usr/bin/env bash
# Counts the places in the sources that docs/DESIGN-PASS.md speaks of, one line a count. Run at the top of a
# checkout.
set -u
cd "$(dirname "$0")/.." || exit 1

sources() { find crates -path '*/out' -prune -o -path '*/src/*' -name '*.rt' -print | sort; }
answers() { find crates -path '*/out' -prune -o -path '*/proofs/*' -name Answers.antt -print | sort; }
functions() { sources | xargs grep -hoE '^ *(pub(\(crate\))? )?(final )?(extern "C" )?fn [a-z0-9_]+' | sed -E 's/.*fn //'; }

printf '1  enums of our own: %d\n' \
    "$(sources | xargs grep -hE '^ *(pub(\(crate\))? )?enum ' | wc -l)"
printf '1  of them with a case for nothing or for a refusal: %d\n' \
    "$(sources | xargs awk '/^ *(pub(\(crate\))? )?enum /{name=$0; body=""; inside=1} inside{body=body" "$0}
        inside&&/^}/{inside=0; if (body ~ /(Refused|Nothing|Unreadable|NotFinite|Dropped|End,|Failed)/) print name}' | wc -l)"
printf '1  early leaves by `if let` or `let .. else`: %d\n' \
    "$(sources | xargs cat | grep -cE 'if let .*Refused|^ *(\} |\) )?else \{$|\) else \{$')"
printf '2  names that more than one function has: %d, of %d functions\n' \
    "$(functions | sort | uniq -d | wc -l)" "$(functions | sort | uniq -D | wc -l)"
printf '3  loops by `while`: %d\n' \
    "$(sources | xargs cat | grep -cE '^ *while ')"
printf '4  derives: %d; impls of std traits by hand: %d\n' \
    "$(sources | xargs cat | grep -cE '^ *#\[derive')" \
    "$(sources | xargs cat | grep -cE '^impl.* (Display|From|TryFrom|FromStr|PartialEq|Ord|Iterator|Write)\b.* for ')"
printf '5  functions of seven parameters or more: %d\n' \
    "$(sources | xargs perl -0777 -ne 'while (/fn \w+(?:<[^>]*>)?\(([^{]*?)\)\s*(?:->|\n|\{)/g) { my $p=$1; my $n=()=$p=~/:\s/g; $k++ if $n>=7 } END{print $k+0}')"
printf '5  clauses that ask for a rising list of protected parents: %d\n' \
    "$(sources | xargs cat | grep -cE '^ *requires.*RisingList')"
printf '6  arrays of a fixed length: %d\n' \
    "$(sources | xargs grep -hoE '\[[a-zA-Z0-9_.]+; [A-Za-z_0-9:]+\]' | wc -l)"
printf '7  matches on which step to run: %d\n' \
    "$(sources | xargs cat | grep -cE 'match pass|match pooling|match kind|if to\.row == 1')"
printf '8  goals answered by hand: %d, in %d files; lines of function proofs: %d\n' \
    "$(answers | xargs cat | grep -cE '^pub [^ ]+ : goal\.')" "$(answers | wc -l)" \
    "$(find crates -path '*/out' -prune -o -path '*/proofs/*/*' -name '*.antt' -print | xargs cat | wc -l)"
printf '   lines of src: %d; functions: %d\n' "$(sources | xargs cat | wc -l)" "$(functions | wc -l)"

#!/bin/sh
# Counts the places of each point of docs/DESIGN-PASS.md in src/. With a word, lists those of that row, as `tools/places.sh 3a`.
S="crates/*/src/*.rt crates/*/src/*/*.rt"
row() { # row NAME PATTERN: lines that the pattern finds
    if [ -z "$only" ]; then printf '%s %s\n' "$1" "$(grep -hE -- "$2" $S 2>/dev/null | wc -l)"; elif [ "$only" = "$1" ]; then grep -nE -- "$2" $S 2>/dev/null; fi
}
pairs() { # pairs NAME FIRST SECOND: lines that FIRST finds, where SECOND finds the line below
    if [ -z "$only" ]; then printf '%s %s\n' "$1" "$(grep -hE -A1 -- "$2" $S 2>/dev/null | grep -cE -- "$3")"; elif [ "$only" = "$1" ]; then grep -nE -A1 -- "$2" $S 2>/dev/null | grep -E -- "$3"; fi
}
twins() { # twins NAME: items outside tests whose name and kind stand in two crates
    if [ -z "$only" ] || [ "$only" = "$1" ]; then
        for c in crates/*/; do
            c=${c#crates/}; c=${c%/}
            case $c in *_trials) continue ;; esac
            grep -hoE '^ *(pub(\(crate\))? )?(fn|struct|enum|const) [A-Za-z_]+' crates/$c/src/*.rt crates/$c/src/*/*.rt 2>/dev/null | sed -E 's/^ *(pub(\(crate\))? )?//' | sort -u
        done | sort | uniq -d > /tmp/twins.$$
        if [ -z "$only" ]; then printf '%s %s\n' "$1" "$(wc -l < /tmp/twins.$$)"; else cat /tmp/twins.$$; fi
        rm -f /tmp/twins.$$
    fi
}
only=$1
row 1a '^    (End|Refused|Nothing)\b'
row 1b 'refused\([0-9]\)|number: (u64|[0-9]|NO_EVENT)|Refusal \{$'
row 1c 'Result<.*, usize>'
row 1d 'tag: u8|match \*?tag|\*(tag|form|marker) (==|!=|>)|put_bytes\(out, [a-z0-9]+, &\[[0-9](, 0)?\]\)'
pairs 1e 'else \{$' 'return None;'
row 1f 'Err\((_|place)\) => |None => None,|\(_[a-z]+\) = '
row 1g '\(\) -> u8$'
row 1h 'return 9|=> (9|100|200),|, (true|false)\),$|GARBLED, '
twins 2a
row 3a 'for [a-z]+ in [a-z0-9]+\.\.|while '
row 3b '(reply_at\(mem, at, clock, [0-9]\)|bytes\[i( \+ [0-9])?\]),'
row 4a 'fn (same|later|push_[a-z]+)\('
row 4b 'limits\.[a-z]+ as usize|(number|place): refusal\.|=> -1,'
row 5a 'mem: &(mut )?\[u64\], at: Place'
row 5b 'requires .*Ranged'
row 5c 'out: &mut \[u8\], at: usize'
row 5d 'limits: Limits, me: usize'
row 5e 'answer_most ≤'
row 6a '(len|base|count): usize,$'
row 6b '\[Option<|puts\[maker'
row 7a 'fn\(|dyn '

#!/bin/sh
# The places that docs/DESIGN-PASS.md counts, point by point: a line for each, `FILE:LINE:TEXT`, and then how many there are.
# What a line stands for (to be changed, or kept with a reason) is told on that page.
cd "$(dirname "$0")/.." || exit 1

say() {
    echo "== $1"
    shift
    grep -rnE --include='*.rt' "$@" crates/*/src | grep -vE ':[0-9]+:\s*(///?|//!|ghost|requires|ensures)' > /tmp/places.$$
    cat /tmp/places.$$
    echo "-- $(wc -l < /tmp/places.$$) places"
    rm -f /tmp/places.$$
}

say '1 enums of our own'                    '^\s*(pub(\([a-z]+\))? )?enum '
say '1 an error handed out as an option'    'Option<(Refusal|Offence)>'
say '1 numbers for kinds and refusals'      '\(u8, usize, usize\)|\b(verdict|number): u8\b|Compare\(u8\)|\.number\(\)|\b65535\b|\(100, |=> \(0, '
say '3 loops and their counters'            '\bwhile |\bloop \{|\bfor [a-z_]+ in [^ ]*\.\.'
say '4 conversions by name'                 'fn (numbered|number|numeral|copy_of|report|values|numbered|done|granted|found|listed|order_name|read_verb|read_order_verb|read_search_verb)\b'
say '4 text of a value'                     "fn (text|reason|mark_word|verdict_word|meaning|shape|letter|push_number)\\b"
say '4 comparisons by hand'                 'fn (ascends|waits|live|is_text|is_lawful|is_delivered|is_rank|is_about_rank)\b'
say '4 types without a derived comparison'  'derive\((Clone, Copy|Clone, Copy, Drop)\)'
say '6 arrays of a fixed length, pairs of a buffer and a length' '\[(u8|u32|u64|usize|I); ?[0-9]+\]|\(\[usize|Slot<[A-Za-z0-9]+>; 4096\]'
say '6 lists searched by hand'              'Vec<(Binding|Node)>|lo \+ \(hi - lo\)'
say '7 switches on what to do'              'match (statement|\*call|call|drawing|call\.question|question|self\.question|random\.below|word|order|read_)'

#!/usr/bin/env bash
# Counts the places of each point of docs/DESIGN-PASS.md in src/: tools/places.sh FOLDER [list]
# FOLDER is a checkout; with `list` each place is printed below its count.
cd "${1:?a checkout}" || exit 1
look() { grep -rnE "$1" crates/*/src --include=*.rt; }
results()  { look 'enum Answer|past the last if|0 means none|limited: bool|away: u32|-> Option<Refusal>|answer: Answer,|fn (add|deal)\(&mut self.*-> bool|-> Option<Queue'; }
twins()    { look 'fn (opposite|is_limited|can_rest|is_reserve|part_of|filter|keep|keep_full|keep_resting|in_order|to_order_latest_first|trade_side|trade_best_first|renew|replenish)\b|struct (BuyersMemory|SellersMemory)|impl RankedMemory for|Step::(Setter|Displayed) => .*(shown|len\(\) > 0|deal_parts|0,)|Side::(Buy|Sell) => .*(state\.(buys|sells)|trade_best_first|renew::|take_off_side)|Phase::(Open|Halted), Call::(Close|Quote|Cancel|Reduce)'; }
loops()    { look 'for [a-z_]+ in [0-9a-z]+\.\.|^ +while [a-z]+ [<>]'; }
by_hand()  { look "fn (letter|number|code|columns)\(self\)|impl.* (Clone|Copy) for|== 'B'$|fn is_reserve|let [a-z]+ = (columns|part|claim)\.[a-z]+;|fn name\(call"; }
facts()    { grep -rhoE 'requires( [a-z_]+)? \{.*\}' crates/*/src --include=*.rt | sed -E 's/requires( [a-z_]+)? //; s/\b(self|levels|state|wheel|book|heads|claims|parts|interests|taken)\.(old|now)/X/g; s/K\.Ranking\./K./g' | sort | uniq -c | sort -rn | awk '$1 >= 3'; }
many()     { python3 - <<'PY'
import glob, re
for file in sorted(glob.glob('crates/*/src/**/*.rt', recursive=True)):
    for f in re.finditer(r'fn (\w+)(<[^>]*(?:>[^(]*)?>)?\(([^)]*)\)', open(file).read()):
        n = len([p for p in f.group(3).split(',') if p.strip()])
        if n >= 6:
            print(f'{file}: {f.group(1)} has {n} parameters')
PY
}
buffers()  { look '^ +len: usize,|\[[A-Za-z0-9]+; (SEATS|ROOM|ORDERS|N|PLACES|PARTS)\],'; }
switches() { look 'trait (KeepsSeat|Grouping|Counts|Edit|Stands)|struct (Others|Interests|Together|ByParticipant|Marked|OfOrder|NewQueue|Unfilled|NotOf)\b'; }
for point in results twins loops by_hand facts many buffers switches; do
    echo "$point $($point | wc -l)"
    [ -z "${2:-}" ] || $point
done

ends 0 "$(cat "$crate/stdout")"$'\n' "" "lru_rows rows"
ends_at_failed_writes 1 "lru_rows: $too_large" "lru_rows rows"
ends 1 "" "lru_rows: $no_space" "lru_rows rows > /dev/full"
ends 1 "" "" "lru_rows rows > /dev/full 2> /dev/full"
ends 1 "" "" "lru_rows 2> /dev/full"

# from some seeds, .ci/stress runs the stress workload to its end
for words in "" "''" row Rows "rows rows" "rows ''" stress "stress ''" "stress x" "stress +1" \
    "stress -1" "stress ' 1'" "stress 1_0" "stress 18446744073709551616" "stress 1 2" "Stress 1" \
    "\$'\xff'"; do
    ends 2 "" "usage: rows | stress SEED"$'\n' "lru_rows $words"
done

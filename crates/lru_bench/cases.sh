: > empty
system="a file, a write, the clock or random numbers failed"$'\n'

# plans WORDS LINE..: with these words, `time` would run what the lines say.
plans() {
    local words=$1
    shift
    ends 0 "$(printf '%s\n' "$@")"$'\n' "" "lru_bench plan $words"
}
all="workloads hit_get hit_read hit_init miss_evict stress"
usual="entries 1000 1000000"
together="threads 1 2 4 8"
plans "" "$all" "$usual" "threads 1"
plans "8 threads" "$all" "entries 8" "$together"
plans "stress threads" "workloads stress" "$usual" "$together"
plans "8 hit_get 3" "workloads hit_get" "entries 8 3" "threads 1"
plans "hit_init hit_get" "workloads hit_init hit_get" "$usual" "threads 1"
plans "hit_read 8" "workloads hit_read" "entries 8" "threads 1"
plans "10000000 1" "$all" "entries 10000000 1" "threads 1"
plans sizes "$all" "entries 1000 10000 100000 1000000" "threads 1"

# the keys of a file are numbers of four bytes, the least significant first
printf '\1\0\0\0\0\2\0\0\377\377\377\377' > three
printf '\1\2\3\4' > one
plans "read_mostly three" workloads "$usual" "threads 1" \
    "read_mostly 3 keys from 1 to 4294967295, capacity 100000"
plans "read_mostly three 7" workloads "$usual" "threads 1" \
    "read_mostly 3 keys from 1 to 4294967295, capacity 7"
plans "stress miss_evict read_mostly one" "workloads stress miss_evict" "$usual" "threads 1" \
    "read_mostly 1 keys from 67305985 to 67305985, capacity 100000"
for bytes in "" 123 12345; do
    ends 1 "" "the file has no keys of four bytes"$'\n' \
        "printf '$bytes' > cut && lru_bench time read_mostly cut"
done

# the sums of the small workloads, and nothing else; standard output may fail anywhere
whole=$(cat "$crate/stdout")$'\n'
ends 0 "$whole" "" "lru_bench check"
ends 1 "" "$system" "lru_bench check > /dev/full"
for number in 200 $((${#whole} - 1)); do
    ends 1 "${whole:0:number}" "$system" "trap '' XFSZ; prlimit --fsize=$number lru_bench check"
done

known="hit_get, hit_read, hit_init, miss_evict, stress, threads, sizes"
for word in 0 +8 -1 "''" "' 8'" few 10000001 18446744073709551615 "8 0" "8 few" "threads hits" \
    read_mostly "read_mostly empty 0" "read_mostly empty few" "read_mostly empty 8 8" \
    "few read_mostly empty" "few read_mostly empty 8"; do
    ends 2 "" "lru_bench: WORD is $known, or a number of entries from 1 to 10000000; \
CAPACITY is such a number"$'\n' \
        "lru_bench time $word"
done
usage="usage: lru_bench check | (plan | time) [WORD ..] [read_mostly FILE [CAPACITY]] | \
run (lock | clock) WORKLOAD ENTRIES CALLS | \
attack (chosen | drawn) (known | seeded | shards) KEYS | soak SEED MINUTES | refused [SCRIPT]"$'\n'
for words in "" times "check 8" "read_mostly empty" "time \$'\xff'" "run lock hit_get 8" \
    "run hit_get 8 1" "run watch hit_get 8 1" "run lock stress 8 1" "run clock read_mostly 8 1" \
    "run lock hits 8 1" "run lock hit_get 0 1" "run clock hit_get 8 0" "run lock hit_get 8 +1" \
    "run lock hit_get 10000001 1" "run lock hit_get 8 10000001" "run lock hit_get 8 1 1" \
    "attack chosen known" "attack made known 8" "attack chosen unknown 8" "attack drawn shards 0" \
    soak "soak 1" "soak 1 0 0" "soak x 0" "soak 1 -1" "soak +1 0" "soak '' 0" \
    "soak 18446744073709551616 0" "soak \$'\xff' 0" "refused unsharded" "refused ''" \
    "refused 'unsharded-values '" "refused unsharded-values sharded-values"; do
    ends 2 "" "$usage" "lru_bench $words"
done
ends 1 "" "the file has no keys of four bytes"$'\n' "lru_bench time read_mostly empty 8"
ends 1 "" "$system" "lru_bench time 8 hit_get read_mostly none"
ends 1 "" "$system" "lru_bench time read_mostly /"
ends 1 "" "$system" "lru_bench plan > /dev/full"

# the sums of crates/lru_bench/stdout
for cache in lock clock; do
    for workload in hit_get hit_read hit_init; do
        ends 0 "351"$'\n' "" "lru_bench run $cache $workload 8 100"
    done
    ends 0 "1000004950"$'\n' "" "lru_bench run $cache miss_evict 100 100"
done
ends 1 "" "$system" "lru_bench run lock hit_get 8 1 > /dev/full"

# a shard may get more than its share of many keys, and then evicts some
for keys in chosen drawn; do
    ends 0 "100"$'\n' "" "lru_bench attack $keys known 100"
    ends 0 "100"$'\n' "" "lru_bench attack $keys seeded 100"
    ends 0 "1"$'\n' "" "lru_bench attack $keys shards 1"
done

ends 0 "rounds 0"$'\n' "" "lru_bench soak 1 0"
ends 0 "rounds 0"$'\n' "" "lru_bench soak 18446744073709551615 0"
ends_at_failed_writes 1 "$system" "lru_bench soak 1 0"

values="script unsharded-values
Init(1, 1, 1): Ok(Value(1))
Init(2, 1, 2): Ok(Value(2))
Init(1, 1, 3): Ok(Value(1))
Total: Ok(Total(2))
"
ends 0 "$values" "" "lru_bench refused unsharded-values"
ends_at_failed_writes 1 "$system" "lru_bench refused unsharded-values"

ends 0 "processors N"$'\n' "" "lru_bench time 8 hit_read 2>&1 > lines | sed 's/ [1-9][0-9]*$/ N/'"

# Prints each line without its time. A million operations in each of some threads took as many
# milliseconds together as one of them took nanoseconds, times the threads. Prints last whether that
# is no more than the whole run took, and no less than a tenth of it.
cat > untimed.awk << 'END'
$5 ~ /^[0-9]+\.[0-9]$/ { taken += $4 * $5; sub(/ [^ ]*$/, "") }
{ print }
END { print (taken <= whole && whole <= 10 * taken ? "in time" : taken " ms of " whole " ms") }
END
# times WORDS LINE..: with these words, these lines come first, after such times.
times() {
    local words=$1
    shift
    ends 0 "$(printf '%s\n' "$@" "in time")"$'\n' "" "begin=\${EPOCHREALTIME/./}
        lru_bench time $words 2> said | head -n $# > lines
        whole=\$(((\${EPOCHREALTIME/./} - begin) / 1000))
        awk -v whole=\$whole -f untimed.awk lines"
}
times "8 hit_get" "port-unsharded hit_get 8 1" "port-clock-1 hit_get 8 1"
times "3 hit_read threads" "port-unsharded hit_read 3 1" "port-clock-1 hit_read 3 1" \
    "port-unsharded hit_read 3 2" "port-sharded hit_read 3 2"

# Of 30 keys 2 hit, since no key stays until its next turn: a cache has room for 100,000.
python3 -c 'import struct, sys
keys = (28 * turn + min(key, 27) for turn in range(5000) for key in range(30))
sys.stdout.buffer.write(b"".join(struct.pack("<I", key) for key in keys))' > turns
ends 0 "# hits port-unsharded read_mostly 100000 1 0.0666"$'\n' "" \
    "lru_bench time read_mostly turns 2>&1 > lines | sed -n '2{p;q}'"
ends 0 "# hits port-sharded-256-read read_mostly 100000 1 1.0000
# hits port-clock read_mostly 100000 1 1.0000
# hits port-clock-64 read_mostly 100000 1 1.0000
# hits port-unsharded read_mostly 100000 2 1.0000
" "" "lru_bench time read_mostly one 2>&1 > lines | sed -n '9,11p;12{p;q}'"

# Of each of four caches 8 workers make 1,000 calls, each of which hits or makes its value.
cat > round.awk << 'END'
{ print $1, $2, $3, $5, $7, $9, $11, $4 + $6 }
$8 > 0 && $10 <= $6 && $12 > 12 { print "in bounds" }
{ exit }
END
ends 0 "seed 7 makings hits evictions meetings greatest 32000
in bounds
" "" "lru_bench soak 7 1 2> said | awk -f round.awk"

trace=$crate/data/leveldb
image=$top/docs/sizing.svg
: > empty

# the table and the image of docs/SIZING.md
table=$(sed -n '/^    12515 uses/,/^    95% of it/s/^    //p' "$top/docs/SIZING.md")
ends 0 "$table"$'\n' "" "lru_size < $trace"
ends 0 "$(cat "$image")"$'\n' "" "lru_size --svg image < $trace > table && cat image"
ends 0 "12515 uses replayed at capacity 1000000: 0 differences"$'\n' "" \
    "lru_size --check 1000000 < $trace | sed -n 2p"
ends 0 "12515 uses, 1080 keys in the sample"$'\n' "" "lru_size --sample 1 < $trace | head -n 1"
ends 2 "" "lru_size: too few keys in the sample: 2, and an estimate needs 100; choose a smaller N
" "lru_size --sample 500 < $trace"

# the trace in a file, in which case standard input is not read
ends 0 "$table"$'\n' "" "lru_size $trace"
ends 0 "$table"$'\n' "" "lru_size - < $trace"
ends 0 "" "" "lru_size --svg image $trace <&- > table && cmp image $image"
ends 1 "" 'lru_size: cannot read "none": No such file or directory (os error 2)'$'\n' \
    "lru_size none < $trace"
ends 1 "" 'lru_size: cannot read "/": Is a directory (os error 21)'$'\n' "lru_size / < $trace"
ends 2 "" "lru_size: the trace is empty"$'\n' "lru_size empty < $trace"

# the trace of docs/PROMISES.md
printf 'a 2\nb 3\na 2\nc 2\nb 3\nd 7\nc 2\n' > uses
printf 'a 2\r\n  b\t3 \na 2\nc  2\nb 3\nd 7\nc 2' > spaced
header="            capacity                 hits hit ratio          charge made"
rows="$header
                   1                    0     0.00%                   21
                   2                    0     0.00%                   21
                   3                    0     0.00%                   21
                   4                    0     0.00%                   21
                   6                    1    14.28%                   19
                   7                    2    28.57%                   16
                   8                    2    28.57%                   16
                   9                    2    28.57%                   16
                  10                    2    28.57%                   16
                  12                    3    42.85%                   14"
knees="greatest hit ratio 42.85% from capacity 12 on
50% of it from capacity 7 on
80% of it from capacity 12 on
90% of it from capacity 12 on
95% of it from capacity 12 on
"
table="7 uses of 4 keys
$rows
$knees"
csv="capacity,uses,hits,charge_made
1,7,0,21
2,7,0,21
3,7,0,21
4,7,0,21
5,7,1,19
6,7,1,19
7,7,2,16
8,7,2,16
9,7,2,16
10,7,2,16
11,7,2,16
12,7,3,14
"
# the image of all orders, each of whose lines names one, and of the exact order alone
every_svg=$(cat "$crate/stdout")$'\n'
svg=$(sed '/clock\|optimum/d' "$crate/stdout")$'\n'
ends 0 "$table" "" "lru_size < uses"
ends 0 "$table" "" "lru_size < spaced"
ends 0 "7 uses of 4 keys
$header
                   5                    1    14.28%                   19
                   7                    2    28.57%                   16
$knees" "" "lru_size --capacities 5,7 < uses"
ends 0 "7 uses of 4 keys
7 uses replayed at capacity 7: 0 differences
$rows
$knees" "" "lru_size --check 7 < uses"
ends 0 "7 uses, 4 keys in the sample
$rows
$knees" "" "lru_size --sample 1 < uses"
ends 0 "2 uses of 2 keys
$header
no use hits at any capacity
" "" "printf 'a\nb\n' | lru_size"

# what goes to standard output goes alone
ends 0 "$svg" "" "lru_size --svg - --check 7 < uses"
ends 0 "$csv" "" "lru_size --csv - --capacities 5 < uses"
ends 0 "$table$svg$csv" "" "lru_size --svg svg --csv csv < uses && cat svg csv"
for path in - same; do
    ends 2 "" "lru_size: --svg and --csv name the same file"$'\n' \
        "lru_size --svg $path --csv $path < uses"
done
ends 1 "$table" 'lru_size: cannot write "none/x": No such file or directory (os error 2)'$'\n' \
    "lru_size --svg none/x < uses"
ends 1 "$table" 'lru_size: cannot write "none/x": No such file or directory (os error 2)'$'\n' \
    "lru_size --csv none/x < uses"
ends_at_failed_writes 1 "lru_size: $too_large" "lru_size --capacities 5 < uses"
ends_at_failed_writes 1 "lru_size: $too_large" "lru_size --csv - < uses"
ends 1 "" "lru_size: $no_space" "lru_size < uses > /dev/full"
ends 1 "" "lru_size: $no_space" "lru_size --svg - < uses > /dev/full"
ends 1 "" "lru_size: $no_space" "lru_size --help > /dev/full"
ends 1 "" "" "lru_size < empty 2> /dev/full"

# Other orders. Whichever entry leaves first, the clock has no hit where no two keys fit that are
# used one after the other, and all hits where all keys fit.
other_header="$header       clock hits hit ratio     optimum hits hit ratio"
ends 0 "7 uses of 4 keys
the optimum ignores charges, which differ: other orders may hit more often
$other_header
                   1                    0     0.00%                   21                0     0.00%\
                0     0.00%
                   4                    0     0.00%                   21                0     0.00%\
                2    28.57%
                  14                    3    42.85%                   14                3    42.85%\
                3    42.85%
$knees" "" "lru_size --optimum --clock --capacities 1,4,14 < uses"
ends 0 "capacity,uses,hits,charge_made,clock_hits,optimum_hits
14,7,3,14,3,3
0,7,0,21,0,0
4,7,0,21,0,2
14,7,3,14,3,3
" "" "lru_size --clock --optimum --csv - --capacities 14,0,4,14 < uses"
for capacities in 2,4 20,4,13,2; do
    ends 0 "$every_svg" "" "lru_size --clock --optimum --capacities $capacities --svg - < uses"
done
ends 0 "the optimum ignores charges"$'\n' "" "lru_size --optimum --svg - < uses |
    grep -o 'the optimum [^<]*'"
ends 1 "" "" "printf 'a\nb\na\n' | lru_size --optimum --svg - | grep ignores"
ends_at_failed_writes 1 "lru_size: $too_large" "lru_size --clock --optimum --csv - < uses"
# optimum KEYS CHARGE HITS CAPACITIES: the hits in the exact order and in the optimum, at each
# capacity
optimum() {
    ends 0 "$3"$'\n' "" "printf '%s $2\n' $1 | lru_size --optimum --csv - --capacities $4 |
        sed 1d | cut -d, -f3,5 | paste -sd' '"
}
optimum "a b c d a b e a b c d e" 1 "0,2 0,4 2,5 4,6 7,7" 1,2,3,4,5
optimum "a b c d a b e a b c d e" 3 "0,0 0,2 0,2 0,4 2,5 7,7" 2,3,5,6,9,15
optimum "a b a b a b" 2 "0,2 4,4" 3,4
optimum "a a b c a" 1 "1,2 1,2 2,2" 1,2,3
ends 0 "5 uses of 3 keys"$'\n'"$header     optimum hits hit ratio"$'\n' "" \
    "printf '%s 9\n' a b a b c | lru_size --optimum | head -n 2"
# a key above the capacity displaces no other
ends 0 "4,5,0,13,2"$'\n' "" "printf 'a\nb 5\na\nb 5\na\n' |
    lru_size --optimum --csv - --capacities 4 | sed 1d"
# with charges that differ, another order would keep both a and b here, and hit twice
ends 0 "2,6,0,8,1"$'\n' "" "printf 'c 2\na\nb\nc 2\na\nb\n' |
    lru_size --optimum --csv - --capacities 2 | sed 1d"
# the exact order and the clock hit as docs/hit_ratios.csv says of entries of charge 1
for name in LevelDB RocksDB; do
    wanted=$(awk -F, -v name="$name" '$1 == name { print $3, $4, $5 }' "$top/docs/hit_ratios.csv")
    capacities=$(cut -d' ' -f1 <<< "$wanted" | paste -sd,)
    ends 0 "$wanted"$'\n' "" "cut -d' ' -f1 $crate/data/${name,,} |
        lru_size --clock --csv - --capacities $capacities |
        awk -F, 'NR > 1 { printf \"%d %.3f %.3f\n\", \$1, \$3 / \$2, \$5 / \$2 }'"
done

# percentages are rounded down
for lines in '1999 0.05%' '2 33.33%'; do
    read -r keys ratio <<< "$lines"
    ends 0 "greatest hit ratio $ratio from capacity $keys on"$'\n' "" \
        "(seq $keys; echo 1) | lru_size | grep greatest"
done
ends 0 "                   1                    2    66.66%                    1
greatest hit ratio 66.66% from capacity 1 on
" "" "printf 'a\na\na\n' | lru_size | grep 66"
ends 0 "greatest hit ratio 99.99% from capacity 1 on"$'\n' "" \
    "yes a | head -n 10000 | lru_size | grep greatest"

# capacities up to the greatest one
ends 0 "$header
 1844674407370955161                    0     0.00% 36893488147419103230
 3689348814741910323                    0     0.00% 36893488147419103230
 5534023222112865484                    0     0.00% 36893488147419103230
 7378697629483820646                    0     0.00% 36893488147419103230
 9223372036854775807                    0     0.00% 36893488147419103230
11068046444225730969                    0     0.00% 36893488147419103230
12912720851596686130                    0     0.00% 36893488147419103230
14757395258967641292                    0     0.00% 36893488147419103230
16602069666338596453                    0     0.00% 36893488147419103230
18446744073709551615                    1    50.00% 18446744073709551615
" "" "printf 'a 18446744073709551615\n%.0s' 1 2 | lru_size | sed -n 2,12p"

# ticks CAPACITY TICK ..: the ticks of the axis, up to the capacity at which all uses hit that can
ticks() {
    local wanted
    wanted=$(printf '%s\n' "${@:2}")
    ends 0 "$wanted"$'\n' "" "printf 'a $1\n%.0s' 1 2 | lru_size --svg - |
        sed -n \"s/.*anchor='middle'>\([0-9]*\)<.*/\1/p\""
}
ticks 1 0 1
ticks 6 0 1 2 3 4 5 6
ticks 7 0 2 4 6 7
ticks 13 0 2 4 6 8 10 12 13
ticks 14 0 5 10 14
ticks 34 0 5 10 15 20 25 30 34
ticks 35 0 10 20 30 35
ticks 4528676 0 1000000 2000000 3000000 4000000 4528676
# a label that has no room beside the last one is left out
ticks 4100000 0 1000000 2000000 3000000 4100000
ticks 18446744073709551615 0 {5,10}000000000000000000 18446744073709551615

# rounds KEYS TIMES: a trace that uses so many keys this many times each, one after the other
rounds() {
    for ((round = 0; round < $2; round++)); do
        seq -f k%g 0 $(($1 - 1))
    done
}
rounds 1000 2 > twice
(cat twice && yes hot | head -n 20000) > hot
rounds 1000 1 > once
rounds 90 5 > few
estimate="estimated hit ratios, which in measurements were wrong by up to"
# half of the uses hit if there is room for all keys
ends 0 "2000 uses, 238 keys in the sample
$estimate 17 percentage points
$header
                  94                   96     4.80%                 1904
                 189                   96     4.80%                 1904
                 284                   96     4.80%                 1904
                 379                   96     4.80%                 1904
                 474                   96     4.80%                 1904
                 569                   96     4.80%                 1904
                 664                   96     4.80%                 1904
                 759                   96     4.80%                 1904
                 854                   96     4.80%                 1904
                 949                 1048    52.40%                  952
greatest hit ratio 52.40% from capacity 949 on
50% of it from capacity 949 on
80% of it from capacity 949 on
90% of it from capacity 949 on
95% of it from capacity 949 on
" "" "lru_size --sample 4 < twice"
# among so many hits of one key that is not in the sample, the sample does not tell where the rest
# begins: these lines and marks are left out
ends 0 "22000 uses, 238 keys in the sample
$estimate 17 percentage points
greatest hit ratio 95.67% from capacity 949 on
" "" "lru_size --sample 4 < hot | sed 3,13d"
ends 1 "" "" "lru_size --sample 4 --svg - < hot | grep circle"
title="Hit ratio by capacity, 22000 uses, estimated from a sample of the keys"
ends 0 "$title"$'\n' "" "lru_size --sample 4 --svg - < hot | grep -o 'Hit [^<]*'"
# errors KEYS POINTS LAST: how wrong an estimate may be from so many sampled keys, out of the keys
# from 1 to the last
errors() {
    ends 0 "$1 keys in the sample
$estimate $2 percentage points
" "" "(seq $3; seq $3) | lru_size --sample 2 | sed -n '1s/.*, //p; 2p'"
}
errors 100 25 199
errors 621 11 1270
errors 625 10 1280

# rejected WHY LINE ..: a trace of these lines is rejected
rejected() {
    printf '%b\n' "${@:2}" > lines
    ends 2 "" "lru_size: $1"$'\n' "lru_size < lines"
}
charge="expected a charge from 1 to 18446744073709551615, found"
rejected 'line 1: expected KEY [CHARGE], found "\u{feff}a"' '\xef\xbb\xbfa' a
rejected "line 2: expected KEY [CHARGE]" a "" b
rejected "line 2: expected UTF-8" a '\xff'
rejected "line 2: $charge \"x\"" "a 1" "b x"
rejected "line 2: $charge \"-1\"" "a 1" "b -1"
rejected "line 1: $charge \"0\"" "a 0"
rejected "line 1: $charge \"+3\"" "a +3"
rejected "line 1: $charge \"18446744073709551616\"" "a 18446744073709551616"
rejected 'line 1: expected nothing after the charge, found "2"' "a 1 2"
rejected "lines 1 and 3: one key with two charges" a b "a 2"

printf 'a 18446744073709551615\na 18446744073709551615\nb\n' > great
more="add up to more than 18446744073709551615"
ends 1 "" "lru_size: line 3: the charges of the keys $more"$'\n' "lru_size < great"
ends 1 "" "lru_size: the charges of the sampled keys $more"$'\n' "lru_size --sample 1 < great"
for words in "" "--sample 2" "--csv -"; do
    ends 2 "" "lru_size: the trace is empty"$'\n' "lru_size $words < empty"
done

# too_few WHY WORDS TRACE: an estimate is refused
too_few() {
    ends 2 "" "lru_size: $1 choose a smaller N"$'\n' "lru_size --sample $2 < $3"
}
too_few "too few keys in the sample: 0, and an estimate needs 100;" 1000000 few
too_few "too few keys in the sample: 42, and an estimate needs 100;" 2 few
too_few "no key in the sample is used twice, so hits cannot be estimated:" 2 once
# all keys are a sample of any size
ends 0 "450 uses, 90 keys in the sample"$'\n' "" "lru_size --sample 1 < few | head -n 1"
ends 0 "1000 uses, 1000 keys in the sample
$header
no use hits at any capacity
" "" "lru_size --sample 1 < once"

no_input="lru_size: cannot read standard input:"
ends 1 "" "$no_input Bad file descriptor (os error 9)"$'\n' "lru_size <&-"
ends 1 "" "$no_input Is a directory (os error 21)"$'\n' "lru_size < /"
# the pipe has no more bytes, and does not wait for them
mkfifo pipe
ends 1 "" "$no_input Resource temporarily unavailable (os error 11)"$'\n' \
    "exec <> pipe; printf 'a 2\nb' >&0; dd iflag=nonblock count=0 status=none; lru_size"

# invalid WHY WORDS: these arguments are invalid
invalid() {
    ends 2 "" "lru_size: $1

For more information, try '--help'.
" "lru_size $2 < uses"
}
usage=$'\n\nUsage: lru_size [OPTIONS] [TRACE]'
invalid "unexpected argument 'more' found$usage" "trace more"
# tip WORD: what is said of a word that looks like an option and may be meant as the trace
tip() {
    echo $'\n\n'"  tip: to pass '$1' as a value, use '-- $1'"
}
invalid "unexpected argument '--size' found$(tip --size)$usage" --size
invalid "unexpected argument '-1' found$(tip -1)$usage" "--check -1"
invalid "invalid value 'many' for '--capacities <CAPACITY,..>': invalid digit found in string" \
    "--capacities many"
invalid "invalid value '0' for '--sample <N>': 0 is not in 1..18446744073709551615" "--sample 0"
invalid "a value is required for '--svg <FILE>' but none was supplied" --svg
invalid "the argument '--check <CAPACITY>' cannot be used with '--sample <N>'

Usage: lru_size --check <CAPACITY> [TRACE]" "--check 1 --sample 2"
for word in clock optimum; do
    invalid "the argument '--$word' cannot be used with '--sample <N>'

Usage: lru_size --$word [TRACE]" "--$word --sample 2"
done
ends 2 "" "lru_size: an argument is not valid UTF-8"$'\n' "lru_size \$'\xff' < uses"

for word in --version -V; do
    ends 0 "lru_size $(cat "$top/VERSION")"$'\n' "" "lru_size $word"
done
table_instead="if FILE is -, to standard output, instead of the table"
help="Reads a trace, a line KEY [CHARGE] for each use, and prints how many uses hit at each \
capacity.

Usage: lru_size [OPTIONS] [TRACE]

Arguments:
  [TRACE]  The file that has the trace; if it is - or left out, standard input

Options:
      --capacities <CAPACITY,..>  Print the hits at these capacities, instead of ten evenly spaced \
ones
      --svg <FILE>                Write the curve to FILE as an SVG image; $table_instead
      --csv <FILE>                Write the curve to FILE as CSV; $table_instead
      --clock                     Also print the hits of the clock cache, replayed at each \
capacity of the table
      --optimum                   Also print the hits of Belady's optimum, in which what is used \
again latest, or never, leaves first; if charges differ, other orders may hit more often
      --check <CAPACITY>          Replay the trace in a cache of this capacity, and compare the \
hits with the curve
      --sample <N>                Estimate the curve from about one key in N, at least 100 keys
  -h, --help                      Print help
  -V, --version                   Print version
"
for word in --help -h; do
    ends 0 "$help" "" "lru_size $word < uses"
done

errors 62906 1 126000
yes a | head -n 2097153 > many
keys="lru_size: too few keys in the sample: 0, and an estimate needs 100; choose a smaller N"
ends 2 "" "$keys"$'\n' "lru_size --sample 1000000 < many"
# the terminal, which standard error is here, shows how many lines were read
ends 2 $'1048576 lines read\r2097152 lines read\r'"$keys"$'\r\n' "" \
    "script -qec 'lru_size --sample 1000000 < many > table' /dev/null"

ends 0 "45391 uses of 7066 keys
greatest hit ratio 84.43% from capacity 13960490 on
" "" "lru_size $crate/data/rocksdb | sed -n '1p; 13p'"

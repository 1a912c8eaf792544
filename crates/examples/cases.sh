# a file of each length, whose bytes tell its blocks and pieces from one another
for _ in 1 2 3 4 5 6; do
    printf "$(printf '\\%03o' {1..251})"
done > bytes
for length in 0 1 512 1024 1300; do
    head -c "$length" bytes > "$length"
done
printf 'some bytes' > some
: > secret
chmod 0 secret
mkfifo pipe
mkdir folder

# printed FILE PAGES COUNTS: a file is printed through so many pages, and these are the counts
printed() {
    ends 0 "" "$3"$'\n' "set -o pipefail; examples cat $1 $2 | cmp - $1"
}
printed 0 2 "0 blocks read, 0 answers from memory"
printed 1 2 "1 blocks read, 0 answers from memory"
printed 512 2 "1 blocks read, 3 answers from memory"
printed 1024 2 "2 blocks read, 6 answers from memory"
printed 1300 2 "3 blocks read, 8 answers from memory"
printed 1300 1 "3 blocks read, 8 answers from memory"
printed 1300 0 "11 blocks read, 0 answers from memory"
printed 1300 "" "3 blocks read, 8 answers from memory"

# a file of the system's own: its length is 0, and it has the bytes of several blocks
limits=$(cat /proc/self/limits)$'\n'
blocks=$(((${#limits} + 511) / 512))
ends 0 "$limits" "$blocks blocks read, 0 answers from memory"$'\n' "examples cat /proc/self/limits"

# opens_not WHY PATH: this path is not opened
opens_not() {
    ends 1 "" "examples: cannot open $1"$'\n' "timeout 10 examples cat $2"
}
# nobody writes to the pipe, so that a program that opens it waits
opens_not '"pipe": it is not a regular file' pipe
opens_not '"/dev/null": it is not a regular file' /dev/null
opens_not '"folder": it is a directory' folder
opens_not '"none": No such file or directory (os error 2)' none
opens_not '"": No such file or directory (os error 2)' "''"
opens_not '"a\nb": No such file or directory (os error 2)' "\$'a\nb'"
# root opens any file, unless it has not these capabilities
if [ "$(id -u)" = 0 ]; then
    without="setpriv --bounding-set=-dac_override,-dac_read_search"
fi
ends 1 "" 'examples: cannot open "secret": Permission denied (os error 13)'$'\n' \
    "${without:-} examples cat secret"

# the length of this file of the system's own is 4096, and it has fewer bytes
ln -s /sys/devices/system/cpu/online $'a\nb'
ends 1 "" 'examples: cannot read "a\nb": the file ends before its length'$'\n' \
    "examples cat \$'a\nb'"
# the length of this one is 0, and it cannot be read from its start
ends 1 "" 'examples: cannot read "/proc/self/mem": Input/output error (os error 5)'$'\n' \
    "examples cat /proc/self/mem"

ends_at_failed_writes 1 "examples: $too_large" "examples cat some"
ends_at_failed_writes 1 "examples: $too_large" "examples cat 1300"
ends 1 "" "examples: $no_space" "examples cat /proc/self/limits > /dev/full"
ends 1 "some bytes" "" "examples cat some 2> /dev/full"

# the last line has no end
cat > numbered << 'END'
new 2
init 1 1 ok drop
init 2 1 ok keep 0
init 1 1 ok drop
init 3 1 fail drop
total
get 2 keep 0
get 1 drop
release 0
prune
advice 2
new 1
init 1 2 ok drop
init 1 1 fail keep 3
new 2
init 1 1 ok keep 0
invalidate 1
get 1 drop
init 1 1 ok drop
release 0
invalidate 1
new 2
insert 1 1 drop
read 1
insert 1 1 keep 0
insert 1 1 keep 1
read 1
total
init 1 1 fail drop
release 0
insert 2 1 keep 1
read 1
insert 3 1 drop
read 1
invalidate 2
read 2
new 2
insert 1 1 drop
insert 2 1 drop
read 1
insert 3 1 drop
insert 4 3 drop
read 4
new 18446744073709551615
insert 1 18446744073709551615 drop
insert 1 18446744073709551615 keep 3
END
head -c -1 numbered > steps
answers=$(cat << 'END'
new 2 => done []
init 1 1 ok drop => made 1 []
init 2 1 ok keep 0 => made 2 []
init 1 1 ok drop => hit 1 []
init 3 1 fail drop => err [1]
total => total 1 []
get 2 keep 0 => some 2 []
get 1 drop => none []
release 0 => done []
prune => done [2]
advice 2 => done []
new 1 => done []
init 1 2 ok drop => made 1 [1]
init 1 1 fail keep 3 => err []
new 2 => done []
init 1 1 ok keep 0 => made 1 []
invalidate 1 => done []
get 1 drop => none []
init 1 1 ok drop => made 4 []
release 0 => done [1]
invalidate 1 => done [4]
new 2 => done []
insert 1 1 drop => inserted 1 []
read 1 => read 1 []
insert 1 1 keep 0 => inserted 3 [1]
insert 1 1 keep 1 => inserted 4 []
read 1 => read 4 []
total => total 2 []
init 1 1 fail drop => hit 4 []
release 0 => done [3]
insert 2 1 keep 1 => inserted 9 []
read 1 => read 4 []
insert 3 1 drop => inserted 11 [4]
read 1 => none []
invalidate 2 => done []
read 2 => none []
new 2 => done []
insert 1 1 drop => inserted 1 []
insert 2 1 drop => inserted 2 []
read 1 => read 1 []
insert 3 1 drop => inserted 4 [2]
insert 4 3 drop => inserted 5 [1, 4, 5]
read 4 => none []
new 18446744073709551615 => done []
insert 1 18446744073709551615 drop => inserted 1 []
insert 1 18446744073709551615 keep 3 => inserted 2 [1]
END
)$'\n'
ends 0 "$answers" "" "examples replay < steps"
ends 0 "$answers" "" "examples replay < numbered"
ends 0 "" "" "examples replay"

# ended STEPS ANSWERS MESSAGE: of these steps, the first ones have these answers, and the next one
# ends the program
ended() {
    printf "$1" > few
    ends 1 "$2" "$3"$'\n' "examples replay < few"
}
ended 'prune\n' "" 'line 1: expected `new CAPACITY` first, not "prune"'
ended 'new 0\ninit 1 18446744073709551615 ok keep 0\ninit 2 1 ok drop\n' \
    $'new 0 => done []\ninit 1 18446744073709551615 ok keep 0 => made 1 []\n' "line 3: refused 2"
ended 'new 0\ninsert 1 18446744073709551615 keep 0\ninsert 1 1 drop\n' \
    $'new 0 => done []\ninsert 1 18446744073709551615 keep 0 => inserted 1 []\n' "line 3: refused 2"
ended 'new \xff\n' "" "line 1: expected text of at most 1000 bytes"
ended "new $(printf %0996d 0)1\n" "" "line 1: expected text of at most 1000 bytes"
ended "new $(printf %09999d 0)1\n" "" "line 1: expected text of at most 1000 bytes"
longest="new $(printf %0995d 0)1"
ends 0 "$longest => done []"$'\n' "" "echo $longest | examples replay"

# is_no_step LINE EXPECTED: this line ends the program, with what was expected
is_no_step() {
    ended "new 1\n$1\nprune\n" $'new 1 => done []\n' "line 2: expected $2"
}
forms='`new CAPACITY`, `init KEY CHARGE ok|fail drop|keep SLOT`, '
forms+='`insert KEY CHARGE drop|keep SLOT`, `get KEY drop|keep SLOT`, `read KEY`, `release SLOT`, '
forms+='`advice KEY`, `invalidate KEY`, `prune` or `total`'
for line in '' 'turn 1' new 'new 1 2' 'init 1 2 ok' 'init 1 1 maybe drop' 'insert 1 1' \
    'insert 1 1 keep' 'insert 1 1 ok drop' 'get 1' 'get 1 hold 2' read 'read 1 drop' release \
    advice invalidate 'prune 1' 'total '; do
    is_no_step "$line" "$forms, not \"$line\""
done
number='a number up to 18446744073709551615'
is_no_step 'new 18446744073709551616' "$number, not \"18446744073709551616\""
is_no_step 'advice +1' "$number, not \"+1\""
is_no_step 'insert x 0 drop' "$number, not \"x\""
is_no_step 'read +1' "$number, not \"+1\""
is_no_step 'get -1 drop' "$number, not \"-1\""
is_no_step 'init 1  ok drop' "$number, not \"\""
is_no_step 'init 1 0 ok drop' 'a charge above 0, not "0"'
is_no_step 'insert 1 0 drop' 'a charge above 0, not "0"'
is_no_step 'insert 1 00 keep 1' 'a charge above 0, not "00"'
is_no_step 'insert 1 1 keep 4' 'a slot from 0 to 3, not "4"'
is_no_step 'get 1 keep 4' 'a slot from 0 to 3, not "4"'
is_no_step 'release 4' 'a slot from 0 to 3, not "4"'
is_no_step 'release 00' 'a slot from 0 to 3, not "00"'

no_input="examples: cannot read standard input:"
ends 1 "" "$no_input Bad file descriptor (os error 9)"$'\n' "examples replay <&-"
ends 1 "" "$no_input Is a directory (os error 21)"$'\n' "examples replay < /"
# the pipe has no more bytes, and does not wait for them
mkfifo input
ends 1 $'new 1 => done []\n' "$no_input Resource temporarily unavailable (os error 11)"$'\n' \
    "exec <> input; printf 'new 1\nprune' >&0
    dd iflag=nonblock count=0 status=none; examples replay"

ends_at_failed_writes 1 "examples: $too_large" "examples replay < steps"
ends 1 "" "examples: $no_space" "examples replay < steps > /dev/full"

ends 0 "100 values were made for 400 calls, and 100 are kept"$'\n' "" "examples"
ends_at_failed_writes 1 "examples: $too_large" "examples"

ends 2 "" "examples: an argument is not valid UTF-8"$'\n' "examples \$'\xff'"
ends 2 "" "examples: an argument is not valid UTF-8"$'\n' "examples cat some \$'\xff'"
usage="usage: examples [cat FILE [PAGES] | replay < STEPS]"$'\n'
help="$usage
Without arguments, four threads ask one cache for the same keys, and the program prints how many
values were made.

cat prints a file through a cache of its pages. The file is read in blocks of 512 bytes, and printed
in pieces of 128 bytes, each of which asks the cache for its block. Standard error tells how many
blocks were read and how many pieces were answered from memory.

  FILE    a file
  PAGES   how many blocks the cache holds, in digits: 16 unless it is given

replay runs the steps on standard input on a cache, and prints each with its answer and the values
that it dropped. docs/REPLAY.md describes the steps and the answers.
"
ends 0 "$help" "" "examples --help"
ends_at_failed_writes 1 "examples: $too_large" "examples --help"
printf 'a file' > --help
ends 0 "a file" "1 blocks read, 0 answers from memory"$'\n' "examples cat --help"
for words in "''" "--help 2" cat "cat some 2 3" "replay steps" "replay ''" some; do
    ends 2 "" "$usage" "examples $words < steps"
done
for pages in "''" +3 -1 "' 3'" x many 18446744073709551616; do
    ends 2 "" "$usage" "examples cat some $pages"
done
ends 1 "" "" "examples cat 2> /dev/full"
ends 1 "" "" "examples replay steps 2> /dev/full"

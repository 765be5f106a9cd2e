#!/bin/sh
# The examples: each text makes its blocks and orders, their listings make the same ones again, the proved programs and the second
# kernel's print what is expected, also of the orders for the wave viewer and of steps that are refused, single picks come to the
# end of the sets, and each node that failed is explained as stored. A model with its own resolution table, and the same one
# without, print what is expected of each. Loops without delay are told as stored, and else there are none; no run has more delta
# steps at one time than the bound that is told. A stored list of before moves over; a refused move or table writes nothing. A body
# in text and its records make the same model by the proved program and by the tool; a refused one writes none, and is told with
# its place. README.md shows some of these lines.
set -eu
top=$(cd "$(dirname "$0")/.." && pwd)
blocks=$top/tools/blocks/target/release/blocks
proved=$top/target/bin
cargo build --quiet --release --offline --manifest-path "$top/tests/Cargo.toml" --bin playbench --bin dumpbench --bin loopbench
second=$top/tests/target/release
work=$(mktemp -d)
trap 'rm -rf "$work"' EXIT
cd "$work"
prints() { # PROGRAM EXPECTED: what both kernels' programs print of the model and the orders here
    for programs in "$proved" "$second"; do
        "$programs/$1" >printed
        cmp printed "$2"
    done
}
plays() { # FOLDER NAME: both programs play the orders of a further text
    cp "$1/model" model
    "$blocks" orders "$1/$2.txt" orders
    prints playbench "$1/$2.expected"
    prints dumpbench "$1/dump.vcd"
}
answered() { # ORDERS ANSWERS: each order as text, its answer behind a tab
    "$blocks" show "$1" | paste - "$2"
}
told() { # ANSWERS: those to the orders here other than picks, and the sum of all picks
    answered orders "$1" | awk -F '\t' '{ split($2, answer, " "); picks += answer[3] } !/^pick/ { print } END { print picks }'
}
explain() { # FOLDER: the nodes in its expected output
    awk '$5 != 0 && $5 != 65535 { print $5 }' "$1/expected" | while read -r node; do
        "$blocks" explain "$1/model" "$node"
    done
}
most() { # ANSWERS: the most delta steps done at one time, by the answers to the orders here
    answered orders "$1" | awk -F '\t' '
        { split($2, answer, " ") }
        $1 == "delta" && answer[1] == 0 && ++steps[answer[6]] > most { most = steps[answer[6]] }
        END { print most + 0 }'
}
loops() { # BASE ANSWERS: what is told of the loops of BASE.txt, of which the model here is made, and which gives these answers; or, of
    # a body in text, of the blocks BASE
    source=$1.txt
    [ -e "$source" ] || source=$1
    "$blocks" loops "$source" >said
    if [ -e "$1.loops" ]; then
        cmp said "$1.loops"
    else
        printf 'none\nat most P + 1 = %d delta steps at any one time\n' $(($(grep -c '^process ' "$1.txt") + 1)) | cmp said -
    fi
    head -n 1 said >line
    prints loopbench line
    "$blocks" loops model | head -n 1 | cmp - line
    bound=$(sed -n 's/^at most P + 1 = \([0-9]*\) .*/\1/p' said)
    if [ -n "$bound" ] && [ "$(most "$2")" -gt "$bound" ]; then
        echo "examples.sh: $1 has more than $bound delta steps at one time" >&2
        exit 1
    fi
}
in_readme() { # the lines on standard input
    while IFS= read -r line; do
        grep -qF "    $line" "$top/README.md" || { echo "README.md does not show '$line'" >&2; exit 1; }
    done
}
for folder in "$top"/examples/*/; do
    name=$(basename "$folder")
    "$blocks" orders "$folder/orders.txt" orders
    cmp orders "$folder/orders"
    "$blocks" show orders >shown
    "$blocks" orders shown again
    cmp again orders
    for text in "$folder"/*.txt; do
        case $(basename "$text") in orders.txt | singles.txt | steps.txt | waves.txt | before.txt | records.txt) continue ;; esac
        "$blocks" make "$text" model
        [ "$(basename "$text")" = model.txt ] && cmp model "$folder/model"
        "$blocks" list model >listed
        "$blocks" make listed again
        cmp again model
        base=${text%.txt}
        answers=$folder/expected dump=$folder/dump.vcd
        if [ -e "$base.expected" ]; then # a model that gives something else by these orders
            answers=$base.expected dump=$base.vcd
        fi
        prints playbench "$answers"
        prints dumpbench "$dump"
        loops "$base" "$answers"
    done
    if [ -e "$folder/text" ]; then # a body in text
        cp "$folder/text" text
        "$blocks" records "$folder/records.txt" records
        cmp records "$folder/records"
        rm -f model
        "$proved/textbench" >printed
        echo 0 | cmp printed -
        cmp model "$folder/model"
        for given in records "$folder/records.txt"; do
            "$blocks" body text "$given" made
            cmp made model
        done
        "$blocks" list model >listed
        "$blocks" make listed again
        cmp again model
        prints playbench "$folder/expected"
        prints dumpbench "$folder/dump.vcd"
        loops "$folder/model" "$folder/expected"
    fi
    if [ -e "$folder/singles.txt" ]; then
        told "$folder/expected" >of_sets
        plays "$folder" singles
        told "$folder/singles.expected" >of_singles
        cmp of_singles of_sets
    fi
    if [ -e "$folder/steps.txt" ]; then
        plays "$folder" steps
    fi
    if [ -e "$folder/waves.txt" ]; then
        cp "$folder/model" model
        "$blocks" orders "$folder/waves.txt" orders
        prints dumpbench "$folder/waves.vcd"
    fi
    explain "$folder" >explained
    if [ -s explained ] || [ -e "$folder/explained" ]; then
        cmp explained "$folder/explained"
    fi
    echo "example $name: as expected"
done

says() { # FILE WORDS
    grep -qF "$2" "$1" || { cat "$1" >&2; echo "examples.sh: '$2' is not said" >&2; exit 1; }
}
refuses() { # WORDS ARGUMENTS: `blocks ARGUMENTS none` says these words, and writes no file `none`
    words=$1
    shift
    if "$blocks" "$@" none >said 2>&1 || [ -e none ]; then
        echo "examples.sh: blocks $* is not refused" >&2
        exit 1
    fi
    says said "$words"
}
inverter=$top/examples/inverter
"$blocks" orders "$inverter/before.txt" before 2>warned
says warned "line 3 (and 4 more): \`advance\` is order 2"
cmp before "$inverter/before"
"$blocks" move "$inverter/model" before new >said 2>warned
says said 'before: 5 orders moved, 3 to delta and 2 to time'
sed "s#^#examples/inverter/#" said | in_readme
cmp warned /dev/null
cmp new "$inverter/orders"
"$blocks" move "$inverter/model" new new >said 2>warned
says warned 'order 1, counted from 0, is of kind 6'
says warned 'may have been moved already'
cmp new "$inverter/orders"
cat new before >mixed
"$blocks" move "$inverter/model" mixed mixed >said 2>warned
says warned 'order 1, counted from 0, is of kind 6: it gave 11 before and is played now; answers may differ from there on'
head -c 511 "$inverter/model" >short
head -c 31 before >partial
refuses 'short: the kernel refuses this model with 1' move short before
refuses 'partial: the kernel refuses these orders with 9: 31 bytes' move "$inverter/model" partial
refuses 'nowhere: ' move "$inverter/model" nowhere
# A folder of stored lists, as README.md has it; the list that is refused stays as it is.
cat >all <<'END'
for list in */orders; do
    blocks move "${list%orders}model" "$list" "$list.new" && mv "$list.new" "$list"
done
END
in_readme <all
mkdir -p stored/a stored/b stored/c
for name in a b c; do
    cp "$inverter/model" "stored/$name/model"
    cp before "stored/$name/orders"
done
cp short stored/b/model
(cd stored && PATH=$(dirname "$blocks"):$PATH sh ../all >../said 2>&1)
says said 'b/model: the kernel refuses this model with 1'
cmp stored/a/orders "$inverter/orders"
cmp stored/b/orders before
cmp stored/c/orders "$inverter/orders"
find stored -name '*.new' | cmp - /dev/null
echo "orders of before: moved over"

# The open-drain line: its model without the last block, the table, is that of standard.txt. README.md has the table, and side by
# side the answers to reads that differ.
drain=$top/examples/open_drain
"$blocks" make "$drain/standard.txt" standard
head -c -512 "$drain/model" | cmp - standard
"$blocks" list "$drain/model" | grep -A 9 '^table$' >table
grep -A 9 '^    table$' "$top/README.md" | sed 's/^    //' | cmp - table
answered "$drain/orders" "$drain/expected" | paste - "$drain/standard.expected" |
    awk -F '\t' '/^read/ && $2 != $3 { printf "%-16s %s\n", $2, $3 }' >differ
[ "$(wc -l <differ)" -eq 6 ]
in_readme <differ
refuses_row() { # ROW NEW WORDS: the text with another row is refused with these words
    sed "s/^  $1\$/  $2/" "$drain/model.txt" >changed.txt
    refuses "changed.txt: $3" make changed.txt
}
refuses_row UX0HHWWHX UX0HHWWH "line 16: the table's row of H has nine values, not 8"
refuses_row 000000000 0000000Z0 'line 11: the table is not symmetric: row 0, column H has Z, and row H, column 0 has 0; '
says said 'the kernel would refuse this model with 24'
refuses_row UX0HHWWHX UX0HHWW1X 'line 12: the table is not associative: 1 with H is H, and that with H is 1; but H with H is 1, '
says said 'but H with H is 1, and 1 with that is Z; the kernel would refuse this model with 25'
echo "tables of their own: told where they are refused"

# The ring without delay, on and on: 1,000 delta steps at time 0, and the next is refused. The odometer reaches its bound.
ring=$top/examples/ring_oscillator
odometer=$top/examples/odometer
cp "$ring/model" model
yes 'settle 100
delta' | head -n 2002 >long.txt
"$blocks" orders long.txt orders
"$second/playbench" >long.expected
prints playbench long.expected
[ "$(most long.expected)" -eq 1000 ]
tail -n 1 long.expected >last
grep -q '^16 ' last
in_readme <last
cp "$odometer/orders" orders
[ "$(most "$odometer/expected")" -eq 5 ]
in_readme <"$ring/model.loops"
in_readme <"$ring/delayed.loops"
in_readme <"$odometer/model.loops"
in_readme <"$odometer/period.loops"
answered orders "$odometer/expected" | awk -F '\t' '/^delta/ && $2 ~ / 20$/ { print $2 }' | in_readme
cp short model
echo 1 >line
prints loopbench line
told_as() { # WORDS FILE: `blocks loops FILE` fails, and says these words
    if "$blocks" loops "$2" >said 2>&1; then
        echo "examples.sh: blocks loops $2 is not refused" >&2
        exit 1
    fi
    says said "$1"
}
told_as 'short: the kernel refuses this model with 1' short
told_as 'nowhere: ' nowhere
sed "s/ after 0/ after '0'/" "$ring/model.txt" >changed.txt
told_as 'changed.txt: the kernel would refuse this model with 7' changed.txt
sed 's/^process first/process/' "$ring/model.txt" >changed.txt
told_as 'changed.txt: line 8: something is missing at the end of the line' changed.txt
echo "loops without delay: told before a run, and a run has them"

# Bodies in text that are refused, each in one way: the proved program prints the number and leaves the file `model` as it is, and
# the tool tells why. README.md has the example and what is told of a wrong one.
body=$top/examples/pulse_body
refuses_body() { # NUMBER WORDS: of the files `text` and `records` here
    echo before >model
    "$proved/textbench" >printed
    echo "$1" | cmp printed -
    echo before | cmp model -
    refuses "$2; the kernel would refuse" body text records
    says said " with $1"
}
changed() { # SCRIPT: the text with this change, and its records
    sed "$1" "$body/text" >text
    cp "$body/records" records
}
refuses "$(cat "$body/wrong.said")" body "$body/wrong.text" "$body/records.txt"
sed 's#^#examples/pulse_body/#' "$body/wrong.said" | in_readme
changed ''
cp "$body/wrong.text" text
refuses_body 26 'text: line 7, column 14: no sentence goes on with `/`: each operation has its brackets; `after` is due here'
changed 's/s3/s4/'
refuses_body 27 'text: line 13, column 5: there is no signal s4: the records have 4 signals, s0 to s3'
sed 's#^text#examples/pulse_body/text#' said | in_readme
changed ''
head -c 146 "$body/records" >records
refuses_body 4 'records: cut: 146 bytes, and 4 signals, 4 variables and 4 drivers have 147'
: >records
refuses_body 27 'text: line 1, column 7: there is no variable v3: the records have no variable'
changed ''
printf '\007' | dd of=records bs=1 seek=3 conv=notrunc 2>said
refuses_body 5 'records: signal s0: its type is 7, not 0 integer or 1 logic'
changed "s/(v0 + 1)/$(printf '(1 + %.0s' $(seq 33))1$(printf ')%.0s' $(seq 33))/"
refuses_body 6 'text: line 6, column 5: an expression has more than 64 nodes'
changed 's/(v0 + 1)/s0/'
refuses_body 7 'text: line 6, column 5: v0 := s0: types do not agree: v0 is integer, and the value is logic'
changed ''
sed 's/, stands$//' "$body/records.txt" >fewer.txt
"$blocks" records fewer.txt records
refuses_body 8 "text: line 13, column 5: s3 <= '1' after 0: the records have no driver for s3"
refuses 'nowhere: ' body nowhere records
refuses 'nowhere: ' body text nowhere
sed 's/^drives/drives count,/' "$body/records.txt" >wrong.txt
refuses 'wrong.txt: line 12: there is no signal `count`' records wrong.txt
refuses 'wrong.txt: line 12: there is no signal `count`' body text wrong.txt
in_readme <"$body/text"
grep -v '^--' "$body/records.txt" | in_readme
answered "$body/orders" "$body/expected" | awk -F '\t' '/^read/ { print $2 }' | in_readme
sed -n '/^#0/,$p' "$body/dump.vcd" | in_readme
echo "bodies in text: made, and told where they are refused"

in_readme <"$inverter/expected"
in_readme <"$inverter/dump.vcd"
awk '($1 == 22 || $1 == 23) && $6 == 0' "$inverter/steps.expected" | in_readme
awk '$5 != 0' "$top/examples/mean_speed/expected" | in_readme
in_readme <"$top/examples/mean_speed/explained"
sets=$top/examples/trip_counters
answered "$sets/orders" "$sets/expected" | awk -F '\t' '/^pick/ && $2 ~ / (0|25)$/ { print $2 }' | in_readme
awk '$5 != 0' "$sets/singles.expected" | in_readme

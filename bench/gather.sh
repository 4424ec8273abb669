#!/bin/sh
# How fast texts become whole token lists: 4 MiB in one file and as 400 includes of 10 KiB beside scanning alone, and uses of
# a long chain of macros, each of which stands for the one before, beside ten times as many of one of a tenth.
. "$(dirname "$0")/common.sh"
wants "$layers"
cd "$work" || exit 1

# Lines of 64 bytes with two tokens and a LineEnd, so that 4 MiB stay below 200,000 tokens.
yes 'total_of_the_first_elements total_of_the_second_elements # some ' | head -c 4186000 >large
yes 'total_of_the_first_elements total_of_the_second_elements # some ' | head -c 10240 >part
for number in $(seq 400); do echo "include part"; done >includes

# 4,090 macros, of which each but the first stands for the one before, and so many uses of one of them.
chain() { # USES NUMBER
    awk -v uses="$1" -v number="$2" 'BEGIN {
        print "define a0 k"
        for (i = 1; i < 4090; i++) printf "define a%d a%d\n", i, i - 1
        for (i = 0; i < uses; i++) printf "a%d\n", number
    }'
}
# In either text 163,600 names are replaced.
chain 40 4089 >deep
chain 400 408 >shallow

scanned=$(layer_time scan ratfor large 5)
compare "gathering one file, and scanning it" "$(layer_time gather ratfor large 5)" "$scanned" 2
compare "gathering 400 includes, and scanning as much" "$(layer_time gather ratfor includes 5)" "$scanned" 2
compare "uses of a chain of 4,090 macros, and ten times as many of one of 409" "$(layer_time gather ratfor deep 5)" "$(layer_time gather ratfor shallow 5)" 2
exit $status

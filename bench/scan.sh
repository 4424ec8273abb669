#!/bin/sh
# How fast texts become tokens: whether the time grows with the number of bytes alone, and whether a byte of one long line
# takes about as long as one of many short tokens.
. "$(dirname "$0")/common.sh"
wants "$layers"

ratfor_text() {
    cat <<'TEXT'
# a loop over some elements
for (i = 1; i <= limit_of_all; i = i + 1) {
	if (line(i) == 36 .and. ~done) break
	call show("it's", line(i),
		total)
	}
TEXT
}

efl_text() {
    cat <<'TEXT'
# a loop over some elements
for (i = 1, i <= limit_of_all, ++i) {
	if (line(i) == 36 && ~done) break
	total += list(i) -> node.item _
		* 2
	write( , 'total', total:i(11))
	}
TEXT
}

for language in ratfor efl; do
    yes "$(${language}_text)" | head -c 409600 >"$work/$language.small"
    yes "$(${language}_text)" | head -c 4194304 >"$work/$language.large"
    small=$(layer_time scan $language "$work/$language.small" 10)
    large=$(layer_time scan $language "$work/$language.large" 5)
    compare "$language: 4 MiB and 400 KiB" "$large" "$small" 11
    echo "$language: $((4194304 * 1000 / (large / 1000))) KB a second"
done

yes 'total = total + list(i) * 36' | tr '\n' ';' | head -c 4194304 >"$work/line"
yes 'a+b*' | tr -d '\n' | head -c 200000 >"$work/tokens"
line=$(layer_time scan ratfor "$work/line" 5)
tokens=$(($(layer_time scan ratfor "$work/tokens" 20) * 4194304 / 200000))
compare "as many bytes as tokens of one character, and in one line" "$tokens" "$line" 4
compare "as many bytes in one line, and as tokens of one character" "$line" "$tokens" 4
exit $status

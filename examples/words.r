# Counts words, which blanks part, and how many have each length, up to a line that begins with a dollar sign.
define(width, 80)
define(longest, 20)
define(blank, 32)
define(dollar, 36)
integer line(width), words, length(longest)
words = 0
do i = 1, longest
    length(i) = 0
repeat {
    read(5,7) line
    if (line(1) == dollar) break
    n = 0
    do i = 1, width
        if (line(i) != blank)
            n = n + 1
        else if (n > 0) {
            words = words + 1
            if (n > longest) n = longest
            length(n) = length(n) + 1
            n = 0
        }
    if (n > 0) {
        words = words + 1
        if (n > longest) n = longest
        length(n) = length(n) + 1
    }
}
write(6,8) words
write(6,9) (i, length(i), i = 1, longest)
7 format(80a1)
8 format(i5, ' words')
9 format(5(i4, ':', i4))
stop
end

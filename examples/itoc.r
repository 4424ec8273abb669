# Integers to text: each number that is read is written in decimal, octal and binary digits, without blanks. Ends at zero.
define(zero, 48)
define(minus, 45)
integer text(40), place, base
repeat {
    read(5,8) number
    if (number == 0) break
    do i = 1, 3 {
        switch (i) {
            case 1: base = 10
            case 2: base = 8
            default: base = 2
        }
        place = 40
        k = iabs(number)
        repeat {
            text(place) = zero + mod(k, base)
            place = place - 1
            k = k/base
        } until (k == 0)
        if (number < 0) {
            text(place) = minus
            place = place - 1
        }
        place = place + 1
        write(6,9) (text(j), j = place, 40)
    }
}
8 format(i12)
9 format(40a1)
stop
end

# Numbers in four bases.
procedure
integer number
for (number = 1, number <= 1000, number = 2*number + mod(number, 3)) {
    write( , number:i(4), ' is', in_base(2, number):i(11), in_base(3, number):i(8), in_base(8, number):i(5))
    if (from_base(2, in_base(2, number)) ~= number) write( , 'and not')
}
end

# a number whose decimal digits are those of n in a base
integer procedure in_base(base, n)
integer base, rest, digits, place
digits = 0
place = 1
for (rest = n, rest > 0, rest /= base) {
    digits += place*mod(rest, base)
    if (rest >= base) place *= 10
}
return(digits)
end

integer procedure from_base(base, digits)
integer base, digits, rest, number, place
number = 0
place = 1
for (rest = digits, rest > 0, rest /= 10) {
    number += place*mod(rest, 10)
    place *= base
}
return(number)
end

# The greatest common divisor of 1071 and 462, with the remainders on the way (Euclid).
procedure
integer divisor, remainder, last_remainder
last_remainder = 1071
remainder = 462
while (remainder ~= 0) {
    divisor = remainder
    remainder = mod(last_remainder, divisor)
    last_remainder = divisor
    write( , remainder:i(5))
}
write( , divisor:i(5))
end

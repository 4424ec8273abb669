# The digits of a number, summed and turned round.
procedure
integer number, digit, sum_of_digits, turned
sum_of_digits = turned = 0
for (number = 90517, number > 0, number /= 10) {
    sum_of_digits += digit = mod(number, 10)
    turned = turned*10 + digit
}
write( , sum_of_digits:i(6))
write( , turned:i(6))
end

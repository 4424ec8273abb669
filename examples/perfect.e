# The numbers below 500 that are the sum of their smaller divisors.
procedure
integer number, sum, divisor
do number = 2, 499 {
    sum = 1
    for (divisor = 2, divisor**2 <= number, ++divisor) {
        if (mod(number, divisor) ~= 0) next
        sum += divisor
        if (divisor**2 ~= number) sum += number/divisor
    }
    if (sum == number) write( , number:i(4))
}
end

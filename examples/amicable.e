# Pairs of numbers up to 1300 of which each is the sum of the other one's smaller divisors.
procedure
integer number, number_of_other
do number = 2, 1300 {
    number_of_other = sum_of_divisors(number)
    if (number_of_other > number && sum_of_divisors(number_of_other) == number)
        write( , number:i(5), ' and', number_of_other:i(5))
}
end

integer procedure sum_of_divisors(number)
integer number, sum, divisor
sum = 1
for (divisor = 2, divisor**2 < number, ++divisor)
    if (mod(number, divisor) == 0) sum += divisor + number/divisor
if (divisor**2 == number) sum += divisor
return(sum)
end

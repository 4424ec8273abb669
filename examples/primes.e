# The primes up to 100, and how many there are.
procedure
integer number, count
count = 0
do number = 1, 100
    if (is_prime(number)) write( , ++count:i(3), ':', number:i(3))
write( , count:i(3), ' primes')
end

logical procedure is_prime(number)
integer number, divisor
if (number < 2) return(false)
for (divisor = 2, divisor**2 <= number, ++divisor)
    if (mod(number, divisor) == 0) return(false)
return(true)
end

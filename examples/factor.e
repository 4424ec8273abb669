# Factorials, as far as the integers of the profile go.
procedure
n = 1
do i = 1, 12
    write( , n *= i:i(11))
end

# The best fractions for the root of two, and by how much their squares differ from two whole squares.
procedure
integer numerator, nominator
numerator = nominator = 1
while (numerator < 40000) {
    write( , numerator:i(6), ' /', nominator:i(6), numerator**2 - 2*nominator**2:i(3))
    numerator += 2*nominator
    nominator = numerator - nominator
}
end

# a calculator: each record has a number or a sign, and a sign takes the two numbers before it; = shows the value
integer code, n, depth, stack(20)
logical fits
common /calc/ depth, stack
depth = 0
repeat {
    read(5,1) code, n
    switch (code) {
        case 0:
            call keep(n)
        case 1, 2, 3, 4:
            if (fits(2))
                call apply(code)
        case 5:
            if (fits(1))
                write(6,2) stack(depth)
        default:
            break
        }
    }
write(6,3) depth
1 format(i1, i6)
2 format('=', i7)
3 format(i3, ' left')
stop
end

subroutine keep(n)
integer n, depth, stack(20)
common /calc/ depth, stack
depth = depth + 1
stack(depth) = n
return
end

# whether so many numbers are there
logical function fits(count)
integer count, depth, stack(20)
common /calc/ depth, stack
fits = depth >= count
if (.not. fits)
    write(6,1)
1 format('too few numbers')
return
end

# 1 adds, 2 subtracts, 3 multiplies, 4 divides
subroutine apply(code)
integer code, depth, stack(20), a, b
common /calc/ depth, stack
a = stack(depth-1)
b = stack(depth)
depth = depth - 1
switch (code) {
    case 1:
        a = a + b
    case 2:
        a = a - b
    case 3:
        a = a*b
    case 4:
        if (b == 0)
            write(6,1)
        else
            a = a/b
    }
stack(depth) = a
1 format('no division by zero')
return
end

# quicksort with a stack of its own, since a unit does not call itself
define MOST 100
integer a(MOST), n
n = 0
repeat {
    read(5,1) k
    if (k == 9999)
        break
    n = n + 1
    a(n) = k
    }
call sort(a, n)
write(6,2) (a(i), i = 1, n)
1 format(i5)
2 format(8i6)
stop
end

subroutine sort(a, n)
integer n, a(n), low(20), high(20), depth, left, right, middle, part
depth = 1
low(1) = 1
high(1) = n
while (depth > 0) {
    left = low(depth)
    right = high(depth)
    depth = depth - 1
    while (left < right) {
        middle = part(a, n, left, right)
        # the longer part waits
        depth = depth + 1
        if (middle - left < right - middle) {
            low(depth) = middle + 1
            high(depth) = right
            right = middle - 1
            }
        else {
            low(depth) = left
            high(depth) = middle - 1
            left = middle + 1
            }
        }
    }
return
end

# parts a(left) to a(right) by its last element, and answers where that stands then
integer function part(a, n, left, right)
integer n, a(n), left, right, pivot
pivot = a(right)
i = left
for (j = left; j < right; j = j + 1)
    if (a(j) < pivot) {
        call swap(a(i), a(j))
        i = i + 1
        }
call swap(a(i), a(right))
return (i)
end

subroutine swap(i, j)
k = i
i = j
j = k
return
end

# lines of numbers set in columns: each page is turned, so that it is read from above to below
define ROWS 3
define COLS 4
integer page(ROWS,COLS), n, count, pages
common /sheet/ n, count, pages
n = 0
count = 0
pages = 0
repeat {
    read(5,1) k
    if (k < 0)
        break
    count = count + 1
    call enter(page, k, ROWS, COLS)
    }
if (n > 0)
    call show(page, ROWS, COLS)
write(6,2) count, pages
1 format(i4)
2 format(i4, ' numbers on', i3, ' pages')
stop
end

subroutine enter(page, k, rows, cols)
integer rows, cols, page(rows,cols), k, n, count, pages, row, col
common /sheet/ n, count, pages
row = mod(n, rows) + 1
col = n/rows + 1
page(row,col) = k
n = n + 1
if (n == rows*cols)
    call show(page, rows, cols)
return
end

subroutine show(page, rows, cols)
integer rows, cols, page(rows,cols), n, count, pages, full, last
common /sheet/ n, count, pages
pages = pages + 1
write(6,1) pages
full = n/rows
last = mod(n, rows)
do i = 1, rows {
    k = full
    if (i <= last)
        k = k + 1
    if (k > 0)
        write(6,2) (page(i,j), j = 1, k)
    }
n = 0
1 format('page', i3)
2 format(4i6)
return
end

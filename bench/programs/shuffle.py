# an array shuffled by a congruential function
def main():
    a = list(range(1001))
    k = 1
    for j in range(500):
        for i in range(1, 1001):
            k = (k * 171 + 11213) % 53125
            n = k % 1000 + 1
            m = a[i]
            a[i] = a[n]
            a[n] = m
    print("%10d%10d" % (a[1], a[1000]))

main()

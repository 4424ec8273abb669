# sums with a test
def main():
    k = 0
    for i in range(1, 2000001):
        k = k + 1
        if k > 1000:
            k = 0
    print("%10d" % k)

main()

# calls of a function
def next1(k):
    return k + 1

def main():
    k = 0
    for i in range(1000000):
        k = next1(k)
    print("%10d" % k)

main()

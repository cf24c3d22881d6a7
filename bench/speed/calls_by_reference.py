def main():
    a = [0] * 51
    def add(p, q):
        a[p] = a[p] + q
    for k in range(8000):
        for i in range(1, 51):
            add(i, i)
    print(a[50])
main()

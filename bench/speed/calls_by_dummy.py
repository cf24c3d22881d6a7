def main():
    n = 0
    def add(p, q):
        nonlocal n
        n = (n + p + q) % 10007
    for i in range(1, 400001):
        add(i + 1, i)
    print(n)
main()

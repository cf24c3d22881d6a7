def main():
    n = 0
    for k in range(1, 60001):
        i = 1
        while i < 100000:
            n = (n + i + k) % 10007
            i = i * 2
    print(n)
main()

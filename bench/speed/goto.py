def main():
    i, n = 0, 0
    while True:
        i = i + 1
        if i > 1000000:
            break
        if i % 3 == 0:
            n = n + 2
            continue
        n = n + 1
    print(n)
main()

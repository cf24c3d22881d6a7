def main():
    n, b = 0, 0b10110100
    for i in range(1, 100001):
        c = str(i).rjust(14)
        s = i % 30000
        if c[13] == '7':
            n = n + s - 1
        c = format(b, '08b').ljust(14)
        if c[i % 8] == '1':
            n = (n + 3) % 1000000
    print(n)
main()

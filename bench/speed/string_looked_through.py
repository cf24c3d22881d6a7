def main():
    s = 'THE QUICK BROWN FOX JUMPS OVER THE LAZY DOG'.ljust(2000)
    n = 0
    for r in range(100):
        for i in range(2000):
            c = s[i]
            if (c == 'A') | (c == 'E') | (c == 'I') | (c == 'O') | (c == 'U'):
                n = n + 1
    print(n)
main()

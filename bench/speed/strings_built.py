def main():
    n, i = 0, 1
    while i <= 800:
        s, j = '', 1
        while j <= 500:
            s = s + 'AB'
            if s[j - 1:j] == 'A':
                n = n + len(s)
            j = j + 1
        i = i + 1
    print(n)
main()

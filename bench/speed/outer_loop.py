def main():
    i, j, n = 1, 1, 0
    def p():
        def q():
            nonlocal i, j, n
            while i <= 1000:
                j = 1
                while j <= 2000:
                    n = n + 1
                    j = j + 1
                i = i + 1
        q()
    p()
    print(n)
main()

def main():
    for _ in range(10):
        n, marked = 0, [0] * 32001
        i = 2
        while i <= 32000:
            marked[i] = 0
            i = i + 1
        i = 2
        while i <= 32000:
            if marked[i] == 0:
                n = n + 1
                j = i + i
                while j <= 32000:
                    marked[j] = 1
                    j = j + i
            i = i + 1
    print(n)
main()

def main():
    for _ in range(10):
        n, marked = 0, [False] * 20001
        for i in range(2, 20001):
            marked[i] = False
        for i in range(2, 20001):
            if not marked[i]:
                n = n + 1
                for j in range(i + i, 20001, i):
                    marked[j] = True
    print(n)
main()

def main():
    n = []
    s = 0
    for j in range(1, 21):
        for i in range(1, 10001):
            n.append(0)
        for i in range(1, 10001):
            n.pop()
        s = s + 1
    print(s)
main()

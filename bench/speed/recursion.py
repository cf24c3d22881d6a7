def gcd(a, b):
    if b == 0:
        return a
    return gcd(b, a % b)
def main():
    n = 0
    for i in range(1, 20001):
        n = n + gcd(i * 17, 1009 - i % 1000)
    print(n)
main()

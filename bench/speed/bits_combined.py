def main():
    a, b, n = 0b1010110011110000, 0b0011001100110011, 0
    for i in range(1, 200001):
        c = (a & b) | (~a & ~b & 0xffff)
        if c >> (15 - i % 16) & 1:
            n = n + 1
        a = (a << 1 & 0xffff) | a >> 15
    print(n)
main()

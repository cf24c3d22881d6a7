def main():
    s = ''
    for i in range(90):
        s = s + 'ABCABDABE '
    s = s + 'NEEDLE'
    n = 0
    for i in range(1, 20001):
        n = (n + s.find('NEEDLE') + 1 + s[i % 500:].find('ABE') + 1) % 100000
    print(n)
main()

import sys
def main():
    write = sys.stdout.write
    for i in range(1, 40001):
        write('%14d %14d TEXT\n' % (i, i * 2))
main()

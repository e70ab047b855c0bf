/* Arithmetic of words: signed and unsigned, of several sizes. */
unsigned gcd(unsigned a, unsigned b)
{
    while (b) {
        unsigned t = a % b;
        a = b;
        b = t;
    }
    return a;
}

int absolute(int x) { return x < 0 ? -x : x; }

unsigned power(unsigned x, unsigned n)
{
    unsigned r = 1;
    while (n) {
        if (n & 1)
            r *= x;
        x *= x;
        n >>= 1;
    }
    return r;
}

int is_prime(unsigned n)
{
    if (n < 2)
        return 0;
    for (unsigned d = 2; d * d <= n; d++)
        if (n % d == 0)
            return 0;
    return 1;
}

unsigned rotate(unsigned x, int n) { return x << (n & 31) | x >> (-n & 31); }

unsigned ones(unsigned x)
{
    unsigned n = 0;
    for (; x; x &= x - 1)
        n++;
    return n;
}

short halves(short a, unsigned short b) { return a / 3 + b % 7; }

signed char bytes(signed char a, unsigned char b) { return a * 5 - (b >> 2); }

long long wide(long long a, long long b) { return a * b + (a >> 7) - (b << 3); }

unsigned root(unsigned x)
{
    unsigned r = 0, bit = 1u << 30;
    while (bit > x)
        bit >>= 2;
    while (bit) {
        if (x >= r + bit) {
            x -= r + bit;
            r = (r >> 1) + bit;
        } else
            r >>= 1;
        bit >>= 2;
    }
    return r;
}

int median(int a, int b, int c)
{
    if (a < b)
        return b < c ? b : a < c ? c : a;
    return a < c ? a : b < c ? c : b;
}

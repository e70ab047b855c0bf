/* Texts: bytes, strings, numbers. */
unsigned size(const char *s)
{
    const char *p = s;
    while (*p)
        p++;
    return p - s;
}

int order(const char *a, const char *b)
{
    while (*a && *a == *b) {
        a++;
        b++;
    }
    return (unsigned char)*a - (unsigned char)*b;
}

void copy(char *to, const char *from, unsigned n)
{
    while (n--)
        *to++ = *from++;
}

void fill(unsigned char *to, unsigned char c, unsigned n)
{
    for (unsigned i = 0; i < n; i++)
        to[i] = c;
}

int number(const char *s)
{
    int sign = 1, n = 0;
    while (*s == ' ' || *s == '\t')
        s++;
    if (*s == '-' || *s == '+')
        sign = *s++ == '-' ? -1 : 1;
    while (*s >= '0' && *s <= '9')
        n = 10 * n + (*s++ - '0');
    return sign * n;
}

unsigned hash(const unsigned char *s)
{
    unsigned h = 5381;
    while (*s)
        h = h * 33 ^ *s++;
    return h;
}

int is_palindrome(const char *s)
{
    unsigned n = size(s);
    for (unsigned i = 0; i < n / 2; i++)
        if (s[i] != s[n - 1 - i])
            return 0;
    return 1;
}

const char *last(const char *s, char c)
{
    const char *found = 0;
    for (; *s; s++)
        if (*s == c)
            found = s;
    return found;
}

unsigned upper(char *s)
{
    unsigned n = 0;
    for (; *s; s++)
        if (*s >= 'a' && *s <= 'z') {
            *s -= 'a' - 'A';
            n++;
        }
    return n;
}

/* Switches: dense ones, over values of several sizes and from several places, that a compiler makes tables of. */
struct event {
    unsigned char kind;
    unsigned short code;
    int value;
};

static int total;

int by_word(unsigned n)
{
    switch (n) {
    case 0: return 11;
    case 1: return 7;
    case 2: total++; return 3;
    case 3: return total;
    case 4: return 12;
    case 5: total--; return 5;
    case 6: return 1;
    case 7: return total * 3;
    }
    return 0;
}

int from_ten(int n)
{
    switch (n) {
    case 10: total += 1; break;
    case 11: total += 3; break;
    case 12: total -= 8; break;
    case 13: total *= 5; break;
    case 14: total ^= 9; break;
    case 15: total |= 4; break;
    case 16: total = 0; break;
    default: return -1;
    }
    return total;
}

int by_byte(const struct event *e)
{
    switch (e->kind) {
    case 0: return e->value;
    case 1: return -e->value;
    case 2: return e->value + e->code;
    case 3: return e->value * 2;
    case 4: return e->code;
    case 5: total += e->value; return 0;
    case 6: total -= e->value; return 1;
    }
    return -2;
}

int by_half(const struct event *e, int x)
{
    switch (e->code) {
    case 100: x += 1; break;
    case 101: x += total; break;
    case 102: x -= 5; break;
    case 103: x *= 3; break;
    case 104: x = ~x; break;
    case 105: x ^= 0x55; break;
    case 106: return total;
    }
    return x;
}

int in_a_loop(const char *s)
{
    int n = 0;
    for (; *s; s++)
        switch (*s) {
        case 'a': n += 1; break;
        case 'b': n += 2; break;
        case 'c': n <<= 1; break;
        case 'd': n -= 3; break;
        case 'e': n ^= 1; break;
        case 'f': return n;
        case 'g': n = 0; break;
        default: n--;
        }
    return n;
}

int nested(unsigned a, unsigned b)
{
    switch (a) {
    case 0: return 4;
    case 1: return 9;
    case 2:
        switch (b) {
        case 0: return 1;
        case 1: return 8;
        case 2: return total;
        case 3: return 6;
        case 4: return 2;
        case 5: return 7;
        }
        return 3;
    case 3: return total + 1;
    case 4: total = 5; return 0;
    case 5: return 2;
    }
    return -1;
}

int masked(unsigned n)
{
    switch (n & 7) {
    case 0: return total;
    case 1: return 3;
    case 2: total++; return 4;
    case 3: return 9;
    case 4: return 1;
    case 5: total--; return 6;
    case 6: return 5;
    case 7: return 2;
    }
    return 0;
}

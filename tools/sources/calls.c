/* Calls: of other functions, of oneself, through pointers; switches. */
static int depth;

int factorial(int n) { return n < 2 ? 1 : n * factorial(n - 1); }

int fibonacci(int n) { return n < 2 ? n : fibonacci(n - 1) + fibonacci(n - 2); }

int apply(int (*f)(int), int x) { return f(x) + f(x + 1); }

int each(int (*f)(int), const int *a, int n)
{
    int s = 0;
    for (int i = 0; i < n && s >= 0; i++)
        s += f(a[i]);
    return s;
}

int deeper(int n)
{
    depth++;
    int r = n > 0 ? deeper(n - 1) : depth;
    depth--;
    return r;
}

int name(int c)
{
    switch (c) {
    case 'a': return 1;
    case 'e': return 2;
    case 'q': return 3;
    default: return 0;
    }
}

int table(int c)
{
    switch (c) {
    case 0: return 7;
    case 1: return 3;
    case 2: return 9;
    case 3: return 1;
    case 4: return 8;
    case 5: return 2;
    case 6: return factorial(c);
    default: return -1;
    }
}

int machine(const char *s)
{
    int state = 0;
    for (;; s++)
        switch (state) {
        case 0: state = *s == '/' ? 1 : *s ? 0 : 5; break;
        case 1: state = *s == '*' ? 2 : 0; break;
        case 2: state = *s == '*' ? 3 : *s ? 2 : 5; break;
        case 3: state = *s == '/' ? 0 : 2; break;
        default: return state;
        }
}

void never(void)
{
    for (;;)
        depth++;
}

int main(void) { return apply(factorial, 5) + name('e') + table(3); }

// Structs: fields, assignment, arguments, results.
#include <glib.h>

typedef struct _Pair Pair;
typedef struct _Line Line;

struct _Pair {
    gint first;
    gint second;
};

struct _Line {
    Pair from;
    Pair to;
};

static Pair swapped (Pair p)
{
    Pair r;
    r.first = p.second;
    r.second = p.first;
    return r;
}

int main (int argc, char **argv)
{
    Pair a;
    Pair b;
    Line l;
    a.first = 1;
    a.second = 2;
    b = a;
    b.first = 5;
    l.from = a;
    l.to = swapped (b);
    g_print ("%d %d %d %d\n", l.from.first, l.from.second, l.to.first, l.to.second);
    l.to.first = 9;
    a = l.to;
    g_print ("%d %d\n", a.first, b.second);
    return 0;
}

// out: 1 2 2 5
// out: 9 2

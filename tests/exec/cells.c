// sizeof and G_STRUCT_OFFSET count cells.
#include <glib.h>

typedef struct _Node Node;
struct _Node {
    gint value;
    Node *next;
};

typedef struct _Big Big;
struct _Big {
    Node first;
    Node second;
    gint last;
};

int main (int argc, char **argv)
{
    g_print ("%lu %lu %ld\n", sizeof (Node), sizeof (Big), G_STRUCT_OFFSET (Big, last));
    return 0;
}

// out: 2 5 4
// real: cells are counted, not bytes

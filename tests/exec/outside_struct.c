// A struct stands in part behind the end of its block.
#include <glib.h>

typedef struct _Node Node;
struct _Node {
    gint value;
    Node *next;
};

int main (int argc, char **argv)
{
    Node *p;
    gint *q;
    Node n;
    q = g_new0 (gint, 1);
    p = (Node *) q;
    n = *p;
    return 0;
}

// err: vala2c: undefined outside
// status: 24

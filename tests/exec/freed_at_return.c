// A call frees what its result is to be stored in.
#include <glib.h>

typedef struct _Node Node;
struct _Node {
    gint value;
    Node *next;
};

static gint drop (Node *p)
{
    g_slice_free (Node, p);
    return 1;
}

int main (int argc, char **argv)
{
    Node *p;
    p = g_slice_new0 (Node);
    p->value = drop (p);
    return 0;
}

// err: vala2c: undefined freed
// status: 24

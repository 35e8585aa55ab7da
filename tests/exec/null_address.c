// The address of a field of null is asked for.
#include <glib.h>

typedef struct _Node Node;
struct _Node {
    gint value;
    Node *next;
};

int main (int argc, char **argv)
{
    Node *p;
    gint *v;
    p = NULL;
    v = &p->value;
    return 0;
}

// err: vala2c: undefined null
// status: 24

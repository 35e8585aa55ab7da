// What lives at the end, by its serial, with its count.
#include <glib.h>

typedef struct _Scope Scope;

struct _Scope {
    gsize _ref_count_;
    gint value;
};

int main (int argc, char **argv)
{
    gchar *s;
    gint *a;
    Scope *b;
    s = g_strdup ("ab");
    a = g_new0 (gint, 2);
    b = g_slice_new0 (Scope);
    b->_ref_count_ = 3;
    g_free (s);
    s = g_strdup ("cd");
    b = g_slice_new0 (Scope);
    g_print ("end\n");
    return 0;
}

// words: --live
// out: end
// err: live 2 array 1
// err: live 3 scope 3
// err: live 4 text 1
// err: live 5 scope 0

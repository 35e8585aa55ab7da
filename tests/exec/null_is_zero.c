// Each cell of a zeroed block is 0, null and no function.
#include <glib.h>

typedef struct _Record Record;
typedef void (*Function) (void);

struct _Record {
    gint number;
    guint large;
    gchar *text;
    Function function;
    gboolean flag;
};

int main (int argc, char **argv)
{
    Record *r;
    r = g_slice_new0 (Record);
    g_print ("%d %u %d %d %d\n", r->number, r->large, r->text == NULL, r->function == NULL, r->flag ? 1 : 0);
    g_slice_free (Record, r);
    return 0;
}

// out: 0 0 1 1 0

/* Every call of the header on heap blocks of exactly the lengths handed over, so that valgrind sees every access beyond them; the
   answers, what is written and what is left alone are checked. */
#include "buffers/pair_calls.h"
#include "buffers/sheet_calls.h"

int main(void)
{
    listings();
    pair_lists();
    names();
    pools();
    numbers();
    shared();
    weights();
    linkages();
    anchored();
    scores();
    if (failures > 0)
        printf("%d differences\n", failures);
    return failures > 0;
}

/* In place of the engine, to test how examples/lines.c reads: hands the bytes of the sheet back as the listing. Behind them it fills the
   room with line feeds, and under valgrind an access there is an error, so that a reader that goes on too far is noticed. */
#include <string.h>
#include <valgrind/memcheck.h>

#include "farzhudyl.h"

int64_t farzhudyl_listing(int32_t kind, const uint8_t *sheet, size_t sheet_len, uint8_t *out, size_t out_len)
{
    (void)kind;
    if (sheet_len > out_len)
        return -14;
    memset(out, '\n', out_len);
    memcpy(out, sheet, sheet_len);
    VALGRIND_MAKE_MEM_NOACCESS(out + sheet_len, out_len - sheet_len);
    return (int64_t)sheet_len;
}

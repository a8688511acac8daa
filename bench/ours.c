/* The library's list call under the name of the other two. */
#include "lister.h"
#include "../c/sorunggyeo.h"

size_t list_repeats(const uint8_t *x, size_t n, uint16_t *list, size_t room)
{
    return sorunggyeo_list(x, n, 0, list, SORUNGGYEO_LINE * room).value;
}

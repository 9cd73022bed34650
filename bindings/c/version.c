/* The one function of the installed libraries that isn't of the proved archives. Both archives have it, so it is weak: a program may link the whole of both. */
#include "mewikofu.h"

__attribute__((weak)) const char *mewikofu_version(void)
{
    return MEWIKOFU_VERSION;
}

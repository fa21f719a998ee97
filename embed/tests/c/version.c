/* Prints the header's version, as text and from its three numbers. */
#include "lots.h"
#include <stdio.h>

int main(void)
{
    printf("%s %d.%d.%d\n", LOTS_VERSION, LOTS_VERSION_MAJOR, LOTS_VERSION_MINOR, LOTS_VERSION_PATCH);
    return 0;
}

/* A number of the header, by its position there; more or less where the environment's OTHER_NUMBER names this position. */
#include <stdlib.h>

static int other(int position, int value)
{
    const char *number = getenv("OTHER_NUMBER");

    return number != NULL && atoi(number) == position ? value + atoi(getenv("OTHER_MORE")) : value;
}

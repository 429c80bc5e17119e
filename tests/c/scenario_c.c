/* The scenario in C99. */
#include "scenario.h"

int main(void)
{
    return scenario("scenario in C");
}

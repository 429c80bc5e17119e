/* The scenario in C++. */
#include "scenario.h"

int main()
{
    return scenario("scenario in C++");
}

#include <stdio.h>
#include "greet.h"

int main(void) {
    printf("%s, %s\n", GREETING, name());
    return 0;
}

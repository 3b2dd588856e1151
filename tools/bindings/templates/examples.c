/* Calls the exports as the examples in their comments do. Made by `tools/cellarcove make examples`. */
#include <stddef.h>
#include <stdint.h>
#include <stdio.h>

#include "cellarcove.h"

static int wrong, right;

static void see(const char *symbol, int holds) {
    if (holds) {
        right++;
    } else {
        wrong++;
        printf("%s does not return what its comment says\n", symbol);
    }
}

{examples}
int main(void) {
{runs}
    printf("%d examples hold, %d do not\n", right, wrong);
    return wrong > 0 || right == 0;
}

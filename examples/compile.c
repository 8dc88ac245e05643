// Compiles the table of figure1.txt and runs its image at one X.
#include <stdio.h>
#include "panstrait.h"

int main(void)
{
    const int32_t table[16] = {0, 0, 0, 0, 1, 1, 2, 3, 4, 4, 5, 6, 7, 7, 7, 7};
    uint8_t image[65536];
    size_t cells[84], length, nodes, count, bits, words;
    int32_t value;

    uint8_t refusal = panstrait_compile(4, table, 16, 4, image, sizeof image,
                                        cells, &length, &nodes, &count, &bits);
    if (refusal == 0)
        refusal = panstrait_run(image, length, 11, &value, &words);
    if (refusal != 0) {
        printf("refused %d\n", refusal);
        return 1;
    }
    printf("%zu nodes, %zu cells, %zu bits, %zu bytes\n", nodes, count, bits, length);
    printf("f(11) = %d by %zu words\n", value, words);
    return 0;
}

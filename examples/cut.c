/* Cuts the operator file on standard input, of either kind, as the program `cut` does: the count, the sheet and L, or the refusal. */
#include <stdio.h>

#include "dimfrets.h"

int main(void)
{
    /* Room for a byte more than a file has: what is longer is no file. */
    uint8_t file[DIMFRETS_LONG_OPERATOR_BYTES + 1];
    uint8_t sheet[DIMFRETS_MAX_SHEET];
    size_t length = fread(file, 1, sizeof file, stdin);
    uint64_t answer = dimfrets_operator_to_sheet(file, length, sheet, sizeof sheet);

    if (dimfrets_is_refused(answer)) {
        printf("refused %u\n", dimfrets_refusal_number(answer));
        return 1;
    }
    printf("count %u\nsheet", dimfrets_value(answer));
    for (unsigned n = 0; n < dimfrets_value(answer) + DIMFRETS_MIN_SHEET; n++)
        printf(" %u", sheet[n]);
    printf("\nloose %u\n", dimfrets_loose(answer));
    return 0;
}

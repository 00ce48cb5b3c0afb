/* Prints what the installed library says of itself: the versions of the header and of the library, then each number and its sentence. */
#include <inttypes.h>
#include <stdio.h>

#include <pollencart.h>

int main(void) {
    printf("%s %d.%d.%d %s\n", POLLENCART_VERSION, POLLENCART_VERSION_MAJOR, POLLENCART_VERSION_MINOR, POLLENCART_VERSION_PATCH, pollencart_version());
    for (uint32_t number = 0; number < 300; number++) printf("%" PRIu32 " | %s\n", number, pollencart_refusal_text(number));
    printf("%s\n", pollencart_refusal_text(UINT32_MAX));
    return 0;
}

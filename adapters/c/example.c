/* Asks for the reply to the request of standard input: ./example < ../../examples/verify.json */
#include "sigverify.h"
#include <stdio.h>
#include <stdlib.h>

enum { MOST = 1 << 24 };

int main(void) {
    uint8_t *request = malloc(MOST + 1), reply[256];
    size_t written, length = request == NULL ? 0 : fread(request, 1, MOST + 1, stdin);
    if (request == NULL || ferror(stdin)) return 3;

    uint8_t status = sigverify_reply(SIGVERIFY_VERIFY, request, length, reply, sizeof reply, &written);
    free(request);
    if (status > SIGVERIFY_NO_REQUEST) return 3; /* there is no reply */
    if (fwrite(reply, 1, written, stdout) != written || fflush(stdout) != 0) return 3;
    return status;
}

/* Times libre's transaction layer: an OPTIONS and its 200. */
#include "driver.h"

#include <stdbool.h>
#include <stddef.h>
#include <stdint.h>
#include <sys/socket.h>

#include <re.h>

enum { BUCKETS = 65536 };

static struct sip *stack;

void driver_end(void) { re_cancel(); }

static bool answer(const struct sip_msg *request, void *argument) {
    (void)argument;
    sip_treply(NULL, stack, request, 200, "OK");
    return true;
}

int main(int count, char **words) {
    struct sa local;
    struct sip_lsnr *listener;
    driver_begin(count, words);
    libre_init();
    sa_set_str(&local, "127.0.0.1", 5060);
    if (sip_alloc(&stack, NULL, BUCKETS, BUCKETS, BUCKETS, "test", NULL, NULL) ||
        sip_transp_add(stack, SIP_TRANSP_UDP, &local) ||
        sip_listen(&listener, stack, true, answer, NULL)) {
        re_fprintf(stderr, "no stack\n");
        return 1;
    }
    re_main(NULL);
    return 0;
}

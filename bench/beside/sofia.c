/* Times sofia-sip's transaction layer (nta): an OPTIONS and its 200. */
#include "driver.h"

#include <stdio.h>
#include <sofia-sip/nta.h>
#include <sofia-sip/nta_tport.h>
#include <sofia-sip/sip_status.h>

static su_root_t *root;

void driver_end(void) { su_root_break(root); }

static int answer(nta_leg_magic_t *magic, nta_leg_t *leg, nta_incoming_t *request,
                  sip_t const *sip) {
    (void)magic, (void)leg, (void)sip;
    nta_incoming_treply(request, SIP_200_OK, TAG_END());
    nta_incoming_destroy(request);
    return 0;
}

int main(int count, char **words) {
    driver_begin(count, words);
    su_init();
    root = su_root_create(NULL);
    nta_agent_t *agent = nta_agent_create(root, URL_STRING_MAKE("sip:127.0.0.1:5060;transport=udp"),
                                          NULL, NULL, TAG_END());
    if (!agent) {
        fprintf(stderr, "no agent\n");
        return 1;
    }
    nta_leg_tcreate(agent, answer, NULL, NTATAG_NO_DIALOG(1), TAG_END());
    su_root_run(root);
    return 0;
}

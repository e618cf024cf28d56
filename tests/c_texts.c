/* Prints each name and words of include/iolmaster_text.h, a line each: the function, its number, and the text. */
#include "iolmaster_text.h"

#include <stdio.h>

int main(void) {
    struct iolm_status status = {0, 0, 0, 0};
    unsigned number;
    for (number = 0; number < 64; number++) {
        printf("result_name %u %s\nresult_words %u %s\n", number, iolm_result_name(number), number, iolm_result_words(number));
    }
    for (number = 0; number < 32; number++) {
        status.status = (uint8_t)number;
        printf("status_name %u %s\nstatus_words %u %s\n", number, iolm_status_name(&status), number, iolm_status_words(&status));
        status.detail = (uint8_t)number;
        status.status = IOLM_MISMATCH;
        printf("mismatch_name %u %s\nmismatch_words %u %s\n", number, iolm_detail_name(&status), number, iolm_status_words(&status));
        status.status = IOLM_FAILED;
        printf("failure_name %u %s\nfailure_words %u %s\n", number, iolm_detail_name(&status), number, iolm_status_words(&status));
        status.detail = 0;
    }
    return 0;
}

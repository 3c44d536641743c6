/* One checked call, as a caller of the store makes it. */
#include "store.h"

static struct answer refused(uint32_t number) {
    return (struct answer){number, 0, 0, 0};
}

static bool lists(enum operation operation) {
    return operation == SHOW || operation == WITHDRAW;
}

struct answer call(uint32_t *words, size_t length, uint8_t *scratch, size_t scratch_size, const struct request *request,
                   struct pair *list, size_t room) {
    if (scratch_size < SCRATCH) {
        return refused(11);
    }
    if (!sound(words, length, scratch)) {
        return refused(3);
    }
    struct plan plan = decide(words, request);
    if (plan.answer.number != 0) {
        return plan.answer;
    }
    if (lists(request->operation)) {
        if (room < plan.answer.faults) {
            plan.answer.number = 10;
            plan.answer.scanned = 0;
            return plan.answer;
        }
        list_faults(words, plan.spot.cell, list);
    }
    change(words, request, &plan.spot);
    return plan.answer;
}

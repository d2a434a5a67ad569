#include "account.h"

/* The row of a submission that is live or set aside: there is one at most. */
static Row *current_row(Account *account, uint64_t id) {
    for (size_t i = 0; i < account->count; i++) {
        Row *row = &account->rows[i];
        if (row->id == id && (row->fate == LIVE || row->fate == SET_ASIDE)) {
            return row;
        }
    }
    return NULL;
}

bool account_issued(Account *account, const submission_book_drained *drained) {
    Row *before = current_row(account, drained->id);
    size_t room = sizeof account->rows / sizeof account->rows[0];
    if (account->count == room || drained->token != account->opening_token + account->count) {
        return false;
    }
    if (drained->predecessor.present != (before != NULL) || (before != NULL && before->token != drained->predecessor.value)) {
        return false;
    }
    if (before != NULL) {
        before->fate = DISPLACED;
        before->reason = "by the next attempt";
    }
    account->rows[account->count++] = (Row){drained->token, drained->id, LIVE, "issued"};
    return true;
}

void account_set_aside(Account *account, uint64_t id, const char *reason) {
    Row *row = current_row(account, id);
    if (row != NULL && row->fate == LIVE) {
        row->fate = SET_ASIDE;
        row->reason = reason;
    }
}

void account_removed(Account *account, uint64_t id, const char *reason) {
    Row *row = current_row(account, id);
    if (row != NULL) {
        row->fate = STRUCK_OUT;
        row->reason = reason;
    }
}

uint64_t account_id_of(const Account *account, uint64_t token) {
    for (size_t i = 0; i < account->count; i++) {
        if (account->rows[i].token == token) {
            return account->rows[i].id;
        }
    }
    return 0;
}

size_t account_count(const Account *account, Fate fate) {
    size_t count = 0;
    for (size_t i = 0; i < account->count; i++) {
        count += account->rows[i].fate == fate ? 1 : 0;
    }
    return count;
}

const char *fate_name(Fate fate) {
    static const char *const names[] = {"live", "set aside", "displaced", "struck out"};
    return names[fate];
}

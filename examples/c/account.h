/* What became of every token, kept from the answers of the calls alone. */
#ifndef ACCOUNT_H
#define ACCOUNT_H
#include "coins.h"

typedef enum { LIVE, SET_ASIDE, DISPLACED, STRUCK_OUT } Fate;

typedef struct {
    uint64_t token, id;
    Fate fate;
    const char *reason;
} Row;

typedef struct {
    uint64_t opening_token;
    size_t count;
    Row rows[64];
} Account;

/* A drain issued a token; the predecessor, if any, is displaced by it. False where the token is not the next one. */
bool account_issued(Account *account, const submission_book_drained *drained);
/* The live attempt of a submission, if any, is set aside. */
void account_set_aside(Account *account, uint64_t id, const char *reason);
/* The submission is gone, with its live or set-aside attempt. */
void account_removed(Account *account, uint64_t id, const char *reason);
/* The submission of a token; 0 where the token was not issued. */
uint64_t account_id_of(const Account *account, uint64_t token);
size_t account_count(const Account *account, Fate fate);
const char *fate_name(Fate fate);

#endif

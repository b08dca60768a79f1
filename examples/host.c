/* A host in C: the primary drops a call, its lines reach the standby, which asks for those that were lost, and both sites hold the same minutes. Then the same with accounts: a ledger over a version of the primary. */
#include <stdio.h>
#include <stdlib.h>

#include "ksk.h"

#define N 2016u
#define LINES 8u

static uint32_t primary[KSK_BLOCK_WORDS(N)];
static uint32_t standby[KSK_BLOCK_WORDS(N)];
static uint32_t inbox[KSK_INBOX_WORDS];

/* A refusal here is a mistake of this program: say which call and stop. */
static void expect_done(const char *call, uint32_t number)
{
    if (number != KSK_DONE) {
        fprintf(stderr, "%s answered %u\n", call, number);
        exit(1);
    }
}

static void reserve(uint32_t *block, uint32_t version, uint32_t call, uint32_t minutes)
{
    uint32_t had, old;
    expect_done("ksk_insert", ksk_insert(block, KSK_BLOCK_WORDS(N), version, version, call, minutes, &had, &old));
}

/* Hands lines to the standby over a link that loses two of each three. Returns how many are missing then. */
static uint32_t hear(uint32_t version, const uint8_t *lines, uint32_t total)
{
    uint32_t again, place, missing = KSK_UNKNOWN;
    for (uint32_t i = 0; i < total; i += 3)
        expect_done("ksk_receive", ksk_receive(standby, KSK_BLOCK_WORDS(N), inbox, KSK_INBOX_WORDS, version, lines + i * KSK_LINE_BYTES, KSK_LINE_BYTES, &again, &missing, &place));
    return missing;
}

/* Sends the change of the primary from one version to another into a version of the standby. The standby asks for what it misses, and the primary sends that again, until it says that it is complete. */
static void send(uint32_t from, uint32_t to, uint32_t batch, uint32_t version)
{
    uint8_t lines[LINES * KSK_LINE_BYTES], request[LINES * KSK_LINE_BYTES];
    uint32_t written, asked, total;

    expect_done("ksk_frames", ksk_frames(primary, KSK_BLOCK_WORDS(N), from, to, batch, 0, lines, sizeof lines, &written, &total));
    expect_done("ksk_begin", ksk_begin(inbox, KSK_INBOX_WORDS, batch));
    printf("lines sent: %u, missing: %u\n", total, hear(version, lines, total));
    for (;;) {
        expect_done("ksk_ask", ksk_ask(inbox, KSK_INBOX_WORDS, 0, request, sizeof request, &asked, &total));
        printf("asked:\n%.*s", (int)asked, (const char *)request);
        expect_done("ksk_resend", ksk_resend(primary, KSK_BLOCK_WORDS(N), from, to, batch, request, asked, 0, lines, sizeof lines, &written, &total));
        if (total == 0)
            return;
        printf("lines sent again: %u, missing: %u\n", total, hear(version, lines, total));
    }
}

/* Two lines that are damaged on the way: one in a digit, which the standby is sent, one in its kind, which is only read. */
static void damage(void)
{
    uint8_t lines[LINES * KSK_LINE_BYTES];
    uint32_t written, total, again, missing, place, field[6];

    expect_done("ksk_frames", ksk_frames(primary, KSK_BLOCK_WORDS(N), 0, 1, 7, 0, lines, sizeof lines, &written, &total));
    expect_done("ksk_begin", ksk_begin(inbox, KSK_INBOX_WORDS, 7));
    lines[20] = 'x';
    if (ksk_receive(standby, KSK_BLOCK_WORDS(N), inbox, KSK_INBOX_WORDS, 0, lines, KSK_LINE_BYTES, &again, &missing, &place) == KSK_DIGIT)
        printf("a damaged line: bad digit at place %u\n", place);
    lines[KSK_LINE_BYTES + 16] = '1';
    if (ksk_parse(lines + KSK_LINE_BYTES, KSK_LINE_BYTES, field, field + 1, field + 2, field + 3, field + 4, field + 5, &place) == KSK_KIND)
        printf("a damaged line: kind above 2\n");
}

/* Prints a version: its listing against version 15, which stays empty. */
static void print(const uint32_t *block, uint32_t version)
{
    uint32_t entries[16 * KSK_ENTRY_WORDS], written, total;
    expect_done("ksk_list", ksk_list(block, KSK_BLOCK_WORDS(N), version, 15, 0, entries, 16 * KSK_ENTRY_WORDS, &written, &total));
    for (uint32_t i = 0; i < written; i += KSK_ENTRY_WORDS)
        printf("call %u holds %u minutes\n", entries[i], entries[i + 1]);
}

/* The switch flushes what has gathered in one call: call 1 drops, calls 5 and 6 come in. Version 0 stays what the standby holds by now. */
static void flush(void)
{
    static const uint32_t edits[] = { KSK_REMOVE, 1, 0, KSK_PUT, 5, 50, KSK_PUT, 6, 60 };
    uint32_t size;
    uint64_t minutes;
    expect_done("ksk_copy", ksk_copy(primary, KSK_BLOCK_WORDS(N), 0, 1));
    expect_done("ksk_batch", ksk_batch(primary, KSK_BLOCK_WORDS(N), 1, 1, edits, 3 * KSK_RECORD_WORDS));
    expect_done("ksk_size", ksk_size(primary, KSK_BLOCK_WORDS(N), 1, &size));
    expect_done("ksk_held", ksk_held(primary, KSK_BLOCK_WORDS(N), 1, &minutes));
    printf("flushed: %u calls hold %llu minutes\n", size, (unsigned long long)minutes);
}

#define ACCOUNTS 4u
#define OPEN_CALLS 2u /* the version that the ledger is over: it holds the open calls */
#define SENT 3u       /* what the standby has been sent of it */
#define CALL(account, i) ((account) << 24 | (i))

static uint64_t ledger[KSK_LEDGER_WORDS(ACCOUNTS)];

static void open_call(uint32_t call, uint32_t minutes)
{
    uint32_t table;
    expect_done("ksk_ledger_reserve", ksk_ledger_reserve(ledger, KSK_LEDGER_WORDS(ACCOUNTS), primary, KSK_BLOCK_WORDS(N), OPEN_CALLS, call, minutes, &table));
}

/* 0 minutes would read like a release: the ledger answers that the table refused the edit, and the table's number says why. */
static void refuse_zero(uint32_t call)
{
    uint32_t table;
    uint32_t number = ksk_ledger_reserve(ledger, KSK_LEDGER_WORDS(ACCOUNTS), primary, KSK_BLOCK_WORDS(N), OPEN_CALLS, call, 0, &table);
    if (number != KSK_EDIT_REFUSED || table != KSK_ZERO) {
        fprintf(stderr, "a reservation of 0 minutes answered %u beside %u\n", number, table);
        exit(1);
    }
    printf("call %u refused: 0 minutes\n", call);
}

/* The standby is sent what has changed since it was last sent something, if anything has. */
static void bring_up_to_date(uint32_t batch)
{
    uint32_t same;
    expect_done("ksk_same", ksk_same(primary, KSK_BLOCK_WORDS(N), SENT, OPEN_CALLS, &same));
    if (same)
        return;
    send(SENT, OPEN_CALLS, batch, OPEN_CALLS);
    expect_done("ksk_copy", ksk_copy(primary, KSK_BLOCK_WORDS(N), SENT, OPEN_CALLS));
}

/* After maintenance a version is loaded from lines, key then value; in the second text the keys do not ascend. */
static void restore(void)
{
    static const char text[] = "000000010000000a\n000000030000001e\n";
    static const char turned[] = "000000030000001e\n000000010000000a\n";
    uint64_t line;

    expect_done("ksk_restore", ksk_restore(primary, KSK_BLOCK_WORDS(N), 4, (const uint8_t *)text, sizeof text - 1, &line));
    print(primary, 4);
    if (ksk_restore(primary, KSK_BLOCK_WORDS(N), 4, (const uint8_t *)turned, sizeof turned - 1, &line) == KSK_ORDER)
        printf("not restored: line %llu is out of order\n", (unsigned long long)line);
}

/* An account's call numbers are a range, so its open calls hold what the version holds between the two ends. */
static void print_account(uint32_t account)
{
    uint64_t topped, spent, unused, open;
    expect_done("ksk_ledger_account", ksk_ledger_account(ledger, KSK_LEDGER_WORDS(ACCOUNTS), account, &topped, &spent, &unused));
    expect_done("ksk_held_between", ksk_held_between(primary, KSK_BLOCK_WORDS(N), OPEN_CALLS, CALL(account, 0u), CALL(account, 0xffffffu), &open));
    printf("account %u: topped up %llu, spent %llu, in open calls %llu, free %llu\n", account, (unsigned long long)topped, (unsigned long long)spent, (unsigned long long)open, (unsigned long long)unused);
}

/* Account 1 opens two calls; one drops and its release reaches the standby, the other ends. */
static void accounts(void)
{
    uint32_t table;

    expect_done("ksk_ledger_fresh", ksk_ledger_fresh(ledger, KSK_LEDGER_WORDS(ACCOUNTS), ACCOUNTS));
    expect_done("ksk_ledger_top_up", ksk_ledger_top_up(ledger, KSK_LEDGER_WORDS(ACCOUNTS), 1, 100));
    open_call(CALL(1u, 5u), 30);
    open_call(CALL(1u, 6u), 40);
    refuse_zero(CALL(1u, 7u));
    print_account(1);
    bring_up_to_date(9);
    print(standby, OPEN_CALLS);
    expect_done("ksk_ledger_release", ksk_ledger_release(ledger, KSK_LEDGER_WORDS(ACCOUNTS), primary, KSK_BLOCK_WORDS(N), OPEN_CALLS, CALL(1u, 5u), &table));
    printf("call %u dropped\n", CALL(1u, 5u));
    print_account(1);
    bring_up_to_date(10);
    print(standby, OPEN_CALLS);
    expect_done("ksk_ledger_settle", ksk_ledger_settle(ledger, KSK_LEDGER_WORDS(ACCOUNTS), primary, KSK_BLOCK_WORDS(N), OPEN_CALLS, CALL(1u, 6u), 12, &table));
    print_account(1);
}

int main(void)
{
    uint32_t had, old;

    expect_done("ksk_fresh", ksk_fresh(primary, KSK_BLOCK_WORDS(N), N));
    expect_done("ksk_fresh", ksk_fresh(standby, KSK_BLOCK_WORDS(N), N));
    for (uint32_t call = 1; call <= 3; call++) {
        reserve(primary, 0, call, 10 * call);
        reserve(standby, 0, call, 10 * call);
    }
    /* Version 1 of the primary: call 2 drops, call 4 comes in. */
    expect_done("ksk_remove", ksk_remove(primary, KSK_BLOCK_WORDS(N), 1, 0, 2, &had, &old));
    printf("call 2 dropped, %u minutes released\n", old);
    reserve(primary, 1, 4, 40);
    send(0, 1, 7, 0);
    print(standby, 0);
    damage();
    flush();
    send(0, 1, 8, 0);
    print(standby, 0);
    restore();
    accounts();
    return 0;
}

/* What the pictures of docs/pictures show: blocks, lines, an inbox and an account as the library makes them, one record a line, its fields parted by tabs. The script `draw` reads them. */
#include <stdio.h>
#include <stdlib.h>
#include <string.h>

#include "ksk.h"

#define N     32u
#define WORDS KSK_BLOCK_WORDS(N)
#define LINES 8u

static uint32_t primary[WORDS], standby[WORDS], inbox[KSK_INBOX_WORDS];

/* A refusal that is not part of the story is a mistake of this program. */
static void expect_done(const char *call, uint32_t number)
{
    if (number != KSK_DONE) {
        fprintf(stderr, "%s answered %u\n", call, number);
        exit(1);
    }
}

static void put(uint32_t *block, uint32_t version, uint32_t call, uint32_t minutes)
{
    uint32_t had, old;
    expect_done("ksk_insert", ksk_insert(block, WORDS, version, version, call, minutes, &had, &old));
}

static void drop(uint32_t dest, uint32_t source, uint32_t call)
{
    uint32_t had, old;
    expect_done("ksk_remove", ksk_remove(primary, WORDS, dest, source, call, &had, &old));
}

static unsigned long long held(const uint32_t *block, uint32_t version)
{
    uint64_t minutes;
    expect_done("ksk_held", ksk_held(block, WORDS, version, &minutes));
    return minutes;
}

static void print_words(const char *name, const uint32_t *words, size_t count)
{
    fputs(name, stdout);
    for (size_t i = 0; i < count; i++)
        printf("\t%u", words[i]);
    putchar('\n');
}

/* Four calls in version 0; in version 1 one of them has dropped. */
static void small_block(void)
{
    expect_done("ksk_fresh", ksk_fresh(primary, WORDS, N));
    for (uint32_t call = 1; call <= 4; call++)
        put(primary, 0, call, 10 * call);
    drop(1, 0, 4);
    print_words("block", primary, WORDS);
}

/* Eleven calls in version 0, and the block again after one has dropped in version 1. */
static void two_versions(void)
{
    static const uint32_t calls[][2] = { { 20, 15 }, { 50, 30 }, { 80, 20 }, { 35, 10 }, { 65, 45 }, { 12, 5 }, { 27, 25 }, { 42, 40 }, { 58, 15 }, { 71, 10 }, { 93, 35 } };
    expect_done("ksk_fresh", ksk_fresh(primary, WORDS, N));
    for (size_t i = 0; i < sizeof calls / sizeof *calls; i++)
        put(primary, 0, calls[i][0], calls[i][1]);
    print_words("before", primary, WORDS);
    drop(1, 0, 42);
    print_words("after", primary, WORDS);
    printf("held\t%llu\t%llu\n", held(primary, 0), held(primary, 1));
}

/* A line's batch, index, count, kind, key and value. */
static void read_line(const uint8_t *line, uint32_t *field)
{
    uint32_t place;
    expect_done("ksk_parse", ksk_parse(line, KSK_LINE_BYTES, field, field + 1, field + 2, field + 3, field + 4, field + 5, &place));
}

/* The line that carries an empty version to one with call 3, and its fields. */
static void one_line(void)
{
    uint8_t line[KSK_LINE_BYTES];
    uint32_t written, total, field[6];

    expect_done("ksk_fresh", ksk_fresh(primary, WORDS, N));
    put(primary, 1, 3, 31);
    expect_done("ksk_frames", ksk_frames(primary, WORDS, 0, 1, 7, 0, line, sizeof line, &written, &total));
    read_line(line, field);
    printf("line\t%.34s", (const char *)line);
    print_words("", field, 6);
}

/* One line reaches the standby: what it answers, and what inbox and version hold then. */
static void hear(uint32_t index, const char *how, const uint8_t *line)
{
    uint32_t again, missing, place, left;
    uint32_t number = ksk_receive(standby, WORDS, inbox, KSK_INBOX_WORDS, 0, line, KSK_LINE_BYTES, &again, &missing, &place);
    expect_done("ksk_missing", ksk_missing(inbox, KSK_INBOX_WORDS, &left));
    printf("heard\t%u\t%s\t%u\t%u\t%u\t%llu\t%u\n", index, how, number, again, left, held(standby, 0), inbox[2]);
}

/* The standby asks for what it misses; the primary's answer is left in `lines`. Returns how many lines that are. */
static uint32_t ask(uint8_t *lines)
{
    uint8_t request[LINES * KSK_LINE_BYTES];
    uint32_t asked, written, total;
    expect_done("ksk_ask", ksk_ask(inbox, KSK_INBOX_WORDS, 0, request, sizeof request, &asked, &total));
    for (uint32_t i = 0; i < total; i++)
        printf("asked\t%.34s\n", (const char *)request + i * KSK_LINE_BYTES);
    expect_done("ksk_resend", ksk_resend(primary, WORDS, 0, 1, 7, request, asked, 0, lines, LINES * KSK_LINE_BYTES, &written, &total));
    return total;
}

/* Five calls at both sites; at the primary three drop and five come in. Leaves the eight lines that carry the change, and prints what each does. */
static void change(uint8_t *lines)
{
    uint32_t written, total, field[6];

    expect_done("ksk_fresh", ksk_fresh(primary, WORDS, N));
    for (uint32_t call = 1; call <= 5; call++)
        put(primary, 0, call, 10 * call);
    memcpy(standby, primary, sizeof standby);
    expect_done("ksk_copy", ksk_copy(primary, WORDS, 1, 0));
    for (uint32_t call = 6; call <= 10; call++)
        put(primary, 1, call, 3 * call);
    for (uint32_t call = 1; call <= 5; call += 2)
        drop(1, 1, call);
    expect_done("ksk_frames", ksk_frames(primary, WORDS, 0, 1, 7, 0, lines, LINES * KSK_LINE_BYTES, &written, &total));
    printf("sent\t%llu\t%llu\n", held(primary, 0), held(primary, 1));
    for (uint32_t i = 0; i < total; i++) {
        read_line(lines + i * KSK_LINE_BYTES, field);
        print_words("carries", field + 3, 3);
    }
}

/* Both sites hold the same entries: version 15 is empty, so a listing against it is the whole version. */
static int agree(void)
{
    uint32_t here[N * KSK_ENTRY_WORDS] = { 0 }, there[N * KSK_ENTRY_WORDS] = { 0 }, written, total;
    expect_done("ksk_list", ksk_list(primary, WORDS, 1, 15, 0, here, N * KSK_ENTRY_WORDS, &written, &total));
    expect_done("ksk_list", ksk_list(standby, WORDS, 0, 15, 0, there, N * KSK_ENTRY_WORDS, &written, &total));
    return memcmp(here, there, sizeof here) == 0;
}

/* Of the eight lines some are lost, one comes twice and one damaged; those that are then asked for come in another order. */
static void filling(void)
{
    static const uint32_t first[] = { 5, 0, 5, 2, 4 }, then[] = { 2, 0, 3, 1 };
    uint8_t lines[LINES * KSK_LINE_BYTES], damaged[KSK_LINE_BYTES];
    uint32_t total, field[6];

    change(lines);
    expect_done("ksk_begin", ksk_begin(inbox, KSK_INBOX_WORDS, 7));
    for (size_t i = 0; i < sizeof first / sizeof *first; i++)
        hear(first[i], "arrives", lines + first[i] * KSK_LINE_BYTES);
    memcpy(damaged, lines + 7 * KSK_LINE_BYTES, sizeof damaged);
    damaged[20] = 'x';
    hear(7, "arrives damaged", damaged);
    total = ask(lines);
    for (uint32_t i = 0; i < total && i < sizeof then / sizeof *then; i++) {
        read_line(lines + then[i] * KSK_LINE_BYTES, field);
        hear(field[1], "arrives", lines + then[i] * KSK_LINE_BYTES);
    }
    ask(lines);
    printf("agree\t%d\n", agree());
}

#define ACCOUNTS      2u
#define CALL(account) ((account) << 24)

static uint64_t ledger[KSK_LEDGER_WORDS(ACCOUNTS)];

/* What account 1 has after an operation: topped-up, free, in open calls, spent. */
static void print_account(const char *operation, uint32_t call, uint32_t minutes)
{
    uint64_t topped, spent, unused, open;
    expect_done("ksk_ledger_account", ksk_ledger_account(ledger, KSK_LEDGER_WORDS(ACCOUNTS), 1, &topped, &spent, &unused));
    expect_done("ksk_held_between", ksk_held_between(primary, WORDS, 0, CALL(1u), CALL(1u) | 0xffffffu, &open));
    printf("account\t%s\t%u\t%u\t%llu\t%llu\t%llu\t%llu\n", operation, call, minutes, (unsigned long long)topped, (unsigned long long)unused, (unsigned long long)open, (unsigned long long)spent);
}

static void top_up(uint32_t minutes)
{
    expect_done("ksk_ledger_top_up", ksk_ledger_top_up(ledger, KSK_LEDGER_WORDS(ACCOUNTS), 1, minutes));
    print_account("top-up", 0, minutes);
}

static void reserve(uint32_t call, uint32_t minutes)
{
    uint32_t table;
    expect_done("ksk_ledger_reserve", ksk_ledger_reserve(ledger, KSK_LEDGER_WORDS(ACCOUNTS), primary, WORDS, 0, CALL(1u) + call, minutes, &table));
    print_account("reserve", call, minutes);
}

static void settle(uint32_t call, uint32_t used)
{
    uint32_t table;
    expect_done("ksk_ledger_settle", ksk_ledger_settle(ledger, KSK_LEDGER_WORDS(ACCOUNTS), primary, WORDS, 0, CALL(1u) + call, used, &table));
    print_account("settle", call, used);
}

static void release(uint32_t call)
{
    uint32_t table;
    expect_done("ksk_ledger_release", ksk_ledger_release(ledger, KSK_LEDGER_WORDS(ACCOUNTS), primary, WORDS, 0, CALL(1u) + call, &table));
    print_account("release", call, 0);
}

/* Account 1 tops up, opens two calls, one drops and one ends, and a third opens. */
static void account(void)
{
    expect_done("ksk_fresh", ksk_fresh(primary, WORDS, N));
    expect_done("ksk_ledger_fresh", ksk_ledger_fresh(ledger, KSK_LEDGER_WORDS(ACCOUNTS), ACCOUNTS));
    top_up(100);
    reserve(5, 30);
    reserve(6, 40);
    release(5);
    settle(6, 25);
    top_up(50);
    reserve(7, 60);
}

int main(void)
{
    small_block();
    two_versions();
    one_line();
    filling();
    account();
    return 0;
}

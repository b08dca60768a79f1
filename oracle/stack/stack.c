/* How many bytes of stack each exported call takes on the blocks that make it recurse most. Fails above KSK_STACK_BYTES.
 *
 * A call runs on a stack of its own that was painted before; what is no longer paint was used. */
#include <stdio.h>
#include <stdlib.h>
#include <string.h>
#include <ucontext.h>

#include "blocks.h"

#define STACK   (4u << 20)
#define PAINT   0xa5a5a5a5a5a5a5a5u
#define LINES   (ROOM * KSK_LINE_BYTES)
#define ENTRIES (ROOM * KSK_ENTRY_WORDS)

static _Alignas(64) uint64_t stack[STACK / 8];
static uint32_t block[WORDS], built[WORDS], inbox[KSK_INBOX_WORDS], entries[ENTRIES];
static uint64_t ledger[KSK_LEDGER_WORDS(256)];
static uint8_t lines[LINES], line[KSK_LINE_BYTES];
static uint32_t edits[9], kiosk[KSK_KIOSK_WORDS];
static uint8_t text[ROOM / 2 * 17 + 1];

/* A request for every line that there can be. */
static const uint8_t whole[] = "0000000700000001110000000000000fff\n";

/* What the call is given. */
static struct { uint32_t dest, left, right, rule, cancel, key; } in;
static uint32_t answer, field[7];
static uint64_t total[3];

static void audit(void) { answer = ksk_audit(block, WORDS); }
static void fresh(void) { answer = ksk_fresh(block, WORDS, ROOM); }
static void lookup(void) { answer = ksk_lookup(block, WORDS, in.left, in.key, field, field + 1); }
static void size(void) { answer = ksk_size(block, WORDS, in.left, field); }
static void held(void) { answer = ksk_held(block, WORDS, in.left, total); }
static void held_between(void) { answer = ksk_held_between(block, WORDS, in.left, in.key, 2 * in.key, total); }
static void insert(void) { answer = ksk_insert(block, WORDS, in.dest, in.left, in.key, 1, field, field + 1); }
static void removing(void) { answer = ksk_remove(block, WORDS, in.dest, in.left, in.key, field, field + 1); }
static void batch(void) { answer = ksk_batch(block, WORDS, in.dest, in.left, edits, 9); }
static void copy(void) { answer = ksk_copy(block, WORDS, in.dest, in.left); }
static void clear(void) { answer = ksk_clear(block, WORDS, in.dest); }
static void unite(void) { answer = ksk_union(block, WORDS, in.dest, in.left, in.right, in.rule); }
static void difference(void) { answer = ksk_difference(block, WORDS, in.dest, in.left, in.right, in.rule, in.cancel); }
static void list(void) { answer = ksk_list(block, WORDS, in.left, in.right, 0, entries, ENTRIES, field, field + 1); }
static void frames(void) { answer = ksk_frames(block, WORDS, in.left, in.right, 7, 0, lines, LINES, field, field + 1); }
static void same(void) { answer = ksk_same(block, WORDS, in.left, in.right, field); }
static void resend(void) { answer = ksk_resend(block, WORDS, in.left, in.right, 7, whole, KSK_LINE_BYTES, 0, lines, LINES, field, field + 1); }
static void restore(void) { answer = ksk_restore(block, WORDS, in.dest, text, sizeof text - 1, total); }
static void restore_one(void) { answer = ksk_restore(block, WORDS, in.dest, text, 17, total); }
static void parse(void) { answer = ksk_parse(line, KSK_LINE_BYTES, field, field + 1, field + 2, field + 3, field + 4, field + 5, field + 6); }
static void begin(void) { answer = ksk_begin(inbox, KSK_INBOX_WORDS, 7); }
static void receive(void) { answer = ksk_receive(block, WORDS, inbox, KSK_INBOX_WORDS, in.dest, line, KSK_LINE_BYTES, field, field + 1, field + 2); }
static void missing(void) { answer = ksk_missing(inbox, KSK_INBOX_WORDS, field); }
static void ask(void) { answer = ksk_ask(inbox, KSK_INBOX_WORDS, 0, lines, LINES, field, field + 1); }
static void kiosk_fresh(void) { answer = ksk_kiosk_fresh(kiosk, KSK_KIOSK_WORDS); }
static void kiosk_lookup(void) { answer = ksk_kiosk_lookup(kiosk, KSK_KIOSK_WORDS, in.key, field, field + 1); }
static void kiosk_insert(void) { answer = ksk_kiosk_insert(kiosk, KSK_KIOSK_WORDS, in.key, 1, field, field + 1); }
static void kiosk_remove(void) { answer = ksk_kiosk_remove(kiosk, KSK_KIOSK_WORDS, in.key, field, field + 1); }
static void kiosk_list(void) { answer = ksk_kiosk_list(kiosk, KSK_KIOSK_WORDS, 0, entries, ENTRIES, field, field + 1); }
static void kiosk_receive(void) { answer = ksk_kiosk_receive(kiosk, KSK_KIOSK_WORDS, inbox, KSK_INBOX_WORDS, line, KSK_LINE_BYTES, field, field + 1, field + 2); }
static void ledger_fresh(void) { answer = ksk_ledger_fresh(ledger, KSK_LEDGER_WORDS(256), 256); }
static void ledger_top_up(void) { answer = ksk_ledger_top_up(ledger, KSK_LEDGER_WORDS(256), 0, 1000); }
static void ledger_account(void) { answer = ksk_ledger_account(ledger, KSK_LEDGER_WORDS(256), 0, total, total + 1, total + 2); }
static void ledger_reserve(void) { answer = ksk_ledger_reserve(ledger, KSK_LEDGER_WORDS(256), block, WORDS, in.dest, in.key, 1, field); }
static void ledger_settle(void) { answer = ksk_ledger_settle(ledger, KSK_LEDGER_WORDS(256), block, WORDS, in.dest, in.key, 1, field); }
static void ledger_release(void) { answer = ksk_ledger_release(ledger, KSK_LEDGER_WORDS(256), block, WORDS, in.dest, in.key, field); }

/* Every export, and where it took most. */
static struct call {
    const char *name;
    void (*run)(void);
    size_t most;
    uint32_t nodes;
    const char *shape;
} calls[] = {
    { "ksk_audit", audit, 0, 0, "" },
    { "ksk_fresh", fresh, 0, 0, "" },
    { "ksk_lookup", lookup, 0, 0, "" },
    { "ksk_size", size, 0, 0, "" },
    { "ksk_held", held, 0, 0, "" },
    { "ksk_held_between", held_between, 0, 0, "" },
    { "ksk_insert", insert, 0, 0, "" },
    { "ksk_remove", removing, 0, 0, "" },
    { "ksk_batch", batch, 0, 0, "" },
    { "ksk_copy", copy, 0, 0, "" },
    { "ksk_clear", clear, 0, 0, "" },
    { "ksk_union", unite, 0, 0, "" },
    { "ksk_difference", difference, 0, 0, "" },
    { "ksk_list", list, 0, 0, "" },
    { "ksk_frames", frames, 0, 0, "" },
    { "ksk_same", same, 0, 0, "" },
    { "ksk_resend", resend, 0, 0, "" },
    { "ksk_restore", restore, 0, 0, "" },
    { " of one line", restore_one, 0, 0, "" },
    { "ksk_parse", parse, 0, 0, "" },
    { "ksk_begin", begin, 0, 0, "" },
    { "ksk_receive", receive, 0, 0, "" },
    { "ksk_missing", missing, 0, 0, "" },
    { "ksk_ask", ask, 0, 0, "" },
    { "ksk_kiosk_fresh", kiosk_fresh, 0, 0, "" },
    { "ksk_kiosk_lookup", kiosk_lookup, 0, 0, "" },
    { "ksk_kiosk_insert", kiosk_insert, 0, 0, "" },
    { "ksk_kiosk_remove", kiosk_remove, 0, 0, "" },
    { "ksk_kiosk_list", kiosk_list, 0, 0, "" },
    { "ksk_kiosk_receive", kiosk_receive, 0, 0, "" },
    { "ksk_ledger_fresh", ledger_fresh, 0, 0, "" },
    { "ksk_ledger_top_up", ledger_top_up, 0, 0, "" },
    { "ksk_ledger_reserve", ledger_reserve, 0, 0, "" },
    { "ksk_ledger_settle", ledger_settle, 0, 0, "" },
    { "ksk_ledger_release", ledger_release, 0, 0, "" },
    { "ksk_ledger_account", ledger_account, 0, 0, "" },
};

#define CALLS (sizeof calls / sizeof *calls)

static ucontext_t here, there;
static void (*running)(void);

static void enter(void) { running(); }

/* Paints from word `at` up. */
static void paint(size_t at)
{
    while (at < STACK / 8)
        stack[at++] = PAINT;
}

/* The bytes of stack that `run` takes, those of its start included. */
static size_t taken(void (*run)(void))
{
    size_t untouched = 0;
    running = run;
    getcontext(&there);
    there.uc_stack.ss_sp = stack;
    there.uc_stack.ss_size = STACK;
    there.uc_link = &here;
    makecontext(&there, enter, 0);
    swapcontext(&here, &there);
    while (stack[untouched] == PAINT)
        untouched++;
    paint(untouched);
    return STACK - 8 * untouched;
}

/* Runs one call on the block as it was built. A number but these would mean that the block is not sound, or that the call was not the one meant. */
static void measure(void (*run)(void), struct shape shape)
{
    struct call *call = calls;
    memcpy(block, built, sizeof block);
    size_t bytes = taken(run);
    while (call->run != run)
        call++;
    if (answer != KSK_DONE && answer != KSK_NO_ROOM && answer != KSK_TOO_DEEP && answer < KSK_ACCOUNTS) {
        fprintf(stderr, "%s on %u nodes, %s: %u\n", call->name, shape.nodes, shape.name, answer);
        exit(1);
    }
    if (bytes > call->most) {
        call->most = bytes;
        call->nodes = shape.nodes;
        call->shape = shape.name;
    }
}

/* A line of batch 7 that puts 1 under the key, or removes the key. */
static void write_line(uint32_t kind, uint32_t key)
{
    char text[KSK_LINE_BYTES + 1];
    sprintf(text, "0000000700000001%02x%08x%08x\n", kind, key, kind == 1 ? 1u : 0u);
    memcpy(line, text, KSK_LINE_BYTES);
}

/* A batch that removes the key, puts 1 under it, and removes it again: a remove goes deepest, and on a full block no edit after the first is reached. */
static void write_edits(uint32_t key)
{
    for (uint32_t i = 0; i < 3; i++) {
        edits[3 * i] = 2 - i % 2;
        edits[3 * i + 1] = key;
        edits[3 * i + 2] = 1;
    }
}

static void measure_at_key(struct shape shape)
{
    static void (*const runs[])(void) = { lookup, held_between, insert, removing, batch, ledger_reserve, ledger_settle, ledger_release,
        kiosk_fresh, kiosk_insert, kiosk_lookup, kiosk_list, kiosk_remove };
    write_edits(in.key);
    for (size_t i = 0; i < sizeof runs / sizeof *runs; i++)
        measure(runs[i], shape);
    for (uint32_t kind = 1; kind <= 2; kind++) {
        write_line(kind, in.key);
        measure(parse, shape);
        measure(begin, shape);
        measure(receive, shape);
        measure(missing, shape);
        measure(ask, shape);
        measure(begin, shape);
        measure(kiosk_receive, shape);
    }
}

static void measure_pair(struct shape shape)
{
    for (in.rule = 0; in.rule <= 4; in.rule++)
        measure(unite, shape);
    for (in.rule = 0; in.rule <= 3; in.rule++)
        for (in.cancel = 0; in.cancel <= (in.rule == 2 ? 0u : 1u); in.cancel++)
            measure(difference, shape);
    measure(list, shape);
    measure(frames, shape);
    measure(resend, shape);
    measure(same, shape);
}

/* Every call on the shape, into the version that has it and into an empty one. */
static void measure_shape(struct shape shape)
{
    static const uint32_t pairs[][2] = { { 0, 0 }, { 0, 1 }, { 1, 0 }, { 0, 2 }, { 2, 0 }, { 0, 15 }, { 15, 0 } };
    static void (*const runs[])(void) = { audit, size, held, copy, clear, restore, restore_one, ledger_account, ledger_top_up };
    for (in.dest = 0; in.dest <= 3; in.dest += 3) {
        for (size_t i = 0; i < sizeof pairs / sizeof *pairs; i++) {
            in.left = pairs[i][0];
            in.right = pairs[i][1];
            measure_pair(shape);
            for (size_t j = 0; j < sizeof runs / sizeof *runs; j++)
                measure(runs[j], shape);
        }
        in.left = 0;
        for (size_t i = 0; i < 4; i++) {
            in.key = shape.keys[i];
            measure_at_key(shape);
        }
    }
    measure(fresh, shape);
}

int main(void)
{
    static const uint32_t sizes[] = { ROOM, ROOM - 1, ROOM - 2, ROOM / 2, 64 };
    size_t most = 0;

    for (uint32_t i = 0; i < ROOM / 2; i++)
        sprintf((char *)text + 17 * i, "%08x%08x\n", i, 1u);
    paint(0);
    measure(ledger_fresh, (struct shape){ "", 0, { 0 } });
    measure(ledger_top_up, (struct shape){ "", 0, { 0 } });
    for (uint32_t kind = 0; kind < SHAPES; kind++)
        for (size_t i = 0; i < sizeof sizes / sizeof *sizes; i++)
            measure_shape(build(built, kind, sizes[i]));
    for (size_t i = 0; i < CALLS; i++) {
        printf("%-18s %8zu bytes, %u nodes, %s\n", calls[i].name, calls[i].most, calls[i].nodes, calls[i].shape);
        most = calls[i].most > most ? calls[i].most : most;
    }
    printf("most %zu of KSK_STACK_BYTES, %u\n", most, KSK_STACK_BYTES);
    return most <= KSK_STACK_BYTES ? 0 : 1;
}

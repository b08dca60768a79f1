/* The reservation table: call numbers to minutes, sixteen versions in one lent block of 32-bit words.
 *
 * Every call answers a number, 0 for done. A refusal leaves every lent word and byte as it was, and sets every field
 * behind a pointer to 0; the exceptions are a line's `place`, which holds the place of the bad digit beside KSK_DIGIT,
 * restore's `line`, which holds the number of the faulty line beside KSK_LINE, KSK_ZERO and KSK_ORDER, and a ledger's
 * `table`, which holds the table's number beside KSK_LOOKUP and KSK_EDIT_REFUSED. A slice is a pointer
 * and a length, in words or in bytes; a slice of length 0 may have any pointer that is not NULL. Pointers are aligned
 * for what they point to, and no two slices or pointers of one call may overlap. While a call runs no other thread may
 * use what it is lent, and its thread must have KSK_STACK_BYTES of stack.
 */
#ifndef KSK_H
#define KSK_H

#include <stddef.h>
#include <stdint.h>

#ifdef __cplusplus
extern "C" {
#endif

/* Numbers a call gives back, in the order in which they are checked: 1, 2, 3, 4, 16, 13, 14, 7 or 15, 10, 11, 12, 8, 9, 13 of a line, 6, 5.
 * Restore: 1, 2, 3, then the first faulty line, of which 17 goes before 13 and 13 before 18, then 5. */
#define KSK_DONE     0u
#define KSK_SHAPE    1u /* block length or N is wrong, kiosk not 129 words, or inbox not 130 words */
#define KSK_DAMAGED  2u /* block, kiosk or inbox not sound */
#define KSK_VERSION  3u /* a version number above 15 */
#define KSK_RULE     4u /* unknown rule, or cancelling with difference rule 2 */
#define KSK_NO_ROOM  5u /* a node was to be made and none was free; 3 free nodes for each level of the tree and one more are enough for insert and remove; a kiosk: a new key and 64 entries */
#define KSK_TOO_DEEP 6u /* a listing walk has more than 64 pending items on one side */
#define KSK_FRAME    7u /* a line is not 35 bytes or has no closing newline */
#define KSK_BATCH    8u /* another batch number */
#define KSK_COUNT    9u /* inbox count not zero and unlike the frame's */
#define KSK_DIGIT    10u /* a byte of a line's 34 is no lower-case hexadecimal digit; place is that of the first, 0 to 33 */
#define KSK_KIND     11u /* a line's kind is above 2 */
#define KSK_RANGE    12u /* any other field rule of a line is broken: docs/LINES.md */
#define KSK_ZERO     13u /* a value of 0 was to be put, by an insert, a batch, a line or a restore */
#define KSK_SUM      14u /* union rule 4: the sum of a common key is above 4,294,967,295 */
#define KSK_REQUEST  15u /* a request is empty, or a line of it is malformed, out of its place or order, or of another kind */
#define KSK_EDIT     16u /* batch: more than 512 records, a record of another kind, or words that are no whole records */
#define KSK_LINE     17u /* restore: a line is not 16 lower-case hexadecimal digits and a newline */
#define KSK_ORDER    18u /* restore: a key is not above that of the line before it */

/* Numbers of the ledger, in the order in which they are checked. */
#define KSK_ACCOUNTS     21u /* the ledger is not three words for each of 1 to 256 accounts; fresh: or not of the number given */
#define KSK_ACCOUNT      22u /* no such account */
#define KSK_LOOKUP       23u /* the table refused the lookup; table is its number */
#define KSK_OPEN         24u /* the call is open already */
#define KSK_NOT_OPEN     25u /* the call is not open */
#define KSK_FREE         26u /* not so many minutes are free */
#define KSK_ABOVE        27u /* settled for more than was reserved */
#define KSK_TOTAL        28u /* a total would not fit 64 bits */
#define KSK_EDIT_REFUSED 29u /* the table refused the edit; table is its number */

/* Sizes. N, the number of nodes, is a multiple of 32 from 32 to 4,096. */
#define KSK_VERSIONS       16u
#define KSK_BLOCK_WORDS(n) (17u + (n) / 32u + 8u * (n))
#define KSK_INBOX_WORDS    130u
#define KSK_KIOSK_WORDS    129u /* the number of entries, then 64 pairs of key and value */
#define KSK_LEDGER_WORDS(accounts) (3u * (accounts)) /* words of 64 bits: topped-up, spent and free minutes of each account */
#define KSK_ENTRY_WORDS    4u  /* a listing's entry: key, left value, 1 if common else 0, right value or 0 */
#define KSK_RECORD_WORDS   3u  /* a batch's record: kind, key, value; the value of a remove is not read */
#define KSK_PUT            1u  /* the kinds of a record */
#define KSK_REMOVE         2u
#define KSK_BATCH_RECORDS  512u /* at most */
#define KSK_LINE_BYTES     35u /* a frame's line: 34 digits and a newline */
#define KSK_TEXT_BYTES     17u /* a line of a listing as text: key then value, 16 digits and a newline */
#define KSK_UNKNOWN        4294967295u /* what ksk_missing gives while the count is unknown */
#define KSK_STACK_BYTES    1048576u /* what a thread must have left on its stack when it makes a call; oracle/stack/run holds every call to it */

/* 0 for a sound block, else KSK_SHAPE or KSK_DAMAGED: what every call but ksk_fresh asks first. */
uint32_t ksk_audit(const uint32_t *block, size_t words);

/* Writes N and zeros: sixteen empty versions. */
uint32_t ksk_fresh(uint32_t *block, size_t words, uint32_t n);

/* The value under a key: found is 1 or 0. */
uint32_t ksk_lookup(const uint32_t *block, size_t words, uint32_t version, uint32_t key, uint32_t *found, uint32_t *value);

/* The number of entries. */
uint32_t ksk_size(const uint32_t *block, size_t words, uint32_t version, uint32_t *size);

/* The minutes that a version holds: the sum of its entries' values. */
uint32_t ksk_held(const uint32_t *block, size_t words, uint32_t version, uint64_t *minutes);

/* The minutes that it holds from key first to key last, ends included; 0 where first is above last. */
uint32_t ksk_held_between(const uint32_t *block, size_t words, uint32_t version, uint32_t first, uint32_t last, uint64_t *minutes);

/* Version dest becomes version source with value under key; had and old tell what stood there. A value of 0 is KSK_ZERO. */
uint32_t ksk_insert(uint32_t *block, size_t words, uint32_t dest, uint32_t source, uint32_t key, uint32_t value, uint32_t *had, uint32_t *old);

/* Version dest becomes version source without key; an absent key acts as copy. */
uint32_t ksk_remove(uint32_t *block, size_t words, uint32_t dest, uint32_t source, uint32_t key, uint32_t *had, uint32_t *old);

/* Version dest becomes version source. */
uint32_t ksk_copy(uint32_t *block, size_t words, uint32_t dest, uint32_t source);

/* Version dest becomes version source after the edits of a batch, three words a record, in order; the same key may come again. All take effect or none, and the block is audited once.
 * The nodes that stood before stay until the end, so a batch may be refused for room where single calls would pass; what it made itself and takes apart is used again at once, so it may
 * also pass where one of them would not. No records: as ksk_copy. */
uint32_t ksk_batch(uint32_t *block, size_t words, uint32_t dest, uint32_t source, const uint32_t *edits, size_t edit_words);

/* A version becomes what the lines of a text say, KSK_TEXT_BYTES each, keys ascending, as the receiving program prints them; no lines: it becomes empty. The text is cut every 17 bytes, and a
 * short last piece is KSK_LINE. The first faulty line decides, and line is its number from 0, else 0. The tree is built from the middle line; a node is made for each line, and the version's old nodes
 * stay until the end, so as many must be free as there are lines. */
uint32_t ksk_restore(uint32_t *block, size_t words, uint32_t version, const uint8_t *text, size_t bytes, uint64_t *line);

/* A version becomes empty. */
uint32_t ksk_clear(uint32_t *block, size_t words, uint32_t version);

/* Version dest becomes the union. Rule for a common key: 0 left, 1 right, 2 smaller, 3 larger, 4 sum. A sum that does not fit is not held at the largest value, as
 * document 01 had it: the call answers KSK_SUM, before it asks for room. A version united with itself counts its own keys. A done union by rule 4 holds the minutes of both. */
uint32_t ksk_union(uint32_t *block, size_t words, uint32_t dest, uint32_t left, uint32_t right, uint32_t rule);

/* Version dest becomes left less right. Rule for a common key: 0 drop; 1 drop if equal, else left; 2 left; 3 left minus right if larger, else drop.
 * With cancel 1 shared nodes are skipped, which saves time and changes no result; it may not go with rule 2. */
uint32_t ksk_difference(uint32_t *block, size_t words, uint32_t dest, uint32_t left, uint32_t right, uint32_t rule, uint32_t cancel);

/* Lists version left against version right: entries from index start on while four words remain. written counts words; total is the listing's length. */
uint32_t ksk_list(const uint32_t *block, size_t words, uint32_t left, uint32_t right, uint32_t start, uint32_t *out, size_t out_words, uint32_t *written, uint32_t *total);

/* The lines that carry version from to version to, under a batch number: lines from index start on while 35 bytes remain. written counts bytes. */
uint32_t ksk_frames(const uint32_t *block, size_t words, uint32_t from, uint32_t to, uint32_t batch, uint32_t start, uint8_t *out, size_t out_bytes, uint32_t *written, uint32_t *total);

/* Whether version to holds the same entries as version from: same is 1 or 0. Where ksk_frames gives its lines, 1 exactly when they are the single line "nothing".
 * It stops at the first entry that differs, so KSK_TOO_DEEP is only for a walk that overflows before it. */
uint32_t ksk_same(const uint32_t *block, size_t words, uint32_t from, uint32_t to, uint32_t *same);

/* Reads one line: 35 bytes, the newline included. place is that of the first bad digit beside KSK_DIGIT, else 0. */
uint32_t ksk_parse(const uint8_t *line, size_t bytes, uint32_t *batch, uint32_t *index, uint32_t *count, uint32_t *kind, uint32_t *key, uint32_t *value, uint32_t *place);

/* Makes the inbox ready for a batch: nothing heard. */
uint32_t ksk_begin(uint32_t *inbox, size_t words, uint32_t batch);

/* Hears one line: does its edit in the version and marks its index. repeat is 1 for an index heard before; missing is how many are still to come, 0 when complete;
 * place is that of the line's first bad digit beside KSK_DIGIT, else 0. A line that puts 0 is KSK_ZERO, heard before or not, so its batch never becomes complete. */
uint32_t ksk_receive(uint32_t *block, size_t words, uint32_t *inbox, size_t inbox_words, uint32_t version, const uint8_t *line, size_t bytes, uint32_t *repeat, uint32_t *missing, uint32_t *place);

/* How many lines are missing; KSK_UNKNOWN while no line has been accepted. */
uint32_t ksk_missing(const uint32_t *inbox, size_t words, uint32_t *missing);

/* What the standby asks for: the fewest lines that ask for exactly what is missing, from index start on while 35 bytes remain. Kind 10 (hexadecimal) asks for the index in its key,
 * 11 for those from its key to its value, 12 says complete; 0 to 4,095 are asked for while no line has been accepted. written counts bytes; total is how many lines the request has, 2,048 at most. */
uint32_t ksk_ask(const uint32_t *inbox, size_t words, uint32_t start, uint8_t *out, size_t out_bytes, uint32_t *written, uint32_t *total);

/* What the primary sends again: of the lines that carry version from to version to under a batch number those that a request asks for, from index start on while 35 bytes remain.
 * A request is all its lines one after another. An index past the last line is passed over. written counts bytes; total is how many of these lines are asked for, 0 for complete.
 * The request's form is checked before its batch, and both walks are made whatever is asked: KSK_TOO_DEEP is the versions' alone. */
uint32_t ksk_resend(const uint32_t *block, size_t words, uint32_t from, uint32_t to, uint32_t batch, const uint8_t *request, size_t request_bytes, uint32_t start, uint8_t *out, size_t out_bytes, uint32_t *written, uint32_t *total);

/* The ledger: accounts above one version, in which open calls stand under their numbers. A call number's top eight bits are its account. Only these calls may edit that version.
 * From a fresh ledger over an empty version, and with that version named in every call: for each account free + the sum of its open calls' minutes + spent is what it was topped up by. */

/* Writes zeros: accounts 0 to accounts - 1 with nothing in them. */
uint32_t ksk_ledger_fresh(uint64_t *ledger, size_t words, uint32_t accounts);

/* Adds minutes to an account's topped-up and free. */
uint32_t ksk_ledger_top_up(uint64_t *ledger, size_t words, uint32_t account, uint64_t minutes);

/* Opens a call: its minutes go from free into the version. 0 minutes are KSK_EDIT_REFUSED with KSK_ZERO beside it. */
uint32_t ksk_ledger_reserve(uint64_t *ledger, size_t ledger_words, uint32_t *block, size_t words, uint32_t version, uint32_t call, uint32_t minutes, uint32_t *table);

/* Closes a call: used minutes are spent, the rest of what it reserved is free again. Its number may be used again. */
uint32_t ksk_ledger_settle(uint64_t *ledger, size_t ledger_words, uint32_t *block, size_t words, uint32_t version, uint32_t call, uint32_t used, uint32_t *table);

/* Drops a call: all that it reserved is free again. */
uint32_t ksk_ledger_release(uint64_t *ledger, size_t ledger_words, uint32_t *block, size_t words, uint32_t version, uint32_t call, uint32_t *table);

/* An account's totals. */
uint32_t ksk_ledger_account(const uint64_t *ledger, size_t words, uint32_t account, uint64_t *topped, uint64_t *spent, uint64_t *free);

/* The kiosk: a table of at most 64 entries in KSK_KIOSK_WORDS words of its own, with no versions and no nodes. It is sound when the number of entries is at most 64, keys strictly ascend and
 * unused pairs are zero. Lines and inbox are the table's. From a fresh kiosk and a begun inbox its calls answer what the same calls on one version of a table would answer, as long as neither refuses for room. */

/* Writes zeros: no entries. */
uint32_t ksk_kiosk_fresh(uint32_t *kiosk, size_t words);

/* The value under a key: found is 1 or 0. */
uint32_t ksk_kiosk_lookup(const uint32_t *kiosk, size_t words, uint32_t key, uint32_t *found, uint32_t *value);

/* Puts value under key; had and old tell what stood there. A value of 0 is KSK_ZERO; a new key that meets 64 entries is KSK_NO_ROOM. */
uint32_t ksk_kiosk_insert(uint32_t *kiosk, size_t words, uint32_t key, uint32_t value, uint32_t *had, uint32_t *old);

/* Takes a key out; an absent key changes nothing. */
uint32_t ksk_kiosk_remove(uint32_t *kiosk, size_t words, uint32_t key, uint32_t *had, uint32_t *old);

/* Lists the entries as ksk_list does against an empty version: key, value, 0, 0. written counts words. */
uint32_t ksk_kiosk_list(const uint32_t *kiosk, size_t words, uint32_t start, uint32_t *out, size_t out_words, uint32_t *written, uint32_t *total);

/* Hears one line, as ksk_receive does; KSK_SHAPE and KSK_DAMAGED are asked of the kiosk before the inbox. */
uint32_t ksk_kiosk_receive(uint32_t *kiosk, size_t words, uint32_t *inbox, size_t inbox_words, const uint8_t *line, size_t bytes, uint32_t *repeat, uint32_t *missing, uint32_t *place);

#ifdef __cplusplus
}
#endif

#endif

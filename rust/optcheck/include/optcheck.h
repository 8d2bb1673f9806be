/*
 * The option book checker, for C. One call checks an order against a book, writes the outcome into
 * tables that the caller lends, and returns the answer as one word; another checks several orders
 * of one book; a third checks an order with every setting of options that are left open; two more
 * serve sites, one a call, that share one allowance; another writes the outcome as a page of text;
 * five more make and alter a desk, which has an order and drafts of it to come back to; another
 * joins two books into one; another says whether the planner can force a plant where buyer and
 * planner settle the free options in turns; and the last finds the cheapest choice of options at
 * given prices. Every length is permitted: a bad one is a refusal, and a page that is too short
 * stays as it was.
 *
 * Books, orders, pairs, prices, answers, each table, the page and the joint book are a pointer and a
 * length in elements, and a verdict, a setting, the numbers of a terminal, a desk, the planner's
 * answers, the numbers of a quote and a length that is handed over are pointers. What is written
 * overlaps nothing else; books, orders, pairs and prices that are given are only read. A pointer
 * with the length 0 is not used, and must not be null.
 */

#ifndef OPTCHECK_H
#define OPTCHECK_H

#include <stdbool.h>
#include <stddef.h>
#include <stdint.h>

#ifdef __cplusplus
extern "C" {
#endif

/* The limits of a book, of the lent tables, of a morning, of open options, of a terminal, of a desk,
 * of turns and of a quote, and the lengths of a page and of a book. */
#define OPTCHECK_OPTIONS 64u
#define OPTCHECK_RULES 1024u
#define OPTCHECK_DERIVED_PLACES 2048u /* pos and neg: equal lengths, at most this */
#define OPTCHECK_RECORD_PLACES 64u    /* decided, trues and redundant: at least this */
#define OPTCHECK_ORDERS 16u           /* a morning: at least one order, at most this */
#define OPTCHECK_OPEN 10u             /* open options: at most this */
#define OPTCHECK_SITES 8u             /* a terminal: at least one site, at most this */
#define OPTCHECK_DRAFTS 16u           /* a desk: its drafts are 1 to this */
#define OPTCHECK_FREE 12u             /* turns: free options, at most this */
#define OPTCHECK_PRICED 20u           /* a quote: free options, at most this */
#define OPTCHECK_PRICE 10000000u      /* the price of an option: 0 to this, in cents */
#define OPTCHECK_REBATE 1000u         /* a rebate: 0 to this, in thousandths */
#define OPTCHECK_PAGE_LINE 41u        /* a page: the bytes of a line */
#define OPTCHECK_PAGE_BYTES 84009u    /* the longest page: a line, and one for each derived rule */
#define OPTCHECK_BOOK_BYTES 16387u    /* the longest book: 3, and 16 for each rule */

/*
 * Checks the order (wanted, unwanted, standard) against the book, with at most `allowance`
 * branchings. Each standard option that is not unwanted is taken as wanted, and the answer is about
 * the order so completed. An option may be both wanted and standard, or unwanted and standard.
 *
 *   pos, neg                   derived rules: options that keep the rule when fitted, when left out
 *   decided, trues, redundant  records: decided options, those of them fitted, and the joint set
 *
 * Option k is bit k - 1 of a word. The result is the answer's word, for the functions below.
 * Later places than those counted are not touched, and what a table held plays no part.
 */
uint64_t optcheck_check(
    const uint8_t *book, size_t book_len,
    uint64_t wanted, uint64_t unwanted, uint64_t standard, uint32_t allowance,
    uint64_t *pos, size_t pos_len,
    uint64_t *neg, size_t neg_len,
    uint64_t *decided, size_t decided_len,
    uint64_t *trues, size_t trues_len,
    uint64_t *redundant, size_t redundant_len);

/*
 * Checks a morning's orders against one book, each with at most `allowance` branchings of its own.
 *
 *   orders   three words an order: wanted, unwanted, standard
 *   answers  one word an order, as optcheck_check returns it
 *
 * The number of orders is answers_len. Each of the five tables is cut by its own length into as
 * many equal parts: order i, counted from 0, has the length / answers_len places from
 * i * (length / answers_len) on. What remains at the end of a table is not touched. Each answer,
 * and what is written in the order's parts, is that of optcheck_check with these parts as its
 * tables: the limits above are those of a part. A refused order does not hold up the next.
 *
 * The result is 0. It is 13, and neither answers nor tables are touched, where answers_len is not
 * 1 to OPTCHECK_ORDERS or orders_len is not three times answers_len; this is looked at before the
 * book.
 */
uint32_t optcheck_morning(
    const uint8_t *book, size_t book_len,
    const uint64_t *orders, size_t orders_len,
    uint32_t allowance,
    uint64_t *answers, size_t answers_len,
    uint64_t *pos, size_t pos_len,
    uint64_t *neg, size_t neg_len,
    uint64_t *decided, size_t decided_len,
    uint64_t *trues, size_t trues_len,
    uint64_t *redundant, size_t redundant_len);

/*
 * Tries every setting of the open options, each of which may be fitted or left out. A setting is
 * the set of those that are fitted: the settings are the subsets of `open` in ascending order as
 * words, 0 first and `open` last. Each is tried as by optcheck_check, with at most `allowance`
 * branchings of its own: the open options in the setting are wanted and the other open ones
 * unwanted, beside the order's own wishes, and a standard option that is open is not standard.
 * Before each setting all five tables are set to 0 throughout.
 *
 *   verdict  OPTCHECK_ALWAYS, OPTCHECK_SOMETIMES or OPTCHECK_NEVER: all settings, some but not
 *            all, or none can be built; OPTCHECK_STOPPED where a setting stopped
 *   setting  the last setting tried: that which stopped, and else `open`
 *
 * All settings are tried, even once the verdict is clear, but the first stop ends it. The result
 * is the word of the answer to the last setting tried. The tables hold what it wrote, and zeros
 * after it.
 *
 * Where it is refused, the result is the refusal's word, and neither the verdict, the setting nor
 * a table is touched. The numbers are those of optcheck_check, and two more, which follow 12 and
 * come before 9: 19, more than OPTCHECK_OPEN options are open or one is above the book's last;
 * 20, an open option is also wanted or unwanted. No option need be open.
 */
uint64_t optcheck_undecided(
    const uint8_t *book, size_t book_len,
    uint64_t wanted, uint64_t unwanted, uint64_t standard, uint64_t open, uint32_t allowance,
    uint32_t *verdict, uint64_t *setting,
    uint64_t *pos, size_t pos_len,
    uint64_t *neg, size_t neg_len,
    uint64_t *decided, size_t decided_len,
    uint64_t *trues, size_t trues_len,
    uint64_t *redundant, size_t redundant_len);

/*
 * Opens a terminal for `count` sites that share `allowance` branchings. A terminal is three
 * numbers, which the caller keeps for optcheck_site:
 *
 *   left   the branchings that no site has used yet: `allowance`
 *   part   the part of each site, in whole branchings: allowance / count
 *   sites  the sites to come: `count`
 *
 * The result is 0. It is 21, and none of the three is touched, where count is not 1 to
 * OPTCHECK_SITES.
 */
uint32_t optcheck_terminal(
    size_t count, uint32_t allowance, uint32_t *left, uint32_t *part, uint32_t *sites);

/*
 * Serves the next site of a terminal: checks its order against the book, in tables of its own.
 *
 * The site may use left - part * (sites - 1) branchings: all that is left, but for the parts of the
 * sites after it. So the first has its part and the remainder of the division, and each later one
 * its part and what those before it left unused. The result, and what is written in the tables, is
 * that of optcheck_check with this allowance. `left` becomes less by the branchings of the answer,
 * which are none where it is a refusal, and `sites` by one.
 *
 * With no site to come, where sites is 0, the result is the word of refusal 21, and neither the
 * terminal nor a table is touched; this is looked at before the book. Any three numbers may be
 * given: where part * (sites - 1) is more than what is left, the site may use none.
 */
uint64_t optcheck_site(
    const uint8_t *book, size_t book_len,
    uint64_t wanted, uint64_t unwanted, uint64_t standard,
    uint32_t *left, uint32_t part, uint32_t *sites,
    uint64_t *pos, size_t pos_len,
    uint64_t *neg, size_t neg_len,
    uint64_t *decided, size_t decided_len,
    uint64_t *trues, size_t trues_len,
    uint64_t *redundant, size_t redundant_len);

/*
 * Checks the order against the book as optcheck_check does, with at most `allowance` branchings and
 * OPTCHECK_DERIVED_PLACES places for derived rules in tables of its own, and writes the outcome at
 * the start of `page` as lines of 40 characters and a line feed, in ASCII. No 0 follows them.
 *
 *   first line  can, cannot, refused or stopped, padded right with blanks to 10; then the number,
 *               the branchings and the number of derived rules, each set right in 10
 *   each other  a derived rule: its number in their list, from 1, set right in 4, a blank, and its
 *               options in ascending order with one blank between, those that keep it when left out
 *               after a minus; "none" where it has no entry, and "(K entries)" where this text of
 *               its K entries has more than 35 characters; padded right with blanks
 *
 * The result is the number of bytes written, OPTCHECK_PAGE_LINE for each line; later bytes are not
 * touched, and what the page held plays no part. It is 0, and no byte is touched, where page_len is
 * less than OPTCHECK_PAGE_BYTES.
 */
size_t optcheck_page(
    const uint8_t *book, size_t book_len,
    uint64_t wanted, uint64_t unwanted, uint64_t standard, uint32_t allowance,
    uint8_t *page, size_t page_len);

/*
 * A desk for up to OPTCHECK_OPTIONS options: the current order, and drafts 1 to OPTCHECK_DRAFTS.
 * Option k is bit k - 1 of a word, draft d is bit d - 1 of `kept` and place d - 1 of the two arrays.
 */
typedef struct {
    uint32_t options;
    uint64_t wanted;
    uint64_t unwanted;
    uint64_t kept;
    uint64_t draft_wanted[16];
    uint64_t draft_unwanted[16];
} optcheck_desk;

/*
 * The calls below return 0 or the number of a refusal. A refused call changes nothing of the desk,
 * and an accepted one nothing but what is said of it. Any values may stand in a desk, even such that
 * no run of calls leads to: bits above the last option, above the last draft and of drafts that are
 * not kept stay as they are.
 *
 * After any run of calls from a fresh desk no option is above the last and none is both wanted and
 * unwanted, so that a check of its order is never refused with 7 or 8.
 */

/*
 * Writes a fresh desk for so many options, whatever stood there: an empty order, no draft kept, and
 * all words 0. Where options is over OPTCHECK_OPTIONS, it writes that for no options and returns 2.
 */
uint32_t optcheck_desk_fresh(uint32_t options, optcheck_desk *desk);

/*
 * Sets a wish: the option is wanted where `fitted`, and else unwanted, and is no longer the other.
 * 7 where it is 0, above the desk's options, or above OPTCHECK_OPTIONS.
 */
uint32_t optcheck_desk_set(optcheck_desk *desk, uint32_t option, bool fitted);

/* Clears a wish: the option is neither wanted nor unwanted. 7 as of optcheck_desk_set. */
uint32_t optcheck_desk_clear(optcheck_desk *desk, uint32_t option);

/*
 * Keeps the current order as the draft with this number, in place of what was kept under it. 14
 * where it is not 1 to OPTCHECK_DRAFTS.
 */
uint32_t optcheck_desk_keep(optcheck_desk *desk, uint32_t draft);

/*
 * Returns to a draft: the current order is the one that was last kept under this number, and the
 * draft stays kept. 14 as of optcheck_desk_keep, which is judged first; 15 where it was never kept.
 */
uint32_t optcheck_desk_return(optcheck_desk *desk, uint32_t draft);

/*
 * Joins two books into one and writes its bytes at the start of `book`.
 *
 *   pairs   options of the two books that are the same thing, two bytes a pair: an option of the
 *           first book and one of the second, numbers from 1
 *   length  the number of bytes written, 3 and 16 for each rule
 *
 * The first book's options keep their numbers. A paired option of the second book is its partner,
 * and its other options follow in ascending order from the first book's last + 1 on. The rules are
 * the first book's, and then the second's with these numbers. A choice keeps the joint book exactly
 * if its two parts keep the two books.
 *
 * The result is 0; later bytes of `book` are not touched, and what it held plays no part. Or it is
 * the number of a refusal, and neither a byte of `book` nor the length is touched:
 *
 *   1 to 6  of the first book, and then of the second, as of optcheck_check
 *   22      pairs_len is odd, or a pair names an option that is not 1 to its book's last, or one
 *           that an earlier pair names too, of either book
 *   23      the joint book has more than OPTCHECK_OPTIONS options or OPTCHECK_RULES rules, or more
 *           bytes than book_len; none has more than OPTCHECK_BOOK_BYTES
 */
uint32_t optcheck_join(
    const uint8_t *first, size_t first_len,
    const uint8_t *second, size_t second_len,
    const uint8_t *pairs, size_t pairs_len,
    uint8_t *book, size_t book_len,
    size_t *length);

/*
 * Says whether the planner can force that every rule and wish is kept, whatever the buyer says.
 *
 * The order is completed as by optcheck_check, and an option that is then neither wanted nor
 * unwanted is free. The free options are settled in ascending number, each as fitted or left out,
 * by the buyer and the planner in turn, the buyer first. Where no option is free, the planner can
 * force it exactly if the one choice that is left keeps every rule and wish.
 *
 *   forced     1 where the planner can force it, and else 0
 *   to_out     an answer on the second free option with which the planner can still force it after
 *              the buyer has left out the first: OPTCHECK_LEAVE_OUT, also where both serve,
 *              OPTCHECK_FIT, or OPTCHECK_NO_ANSWER where neither does or there is no second one
 *   to_fitted  the same after the buyer has fitted the first
 *
 * Where it is forced, no optcheck_check of this book and order answers OPTCHECK_CANNOT.
 *
 * The result is 0. Or it is the number of a refusal, and none of the three is touched: 1 to 8 or 12,
 * as of optcheck_check, and then 16, more than OPTCHECK_FREE options are free.
 */
uint32_t optcheck_turns(
    const uint8_t *book, size_t book_len,
    uint64_t wanted, uint64_t unwanted, uint64_t standard,
    uint32_t *forced, uint32_t *to_out, uint32_t *to_fitted);

/*
 * Finds the cheapest choice of options that keeps every rule and wish.
 *
 *   prices  the price of option k, in cents, at place k - 1; those of options above the book's last
 *           are not read
 *   rebate  in thousandths
 *
 * The order is completed as by optcheck_check, and an option that is then neither wanted nor
 * unwanted is free. The list total of a choice is the sum of the prices of its fitted options.
 *
 *   can     1 where some choice keeps every rule and wish, and else 0
 *   total   the least list total of such a choice, in cents
 *   due     the amount due on it: total * (1000 - rebate) / 1000, halves rounded up to the cent
 *   choice  the fitted options of such a choice with this total, of several the smallest word
 *
 * Where can is 0, so are the three others. There is no allowance, and always an answer: where
 * optcheck_check has a verdict on this book and order, it is OPTCHECK_CAN exactly if can is 1.
 *
 * The result is 0. Or it is the number of a refusal, and none of the four is touched: 1 to 8 or 12,
 * as of optcheck_check, and then
 *
 *   17  more than OPTCHECK_PRICED options are free
 *   18  there are fewer prices than options, the price of an option is above OPTCHECK_PRICE, or the
 *       rebate is above OPTCHECK_REBATE
 */
uint32_t optcheck_cheapest(
    const uint8_t *book, size_t book_len,
    uint64_t wanted, uint64_t unwanted, uint64_t standard,
    const uint64_t *prices, size_t prices_len, uint64_t rebate,
    uint32_t *can, uint64_t *total, uint64_t *due, uint64_t *choice);

/* The kinds of an answer. */
#define OPTCHECK_CAN 0u
#define OPTCHECK_CANNOT 1u
#define OPTCHECK_REFUSED 2u
#define OPTCHECK_STOPPED 3u

/* The verdicts on open options, beside OPTCHECK_STOPPED. */
#define OPTCHECK_ALWAYS 0u
#define OPTCHECK_SOMETIMES 1u
#define OPTCHECK_NEVER 2u

/* The planner's answers. */
#define OPTCHECK_NO_ANSWER 0u
#define OPTCHECK_LEAVE_OUT 1u
#define OPTCHECK_FIT 2u

/*
 * The parts of the answer's word, lowest bits first: 2 bits kind, 6 number, 32 branchings,
 * 12 derived rules, 7 records.
 */

/* One of the four kinds. */
static inline unsigned optcheck_kind(uint64_t answer) { return (unsigned)(answer & 3); }

/*
 * 0 for a verdict, 1 to 9 or 12 refused (12: a standard option above the book's last), 10 or 11
 * stopped. 19 and 20 are refusals of optcheck_undecided alone, and 21 one of optcheck_site alone.
 * 13 to 18, 22 and 23 are no answer's numbers: a morning that is refused has no answers, and a desk,
 * turns, a quote and joined books have none.
 */
static inline unsigned optcheck_number(uint64_t answer) { return (unsigned)(answer >> 2 & 63); }

static inline uint32_t optcheck_branchings(uint64_t answer) { return (uint32_t)(answer >> 8); }

/* So many first places of pos and neg are filled. */
static inline size_t optcheck_derived(uint64_t answer) { return (size_t)(answer >> 40 & 4095); }

/* So many first places of decided, trues and redundant are filled. */
static inline size_t optcheck_records(uint64_t answer) { return (size_t)(answer >> 52 & 127); }

#ifdef __cplusplus
}
#endif

#endif

/*
 * A small host of the core: it opens a ledger with room for two swaps, submits the messages of two swaps' lives, and some that
 * are refused, and prints every answer, every tape line and now and then the totals. What it must print is in
 * example.expected.
 *
 * A real host would receive signed messages over some transport, keep ledger and tape on disk, and publish lines after the
 * dissemination delay. Here messages are built in place and lines go to standard output at once.
 */
#include "sdr.h"

#include <stdio.h>
#include <string.h>

#define ROWS 2

#define COOP "EXAMPLECOOP000000166"
#define BANK "EXAMPLEBANK000000208"
#define FIRST COOP "SWAP0001"
#define SECOND COOP "SWAP0002"
#define THIRD COOP "SWAP0003"

static uint8_t ledger[SDR_LEDGER_SIZE(ROWS)];
static uint8_t tape[SDR_LINE_SIZE];

/* The values of a message by element code, NULL where an element is not sent. */
struct report {
    const char *value[SDR_LAST_CODE + 1];
};

/* ---- Building messages ---- */

static void put_u16(uint8_t *at, size_t number)
{
    at[0] = (uint8_t)(number & 0xff);
    at[1] = (uint8_t)(number >> 8);
}

/* Lays a message out: the count, a code and an offset for each element, the values. Answers the message's length, or 0 if it
   would be too long. */
static size_t encode(const struct report *report, uint8_t out[SDR_LONGEST_MESSAGE])
{
    size_t code, count = 0, entry = 2, end;

    for (code = 1; code <= SDR_LAST_CODE; code++)
        if (report->value[code] != NULL)
            count++;
    put_u16(out, count);
    end = 2 + 4 * count;
    for (code = 1; code <= SDR_LAST_CODE; code++) {
        const char *text = report->value[code];
        size_t length = text == NULL ? 0 : strlen(text);

        if (text == NULL)
            continue;
        if (length > SDR_LONGEST_MESSAGE - end)
            return 0;
        put_u16(out + entry, code);
        put_u16(out + entry + 2, end);
        memcpy(out + end, text, length);
        entry += 4;
        end += length;
    }
    return end;
}

/* What every message carries. An event of NULL is none. */
static struct report brief(const char *uti, const char *action, const char *event, const char *time)
{
    struct report report;
    size_t code;

    for (code = 0; code <= SDR_LAST_CODE; code++)
        report.value[code] = NULL;
    report.value[SDR_UTI] = uti;
    report.value[SDR_ACTION_TYPE] = action;
    report.value[SDR_EVENT_TYPE] = event;
    report.value[SDR_EVENT_TIMESTAMP] = time;
    report.value[SDR_REPORTING_TIMESTAMP] = time;
    return report;
}

/* A full message: an interest rate swap that is not cleared and is no part of a package. */
static struct report full(const char *uti, const char *action, const char *event, const char *time)
{
    struct report report = brief(uti, action, event, time);

    report.value[SDR_EXECUTION_TIMESTAMP] = "2025-03-03T14:30:00Z";
    report.value[SDR_EFFECTIVE_DATE] = "2025-03-05";
    report.value[SDR_EXPIRATION_DATE] = "2030-03-05";
    report.value[SDR_SETTLEMENT_DATE] = "2030-03-07";
    report.value[SDR_CLEARED] = "N";
    report.value[SDR_NON_STANDARDIZED_TERM] = "false";
    report.value[SDR_BLOCK_ELECTION] = "False";
    report.value[SDR_LARGE_NOTIONAL_ELECTION] = "True";
    report.value[SDR_ALLOCATION] = "UNAL";
    report.value[SDR_PACKAGE_INDICATOR] = "False";
    report.value[SDR_NOTIONAL_AMOUNT] = "12500000";
    report.value[SDR_NOTIONAL_CURRENCY] = "USD";
    report.value[SDR_SETTLEMENT_LOCATION] = "US";
    report.value[SDR_COUNTERPARTY_1] = COOP;
    report.value[SDR_COUNTERPARTY_2] = BANK;
    report.value[SDR_ASSET_CLASS] = "IR";
    return report;
}

/* ---- Asking the core and printing its answers ---- */

static void print_answer(uint64_t answer)
{
    unsigned verdict = sdr_verdict(answer);

    printf("verdict %u (%s), element %u, identifier %llu\n", verdict, sdr_verdict_text(verdict), sdr_element(answer),
           (unsigned long long)sdr_identifier(answer));
}

static void submit_bytes(const char *action, const uint8_t *message, size_t length)
{
    static unsigned number;
    uint64_t answer = sdr_submit(ledger, sizeof ledger, tape, sizeof tape, message, length);

    number++;
    printf("%2u %s: ", number, action);
    print_answer(answer);
    if (sdr_identifier(answer) != 0) /* a line was written; the next submission may write over it */
        fwrite(tape, 1, SDR_LINE_SIZE, stdout);
}

static void submit(const struct report *report)
{
    uint8_t message[SDR_LONGEST_MESSAGE];
    size_t length = encode(report, message);

    if (length == 0)
        puts("a message is too long and was not submitted");
    else
        submit_bytes(report->value[SDR_ACTION_TYPE], message, length);
}

/* Submits the first bytes of a message alone, as if the rest had been lost on the way. */
static void submit_cut(const struct report *report, size_t length)
{
    uint8_t message[SDR_LONGEST_MESSAGE];

    if (encode(report, message) < length)
        puts("a message is too short to be cut there");
    else
        submit_bytes(report->value[SDR_ACTION_TYPE], message, length);
}

static void ask(const char *uti)
{
    static const char *const words[] = {"unknown", "live", "closed", "errored", "ported"};
    uint64_t answer = sdr_status(ledger, sizeof ledger, (const uint8_t *)uti, strlen(uti));

    printf("   %s: ", uti);
    if (sdr_verdict(answer) == SDR_ACCEPTED && sdr_state(answer) <= SDR_PORTED)
        printf("%s, last identifier %llu\n", words[sdr_state(answer)], (unsigned long long)sdr_identifier(answer));
    else
        print_answer(answer);
}

static void print_totals(const uint32_t totals[4])
{
    printf("   %lu live, %lu closed, %lu errored, %lu ported\n", (unsigned long)totals[SDR_LIVE - 1],
           (unsigned long)totals[SDR_CLOSED - 1], (unsigned long)totals[SDR_ERRORED - 1],
           (unsigned long)totals[SDR_PORTED - 1]);
}

static void ask_totals(void)
{
    uint32_t totals[4];
    uint32_t answer = sdr_totals(ledger, sizeof ledger, totals);

    if (sdr_verdict(answer) == SDR_ACCEPTED)
        print_totals(totals);
    else
        print_answer(answer);
}

/* ---- The first swap: every action but PRTO ---- */

static void first_swap_trades(void)
{
    struct report report = full(FIRST, "NEWT", "TRAD", "2025-03-03T14:31:00Z");

    ask(FIRST);
    ask_totals();
    submit(&report); /* the tape shows the rounded amount, 13,000,000 */
    submit(&report); /* 15: the swap is known by now */

    report = full(FIRST, "MODI", "TRAD", "2025-03-04T09:00:00Z");
    report.value[SDR_NOTIONAL_AMOUNT] = "750000000.5";
    submit(&report); /* above the cap of IR: the tape shows the cap and a plus sign */
    report.value[SDR_EVENT_TIMESTAMP] = "2025-03-04T10:00:00Z";
    report.value[SDR_REPORTING_TIMESTAMP] = "2025-03-04T10:00:00Z";
    report.value[SDR_NOTIONAL_AMOUNT] = "800000000";
    submit(&report); /* accepted without a line: the tape would show what it shows already */
    report.value[SDR_EXECUTION_TIMESTAMP] = "2025-03-03T14:30:05Z";
    submit(&report); /* 16: only CORR may mend the execution time */
    submit_cut(&report, 20); /* 5: the header does not fit */
    ask(FIRST);
    ask_totals();
}

static void first_swap_ends(void)
{
    struct report report = brief(FIRST, "term", "ETRM", "2025-03-05T09:00:00Z");

    submit(&report); /* 6: TERM has capitals */
    report.value[SDR_ACTION_TYPE] = "TERM";
    submit(&report); /* shows the terms that the ledger holds */
    ask(FIRST);
    ask_totals();

    report = full(FIRST, "CORR", NULL, "2025-03-05T10:00:00Z");
    report.value[SDR_EXECUTION_TIMESTAMP] = "2025-03-03T14:30:05Z";
    report.value[SDR_NOTIONAL_AMOUNT] = "1499999.99999";
    submit(&report); /* a closed swap can be corrected and stays closed */

    report = brief(FIRST, "EROR", NULL, "2025-03-05T11:00:00Z");
    submit(&report);
    ask(FIRST);
    ask_totals();

    report = full(FIRST, "REVI", NULL, "2025-03-06T09:00:00Z");
    report.value[SDR_EXECUTION_TIMESTAMP] = "2025-03-03T14:30:05Z";
    report.value[SDR_NOTIONAL_AMOUNT] = "500000000";
    submit(&report); /* equal to the cap: no plus sign */
    ask(FIRST);
    ask_totals();
}

/* ---- The second swap: a package, sent wrong four times, accepted, given a spread in place of its price, then ported ---- */

static struct report package(void)
{
    struct report report = full(SECOND, "NEWT", "TRAD", "2025-03-06T10:00:00Z");

    report.value[SDR_CLEARED] = "Y";
    report.value[SDR_NON_STANDARDIZED_TERM] = NULL;
    report.value[SDR_PACKAGE_INDICATOR] = "true";
    report.value[SDR_PACKAGE_IDENTIFIER] = "Package7";
    report.value[SDR_PACKAGE_PRICE] = "-0012.50";
    report.value[SDR_PRICE_NOTATION] = "1";
    report.value[SDR_PRICE_CURRENCY] = "EUR";
    report.value[SDR_NOTIONAL_AMOUNT] = "104999999";
    report.value[SDR_NOTIONAL_CURRENCY] = "GBP";
    report.value[SDR_SETTLEMENT_LOCATION] = "GB";
    report.value[SDR_ASSET_CLASS] = "FX";
    return report;
}

static void second_swap(void)
{
    struct report report = package();

    report.value[SDR_COUNTERPARTY_2] = NULL;
    submit(&report); /* 7, element 24 */
    report = package();
    report.value[SDR_COUNTERPARTY_1] = "EXAMPLECOOP000000167";
    submit(&report); /* 9, element 23: wrong check digits */
    report = package();
    report.value[SDR_NOTIONAL_CURRENCY] = "CNH";
    submit(&report); /* 9, element 21: no code of ISO 4217; offshore yuan are CNY with the settlement location HK */
    report = package();
    report.value[SDR_EXPIRATION_DATE] = "2025-03-04";
    submit(&report); /* 13: it would end before it starts */

    report = package();
    submit(&report);
    ask_totals();

    report.value[SDR_ACTION_TYPE] = "MODI";
    report.value[SDR_EVENT_TIMESTAMP] = "2025-03-06T11:00:00Z";
    report.value[SDR_REPORTING_TIMESTAMP] = "2025-03-06T11:00:00Z";
    report.value[SDR_PACKAGE_SPREAD] = "-0025";
    report.value[SDR_SPREAD_NOTATION] = "4"; /* basis points */
    submit(&report); /* 19: the price is still there */
    report.value[SDR_PACKAGE_PRICE] = NULL;
    submit(&report); /* without a price its notation and currency are left out */

    report = brief(SECOND, "PRTO", "PTNG", "2025-03-07T09:00:00Z");
    submit(&report); /* accepted without a line */
    ask(SECOND);
    ask_totals(); /* a swap that is ported still has its row */
}

/* ---- The ledger is full, and questions that get no status ---- */

static void third_swap(void)
{
    struct report report = full(THIRD, "NEWT", "TRAD", "2025-03-07T10:00:00Z");

    submit(&report); /* 17 */
    ask(THIRD);
    ask("swap 3"); /* 9: no UTI */
}

/* ---- Buffers and caps that do not do ---- */

static void print_call(const char *what, uint64_t answer)
{
    printf("%s: ", what);
    print_answer(answer);
}

static void odd_openings(void)
{
    print_call("open, a cap of 251000000",
              sdr_open(ledger, sizeof ledger, 251000000, 500000000, 1000000000, 100000000, 50000000));
    print_call("open, one byte too few",
              sdr_open(ledger, SDR_SHORTEST_LEDGER - 1, 250000000, 500000000, 1000000000, 100000000, 50000000));
    print_call("open, nothing", sdr_open(NULL, 0, 250000000, 500000000, 1000000000, 100000000, 50000000));
}

static void odd_submissions(void)
{
    struct report report = full(THIRD, "NEWT", "TRAD", "2025-03-07T10:00:00Z");
    uint8_t message[SDR_LONGEST_MESSAGE];
    size_t length = encode(&report, message);

    print_call("submit, tape buffer one byte too short",
              sdr_submit(ledger, sizeof ledger, tape, SDR_LINE_SIZE - 1, message, length));
    print_call("submit, no tape buffer", sdr_submit(ledger, sizeof ledger, NULL, 0, message, length));
    print_call("submit, no message", sdr_submit(ledger, sizeof ledger, tape, sizeof tape, NULL, 0));
    print_call("submit, no ledger", sdr_submit(NULL, 0, tape, sizeof tape, message, length));
    print_call("submit, nothing", sdr_submit(NULL, 0, NULL, 0, NULL, 0));
    print_call("submit, ledger at another length",
              sdr_submit(ledger, SDR_LEDGER_SIZE(ROWS - 1), tape, sizeof tape, message, length));
}

static void odd_questions(void)
{
    uint32_t totals[4] = {1, 2, 3, 4};

    print_call("status, no UTI", sdr_status(ledger, sizeof ledger, NULL, 0));
    print_call("status, nothing", sdr_status(NULL, 0, NULL, 0));
    print_call("totals, nothing", sdr_totals(NULL, 0, totals));
    print_totals(totals); /* zeros in the place of what the array held */
    print_call("totals, ledger at another length", sdr_totals(ledger, SDR_LEDGER_SIZE(ROWS - 1), totals));
    print_call("totals", sdr_totals(ledger, sizeof ledger, totals));
    print_totals(totals);
}

static void odd_calls(void)
{
    static uint8_t ledger_before[sizeof ledger], tape_before[sizeof tape];

    memcpy(ledger_before, ledger, sizeof ledger);
    memcpy(tape_before, tape, sizeof tape);
    odd_openings();
    odd_submissions();
    odd_questions();
    printf("ledger %s, tape buffer %s\n", memcmp(ledger_before, ledger, sizeof ledger) == 0 ? "unchanged" : "changed",
           memcmp(tape_before, tape, sizeof tape) == 0 ? "unchanged" : "changed");
}

int main(void)
{
    /* the caps of CR, IR, FX, EQ and CO */
    uint32_t opened = sdr_open(ledger, sizeof ledger, 250000000, 500000000, 1000000000, 100000000, 50000000);

    print_call("open", opened);
    if (sdr_verdict(opened) != SDR_ACCEPTED) {
        fputs("example: the ledger cannot be opened\n", stderr);
        return 1;
    }
    first_swap_trades();
    first_swap_ends();
    second_swap();
    third_swap();
    odd_calls();
    if (fflush(stdout) != 0 || ferror(stdout)) {
        fputs("example: standard output cannot be written\n", stderr);
        return 1;
    }
    return 0;
}

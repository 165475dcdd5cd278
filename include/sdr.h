/*
 * sdr.h: a swap data repository's validation core, for C and C++ hosts.
 *
 * The core judges messages about swaps. It keeps the swaps in a ledger and writes what the public may see of an accepted
 * message as one line of text, the tape line. There are four operations:
 *
 *   sdr_open     makes a ledger without swaps in a buffer of yours
 *   sdr_submit   judges one message; if it accepts, it changes the ledger and may write a tape line
 *   sdr_status   tells how one swap stands
 *   sdr_totals   tells how many swaps are live, closed, errored and ported
 *
 * All four work on bytes that you lend for the call. The core has no state of its own, allocates nothing, does no input or
 * output and keeps no pointer. Any bytes get an answer, also broken messages and ledgers. A refusal changes no byte of the
 * ledger or of the tape buffer. The same bytes always get the same answer and leave the same bytes.
 *
 * What you owe the core:
 *   - Each pointer is valid for the length given with it. NULL is allowed exactly where the length is 0; that is an empty
 *     buffer, which is judged like any other. No alignment is asked for. The array of sdr_totals has no length: it is an
 *     array of four uint32_t and never NULL.
 *   - The buffers of a call do not overlap.
 *   - The ledger of sdr_open, the ledger and the tape buffer of sdr_submit, and the array of sdr_totals can be written.
 *   - One call at a time per ledger. No other thread reads or writes the buffers of a call while it runs. Calls on different
 *     ledgers, with different tape buffers, may run side by side.
 *   - Between calls the ledger's bytes stay as the core left them, and the ledger is lent at the length it was opened with.
 *     It may be stored and brought back elsewhere. A length that means another capacity is refused (SDR_LEDGER_WRONG);
 *     other damage may go unnoticed.
 *
 * docs/SPECIFICATION.md says in full what is judged, stored and shown. This header has names for its verdicts, elements,
 * statuses, sizes and limits. Sections below are sections of that document.
 *
 * What is yours to do: signing, transport, the dissemination delay and the clock, storing ledger and tape, and copying each
 * line out of the tape buffer before the next submission, which writes to the same place.
 *
 * The library is for x86-64 and needs nothing but the C library. This header needs C99 or C++11.
 */
#ifndef SDR_H
#define SDR_H

#include <stddef.h>
#include <stdint.h>

#ifdef __cplusplus
extern "C" {
#endif

/* ---- Sizes, in bytes, and limits (sections 2, 6, 7 and 8) ---- */

#define SDR_HEADER_SIZE 80 /* the ledger's header */
#define SDR_ROW_SIZE 184   /* one swap in the ledger */

/* The shortest ledger has room for one swap. */
#define SDR_SHORTEST_LEDGER (SDR_HEADER_SIZE + SDR_ROW_SIZE)

/* A ledger never holds more swaps than this; bytes of a longer buffer stay unused. */
#define SDR_LARGEST_CAPACITY 100000

/* The length of a ledger with room for so many swaps. */
#define SDR_LEDGER_SIZE(rows) ((size_t)SDR_HEADER_SIZE + (size_t)SDR_ROW_SIZE * (size_t)(rows))

/* A tape line, its newline included: the least that a tape buffer must have. There is no terminating zero. */
#define SDR_LINE_SIZE 170

/* A longer message is refused (SDR_LAYOUT_WRONG). */
#define SDR_LONGEST_MESSAGE 2048

/* The bounds of a cap, in units of the notional currency. */
#define SDR_SMALLEST_CAP UINT64_C(1000)
#define SDR_LARGEST_CAP UINT64_C(1000000000000000)

/* Identifiers stay below this. A ledger whose next identifier has come to it writes no more lines (SDR_IDENTIFIERS_SPENT). */
#define SDR_IDENTIFIER_LIMIT UINT64_C(1000000000000)

/* ---- The message (sections 2 to 4) ----
 *
 * Numbers are little-endian, values are ASCII text without padding or terminating zero.
 *
 *   u16        n, how many elements the message has
 *   n times    u16 element code, u16 offset of the element's value from the start of the message
 *   values     one after the other, none of them empty
 *
 * Codes rise, and so do offsets. The first value follows the header, at 2 + 4 n; each value ends where the next one starts,
 * the last one at the end of the message.
 *
 * "All" below means that every action needs the element; "full" that NEWT, MODI, CORR and REVI need it. TERM, EROR and PRTO
 * take the elements 1 to 5 and no others.
 *
 * A date is YYYY-MM-DD, from the year 1900 on. A time is a date, T, hh:mm:ss and Z. A truth is True, False, true or false.
 * A currency is an alphabetic code of ISO 4217, a location an assigned two-letter code of ISO 3166-1, both as of 1 July 2024.
 */

#define SDR_LAST_CODE 28 /* the codes are 1 up to this */

enum sdr_element_code {
    SDR_UTI = 1,                      /* all; 21 to 52 capitals or digits; names the swap */
    SDR_ACTION_TYPE = 2,              /* all; NEWT, MODI, CORR, TERM, EROR, REVI or PRTO */
    SDR_EVENT_TYPE = 3,               /* 4 capitals; goes with the action, as TRAD with NEWT; none with CORR, EROR, REVI */
    SDR_EVENT_TIMESTAMP = 4,          /* all; time */
    SDR_REPORTING_TIMESTAMP = 5,      /* all; time */
    SDR_EXECUTION_TIMESTAMP = 6,      /* full; time */
    SDR_EFFECTIVE_DATE = 7,           /* full; date */
    SDR_EXPIRATION_DATE = 8,          /* full; date */
    SDR_SETTLEMENT_DATE = 9,          /* full; date; the final contractual settlement */
    SDR_CLEARED = 10,                 /* full; Y, N or I */
    SDR_NON_STANDARDIZED_TERM = 11,   /* if 10 is N; truth */
    SDR_BLOCK_ELECTION = 12,          /* full; truth */
    SDR_LARGE_NOTIONAL_ELECTION = 13, /* full; truth */
    SDR_ALLOCATION = 14,              /* full; POST, PREA or UNAL */
    SDR_PACKAGE_INDICATOR = 15,       /* full; truth */
    SDR_PACKAGE_IDENTIFIER = 16,      /* if 15 is true; 1 to 100 letters or digits */
    SDR_PACKAGE_PRICE = 17,           /* if 15 is true and 26 is missing; number, minus allowed,
                                         18 digits, 13 after the point */
    SDR_PRICE_NOTATION = 18,          /* if 15 is true and 17 is there; 1 or 3 */
    SDR_PRICE_CURRENCY = 19,          /* if 15 is true, 17 is there and 18 is 1; currency */
    SDR_NOTIONAL_AMOUNT = 20,         /* full; number, no minus, 25 digits, 5 after the point */
    SDR_NOTIONAL_CURRENCY = 21,       /* full; currency */
    SDR_SETTLEMENT_LOCATION = 22,     /* optional; location */
    SDR_COUNTERPARTY_1 = 23,          /* full; LEI with right check digits */
    SDR_COUNTERPARTY_2 = 24,          /* full; LEI with right check digits */
    SDR_ASSET_CLASS = 25,             /* full; CR, IR, FX, EQ or CO; says which cap applies */
    SDR_PACKAGE_SPREAD = 26,          /* optional; of 17's form; a package has 17 or 26 */
    SDR_SPREAD_NOTATION = 27,         /* if 15 is true and 26 is there; 1, 3 or 4 */
    SDR_SPREAD_CURRENCY = 28          /* if 15 is true, 26 is there and 27 is 1; currency */
};

/* ---- Verdicts (section 9) ----
 *
 * An operation judges its rules one after the other and answers the first one that is broken. The order:
 *
 *   sdr_open     1, 2
 *   sdr_submit   3, 4, 5, 6, 7, 8, 9, 10, 11, 19, 12, 13, 14, 15, 16, 17, 18
 *   sdr_status   3, 9, 14
 *   sdr_totals   3
 *
 * The element is 0 unless a comment below says otherwise.
 */

enum sdr_verdict_code {
    /* any operation */
    SDR_ACCEPTED = 0, /* done; for sdr_status and sdr_totals: answered */

    /* sdr_open */
    SDR_LEDGER_SHORT = 1, /* the buffer is shorter than SDR_SHORTEST_LEDGER */
    SDR_CAP_WRONG = 2,    /* a cap is out of bounds, or rounding it as an amount would change it */

    /* sdr_submit, sdr_status and sdr_totals */
    SDR_LEDGER_WRONG = 3, /* the ledger is too short, or its header is none that fits this length: not opened, damaged,
                             or lent at another length. The four totals have to add up to the rows in use */

    /* sdr_submit */
    SDR_TAPE_SHORT = 4,           /* the tape buffer is shorter than SDR_LINE_SIZE; judged for PRTO too */
    SDR_LAYOUT_WRONG = 5,         /* counts, codes or offsets of the message are wrong, or it is too long */
    SDR_ACTION_WRONG = 6,         /* no action, or not one of the seven; small letters count as other letters.
                                     Element: 2 */
    SDR_ELEMENT_MISSING = 7,      /* an element that all messages or full ones need is missing. Element: the lowest such */
    SDR_ELEMENT_NOT_TAKEN = 8,    /* TERM, EROR or PRTO with an element above 5. Element: the lowest such */
    SDR_FORM_BROKEN = 9,          /* a value is not of its element's form, needed or not. Element: the lowest such.
                                     sdr_status: the UTI is not of its form. Element: 1 */
    SDR_NOT_A_PAIR = 10,          /* this event, or no event, does not go with this action */
    SDR_CONDITIONAL_MISSING = 11, /* an element whose condition is met is missing. Element: the lowest such */
    SDR_PRICE_TOO_LONG = 12,      /* a package's price or spread has more digits than its notation allows. Notation 3: 11,
                                     10 after the point. Notation 4: 5, none after the point */
    SDR_DATES_DISORDERED = 13,    /* in a full message: expiration before effective date, settlement before expiration,
                                     or reporting before execution */
    SDR_ROW_WRONG = 14,           /* the ledger is damaged: the status or the identifier of the swap's row is none that can
                                     be, or the total of this status is 0. sdr_status answers this too */
    SDR_NOT_ADMITTED = 15,        /* the swap's status does not allow the action; see the statuses */
    SDR_OTHER_TIME = 16,          /* MODI or REVI gives another execution time than the swap has */
    SDR_LEDGER_FULL = 17,         /* NEWT, and every row is in use */
    SDR_IDENTIFIERS_SPENT = 18,   /* a line is due, and no identifier is left; see sdr_submit for messages without a line */
    SDR_PRICE_AND_SPREAD = 19     /* a package has both price and spread */
};

/* ---- Statuses (section 5) ----
 *
 * NEWT makes an unknown swap live. MODI and CORR leave the status as it is, TERM closes, EROR makes errored, REVI makes live
 * again, PRTO makes ported.
 */

enum sdr_status_code {
    SDR_UNKNOWN = 0, /* not in the ledger; admits NEWT */
    SDR_LIVE = 1,    /* admits MODI, CORR, TERM, EROR, PRTO */
    SDR_CLOSED = 2,  /* admits CORR, EROR, REVI */
    SDR_ERRORED = 3, /* admits REVI */
    SDR_PORTED = 4   /* admits nothing */
};

/* ---- Operations (section 10) ----
 *
 * The order in which an operation judges its rules stands with the verdicts.
 */

/*
 * Opens a ledger over a buffer.
 *
 * Each asset class (CR, IR, FX, EQ, CO) has a cap, in units of the notional currency. The tape shows an amount above it as
 * the cap and a plus sign (section 6). A cap lies between SDR_SMALLEST_CAP and SDR_LARGEST_CAP and is an amount that
 * rounding leaves as it is: 250,000,000 is one, 251,000,000 is not.
 *
 * Answers a verdict; what the buffer holds is not looked at. If it accepts, it writes the first SDR_HEADER_SIZE bytes of the
 * buffer and no others: the ledger then has no swaps, totals of 0, and 1 as its next identifier. So opening a ledger that is
 * in use forgets its swaps.
 */
uint32_t sdr_open(uint8_t *ledger, size_t ledger_len, uint64_t cap_cr, uint64_t cap_ir, uint64_t cap_fx, uint64_t cap_eq,
                  uint64_t cap_co);

/*
 * Judges one message and, if it accepts, does what the message says.
 *
 * The answer, to be read by the accessors below:
 *
 *   bits  0 to  7   verdict
 *   bits  8 to 15   element named by the verdict, or 0
 *   bits 16 to 23   0
 *   bits 24 to 63   identifier of the line that was written; 0 if no line was written
 *
 * The identifier tells whether an accepted message wrote a line. Two kinds of messages write none, and no byte of the tape
 * buffer: PRTO, and a MODI that shows nothing new. That is one whose line would have, from the execution time on, what the
 * ledger has of the swap already; its event and event time do not matter. Any other message writes one line into the first
 * SDR_LINE_SIZE bytes and leaves later ones as they are. Identifiers count the lines of a ledger from 1. In the ledger,
 * acceptance changes the swap's row (NEWT: the next free one) and, in the header, the rows in use (NEWT alone), the next
 * identifier (with every line) and the totals (where the status changes). A MODI that shows nothing new changes no byte.
 */
uint64_t sdr_submit(uint8_t *ledger, size_t ledger_len, uint8_t *tape, size_t tape_len, const uint8_t *message,
                    size_t message_len);

/*
 * Tells the status of the swap with this UTI. Writes nothing.
 *
 * The answer, to be read by the accessors below:
 *
 *   bits  0 to  7   verdict
 *   bits  8 to 15   element named by the verdict, or 0
 *   bits 16 to 23   status, one of enum sdr_status_code; 0 beside a refusal
 *   bits 24 to 63   identifier of the swap's last line; 0 if the swap is unknown, and beside a refusal
 *
 * SDR_UNKNOWN means that the swap is unknown only if the verdict is SDR_ACCEPTED.
 */
uint64_t sdr_status(const uint8_t *ledger, size_t ledger_len, const uint8_t *uti, size_t uti_len);

/*
 * Tells how many swaps are live, closed, errored and ported. Reads the header alone, however many rows there are.
 *
 * Answers a verdict, SDR_ACCEPTED or SDR_LEDGER_WRONG. Writes the array and nothing else. The total of a status stands at
 * totals[status - 1], as the ledger holds it: totals[SDR_LIVE - 1] is the number of live swaps. Beside a refusal all four
 * are 0. While the core alone has changed the ledger since it was opened, each total is the number of rows with that status,
 * and the four add up to the number of NEWT messages accepted.
 */
uint32_t sdr_totals(const uint8_t *ledger, size_t ledger_len, uint32_t totals[4]);

/* ---- Reading an answer ---- */

/* The verdict, one of enum sdr_verdict_code. The answers of sdr_open and sdr_totals can be passed too. */
static inline unsigned sdr_verdict(uint64_t answer)
{
    return (unsigned)(answer & 0xff);
}

/* The element that the verdict names, one of enum sdr_element_code, or 0. */
static inline unsigned sdr_element(uint64_t answer)
{
    return (unsigned)((answer >> 8) & 0xff);
}

/* The status, one of enum sdr_status_code; for answers of sdr_status. */
static inline unsigned sdr_state(uint64_t answer)
{
    return (unsigned)((answer >> 16) & 0xff);
}

/* The identifier, or 0. */
static inline uint64_t sdr_identifier(uint64_t answer)
{
    return answer >> 24;
}

/* Words for a verdict, to be printed or logged. */
static inline const char *sdr_verdict_text(unsigned verdict)
{
    switch (verdict) {
    case SDR_ACCEPTED: return "accepted";
    case SDR_LEDGER_SHORT: return "ledger buffer too short";
    case SDR_CAP_WRONG: return "cap out of bounds or not a rounded amount";
    case SDR_LEDGER_WRONG: return "ledger not opened, damaged or of another length";
    case SDR_TAPE_SHORT: return "tape buffer too short";
    case SDR_LAYOUT_WRONG: return "message layout wrong";
    case SDR_ACTION_WRONG: return "action missing or unknown";
    case SDR_ELEMENT_MISSING: return "element missing";
    case SDR_ELEMENT_NOT_TAKEN: return "element not taken by this action";
    case SDR_FORM_BROKEN: return "value breaks its form";
    case SDR_NOT_A_PAIR: return "event does not go with action";
    case SDR_CONDITIONAL_MISSING: return "conditional element missing";
    case SDR_PRICE_TOO_LONG: return "price or spread too long for its notation";
    case SDR_DATES_DISORDERED: return "dates or times out of order";
    case SDR_ROW_WRONG: return "row of the swap or total of its status damaged";
    case SDR_NOT_ADMITTED: return "action not admitted by the swap's status";
    case SDR_OTHER_TIME: return "execution time differs from the swap's";
    case SDR_LEDGER_FULL: return "ledger full";
    case SDR_IDENTIFIERS_SPENT: return "identifiers spent";
    case SDR_PRICE_AND_SPREAD: return "package with both price and spread";
    default: return "no such verdict";
    }
}

#ifdef __cplusplus
}
#endif

#endif /* SDR_H */

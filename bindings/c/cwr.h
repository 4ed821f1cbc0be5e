/// CWR 2.1 from C: checks, findings, an index of the records of a text in memory, reports, layouts, selecting,
/// summaries and writing.
///
/// Link with `-lcwr`, or with `libcwr.a`. The library keeps no state, opens no file and prints nothing: all that a call reads
/// or writes is handed in, and nothing of it is kept after the call. Any number of threads may call at once. What each call
/// answers is proved; docs/BINDINGS.md says how far.
///
/// A pointer must not be null, also where the size beside it is 0. A structure must be aligned as its type asks.
///
/// Three limits go with each text, as options of the same names do with the program: the most records of a transmission (5 to
/// CWR_MOST_RECORDS), the most groups (1 to CWR_MOST_GROUPS), and the most records of one transaction (1 to
/// CWR_MOST_RECORDS_OF_TRANSACTION). The last bounds the memory that a stranger's text can take. CWR_NO_LIMITS is all three.
///
/// Calls that write into a room answer how much there is to write. Where that is more than the room, its first part was
/// written; call again with more room.
#ifndef CWR_H
#define CWR_H

#include <stddef.h>
#include <stdint.h>

#ifdef __cplusplus
extern "C" {
#endif

/// The number of this interface. It changes where a call, a structure or a number comes to mean something else. In the shared
/// library it stands in the soname (`libcwr.so.1`) and in the version of each name (`cwr_check@@CWR_1`).
#define CWR_INTERFACE 1u

/// The number of the interface that was linked. Compare it with CWR_INTERFACE where the library is loaded by hand.
uint32_t cwr_interface(void);

#define CWR_MOST_RECORDS 99999999u
#define CWR_MOST_GROUPS 99999u
#define CWR_MOST_RECORDS_OF_TRANSACTION 999999u
#define CWR_NO_LIMITS CWR_MOST_RECORDS, CWR_MOST_GROUPS, CWR_MOST_RECORDS_OF_TRANSACTION

/// The bytes of stack that a call takes at most, whatever the text; of those that write a
/// transmission, and of cwr_report.
/// That is measured, and not proved.
#define CWR_STACK (64u << 10)
#define CWR_STACK_OF_WRITING (64u << 10)
#define CWR_STACK_OF_REPORTS (64u << 10)

/// How a text ended.
enum cwr_ending {
    CWR_GOOD = 0,       ///< it begins with a transmission
    CWR_REFUSED = 1,    ///< no transmission continues from that record and field
    CWR_TRUNCATED = 2,  ///< it ended too early
    CWR_NO_MEMORY = 3,  ///< memory was refused, and nothing is told
    CWR_BAD_LIMITS = 4, ///< a limit isn't in its range, or what was asked for is unknown
};

/// Why a record is refused.
enum cwr_reason {
    CWR_UNKNOWN_KIND = 1, ///< the line's first three letters name no kind of this profile
    CWR_MISPLACED = 2,    ///< no such record may come here
    CWR_CELL = 3,         ///< the field holds something else: `detail` is one of cwr_cell_fault
    CWR_NUMBER = 4,       ///< the number is wrong: `expected` belongs there
    CWR_LIMIT = 5,        ///< a limit is passed: `detail` is one of cwr_limit
    CWR_EXCESS = 6,       ///< something stands behind the last field
};

/// What is wrong with a cell.
enum cwr_cell_fault {
    CWR_BLANK = 1,
    CWR_CONTROL = 2,
    CWR_NOT_DIGITS = 3,
    CWR_NOT_A_DATE = 4,
    CWR_NOT_A_TIME = 5,
    CWR_OVER_SHARE = 6,
    CWR_NOT_A_CODE = 7,
    CWR_NOT_CONSTANT = 8,
};

/// Which limit is passed.
enum cwr_limit {
    CWR_LIMIT_RECORDS = 1,
    CWR_LIMIT_GROUPS = 2,
    CWR_LIMIT_TRANSACTION = 3,
};

/// How a text ended. A number that doesn't belong to its ending is 0.
typedef struct cwr_verdict {
    uint32_t ending;       ///< one of cwr_ending
    uint32_t groups;       ///< good, but not of cwr_index: how many groups
    uint32_t transactions; ///< good, but not of cwr_index: how many transactions
    uint32_t records;      ///< good (not of cwr_index) and truncated: how many records; refused: the refused record, from 1
    uint32_t field;        ///< refused: the field, from 1; one past the last is what stands behind it
    uint32_t level;        ///< refused: 'E', 'G', 'T', 'R' or 'F': how much is rejected
    uint32_t reason;       ///< refused: one of cwr_reason
    uint32_t detail;       ///< of a cell and of a limit
    uint64_t expected;     ///< of a number
    uint64_t used;         ///< good, of cwr_index: the bytes of the transmission
} cwr_verdict;

/// The verdict on the text. Memory holds one transaction.
void cwr_check(const uint8_t *text, size_t text_size, uint32_t records, uint32_t groups, uint32_t transaction,
               cwr_verdict *verdict);

/// A rule that a record breaks. The verdict stays as it is.
typedef struct cwr_finding {
    uint32_t record; ///< the record, from 1: its line in the text
    uint32_t field;  ///< the field, from 1
    uint32_t rule;   ///< 1 for V1, up to 11
    uint32_t level;  ///< 'T', 'R' or 'F': how much it concerns
} cwr_finding;

/// The verdict, and the findings that come before it, in their order: the first of them are put into `findings`. Answers how
/// many there are. Memory holds one transaction.
size_t cwr_findings(const uint8_t *text, size_t text_size, uint32_t records, uint32_t groups, uint32_t transaction,
                    cwr_finding *findings, size_t findings_size, cwr_verdict *verdict);

/// Where a record's line stands in the text. Its kind is the three bytes at `offset`. Its cell of a field (cwr_field) is the
/// `width` bytes at `offset + start`, as far as `length` goes, and spaces behind that.
typedef struct cwr_line {
    size_t offset;        ///< its first byte, from 0
    size_t length;        ///< its bytes, without a line feed at its end and a carriage return before that
    uint32_t group;       ///< how many groups have begun with it
    uint32_t transaction; ///< how many transactions have begun with it, in all groups
} cwr_line;

/// Finds the records of the text, up to its end or to where it is refused: the first of them are put into `lines`, each line's
/// at its place. Answers how many there are. Takes no memory.
size_t cwr_index(const uint8_t *text, size_t text_size, uint32_t records, uint32_t groups, uint32_t transaction,
                 cwr_line *lines, size_t lines_size, cwr_verdict *verdict);

/// What cwr_report writes: what the program writes to standard output for that command.
enum cwr_what {
    CWR_REPORT_CHECK = 0,          ///< `cwr check`
    CWR_REPORT_SHOW = 1,           ///< `cwr show`
    CWR_REPORT_EXPLAIN = 2,        ///< `cwr explain`
    CWR_REPORT_JSON = 3,           ///< `cwr json`
    CWR_REPORT_NUMBERED_JSON = 4,  ///< `cwr json --numbers`
    CWR_REPORT_LINT = 5,           ///< `cwr lint`
    CWR_REPORT_EXPLAINED_LINT = 6, ///< `cwr lint --explain`
};

/// The report that `what` asks for, into `room`, and the verdict. `name` is what explanations call the text: UTF-8, else they
/// call it `-`. Answers how many bytes the report has. Memory holds it.
size_t cwr_report(uint32_t what, const uint8_t *text, size_t text_size, uint32_t records, uint32_t groups,
                  uint32_t transaction, const uint8_t *name, size_t name_size, uint8_t *room, size_t room_size,
                  cwr_verdict *verdict);

/// The three letters of kind number `i`, from 0, into `kind`. Answers 3, and 0 where there are no more kinds.
size_t cwr_kind(uint32_t i, uint8_t *kind, size_t kind_size);

/// What the cells of a field hold.
enum cwr_type {
    CWR_TEXT = 1,              ///< text without control bytes
    CWR_REQUIRED = 2,          ///< the same, and not blank
    CWR_DIGITS = 3,            ///< digits
    CWR_OPTIONAL_DIGITS = 4,   ///< digits or spaces
    CWR_DATE = 5,              ///< YYYYMMDD
    CWR_OPTIONAL_DATE = 6,     ///< YYYYMMDD, zeros or spaces
    CWR_TIME = 7,              ///< HHMMSS, a time of day
    CWR_OPTIONAL_TIME = 8,     ///< HHMMSS or spaces
    CWR_OPTIONAL_DURATION = 9, ///< HHMMSS with at most 99 hours, or spaces
    CWR_SHARE = 10,            ///< five digits, hundredths of a percent up to 10000, or spaces
    CWR_FLAG = 11,             ///< Y, N, U or a space
    CWR_CODE = 12,             ///< a code (cwr_code)
    CWR_OPTIONAL_CODE = 13,    ///< a code or spaces
    CWR_CONSTANT = 14,         ///< one word (cwr_code)
};

/// Where a field stands in the lines of its kind.
typedef struct cwr_field_place {
    size_t start;     ///< its first byte in the line, from 0
    size_t width;     ///< its bytes
    uint32_t type;    ///< one of cwr_type
    uint32_t derived; ///< 1 where its cells are computed when they are written, else 0
} cwr_field_place;

/// Field `j`, from 1, of the kind that three letters name, and its name, into `name`. Answers how many bytes the name has, at
/// most 64, and 0 where there is no such field. Takes no memory.
size_t cwr_field(const uint8_t *kind, size_t kind_size, uint8_t j, cwr_field_place *place, uint8_t *name, size_t name_size);

/// Text number `i`, from 0, of those that cells of field `j` may hold, into `code`: a code, a flag or a constant. Answers how
/// many bytes it has, and 0 where there are no more, or the cells hold something that can't be listed.
size_t cwr_code(const uint8_t *kind, size_t kind_size, uint8_t j, uint32_t i, uint8_t *code, size_t code_size);

/// The line of a record of the kind in which nothing was set, into `line`: the kind's letters, the constants, and spaces.
/// Answers how many bytes it has, at most 1024, and 0 where the letters name no kind.
size_t cwr_blank(const uint8_t *kind, size_t kind_size, uint8_t *line, size_t line_size);

/// The place of a transaction.
typedef struct cwr_place {
    uint32_t group;       ///< of its group, from 1
    uint32_t transaction; ///< its own in that group, from 0: its transaction sequence
} cwr_place;

/// The canonical text of the text's transactions that have these places, as a transmission of their own, into `room`, and the
/// verdict: good, with how many transactions these are, and no other number. Places that no transaction has are passed over;
/// where none has any there is no text. The places come in any order, and one that stands twice is one. The transmission has HDR, of each
/// group with such a transaction GRH and these in their order, and GRT, whose total is left out where a transaction is. Answers how
/// many bytes the text has. Memory holds it, and the places.
size_t cwr_select(const uint8_t *text, size_t text_size, uint32_t records, uint32_t groups, uint32_t transaction,
                  const cwr_place *places, size_t places_size, uint8_t *room, size_t room_size, cwr_verdict *verdict);

/// What the numbers of a summary count, by their places. A work is a transaction that begins with NWR or REV: the copy in an
/// acknowledgement is none, though its records count as records. Shares are in hundredths of a percent, added up over works: a control, and
/// no money. Where several places follow each other, they are in the order that the comment gives.
enum cwr_column {
    CWR_GROUPS = 0,            ///< groups, by their GRH
    CWR_TRANSACTIONS = 1,      ///< transactions: AGR, NWR, REV, ACK
    CWR_RECORDS = 5,           ///< records of each kind, in the order of cwr_kind
    CWR_WORKS = 45,            ///< works by version type: ORI, MOD
    CWR_ACKNOWLEDGEMENTS = 47, ///< acknowledgements by status: CO DU RA AS AC SR CR RJ NP RC
    CWR_FINDINGS_OF = 57,      ///< findings by rule: V1 to V11
    CWR_CONTROLLED = 68,       ///< shares of SPU and SWR: performing, mechanical, synchronization
    CWR_OTHERS = 71,           ///< shares of OPU and OWR
    CWR_WORKS_WITHOUT = 74,    ///< works of which each share in the right is blank
    CWR_WORKS_OFF = 77,        ///< works whose shares in the right add up to neither nothing nor about the whole (V3, V4, V5)
    CWR_COLUMNS = 80,          ///< how many there are
};

/// What stands in the text's transmission, into `numbers`, and the verdict. Of a text that is refused or ends too early it is what stands
/// in the items before. Answers CWR_COLUMNS. No number is passed over: 64 bits hold what any transmission has. Memory holds one transaction.
size_t cwr_summary(const uint8_t *text, size_t text_size, uint32_t records, uint32_t groups, uint32_t transaction,
                   uint64_t *numbers, size_t numbers_size, cwr_verdict *verdict);

/// How writing ended.
enum cwr_writing {
    CWR_WRITTEN = 0,
    CWR_NOT_A_RECORD = 1,     ///< the line carries no record; a lint of it alone (cwr_report) tells the fields, and why
    CWR_OUT_OF_ORDER = 2,     ///< its record can't come there
    CWR_WRONG_KIND = 3,       ///< it is of another kind than its group's
    CWR_INCOMPLETE = 4,       ///< the transaction that it begins, or the group that it ends, isn't whole
    CWR_OVER_LIMIT = 5,       ///< a limit is passed: `detail` is one of cwr_limit
    CWR_WRITE_NO_MEMORY = 6,  ///< memory was refused
    CWR_WRITE_BAD_LIMITS = 7, ///< a limit isn't in its range
    CWR_NOT_TAKEN = 8,        ///< a line of JSON isn't taken; the room has words on it
    CWR_NO_TRAILER = 9,       ///< the lines of JSON end before TRL's; the room has words on it
};

/// How writing ended, and at which line.
typedef struct cwr_written {
    uint32_t ending; ///< one of cwr_writing
    uint32_t detail; ///< of a limit
    uint64_t line;   ///< the line that isn't taken, from 1: of a transaction its first; 0 where it came behind all lines
} cwr_written;

/// The canonical text of the transmission whose records the lines carry, into `room`. The lines may be trimmed or not, and end
/// with LF or CR LF. Their sequence numbers, IDs and counts aren't looked at: they are made. TRL may be left out, and nothing
/// behind it is read. Answers how many bytes the text has. Memory holds it.
size_t cwr_write(const uint8_t *lines, size_t lines_size, uint32_t records, uint32_t groups, uint32_t transaction,
                 uint8_t *room, size_t room_size, cwr_written *told);

/// The canonical text of the transmission that lines of JSON are, as `cwr json` writes them, into `room`; where they are none,
/// the words that `cwr write` tells. Answers how many bytes it has. Memory holds it.
size_t cwr_write_json(const uint8_t *json, size_t json_size, uint32_t records, uint32_t groups, uint32_t transaction,
                      uint8_t *room, size_t room_size, cwr_written *told);

#ifdef __cplusplus
}
#endif

#endif

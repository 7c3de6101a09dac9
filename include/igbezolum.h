/*
 * Igbezolum: which switches of a card's rules are forced, and which are free.
 *
 * A card's rules are a DIMACS CNF text, one variable a switch. A valid setup (a model) gives every switch a value so that every
 * clause has a true literal. A switch is forced on or off if it has this value in every valid setup, and there is one; it is free if
 * it has both values in valid setups.
 *
 *     igb_read     the text to a list of entries
 *     igb_run      the list to a status for each switch, how it was settled, the clause that holds it, and a log of the run
 *     igb_setup    the list to one valid setup
 *     igb_close    the list to what follows at once, without a search
 *     igb_check_claims     the list and a file of another tool, which claims that literals are forced, to a verdict
 *     igb_why      the list and a literal to the clauses that alone force it, or to a valid setup that has it false
 *     igb_witness  the list and a free switch to two valid setups that differ on it
 *     igb_shorter  the list to a shorter text with the same valid setups, with what a run settles folded in
 *     igb_witness_text     the text and a free switch to both setups printed, a line each
 *     igb_table    the text to the printed table, as the program `table` prints it
 *     igb_read_groups      a file of groups, switches with more than two positions, to a list of entries and the sizes of the groups
 *     igb_groups_table     a file of groups to its printed table, as the program `groups` prints it
 *     igb_version  the version of the library that is linked
 *
 * A text, in short (docs/RULES.md, "The text", is the whole rule):
 *   - blanks are space, tab, CR and LF; a line ends at LF, so that CR LF is taken too;
 *   - a line whose first byte is c is a comment, before the header, between clauses and inside one;
 *   - the header is `p cnf V C`, at the first byte of its line, V and C of 1 to 9 digits with no sign; before it stand only comments and
 *     lines of blanks;
 *   - behind it stand numbers, an optional - and 1 to 9 digits, where a 0 closes a clause; a clause may go over several lines, be empty,
 *     and hold a literal twice or with both signs;
 *   - exactly C clauses stand, each closed, with no variable above V; a % behind the last one ends the text.
 * Refused, though some tools take it: +1 and -0; a byte order mark; a blank before p; a comment behind a blank; fewer clauses than the
 * header says, or more; a last clause without its 0; a variable above V; a second header.
 *
 * A file of groups, in short (docs/RULES.md, "Groups", is the whole rule): numbers alone, as those behind a header, with no comment and no %. The
 * number of groups, 0 to IGB_GROUPS_MAX; for each group its number of values, 2 to 16; the number of clauses; the clauses, each closed by a 0.
 * There is one variable a value, group after group, from 1 on, and exactly one value of a group holds.
 *
 * igb_run, igb_setup, igb_close, igb_witness and igb_table take the literals that are held: choices that have been made already. What they
 * say is said of the setups with these choices; with none held, of all.
 *
 * Every input is answered: what is wrong is refused with a number and a place, and nothing is undefined but what C itself asks for.
 * A pointer is valid for the length behind it, and a buffer that is written overlaps no other argument. With length 0 a pointer may
 * be NULL. Lengths are numbers of elements.
 *
 * The library keeps nothing between calls, allocates nothing and writes only to the buffers it is lent, so threads may call it at the
 * same time on buffers of their own. A call takes less than IGB_STACK_BYTES of stack. The archive is for x86-64 Linux and asks for
 * memcpy and memset alone.
 *
 * Threads: IGB_STACK_BYTES is more than musl gives a thread that does not ask (128 KB): set it with pthread_attr_setstacksize, and add what
 * the thread takes itself. glibc gives what `ulimit -s` says, mostly 8 MB.
 *
 * Signal handlers: no lock is taken and errno is left alone, so that a handler may call on buffers of its own, whatever it interrupted. It needs
 * the same stack, which an alternate one of SIGSTKSZ bytes has not, and it takes as long as any call does.
 *
 * Time: a call ends by itself, and sooner only by its budget, which is looked at before each try. There is one closing for each try and one for
 * each call of the search. A closing has at most one round more than the variables that it sets, so 257, and a round looks at every clause
 * once. The slowest try that we know takes 2 to 3 ms (`bash bench/one_try.sh`, on an Intel Xeon); the runs of bench/RESULTS.md take 0.1 to 29
 * microseconds a try.
 */
#ifndef IGBEZOLUM_H
#define IGBEZOLUM_H

#include <stddef.h>
#include <stdint.h>

#ifdef __cplusplus
extern "C" {
#endif

/* ---- version */

/*
 * The version of this header. igb_version returns that of the library: the same number for the same version. Before 1.0 a host of the
 * shared library asks at its start whether IGB_VERSION / 100 == igb_version() / 100, and goes no further if not.
 *
 * Before 1.0 a minor version (0.6 to 0.7) may change what functions take and return, structs, and the least sizes of buffers; a patch
 * version changes none of them. In no version does the number of an answer, a refusal, a status or a way get another meaning, is a text
 * refused that was accepted before, or does a settled status change.
 */
#define IGB_VERSION_MAJOR 0
#define IGB_VERSION_MINOR 11
#define IGB_VERSION_PATCH 0
#define IGB_VERSION (IGB_VERSION_MAJOR * 10000 + IGB_VERSION_MINOR * 100 + IGB_VERSION_PATCH)

/* ---- sizes */

#define IGB_TEXT_MAX 32768    /* bytes of a text */
#define IGB_VARS_MAX 256      /* variables, numbered from 1 */
#define IGB_CLAUSES_MAX 1024  /* clauses */
#define IGB_ENTRIES_MAX 4096  /* entries of a list: literals and the 0 that closes each clause */
#define IGB_CHUNK_MAX 256     /* largest chunk limit; the smallest is 1 */
#define IGB_HELD_MAX 256      /* held literals; they count neither against IGB_CLAUSES_MAX nor against IGB_ENTRIES_MAX */
#define IGB_GROUPS_MAX 128    /* groups, of 2 to 16 values each and IGB_VARS_MAX values together */
#define IGB_LOG_ROW 6         /* numbers of a log row */

/* Buffers that are long enough for every formula, in elements. Those for entries, sizes, marks and texts are also the least that
 * is taken. */
#define IGB_ENTRIES_LEN 4096  /* int32_t, for igb_read and igb_read_groups */
#define IGB_SIZES_LEN 128     /* uint8_t, for igb_read_groups */
#define IGB_STATUS_LEN 256    /* uint8_t, for igb_run */
#define IGB_CALLS_LEN 256     /* uint32_t, for igb_run */
#define IGB_WAYS_LEN 256      /* uint8_t, for igb_run */
#define IGB_HINTS_LEN 256     /* uint32_t, for igb_run */
#define IGB_LOG_LEN 1542      /* uint32_t, for igb_run: a row for each variable and one more */
#define IGB_MARKS_LEN 1024    /* uint8_t, for igb_why */
#define IGB_VALUES_LEN 256    /* uint8_t, for igb_setup, igb_close and igb_why */
#define IGB_WITNESS_LEN 256   /* int32_t, each of the two for igb_witness */
#define IGB_SHORTER_LEN 32768 /* uint8_t, for igb_shorter */
#define IGB_WITNESS_TEXT_LEN 4096 /* uint8_t, for igb_witness_text */
#define IGB_TABLE_LEN 9216    /* uint8_t, for igb_table */
#define IGB_GROUPS_TABLE_LEN 4096 /* uint8_t, for igb_groups_table */

#define IGB_STACK_BYTES 524288 /* stack that is enough for every call */

/* What the program `table`, and so igb_table, gives to the run; igb_witness_text and igb_groups_table do too. */
#define IGB_TABLE_BUDGET 1000000
#define IGB_TABLE_CHUNK 16

/* ---- numbers */

/* The answer of a reading, a run, a setup, a closing, a check of claims, a why, a witness or a shorter file. Places and indices count from 0; that of 0, 1, 10, 14, 20, 21 and 22 is 0. */
enum {
    IGB_OK = 0,                /* the text is accepted; the run is settled and there is a valid setup; the clauses are marked */
    IGB_SHORT_BUFFER = 1,      /* a lent buffer is too short */
    IGB_LONG_TEXT = 2,         /* the text has over IGB_TEXT_MAX bytes; place IGB_TEXT_MAX */
    IGB_BAD_HEADER = 3,        /* the header is missing or malformed; place: start of that line, or text length */
    IGB_LARGE_HEADER = 4,      /* the header is over IGB_VARS_MAX or IGB_CLAUSES_MAX; place: start of its line; groups: the size that passes
                                  IGB_VARS_MAX, or the number of clauses, negative or over IGB_CLAUSES_MAX; place: its first byte */
    IGB_BAD_TOKEN = 5,         /* a malformed token, or a % before the last clause; here and in the next three the place is its first byte */
    IGB_TOKEN_BEHIND = 6,      /* a token after the last clause; a % there ends the text, and nothing behind it is read */
    IGB_TOKEN_OVER_VARS = 7,   /* a variable above the header's number */
    IGB_MANY_TOKENS = 8,       /* one entry more than IGB_ENTRIES_MAX */
    IGB_SHORT_TEXT = 9,        /* the text ends inside a clause or before the last one; place: text length */
    IGB_BAD_LIMITS = 10,       /* run, setup, close, why, witness, shorter: over IGB_VARS_MAX variables; run, witness, shorter: a chunk limit of 0 or over IGB_CHUNK_MAX */
    IGB_BAD_LIST = 11,         /* these too: list over IGB_ENTRIES_MAX (place IGB_ENTRIES_MAX), not ended by 0 (its length), or with
                                  more than IGB_CLAUSES_MAX zeros (index of the first one too many) */
    /* groups: the expanded list is over IGB_CLAUSES_MAX or IGB_ENTRIES_MAX: IGB_BAD_LIST at place 0 */
    IGB_ENTRY_OVER_VARS = 12,  /* these too: a variable above vars; place: index of the first */
    IGB_BAD_LITERAL = 13,      /* why: the literal is 0 or above vars; run, setup, close, witness: a held literal is; place: its index */
    IGB_NOT_FREE = 14,         /* witness: the variable is 0, above vars, or not marked free by the run */
    IGB_MANY_HELD = 15,        /* run, setup, close, witness: over IGB_HELD_MAX held literals; place IGB_HELD_MAX */
    IGB_BAD_GROUP = 16,        /* groups: their number is not 0 to IGB_GROUPS_MAX, or a size is not 2 to 16; place: its first byte */
    IGB_REJECTED = 17,         /* claims: the file does not hold; place: the first byte of the first number at fault, or text length */
    IGB_NO_MODEL = 20,         /* there is no valid setup; close: a clause became false, which means the same */
    IGB_STOPPED = 21,          /* the budget stopped the run, and what is marked holds; or it stopped the why, and nothing is marked */
    IGB_NOT_FORCED = 22        /* why: a valid setup has the literal false */
};

/* The status of a variable. */
enum {
    IGB_OPEN = 0,
    IGB_FREE = 1,
    IGB_FORCED_ON = 2,
    IGB_FORCED_OFF = 3
};

/* The value of a variable after igb_close. */
enum {
    IGB_UNSET = 0,
    IGB_FALSE = 1,
    IGB_TRUE = 2
};

/* The way a variable was settled. */
enum {
    IGB_WAY_OPEN = 0,
    IGB_WAY_COMPARE = 1, /* free: the call's model gives it another value than the first model */
    IGB_WAY_FLIP = 2,    /* free: flipped alone in the call's model, it leaves all clauses true */
    IGB_WAY_CHUNK = 3    /* forced: the call found no model where one of its chunk is false */
};

/*
 * The columns of a log row. There is one row for each call of the search: column c of call k is log[IGB_LOG_ROW * (k - 1) + c].
 * Candidates are the literals of the first model that are neither dropped (and so free) nor forced yet; a call takes a chunk of them
 * and asks for a model in which one is false. If there is none, the whole chunk is forced.
 */
enum {
    IGB_LOG_CALL = 0,     /* its number, from 1 */
    IGB_LOG_END = 1,      /* how it ended: IGB_CALL_MODEL, IGB_CALL_NONE or IGB_CALL_STOPPED; 0 in a row that is not used */
    IGB_LOG_CHUNK = 2,    /* candidates taken; 0 in call 1 */
    IGB_LOG_COMPARED = 3, /* candidates dropped since the model gives their variable another value */
    IGB_LOG_FLIPPED = 4,  /* candidates dropped since their variable may be flipped in the model */
    IGB_LOG_TRIES = 5     /* tries of this call */
};

enum {
    IGB_CALL_MODEL = 1,
    IGB_CALL_NONE = 2,
    IGB_CALL_STOPPED = 3
};

/* ---- calls */

typedef struct {
    uint32_t answer;
    uint32_t place;
    uint32_t vars;    /* variables, clauses and entries; all 0 if the text is refused */
    uint32_t clauses;
    uint32_t count;
} igb_reading;

typedef struct {
    uint32_t answer;
    uint32_t place;
    uint32_t calls;  /* calls begun, which is rows of the log; this and the rest are 0 if the run is refused */
    uint32_t tries;  /* at most the budget */
    uint32_t forced; /* variables marked forced, on or off */
    uint32_t free;   /* variables marked free; vars less both are open */
} igb_report;

typedef struct {
    uint32_t answer;
    uint32_t place;
    uint32_t calls; /* calls begun, at most the number of clauses and 2; this and the next are 0 if it is refused */
    uint32_t tries; /* at most the budget */
} igb_why_report;

typedef struct {
    uint32_t answer;
    uint32_t place;
    uint32_t rounds; /* rounds over all clauses, the last one too; this and the next are 0 if it is refused */
    uint32_t set;    /* variables that are set; 0 after IGB_NO_MODEL */
} igb_closing;

/* What igb_shorter returns: the numbers of its run, and the length of the text in bytes; all but the first two are 0 if it is refused. */
typedef struct igb_shorter_report {
    uint32_t answer;
    uint32_t place;
    uint32_t calls;
    uint32_t tries;
    uint32_t forced;
    uint32_t free;
    uint32_t length;
} igb_shorter_report;

typedef struct {
    uint32_t answer;
    uint32_t place;
    uint32_t groups;  /* groups, and variables, clauses and entries of the expanded list; all 0 if the text is refused */
    uint32_t vars;
    uint32_t clauses;
    uint32_t count;
} igb_groups;

typedef struct {
    uint32_t answer;
    uint32_t place;
} igb_verdict;

/*
 * Reads a text. Its entries are the literals of clause 1 and a 0, those of clause 2 and a 0, and so on.
 *
 * Refused with IGB_SHORT_BUFFER (entries_len below IGB_ENTRIES_LEN) or IGB_LONG_TEXT it writes nothing. Otherwise it writes the
 * first IGB_ENTRIES_LEN entries: the list and then zeros, or zeros alone if the text is refused. A longer buffer keeps its rest.
 */
igb_reading igb_read(const uint8_t *text, size_t text_len, int32_t *entries, size_t entries_len);

/*
 * Runs on a list of `vars` variables: `entries` with the count that igb_read returned as `entries_len`, or a list of the caller's own.
 * What igb_read has accepted is never refused with IGB_BAD_LIST or IGB_ENTRY_OVER_VARS.
 *
 * `held` are literals that every setup has to have: v for switch v on, -v for off. Each is one more clause of one literal, behind those of
 * the list: with C clauses there, held literal i (from 1) is clause C + i. A literal may be held twice; with both signs of a variable held
 * there is no valid setup.
 *
 * `budget` is how many tries of a value the whole run may take; `chunk_limit` is how many candidates one call may take at most. The
 * limit changes the number of calls and tries, and never a settled status.
 *
 * A refused run writes nothing: IGB_BAD_LIMITS, IGB_SHORT_BUFFER (status_len, calls_len, ways_len or hints_len below vars, or log_len
 * below IGB_LOG_ROW * (vars + 1)), IGB_BAD_LIST, IGB_ENTRY_OVER_VARS, IGB_MANY_HELD, IGB_BAD_LITERAL, in that order. Otherwise it
 * writes the first `vars` elements of `status`, `calls`, `ways` and `hints`, those of variable v at v - 1, and the first
 * IGB_LOG_ROW * (vars + 1) numbers of `log`: the rows, then zeros. Longer buffers keep their rest. After IGB_NO_MODEL every status is
 * IGB_OPEN and the log has one row.
 *
 * `calls` has the number of the call that settled the variable and `ways` the way: 0 and IGB_WAY_OPEN exactly while it is open. In each
 * row of the log IGB_LOG_COMPARED and IGB_LOG_FLIPPED are how many variables have its call and that way, and IGB_LOG_CHUNK is how many
 * have its call and IGB_WAY_CHUNK if the row says IGB_CALL_NONE.
 *
 * A hint is the number, from 1, of the first clause that the variable, flipped alone in the run's first model, makes false; 0 if it
 * makes none false. For a forced variable it is at least 1: in that model the variable's literal is the only true one of the clause. All
 * hints are 0 if the run has no first model: after IGB_NO_MODEL, and where the budget stopped its first call.
 */
igb_report igb_run(const int32_t *entries, size_t entries_len, uint32_t vars, const int32_t *held, size_t held_len, uint32_t budget,
                   uint32_t chunk_limit, uint8_t *status, size_t status_len, uint32_t *calls, size_t calls_len, uint8_t *ways,
                   size_t ways_len, uint32_t *hints, size_t hints_len, uint32_t *log, size_t log_len);

/*
 * One valid setup with the held literals: the first call of such a run alone. With IGB_OK the first `vars` bytes of `values` are the first
 * setup, 1 for on and 0 for off, that of variable v at v - 1; setups are compared from variable 1 up, off before on. After IGB_NO_MODEL and
 * IGB_STOPPED they are zeros. A longer buffer keeps its rest.
 *
 * It is refused as igb_run is, with `values` in the place of `status`, and IGB_BAD_LIMITS for `vars` alone; refused, it writes nothing. The
 * report has one call and its tries; forced and free are 0.
 */
igb_report igb_setup(const int32_t *entries, size_t entries_len, uint32_t vars, const int32_t *held, size_t held_len, uint32_t budget,
                     uint8_t *values, size_t values_len);

/*
 * What follows at once from the list and the held literals: while a clause has no true literal and one distinct unset one, that one is set.
 * There is no search and no budget. With IGB_OK the first `vars` bytes of `values` are what is set, IGB_UNSET, IGB_FALSE or IGB_TRUE, that of
 * variable v at v - 1: every valid setup has these values, if there is one. IGB_NO_MODEL means that a clause became false, and so that there
 * is no valid setup; the bytes are then zeros. A longer buffer keeps its rest. It is refused as igb_setup is, and then writes nothing.
 *
 * It goes by rounds, each of which looks at each clause and each held literal once, in order. Rounds are at most set + 1 after IGB_OK, and at
 * most vars + 1 always: so a host may budget the frame time of a call before it makes it, by vars + 1 such looks at each clause.
 */
igb_closing igb_close(const int32_t *entries, size_t entries_len, uint32_t vars, const int32_t *held, size_t held_len, uint8_t *values,
                      size_t values_len);

/*
 * Checks a file of another tool, which claims that literals are forced on a list of `vars` variables. The file has numbers alone, as a text has
 * them behind its header, but no comments and no %, in two sections:
 *   - a valid setup: its count, which is vars, and vars literals, variable by variable;
 *   - claims: their number, and for each a literal and a tree. A tree is -v, a split on variable v with the tree for v false and then the tree
 *     for v true, or n, an end that names clause n, from 1.
 * IGB_OK exactly if the setup is valid and in each claim's tree no split is on a variable that is set, and every end names a clause whose
 * literals are all false, under the claim's negation and the splits above. So every claimed literal is forced, whatever the tool did.
 *
 * Refused: IGB_BAD_LIMITS for `vars` alone, IGB_BAD_LIST, IGB_ENTRY_OVER_VARS, IGB_LONG_TEXT, in that order; then from left to right
 * IGB_BAD_TOKEN before IGB_REJECTED, at the first number at fault. A setup that is not valid has the place of its count; a text that ends too
 * early has the place text_len.
 */
igb_verdict igb_check_claims(const int32_t *entries, size_t entries_len, uint32_t vars, const uint8_t *text, size_t text_len);

/*
 * Why is a literal forced? Marks clauses of a list of `vars` variables that alone force it: no assignment makes all of them true with the
 * literal false, and without any single one of them there is such an assignment. Of two separate reasons the earlier one is marked.
 * `budget` is how many tries all calls may take together.
 *
 * Refused it writes nothing: IGB_BAD_LIMITS (for vars alone), IGB_SHORT_BUFFER (marks_len below IGB_MARKS_LEN or values_len below vars),
 * IGB_BAD_LIST, IGB_ENTRY_OVER_VARS, IGB_BAD_LITERAL, in that order. Otherwise it writes the first IGB_MARKS_LEN bytes of `marks`, that of
 * clause n at n - 1, and the first `vars` bytes of `values`, that of variable v at v - 1. After IGB_OK a marked clause's byte is 1; after
 * IGB_NOT_FORCED the values are a valid setup, 1 on and 0 off; every other byte is 0. Longer buffers keep their rest.
 */
igb_why_report igb_why(const int32_t *entries, size_t entries_len, uint32_t vars, int32_t literal, uint32_t budget,
                       uint8_t *marks, size_t marks_len, uint8_t *values, size_t values_len);

/*
 * Why is a variable free? Runs as igb_run does and writes two valid setups that differ on the variable, each as `vars` literals: v for a
 * variable that is on, -v for one that is off, that of variable v at v - 1. `first` is the run's first model; `witness` is the model of
 * the call that settled the variable, with the variable flipped if the way is IGB_WAY_FLIP. What is returned is what the run returns; it
 * may be IGB_STOPPED where the variable was settled before the stop.
 *
 * Refused it writes nothing, and all counts are 0: IGB_BAD_LIMITS, IGB_SHORT_BUFFER (first_len or witness_len below vars), IGB_BAD_LIST,
 * IGB_ENTRY_OVER_VARS, IGB_MANY_HELD, IGB_BAD_LITERAL, IGB_NOT_FREE, in that order. Longer buffers keep their rest.
 */
igb_report igb_witness(const int32_t *entries, size_t entries_len, uint32_t vars, const int32_t *held, size_t held_len, uint32_t budget,
                       uint32_t chunk_limit, uint32_t variable, int32_t *first, size_t first_len, int32_t *witness, size_t witness_len);

/*
 * The shorter file of a list: runs as igb_run does, with no literal held, and writes DIMACS CNF text at the start of `text`, with no 0 behind it.
 * After IGB_OK and IGB_STOPPED these are the forced literals, each as a clause of its own, by variable, and then the clauses that hold none of them, in
 * order, less the negations of forced literals and later repeats of a literal; after IGB_NO_MODEL one clause, which is empty. The text has `vars`
 * variables, the same valid setups, and no more clauses and entries than the list; igb_read takes it. `length` is how many bytes it has;
 * the other numbers are those of the run. Nothing is written behind it.
 *
 * Refused it writes nothing, and all counts are 0: IGB_BAD_LIMITS, IGB_SHORT_BUFFER (text_len below IGB_SHORTER_LEN), IGB_BAD_LIST,
 * IGB_ENTRY_OVER_VARS, in that order.
 */
igb_shorter_report igb_shorter(const int32_t *entries, size_t entries_len, uint32_t vars, uint32_t budget, uint32_t chunk_limit, uint8_t *text,
                               size_t text_len);

/*
 * Puts both setups of a text and a variable at the start of `out`, a line each: the literals with one space between, and LF. Returns
 * their length in bytes, with no 0 behind them. Nothing is written behind them. If out_len is below IGB_WITNESS_TEXT_LEN nothing is
 * written and 0 is returned; they are never longer. A text that is refused, or a variable that is not free, has "refused N place P".
 */
size_t igb_witness_text(const uint8_t *text, size_t text_len, uint32_t variable, uint8_t *out, size_t out_len);

/*
 * Puts the table of a text, with literals held, at the start of `out` and returns its length in bytes: lines ended by LF, with no 0
 * behind them. Nothing is written behind the table. If out_len is below IGB_TABLE_LEN nothing is written and 0 is returned; no
 * table is longer. A text that is refused has the table "refused N place P", and so has one whose held literals are.
 */
size_t igb_table(const uint8_t *text, size_t text_len, const int32_t *held, size_t held_len, uint8_t *out, size_t out_len);

/*
 * Reads a file of groups. Its entries are the expanded list: group by group one clause of all its values, ascending, then each pair negated, by
 * lower and then higher number, which together say that exactly one value holds; then the file's own clauses. `vars`, `clauses` and
 * `count` are those of this list, which igb_run, igb_setup, igb_close and igb_why take as they take any: what is accepted here is never
 * refused with IGB_BAD_LIST or IGB_ENTRY_OVER_VARS. Value k of group g, both from 1, is variable sizes[0] + .. + sizes[g - 2] + k. Forced off it
 * is dead: no valid setup uses it; forced on it is settled: every one does.
 *
 * Refused with IGB_SHORT_BUFFER (entries_len below IGB_ENTRIES_LEN or sizes_len below IGB_SIZES_LEN) or IGB_LONG_TEXT it writes nothing. Then, from
 * left to right, at each number IGB_BAD_TOKEN, IGB_BAD_GROUP, IGB_LARGE_HEADER, IGB_TOKEN_BEHIND, IGB_TOKEN_OVER_VARS; IGB_SHORT_TEXT if the text ends
 * early; last IGB_BAD_LIST. Otherwise it writes the first IGB_ENTRIES_LEN entries and the first IGB_SIZES_LEN sizes: the list and the sizes, each with
 * zeros behind, or zeros alone if the text is refused. Longer buffers keep their rest.
 */
igb_groups igb_read_groups(const uint8_t *text, size_t text_len, int32_t *entries, size_t entries_len, uint8_t *sizes, size_t sizes_len);

/*
 * Puts the table of a file of groups at the start of `out` and returns its length in bytes: the first line of a table, then for each value
 * "g:k settled", "g:k dead", "g:k free" or "g:k open", each ended by LF, with no 0 behind them; after IGB_NO_MODEL the first line alone. Nothing is
 * written behind the table. If out_len is below IGB_GROUPS_TABLE_LEN nothing is written and 0 is returned; no table of groups is longer. A text that
 * is refused has the table "refused N place P".
 */
size_t igb_groups_table(const uint8_t *text, size_t text_len, uint8_t *out, size_t out_len);

/* The version of the library, as IGB_VERSION has it. */
uint32_t igb_version(void);

#ifdef __cplusplus
}
#endif

#endif

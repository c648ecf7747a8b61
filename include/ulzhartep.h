/*
 * Ulzhartep, the procedure box: its library for C and C++.
 *
 * A job is a graph of steps. People take steps in roles; some steps wait for others, and taking one makes others due, includes
 * them or excludes them. The library says whether an entry (a person, a step, a role) is allowed at a marking and what becomes of
 * the marking; it runs journals of entries, folds them into records of 65 bytes, and reads and writes jobs as sheets.
 * It also finds out whether a job can still end, and writes the sheet of one job that it knows itself, the cabinet's.
 *
 * Steps, people, roles and actions are numbered from 0. A set is a word: number s is in it where bit s is 1, UINT64_C(1) << s.
 *
 *     ulz_graph g = {0};                      in C++: ulz_graph g = {};
 *     ulz_marking m;
 *     if (ulz_read(sheet, length, &g, &m) == ULZ_ANSWERED) {
 *         ulz_entry e = {person, step, role};
 *         ulz_asked asked = ulz_ask(&g, m, e);
 *         if (asked.number == ULZ_ANSWERED)
 *             m = ulz_take(&g, m, e).marking;
 *         else
 *             puts(ulz_text(asked.number));
 *     }
 *
 * Any values may be handed over. Every call looks at all that it is given, the graph included, and answers with ULZ_ANSWERED or
 * with one of the numbers below; there is no other kind of failure.
 *
 * What a pointer lends is lent for the time of the call. Where it points to const it is only read; everything else is written
 * only if the call is answered, must not overlap anything else that is lent, and keeps its bytes beyond what is written. Bytes of
 * any number go as a pointer and their length; no pointer is null, not even with a length of 0. Nothing is allocated and nothing
 * is kept, so calls may run at the same time. No call needs more than ULZ_STACK_BYTES of its thread's stack.
 *
 * The library is for x86-64 Linux with glibc, of which it needs memcpy and memset. Link with -lulzhartep.
 */
#ifndef ULZHARTEP_H
#define ULZHARTEP_H

#include <stddef.h>
#include <stdint.h>

#ifdef __cplusplus
extern "C" {
#endif

/*
 * The version of these declarations and of the library. While the first number is 0, a new second number means that memory or
 * calls have changed, and a program has to be compiled anew; the shared library's soname has both.
 */
#define ULZ_VERSION_MAJOR 0
#define ULZ_VERSION_MINOR 5
#define ULZ_VERSION_PATCH 0

#define ULZ_JOURNAL_BYTES 65535    /* the longest journal: 21,845 entries */
#define ULZ_RECORD_BYTES 65        /* every record */
#define ULZ_SHEET_BYTES 37147      /* the longest sheet, of six bodies: 64 steps, 16 people, 64 actions, 12,288 arrows */
#define ULZ_SHEET_LEAST 57         /* the shortest sheet that is read, of five bodies: one step, person and role, no arrow */
#define ULZ_SHEET_WRITTEN_LEAST 64 /* the shortest sheet that is written, of six bodies: one action besides */
#define ULZ_MARKING_BYTES 24       /* every marking in a store: see "The end" */
#define ULZ_STORE_MOST 2048        /* the most markings that a store has place for: 49,152 bytes */
#define ULZ_STACK_BYTES 16384      /* no call takes more of a thread's stack, whatever it is given */

/*
 * The numbers, of which no call gives 19 to 21 or 23 to 29. Each call names those that it can give. It gives the lowest
 * that holds; for a journal that is the lowest of the earliest entry that is not allowed. Three calls keep another order:
 * ulz_restore asks for ULZ_NOT_APPLIED, and ulz_lap for ULZ_EMPTY_LAP, after all numbers up to ULZ_ILL_FORMED and before
 * any entry is looked at; ulz_cabinet asks for ULZ_ARMS before ULZ_ROOM.
 */
enum {
    ULZ_ANSWERED = 0,     /* nothing is against it */
    ULZ_LAYOUT = 1,       /* not laid out as a sheet: see "Sheets" */
    ULZ_COUNTS = 2,       /* steps, actions or n outside 1 to 64, people or roles outside 1 to 16 */
    ULZ_BODIES = 3,       /* the bytes of a sheet's role sets, or of its steps' actions, are not what its counts ask for */
    ULZ_BEYOND = 4,       /* a step or role at or beyond its count, in a set of the graph or in the marking of a sheet that is
                             read or written; or a step whose action is at or beyond the count of actions; or a row at or
                             beyond its count that is not 0 */
    ULZ_ARROWS = 5,       /* an arrow of the sheet is of no kind, has a step at or beyond the count, or is out of order */
    ULZ_BOTH = 6,         /* includes[a] and excludes[a] have a step in common */
    ULZ_LENGTH = 7,       /* the bytes of a journal are no multiple of 3, or more than ULZ_JOURNAL_BYTES */
    ULZ_OUTSIDE = 8,      /* a marking, other than a sheet's, has a step at or beyond the count of steps */
    ULZ_NO_RANK = 9,      /* a track's rank is outside 1 to steps */
    ULZ_ILL_FORMED = 10,  /* not a well-formed record for so many steps, or not 65 bytes: see "Records" */
    ULZ_UNKNOWN = 11,     /* the entry's person, step or role is at or beyond its count, or the person of ulz_allowed_to is */
    ULZ_NOT_HELD = 12,    /* the entry's person lacks the role */
    ULZ_NOT_ON_STEP = 13, /* the action of the entry's step cannot be taken in the role */
    ULZ_EXCLUDED = 14,    /* the entry's step is not included at present */
    ULZ_WAITS = 15,       /* the entry's step waits for steps that are not done: the set in the answer's field waiting */
    ULZ_NOT_APPLIED = 16, /* the record is never, or the marking lacks what it needs */
    ULZ_EMPTY_LAP = 17,   /* the lap has no entry */
    ULZ_ROOM = 18,        /* the room is shorter than what would be written */
    ULZ_STORE = 22,       /* the store's length is not ULZ_MARKING_BYTES times a number from 1 to ULZ_STORE_MOST */
    ULZ_ARMS = 30         /* a mast with fewer than 2 arms or with more than 16: see "The cabinet" */
};

/* A number in words, without an end of line. */
static inline const char *ulz_text(uint64_t number) {
    static const char *const texts[] = {
        "answered",
        "not laid out as a sheet",
        "a count is out of range",
        "the bodies of the sheet do not fit its counts",
        "something is named that the counts do not have",
        "an arrow of the sheet is wrong or out of order",
        "a step includes and excludes the same step",
        "the bytes of the journal are no multiple of 3, or too many",
        "the marking has a step that the graph does not have",
        "no step has this rank",
        "the record is not well-formed",
        "no such person, step or role",
        "the person does not hold this role",
        "the step's action does not have this role",
        "the step is not included",
        "the step waits for steps that are not done",
        "the record does not apply to the marking",
        "the lap is empty",
        "there is too little room",
        NULL, NULL, NULL,
        "the store is no whole number of markings from 1 to 2,048",
        NULL, NULL, NULL, NULL, NULL, NULL, NULL,
        "the number of arms is not from 2 to 16",
    };
    const char *text = number < sizeof texts / sizeof texts[0] ? texts[number] : NULL;
    return text ? text : "no number of this library";
}

/* ---- What is handed over ---- */

/* The state of a job: three sets of steps. */
typedef struct ulz_marking {
    uint64_t done;     /* has been done at least once (Ex) */
    uint64_t due;      /* has to be done once more (Re); this stays while the step is excluded */
    uint64_t included; /* takes part at present (In) */
} ulz_marking;

/* A person takes a step in a role. In a journal an entry is the same three bytes. */
typedef struct ulz_entry {
    uint8_t person; /* who */
    uint8_t step;   /* takes which step */
    uint8_t role;   /* in which role */
} ulz_entry;

/*
 * A graph. Start from zeros: rows at or beyond the counts have to be 0. No step is in includes[a] and in excludes[a]. A step may
 * stand in its own rows.
 *
 * An action is a kind of work, and a step is a place in the job where it is done. Each step has one action, and roles belong to
 * actions: those of step s are allows[labels[s]]. So steps that share an action cannot differ in their roles. In a graph made by
 * hand give such steps the same number in labels; where no two share one, actions is steps and labels[s] is s:
 *
 *     for (uint64_t s = 0; s < g.steps; s++) g.labels[s] = s;
 *
 * There may be more actions than steps, fewer, and some that no step has.
 */
typedef struct ulz_graph {
    uint64_t steps;          /* how many steps, 1 to 64 */
    uint64_t people;         /* how many people, 1 to 16 */
    uint64_t roles;          /* how many roles, 1 to 16 */
    uint64_t actions;        /* how many actions, 1 to 64 */
    uint64_t conditions[64]; /* row b: the steps that b waits for, as long as they are included and not done */
    uint64_t responses[64];  /* row a: the steps that become due when a is done */
    uint64_t includes[64];   /* row a: the steps that become included when a is done */
    uint64_t excludes[64];   /* row a: the steps that become excluded when a is done */
    uint64_t allows[64];     /* row a: the roles in which action a can be taken */
    uint64_t holds[16];      /* row p: the roles of person p */
    uint64_t labels[64];     /* row s: the action of step s, a number below actions and no set */
} ulz_graph;

/* Where a tracker is: see "The tracker". */
typedef struct ulz_track {
    ulz_marking marking; /* the state of the job */
    uint64_t rank;       /* 1 to steps; the rank of step s is s + 1 */
    uint64_t flag;       /* in an answer 1 is up and 0 is down */
} ulz_track;

/* What a journal does, whatever the marking is: see "Records". */
typedef struct ulz_record {
    uint64_t never;          /* 1 where it applies to no marking, otherwise 0 */
    uint64_t need_in;        /* have to be included */
    uint64_t need_ex;        /* have to be done */
    uint64_t need_out_or_ex; /* have to be excluded or done */
    uint64_t done;           /* become done */
    uint64_t due_set;        /* become due */
    uint64_t due_clear;      /* are due no more */
    uint64_t in_set;         /* become included */
    uint64_t in_clear;       /* become excluded */
} ulz_record;

/*
 * ---- Answers ----
 *
 * Every answer has a number, one of those above. All but five have
 *
 *     waiting   with ULZ_WAITS the set of all steps that are waited for: those of conditions[step] that are included and not done
 *               at the marking before the entry. With ULZ_WAITS it is never empty, with every other number it is 0
 *
 * To go through it: for (int s = 0; s < 64; s++) if (asked.waiting >> s & 1) printf("%d\n", s);
 *
 * With any number but ULZ_ANSWERED the other fields are 0, except that
 *
 *     with 11 to 16 the marking or track is what was handed in,
 *     with 11 to 15 ulz_run and ulz_restore give the marking before the refused entry, and its index in entries,
 *     with 11 to 15 ulz_lap gives index and pass of the refused entry.
 */

/* Of ulz_ask. */
typedef struct ulz_asked {
    uint64_t number;
    uint64_t waiting;
} ulz_asked;

/* Of ulz_allowed_to and ulz_allowed_to_someone. */
typedef struct ulz_allowed {
    uint64_t number;
    uint64_t steps; /* the set of all steps that are allowed; it may be empty */
} ulz_allowed;

/* Of ulz_finished. */
typedef struct ulz_ending {
    uint64_t number;
    uint64_t finished; /* 1 where the job is finished, otherwise 0 */
} ulz_ending;

/* Of ulz_take and ulz_apply. */
typedef struct ulz_moved {
    uint64_t number;
    uint64_t waiting;
    ulz_marking marking; /* the marking afterwards */
} ulz_moved;

/* Of ulz_keep. */
typedef struct ulz_kept {
    uint64_t number;
    uint64_t waiting;
} ulz_kept;

/* Of ulz_run and ulz_restore. */
typedef struct ulz_ran {
    uint64_t number;
    uint64_t waiting;
    uint64_t entries;    /* how many passed: all, or with 11 to 15 those before the refused one, which is its index from 0 */
    ulz_marking marking; /* the marking after those that passed */
} ulz_ran;

/* Of ulz_walk. */
typedef struct ulz_walked {
    uint64_t number;
    uint64_t ended;  /* 1 at the end, where entry is zeros; otherwise 0 */
    ulz_entry entry; /* the entry at the place */
} ulz_walked;

/* Of ulz_lap. */
typedef struct ulz_lapped {
    uint64_t number;
    uint64_t waiting;
    uint64_t verdict; /* ULZ_ACCEPTED or ULZ_STARVED where the number is 0, and 0 with every other number */
    uint64_t step;    /* with ULZ_STARVED the lowest step that starves, otherwise 0 */
    uint64_t index;   /* with 11 to 15 the index from 0 of the refused entry, in the stem or in the lap; otherwise 0 */
    uint64_t pass;    /* with 11 to 15 where that was: 0 stem, 1 first time round the lap, 2 second, 3 later; otherwise 0 */
} ulz_lapped;

enum { ULZ_ACCEPTED = 1, ULZ_STARVED = 2 };

/* Of ulz_can_end. */
typedef struct ulz_ends {
    uint64_t number;
    uint64_t verdict; /* ULZ_UNDECIDED, ULZ_NONE or ULZ_REACHABLE; 0 where the number is not 0 */
    uint64_t fewest;  /* with ULZ_REACHABLE the fewest entries that lead to the end, otherwise 0 */
    uint64_t looked;  /* how many markings were looked at; 0 where the number is not 0 */
} ulz_ends;

enum { ULZ_UNDECIDED = 1, ULZ_NONE = 2, ULZ_REACHABLE = 3 };

/* Of the tracker's calls. */
typedef struct ulz_tracked {
    uint64_t number;
    uint64_t waiting;
    ulz_track track; /* the state afterwards; with 11 to 15 the one handed in, word for word, whatever its flag */
} ulz_tracked;

/* Of ulz_write, ulz_cabinet and ulz_record_write. */
typedef struct ulz_written {
    uint64_t number;
    uint64_t length; /* how many bytes of the room were written */
} ulz_written;

/*
 * ---- Rules ----
 *
 * An entry is allowed where its person holds the role, the action of its step has the role, its step is included, and every step
 * in conditions[step] that is included has been done. Taking it leads to the marking after, all read off the marking before:
 *
 *     done       gains the step
 *     included   gains includes[step], then loses excludes[step]
 *     due        loses the step, then gains responses[step]: a step that is its own response is due again
 */

/* Is this a graph? The answer is the number alone. Numbers: 2, 4, 6. */
uint64_t ulz_check(const ulz_graph *graph);

/* Is the entry allowed? Nothing is taken, and all that is handed over stays as it is. Numbers: 2, 4, 6, 8, 11 to 15. */
ulz_asked ulz_ask(const ulz_graph *graph, ulz_marking marking, ulz_entry entry);

/*
 * The steps that are allowed to the person: step s is in the set exactly where ulz_ask allows the person to take it in some role.
 * A screen that greys out all others asks once, and not once for each step and role. The person is a number from 0; any that is
 * at or beyond the count of people is 11, also one that fits no byte. Numbers: 2, 4, 6, 8, 11.
 */
ulz_allowed ulz_allowed_to(const ulz_graph *graph, ulz_marking marking, uint64_t person);

/* The steps that are allowed to someone: those of all people together. Numbers: 2, 4, 6, 8. */
ulz_allowed ulz_allowed_to_someone(const ulz_graph *graph, ulz_marking marking);

/*
 * Takes a step: asks, and if the entry is allowed gives the marking after. What ulz_ask refuses is refused here, with the same
 * number and the same waiting, and nothing else is. Numbers: 2, 4, 6, 8, 11 to 15.
 */
ulz_moved ulz_take(const ulz_graph *graph, ulz_marking marking, ulz_entry entry);

/* Is the job finished, with no step at once due and included? Numbers: 2, 4, 6, 8. */
ulz_ending ulz_finished(const ulz_graph *graph, ulz_marking marking);

/* As ulz_take, but an allowed entry changes the marking where it lies. Numbers: 2, 4, 6, 8, 11 to 15. */
ulz_kept ulz_keep(const ulz_graph *graph, ulz_marking *marking, ulz_entry entry);

/*
 * ---- Journals ----
 *
 * A journal is bytes, three for each entry: person, step, role. It may be empty.
 */

/* Takes the entries one after the other, until one is not allowed. Numbers: 2, 4, 6, 7, 8, 11 to 15. */
ulz_ran ulz_run(const ulz_graph *graph, ulz_marking marking, const uint8_t *journal, size_t length);

/*
 * The entry at a place. A journal of k entries has them at places 0 to k - 1, and from place k on every place is its end. To walk
 * a journal, begin at 0 and add 1 until it has ended. Numbers: 7, at every place of a journal of such a length.
 */
ulz_walked ulz_walk(const uint8_t *journal, size_t length, uint64_t place);

/*
 * ---- Records ----
 *
 * A record stands for a journal: it needs of a marking what the journal needs to pass, and changes it as the journal does. It
 * applies to a marking where never is 0, all of need_in is included, all of need_ex is done, and no step of need_out_or_ex is
 * included without being done. Then
 *
 *     done       gains done
 *     due        loses due_clear and gains due_set
 *     included   loses in_clear and gains in_set
 *
 * A record is well-formed for n steps where
 *
 *     never is 0 or 1
 *     with never 1 all eight sets are empty
 *     no set has a step at or beyond n
 *     these pairs of sets have no step in common:
 *         need_in   need_out_or_ex
 *         need_ex   need_out_or_ex
 *         done      need_ex
 *         in_set    need_in
 *         in_set    in_clear
 *         due_set   due_clear
 *
 * Journals that do the same at every marking have the same record. The empty journal has the record of zeros, which changes
 * nothing. n is not stored: a record for 3 steps is one for 5 steps as well.
 *
 * Its bytes: never is byte 0, then come the eight sets in the order of ulz_record, 8 bytes each, the lowest byte first.
 *
 *     offset   0       1         9         17               25     33        41          49       57
 *     set      never   need_in   need_ex   need_out_or_ex   done   due_set   due_clear   in_set   in_clear
 */

/*
 * The record of a journal. No entry is refused here: one that no marking could allow (a number beyond the counts, a role that the
 * person or the step's action does not have, a step that the journal itself has excluded and not included since) makes the record
 * never. Numbers: 2, 4, 6, 7.
 */
uint64_t ulz_fold(const ulz_graph *graph, const uint8_t *journal, size_t length, uint8_t out[65]);

/* The record of a and then b, for n steps. Numbers: 2, 10. */
uint64_t ulz_join(uint64_t n, const uint8_t *a, size_t a_length, const uint8_t *b, size_t b_length, uint8_t out[65]);

/* What a record makes of a marking of n steps. Numbers: 2, 8, 10, 16. */
ulz_moved ulz_apply(uint64_t n, const uint8_t *record, size_t length, ulz_marking marking);

/* The record in these bytes, for n steps. Numbers: 2, 10. */
uint64_t ulz_record_read(uint64_t n, const uint8_t *bytes, size_t length, ulz_record *record);

/* Writes the 65 bytes of a record for n steps into a room of this length. Numbers: 2, 10, 18. */
ulz_written ulz_record_write(uint64_t n, const ulz_record *record, uint8_t *room, size_t length);

/*
 * Goes on from a record: applies it to the marking, then runs the rest of the journal whose beginning it stands for. The entries
 * are those of the rest. Numbers, in this order: 2, 4, 6, 7, 8, 10, then 16, then 11 to 15 of the earliest entry that is not
 * allowed. With 16 the marking is the one handed in, and entries is 0.
 */
ulz_ran ulz_restore(const ulz_graph *graph, const uint8_t *record, size_t record_length, const uint8_t *journal,
                    size_t length, ulz_marking marking);

/*
 * ---- Sheets ----
 *
 * A sheet is a graph with the marking that the job begins with, in bytes. Numbers of more than one byte have their lowest byte
 * first. There are two forms, told apart by byte 0, which is the number of bodies: both are read, and only six bodies are written.
 *
 * Six bodies. With S steps, P people, A actions and K arrows, and with B for 59 + 2 * A + 2 * P:
 *
 *     offset       bytes   what
 *     0            1       6
 *     1            5       contents of body 1: the byte 1, its offset 31 and its length 4, both in two bytes
 *     6            5       contents of body 2: 2, offset 35, length 24
 *     11           5       contents of body 3: 3, offset 59, length 2 * A
 *     16           5       contents of body 4: 4, offset 59 + 2 * A, length 2 * P
 *     21           5       contents of body 5: 5, offset B, length 3 * K
 *     26           5       contents of body 6: 6, offset B + 3 * K, length S
 *     31           4       body 1: steps, people, roles, actions
 *     35           24      body 2: done, due, included, 8 bytes each
 *     59           2 * A   body 3: the roles of each action, allows[0], allows[1], ..
 *     59 + 2 * A   2 * P   body 4: the roles of each person, holds[0], holds[1], ..
 *     B            3 * K   body 5: the arrows, each a kind, a step from and a step to
 *     B + 3 * K    S       body 6: the action of each step in one byte, labels[0], labels[1], ..
 *
 * Here the sheet ends. The kinds of arrows, and where they stand in a graph:
 *
 *     0   condition   to waits for from          conditions[to] has from: the one table whose rows belong to the arrow's end
 *     1   response    from makes to due          responses[from] has to
 *     2   include     from includes to           includes[from] has to
 *     3   exclude     from excludes to           excludes[from] has to
 *
 * Arrows stand in ascending order, by kind, then from, then to, and none stands twice. So a graph and a marking have one sheet of
 * six bodies, and one that is read and written again has the same bytes.
 *
 * Five bodies. Here roles stand with the steps, and no action is named. With S steps, P people and K arrows, and with B for
 * 53 + 2 * S + 2 * P:
 *
 *     offset       bytes   what
 *     0            1       5
 *     1            5       contents of body 1: 1, offset 26, length 3
 *     6            5       contents of body 2: 2, offset 29, length 24
 *     11           5       contents of body 3: 3, offset 53, length 2 * S
 *     16           5       contents of body 4: 4, offset 53 + 2 * S, length 2 * P
 *     21           5       contents of body 5: 5, offset B, length 3 * K
 *     26           3       body 1: steps, people, roles
 *     29           24      body 2: as above
 *     53           2 * S   body 3: the roles of each step
 *     53 + 2 * S   2 * P   body 4: as above
 *     B            3 * K   body 5: as above; here the sheet ends
 *
 * It is read as a graph in which each step is an action of its own: actions is S, labels[s] is s, and allows[s] has the roles of
 * step s.
 *
 * What differs from its form in byte 0, in a body's number or offset, in the length of body 1 or 2, in a length of body 5 that is
 * no multiple of 3, or by not ending where the last body ends, is ULZ_LAYOUT; other lengths of body 3, 4 or 6 are ULZ_BODIES. Too
 * few bytes for contents and counts (fewer than 35 with six bodies, 29 with five) and too many (more than ULZ_SHEET_BYTES with
 * six, 37,077 with five) are ULZ_LAYOUT without a look at the contents. From 35 or 29 bytes on they are looked at, but none under
 * ULZ_SHEET_WRITTEN_LEAST with six bodies, or under ULZ_SHEET_LEAST with five, is a sheet.
 */

/*
 * Reads a sheet, of six bodies or of five. Graph and marking are written whole, the rows beyond the counts with 0; with any
 * number but ULZ_ANSWERED both stay as they were. Numbers: 1 to 6.
 */
uint64_t ulz_read(const uint8_t *sheet, size_t length, ulz_graph *graph, ulz_marking *marking);

/* Writes a sheet of six bodies into a room of this length; ULZ_SHEET_BYTES are always enough. Numbers: 2, 4, 6, 18. */
ulz_written ulz_write(const ulz_graph *graph, ulz_marking marking, uint8_t *room, size_t length);

/*
 * ---- The cabinet ----
 *
 * One job need not be made by hand: that of the cabinet at a mast with 2 to 16 arms. Arm 1 is the lowest. There are
 * arms + 2 steps, each an action of its own, and two people: person 0 holds role 0, climber, and person 1 role 1, desk.
 *
 *     step       what          taken by                      doing it
 *     0          reboot        0 in role 0, or 1 in role 1   makes every check due; includes step 1; excludes all other
 *                                                            checks, and publishing
 *     k          check arm k   0 in role 0                   excludes step k; includes step k + 1, which is the next
 *                                                            check, or publishing where arm k is the highest
 *     arms + 1   publish       1 in role 1                   changes nothing but that it is done
 *
 * k is 1 to arms. A job begins with nothing done, every check due, and steps 0 and 1 included. No step waits for another:
 * one whose turn has not come is excluded, and whoever takes it is refused with ULZ_EXCLUDED, if not with a lower number.
 *
 * So the climber goes up from arm to arm and checks each once; a reboot, which may come at any time, sends the climber back
 * to the ground. From the last check until the next reboot the job is finished, and the desk can publish, as often as it
 * likes. At no other time is it finished, and at no other time can anybody publish.
 *
 *     uint8_t sheet[312];
 *     ulz_written written = ulz_cabinet(arms, sheet, sizeof sheet);
 *     if (written.number == ULZ_ANSWERED && ulz_read(sheet, written.length, &g, &m) == ULZ_ANSWERED)
 *         puts("a job to begin with");
 */

/*
 * Writes the sheet of the cabinet's job into a room of this length. It has six bodies, as every sheet that is written, and
 * 72 + 15 * arms bytes: 102 with 2 arms, 312 with 16. Numbers, in this order: 30, 18. So with too few arms or too many the
 * room may have any length, 0 as well; and with any number but ULZ_ANSWERED it stays as it was.
 */
ulz_written ulz_cabinet(uint64_t arms, uint8_t *room, size_t length);

/*
 * ---- Laps ----
 *
 * What comes of a stem and then a lap that is repeated for ever? ULZ_STARVED: after some time a step is due and included all along
 * and is never done again. ULZ_ACCEPTED: there is no such step; whatever is due is done, or is found excluded, then or later. Or
 * some entry is not allowed, perhaps only when the lap is repeated.
 */

/*
 * Judges a stem and a lap. The stem may be empty. Numbers, in this order: 2, 4, 6, 7 (of either journal), 8, then 17, then 11 to 15
 * of the earliest entry that is not allowed.
 */
ulz_lapped ulz_lap(const ulz_graph *graph, ulz_marking marking, const uint8_t *stem, size_t stem_length,
                   const uint8_t *lap, size_t lap_length);

/*
 * ---- The end ----
 *
 * Can a job still end? When a graph has been rewritten, or a role taken away from people, a job may stand at a marking
 * from which nothing that anybody is allowed to do makes it finished. ulz_can_end searches for the shortest way to the
 * end, or finds that there is none.
 *
 * It keeps the markings that it finds in a store, bytes that the caller lends: ULZ_MARKING_BYTES for each, laid out as
 * in body 2 of a sheet, which is done, due, included in 8 bytes each, the lowest byte first. These are also the bytes
 * of an ulz_marking, so that memcpy takes one out. A store has place for 1 to ULZ_STORE_MOST markings. It may lie at
 * any address and hold anything before the call.
 *
 * The marking that is handed over is the first that is found. Then each marking has its turn, in the order of finding,
 * and that is what "looked at" means:
 *
 *     is it finished?   Then the search is over, ULZ_REACHABLE, and the steps of this marking are not tried.
 *     if not            Every step that ulz_allowed_to_someone gives there is tried, the lowest first. It leads to one
 *                       marking, whoever takes it and in whatever role. One that is in the store already is passed
 *                       over. A new one is put behind the others, and where there is no place left for it the search
 *                       is over at once, ULZ_UNDECIDED.
 *
 * If every marking found has had its turn, the search is over too, ULZ_NONE. What the verdicts say:
 *
 *     ULZ_REACHABLE     The shortest journal that is allowed from here on and leaves the job finished has fewest
 *                       entries; that is 0 where the job is finished already. It ends at the marking looked at last,
 *                       which is at place looked - 1 of the store, counted from 0.
 *     ULZ_NONE          No journal that is allowed from here on, however long, leaves the job finished. The store has
 *                       all markings that can still come about; their number is looked.
 *     ULZ_UNDECIDED     The store is full, and nothing is known of the end: there may even be a finished marking in it
 *                       whose turn had not come. Lend a larger store and ask again. If this one is of the largest
 *                       kind, ask once more when the job has gone on.
 *
 * All three are answers, with the number ULZ_ANSWERED, and each of them writes to the store. Behind the markings found
 * the store keeps its bytes. With ULZ_REACHABLE it may have more markings than were looked at, and the answer does not
 * say how many.
 *
 *     static uint8_t store[ULZ_STORE_MOST * ULZ_MARKING_BYTES];
 *     ulz_ends ends = ulz_can_end(&g, m, store, sizeof store);
 *     if (ends.number == ULZ_ANSWERED && ends.verdict == ULZ_NONE)
 *         puts("whatever is done from now on, this job does not end");
 */

/*
 * Can the job still end, from this marking on? The store's length is in bytes, ULZ_MARKING_BYTES times the markings
 * that it has place for. With any number but ULZ_ANSWERED nothing has been looked at, and the store stays as it was.
 * Numbers: 2, 4, 6, 8, 22.
 */
ulz_ends ulz_can_end(const ulz_graph *graph, ulz_marking marking, uint8_t *store, size_t length);

/*
 * ---- The tracker ----
 *
 * It goes along with a job and raises its flag whenever the pending step whose turn it is has been seen to, so that in a job
 * without end none is passed over for ever. A step is pending where it is due and included.
 *
 *     start   the rank is 1; the flag is 1 where nothing is pending
 *     idle    marking and rank stay; the flag is 1 where nothing is pending
 *     step    one of the steps that were pending before has its turn: the lowest whose rank is above the track's rank, or the
 *             lowest of all if none is above. If it is the step that is taken, or is pending no more afterwards, then the rank
 *             becomes its rank and the flag is 1. If not, or if nothing was pending before, the rank stays, and the flag is 1
 *             where nothing is pending afterwards
 *
 * In all other cases the flag is 0. The flag that is handed in may have any value and counts for nothing.
 */

/* The tracker at the beginning of a job. Numbers: 2, 4, 6, 8. */
ulz_tracked ulz_track_start(const ulz_graph *graph, ulz_marking marking);

/* A while in which nothing is done. Numbers: 2, 4, 6, 8, 9. */
ulz_tracked ulz_track_idle(const ulz_graph *graph, ulz_track track);

/* Takes a step at the track's marking, and the tracker goes along. Numbers: 2, 4, 6, 8, 9, 11 to 15. */
ulz_tracked ulz_track_step(const ulz_graph *graph, ulz_track track, ulz_entry entry);

#ifdef __cplusplus
}
#endif

#endif

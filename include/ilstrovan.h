/*
 * Ilstrovan: equilibrium assignment of trips to a road network.
 *
 * Nine calls over study files in memory, and flow tables and a note that the
 * caller lends. Every number they return or write is proved to be the one that
 * documents 01 and 02 define, for any bytes, any table, any note and any
 * numbers. Link with target/staticlib/libinterface.a, which
 * `.ci/run` makes of crates/interface_c for x86-64 Linux; it needs only the C
 * library.
 *
 * Returned by every call
 *   0 where the call is accepted, otherwise the number of the first question
 *   that refuses (ilstrovan_refusal below). A refused call writes 0 to each
 *   number of `answer` and leaves the tables, the output, the page and the note
 *   as they were. A refused desk of ilstrovan_desks has a number of its own in
 *   `answer`; the call is accepted all the same.
 *
 * Memory
 *   Everything belongs to the caller: nothing is allocated, kept or freed, and
 *   no pointer is used after the call returns. A pointer is never NULL, not
 *   even with a length of 0 or at a seat without a desk, is aligned for its
 *   type, and points to as many elements as the length after it says. What a
 *   call writes (output, table, page, answer, the note of a pass) overlaps
 *   nothing else that the call is handed, and no other thread touches it
 *   meanwhile; what a call only reads may be shared, so that seats may have the
 *   same file, but not the same table. Calls on separate memory may run in any
 *   number of threads.
 *
 * Stack
 *   A call needs at most 512 KiB of stack.
 *
 * Versions
 *   A study file has version 1, 2, 3 or 4. Version 2 has a header of 40 bytes,
 *   not 32, and a fourth section, one byte a node: 1 where the node is closed,
 *   0 where it is open. A link into a closed node carries flow to that node
 *   only, so no path leads through it; trips may begin and end there. In
 *   version 1 every node is open. Version 3 is version 2 with links of 12
 *   bytes, not 10: the sixth number of a link is its power q, 1 to 4. Its time
 *   at step r, a 64th of its capacity each, is its free time and rise * r^q /
 *   64^q, rounded down. In versions 1 and 2 every link has power 4. Version 4
 *   is version 3 with a header of 56 bytes and two sections more: the trips of
 *   lorries, laid out as those of cars and counted in car units, and one byte
 *   a link, 1 where lorries are barred, 0 where they are not. Lorries keep off
 *   barred links. Both classes share the link times, which go by their flow
 *   together, and so do gap, cost, page and all totals. Before version 4 there
 *   are cars only.
 *
 * Parameters
 *   file, file_length      The study file and its length in bytes.
 *   table, table_length    The flow table and how many numbers it holds, at
 *                          least destinations times links, in version 4 twice
 *                          as many: 32768 are enough for any study. The flow of
 *                          cars to the destination at position k over link l
 *                          stands at k * links + l, and in version 4 that of
 *                          lorries at (destinations + k) * links + l, in parts
 *                          of a trip: with share W one trip is W parts. Later
 *                          numbers are never written.
 *   output, output_length  Room for a packed study, in bytes. Later bytes are
 *                          never written.
 *   page, page_length      Room for a page, in bytes, at least 30 times links.
 *                          Later bytes are never written.
 *   note, note_length      The note of a move and how many numbers it holds, at
 *                          least 1 + destinations * nodes, in version 4
 *                          1 + 2 * destinations * nodes: 8193 are enough for
 *                          any study. First stands j, how many loadings the
 *                          move added, then the next link of each node: for
 *                          cars that of node v to the destination at position k
 *                          at 1 + k * nodes + v, in version 4 for lorries at
 *                          1 + (destinations + k) * nodes + v, 65535 for none,
 *                          as at the destination itself and at a node without a
 *                          path. A doubling has j = 0 and 65535 throughout.
 *                          Later numbers are never written.
 *   share                  The share W of the table, 1 to 1024.
 *   budget                 The most tables a run judges, 1 to 1024.
 *   excess                 The excess at which a run ends, 0 to 65535
 *                          hundredths of a minute a trip.
 *   desks                  How many desks there are, 1 to 8. They sit at the
 *                          first seats; the seats after them have no desk.
 *   allowance              The most turns of all desks together, 1 to 8192.
 *   budgets, excesses      The budget and the excess of each seat.
 *   answer                 Receives the numbers of the answer, always all.
 *
 * Times are hundredths of a minute. Gap and cost are as document 01 has them:
 * for a table of share W the gap is W times the total time above least times,
 * and the cost 64 times W times the area under the link times. A link is over
 * where its total flow is at least four times its capacity: it has then run
 * onto the level part of its curve.
 */
#ifndef ILSTROVAN_H
#define ILSTROVAN_H

#include <stddef.h>
#include <stdint.h>

#ifdef __cplusplus
extern "C" {
#endif

/* The numbers of refusals, which are those of the questions of documents 01
   and 02. */
enum ilstrovan_refusal {
    ILSTROVAN_ACCEPTED = 0,
    /* The file is shorter than 32 bytes or longer than 65536. */
    ILSTROVAN_FILE_LENGTH = 1,
    /* The version is not 1, 2, 3 or 4. */
    ILSTROVAN_VERSION = 2,
    /* Nodes are not 2 to 128, links 1 to 512 or destinations 1 to 32, or there
       are more destinations than nodes. */
    ILSTROVAN_COUNTS = 3,
    /* A section begins within the header, before the end of the section before
       it, or ends after the file; or the file is shorter than its version's
       header, 32 bytes, in versions 2 and 3 40 and in version 4 56. */
    ILSTROVAN_SECTIONS = 4,
    /* A section's length is not 10 bytes a link, from version 3 on 12, 2 a
       destination, 2 a destination and node, from version 2 on 1 a node or, in
       version 4, again 2 a destination and node, and 1 a link. */
    ILSTROVAN_SECTION_LENGTHS = 5,
    /* A link's tail or head is no node, or they are the same. */
    ILSTROVAN_LINK_ENDS = 6,
    /* A link's free time is not 1 to 16383, its rise is above 16383, its
       capacity is 0, or its power is not 1 to 4. */
    ILSTROVAN_LINK_NUMBERS = 7,
    /* A destination is no node, or the destinations do not ascend strictly. */
    ILSTROVAN_DESTINATIONS = 8,
    /* A destination has trips of cars or of lorries to itself. */
    ILSTROVAN_TRIPS_TO_SELF = 9,
    /* There are more than 65535 trips in all, cars and lorries together. */
    ILSTROVAN_TOTAL_TRIPS = 10,
    /* A node has trips to a destination to which it has no path that leads
       through no closed node and, for lorries, over no barred link. */
    ILSTROVAN_UNREACHABLE = 11,
    /* The table holds fewer than destinations times links numbers, or the note
       fewer than 1 + destinations times nodes; in version 4, twice each
       product. */
    ILSTROVAN_TABLE_LENGTH = 12,
    /* The budget is not 1 to 1024. */
    ILSTROVAN_BUDGET = 13,
    /* The share is not 1 to 1024. */
    ILSTROVAN_SHARE = 14,
    /* A link's total flow, cars and lorries, is above share times trips. */
    ILSTROVAN_TOTAL_FLOW = 15,
    /* The table does not conserve: at some node the flow out, of cars or of
       lorries, is not the flow in and the trips that begin there. */
    ILSTROVAN_CONSERVATION = 16,
    /* The output is shorter than the packed study. */
    ILSTROVAN_OUTPUT_LENGTH = 17,
    /* The page is shorter than 30 bytes a link. */
    ILSTROVAN_PAGE_LENGTH = 18,
    /* A node's closed byte is neither 0 nor 1. Asked after 8. */
    ILSTROVAN_CLOSED_BYTES = 19,
    /* The table has flow on a link into a closed node that is not flow to that
       node, or lorries on a barred link. Asked after 16. */
    ILSTROVAN_CLOSED_FLOW = 20,
    /* The note, with j above 0, does not lead from some node with trips to the
       destination within as many links as there are nodes, each of them a link
       out of the node it stands at, none into a closed node that is not the
       destination and, for lorries, none barred. Asked after 20. */
    ILSTROVAN_NOTED_PATHS = 21,
    /* The note's j is not below the share, the table has less flow somewhere
       than j times the note's loading, or, with j = 0, the share or a flow is
       odd. Asked after 21. */
    ILSTROVAN_NOTED_FLOW = 22,
    /* A link's barred byte is neither 0 nor 1. Asked after 19 and before 9. */
    ILSTROVAN_BARRED_BYTES = 23,
    /* The desks are not 1 to 8. Asked before all others. */
    ILSTROVAN_DESKS = 24,
    /* The allowance is not 1 to 8192. Asked after 24. */
    ILSTROVAN_ALLOWANCE = 25
};

/* What a pass did: answer[0] of ilstrovan_pass. A refused pass has 0. */
enum ilstrovan_outcome {
    ILSTROVAN_MOVED = 1,         /* it moved the table */
    ILSTROVAN_PASS_FINEST = 2    /* there is no move; the table and the note are
                                    as they were */
};

/* How a run ended: answer[0] of ilstrovan_run, and the second number of each
   desk of ilstrovan_desks. A refused run has 0. */
enum ilstrovan_ending {
    ILSTROVAN_REACHED = 1,       /* the gap is within the excess */
    ILSTROVAN_RUN_FINEST = 2,    /* there is no move from the last table */
    ILSTROVAN_SPENT = 3,         /* the budget is used up */
    ILSTROVAN_WAITING = 4        /* the allowance ended first; of desks only */
};

/* Is the file an acceptable study? Refusals 1 to 8, then 19, then 23, then 9 to
   11. */
uint8_t ilstrovan_check(const uint8_t *file, size_t file_length);

/* Writes the study to `output` in its own version with no gaps, its sections in
   order from the end of the header: in version 1
   32 + 10 * links + 2 * destinations * (1 + nodes) bytes, in version 2 8 bytes
   and a byte a node more, in version 3 also 2 bytes a link more, in version 4
   also 16 + 2 * destinations * nodes + links bytes more. Refusals as check,
   then 17. */
uint8_t ilstrovan_pack(const uint8_t *file, size_t file_length,
                       uint8_t *output, size_t output_length);

/* Writes the loading at empty roads to `table`, whatever it held; its share is
   1. Refusals as check, then 12. */
uint8_t ilstrovan_start(const uint8_t *file, size_t file_length,
                        uint32_t *table, size_t table_length);

/* Judges `table` and moves it towards least times: adds j loadings to it and j
   to its share, or doubles both. Writes the outcome (ilstrovan_outcome), the
   gap and the cost of the judged table, the share of the table as it is now,
   and how many links of the judged table are over; and to `note` the move, for
   ilstrovan_take_back. Where there is no move the note is as it was. Refusals
   as start, 12 of the note too, then 14 to 16, then 20. */
uint8_t ilstrovan_pass(const uint8_t *file, size_t file_length,
                       uint32_t *table, size_t table_length,
                       uint32_t share, uint16_t *note, size_t note_length,
                       uint64_t answer[5]);

/* Takes a move back out of `table`: lessens the table by j times the loading
   along the note's links, and the share by j; or, with j = 0, halves both and
   reads no link of the note. Writes the share of the table as it is now.
   Directly after a pass that moved, with the file, the table, the share and the
   note as that pass left them, this restores exactly the table and the share
   that it judged; but the note may be anybody's. Refusals as pass, then 21,
   then 22. */
uint8_t ilstrovan_take_back(const uint8_t *file, size_t file_length,
                            uint32_t *table, size_t table_length,
                            uint32_t share, const uint16_t *note,
                            size_t note_length, uint64_t answer[1]);

/* Starts, then judges and moves until the gap is at most excess times share
   times trips, there is no move, or the budget is used up. `table` then holds
   the last judged table, whatever it held before. Writes the ending
   (ilstrovan_ending), how many tables were judged, and the share, the gap, the
   cost and how many links are over of the last. Refusals as start, then 13. */
uint8_t ilstrovan_run(const uint8_t *file, size_t file_length,
                      uint32_t *table, size_t table_length,
                      uint32_t budget, uint16_t excess, uint64_t answer[6]);

/* Writes the gap and the cost of `table`, whoever made it, and how many of its
   links are over, and changes nothing else. Refusals as start, then 14 to 16,
   then 20. */
uint8_t ilstrovan_audit(const uint8_t *file, size_t file_length,
                        const uint32_t *table, size_t table_length,
                        uint32_t share, uint64_t answer[3]);

/* Writes the page of `table`, whoever made it: 30 bytes for each link, in link
   order, such as "  0   0   1     1.77     0.15" and a line feed. Columns 1 to
   3 hold the link, 5 to 7 its tail, 9 to 11 its head, 13 to 20 its volume,
   which is its total flow in trips, rounded down to hundredths, and 22 to 29
   its time in minutes, each right-aligned; all else is spaces. Refusals as
   audit, then 18. */
uint8_t ilstrovan_page(const uint8_t *file, size_t file_length,
                       const uint32_t *table, size_t table_length,
                       uint32_t share, uint8_t *page, size_t page_length);

/* Runs up to eight desks, each with a file, a table, a budget and an excess of
   its own. Turns go round the unfinished desks in seat order, one judged table
   each, until all have ended or the allowance is used up. A desk that ended
   holds in its table what ilstrovan_run with its budget would leave there, and
   in its numbers what that would answer. A desk that the allowance cut off
   after k turns is waiting, and otherwise holds what a run of budget k would;
   with no turn it has its table as started, share 1, and judged, gap, cost and
   over 0.

   Writes how many turns there were, and then for each seat from 0 to 7 seven
   numbers, those of seat k from answer[1 + 7 * k] on: its refusal, its ending
   (ilstrovan_ending), how many tables were judged, and the share, the gap, the
   cost and how many links are over of the last. Refusals of a desk as run: it
   takes no turn, has 0 in its other numbers, and its table is as it was. A seat
   without a desk has 0 throughout, whatever it is lent, and a table lent there
   is as it was. Refusals of the whole call: 24, then 25. */
uint8_t ilstrovan_desks(const uint8_t *file_0, size_t file_0_length,
                        uint32_t *table_0, size_t table_0_length,
                        const uint8_t *file_1, size_t file_1_length,
                        uint32_t *table_1, size_t table_1_length,
                        const uint8_t *file_2, size_t file_2_length,
                        uint32_t *table_2, size_t table_2_length,
                        const uint8_t *file_3, size_t file_3_length,
                        uint32_t *table_3, size_t table_3_length,
                        const uint8_t *file_4, size_t file_4_length,
                        uint32_t *table_4, size_t table_4_length,
                        const uint8_t *file_5, size_t file_5_length,
                        uint32_t *table_5, size_t table_5_length,
                        const uint8_t *file_6, size_t file_6_length,
                        uint32_t *table_6, size_t table_6_length,
                        const uint8_t *file_7, size_t file_7_length,
                        uint32_t *table_7, size_t table_7_length,
                        uint32_t desks, uint32_t allowance,
                        const uint32_t budgets[8], const uint16_t excesses[8],
                        uint64_t answer[57]);

/* What a seat is lent. A seat without a desk may have lengths of 0, but no
   pointer is NULL. */
struct ilstrovan_seat {
    const uint8_t *file;
    size_t file_length;
    uint32_t *table;
    size_t table_length;
};

/* ilstrovan_desks with the eight seats in an array. */
static inline uint8_t ilstrovan_desks_at(const struct ilstrovan_seat seats[8],
                                         uint32_t desks, uint32_t allowance,
                                         const uint32_t budgets[8],
                                         const uint16_t excesses[8],
                                         uint64_t answer[57])
{
    return ilstrovan_desks(
        seats[0].file, seats[0].file_length,
        seats[0].table, seats[0].table_length,
        seats[1].file, seats[1].file_length,
        seats[1].table, seats[1].table_length,
        seats[2].file, seats[2].file_length,
        seats[2].table, seats[2].table_length,
        seats[3].file, seats[3].file_length,
        seats[3].table, seats[3].table_length,
        seats[4].file, seats[4].file_length,
        seats[4].table, seats[4].table_length,
        seats[5].file, seats[5].file_length,
        seats[5].table, seats[5].table_length,
        seats[6].file, seats[6].file_length,
        seats[6].table, seats[6].table_length,
        seats[7].file, seats[7].file_length,
        seats[7].table, seats[7].table_length,
        desks, allowance, budgets, excesses, answer);
}

#ifdef __cplusplus
}
#endif

#endif

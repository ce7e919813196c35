/* The town of two roads, the town with a zone, the town with powers, the town
   with lorries, and desks with all of them, from C: every call, accepted and
   refused. */
#include "ilstrovan.h"

#include <stdio.h>
#include <string.h>

static const uint8_t town[58] = {
    1, 0, 2, 0, 2, 0, 1, 0,                                      /* version, n, m, p */
    32, 0, 0, 0, 20, 0, 0, 0, 52, 0, 0, 0, 2, 0, 0, 0, 54, 0, 0, 0, 4, 0, 0, 0,
    0, 0, 1, 0, 10, 0, 10, 0, 2, 0, 0, 0, 1, 0, 15, 0, 0, 0, 1, 0, /* links */
    1, 0,                                                        /* destination */
    2, 0, 0, 0                                                   /* trips */
};

/* Version 2, with node 1 closed. */
static const uint8_t zone[94] = {
    2, 0, 4, 0, 4, 0, 1, 0,                                      /* version, n, m, p */
    40, 0, 0, 0, 40, 0, 0, 0, 80, 0, 0, 0, 2, 0, 0, 0,
    82, 0, 0, 0, 8, 0, 0, 0, 90, 0, 0, 0, 4, 0, 0, 0,
    0, 0, 1, 0, 5, 0, 20, 0, 2, 0, 1, 0, 2, 0, 5, 0, 0, 0, 1, 0,  /* links */
    0, 0, 3, 0, 10, 0, 0, 0, 1, 0, 3, 0, 2, 0, 10, 0, 0, 0, 1, 0,
    2, 0,                                                        /* destination */
    2, 0, 1, 0, 0, 0, 0, 0,                                      /* trips */
    0, 1, 0, 0                                                   /* closed */
};

/* Version 3: the town of two roads, with power 2 on link 0 and 4 on link 1. */
static const uint8_t curved[72] = {
    3, 0, 2, 0, 2, 0, 1, 0,                                      /* version, n, m, p */
    40, 0, 0, 0, 24, 0, 0, 0, 64, 0, 0, 0, 2, 0, 0, 0,
    66, 0, 0, 0, 4, 0, 0, 0, 70, 0, 0, 0, 2, 0, 0, 0,
    0, 0, 1, 0, 10, 0, 10, 0, 2, 0, 2, 0,                        /* links */
    0, 0, 1, 0, 15, 0, 0, 0, 1, 0, 4, 0,
    1, 0,                                                        /* destination */
    2, 0, 0, 0,                                                  /* trips */
    0, 0                                                         /* closed */
};

/* Where its first power stands. */
enum { CURVED_POWER = 50 };

/* Version 4: the town of two roads with a lorry, and link 0 barred to lorries. */
static const uint8_t freight[94] = {
    4, 0, 2, 0, 2, 0, 1, 0,                                      /* version, n, m, p */
    56, 0, 0, 0, 24, 0, 0, 0, 80, 0, 0, 0, 2, 0, 0, 0,
    82, 0, 0, 0, 4, 0, 0, 0, 86, 0, 0, 0, 2, 0, 0, 0,
    88, 0, 0, 0, 4, 0, 0, 0, 92, 0, 0, 0, 2, 0, 0, 0,
    0, 0, 1, 0, 10, 0, 10, 0, 2, 0, 4, 0,                        /* links */
    0, 0, 1, 0, 15, 0, 0, 0, 1, 0, 4, 0,
    1, 0,                                                        /* destination */
    2, 0, 0, 0,                                                  /* trips */
    0, 0,                                                        /* closed */
    1, 0, 0, 0,                                                  /* lorry trips */
    1, 0                                                         /* barred */
};

/* Where the lorry trips from node 1, to itself, and its first barred byte stand. */
enum { FREIGHT_OWN_TRIPS = 90, FREIGHT_BARRED = 92 };

/* Where the zone's closed byte and the destination's own trips stand. */
enum { ZONE_CLOSED = 91, ZONE_OWN_TRIPS = 86 };

/* Where the town's trips from node 0 stand. */
enum { TOWN_TRIPS = 54 };

/* The page of flows 16 and 2 at share 9. */
static const char lines[] =
    "  0   0   1     1.77     0.15\n"
    "  1   0   1     0.22     0.15\n";

static void show(const char *name, unsigned refusal, const uint64_t *answer, size_t count)
{
    printf("%s %u", name, refusal);
    for (size_t i = 0; i < count; i++)
        printf(" %llu", (unsigned long long)answer[i]);
    printf("\n");
}

static void show_numbers(const uint32_t *table, size_t count)
{
    printf("table");
    for (size_t i = 0; i < count; i++)
        printf(" %u", (unsigned)table[i]);
    printf("\n");
}

static void show_table(const uint32_t *table)
{
    show_numbers(table, 3);
}

static void show_note(const uint16_t *note, size_t count)
{
    printf("note");
    for (size_t i = 0; i < count; i++)
        printf(" %u", (unsigned)note[i]);
    printf("\n");
}

/* Shows whether the lines are there, from byte 2 on, and how many of the 64
   bytes are blank. */
static void show_page(const uint8_t *page)
{
    unsigned blank = 0;
    for (size_t i = 0; i < 64; i++)
        blank += page[i] == 0xEE;
    printf("same %d, blank %u, around it %u %u %u %u\n", memcmp(page + 2, lines, 60) == 0, blank,
           (unsigned)page[0], (unsigned)page[1], (unsigned)page[62], (unsigned)page[63]);
}

/* Start, and an audit of its table. */
static void start_and_audit(const uint8_t *file, size_t length, uint32_t *table)
{
    uint64_t audited[3];
    show("start", ilstrovan_start(file, length, table, 5), NULL, 0);
    show_numbers(table, 5);
    show("audit", ilstrovan_audit(file, length, table, 4, 1, audited), audited, 3);
}

/* A table that no call accepts, and what is left of it, of a page and of a
   note. */
static void refuse(const uint8_t *file, size_t length, uint32_t *table)
{
    uint8_t page[120];
    uint16_t note[6] = {6, 5, 4, 3, 2, 1};
    uint64_t passed[5] = {1, 2, 3, 4, 5}, audited[3] = {6, 7, 8}, taken[1] = {9};
    unsigned blank = 0;
    memset(page, 0xEE, sizeof page);
    show("audit", ilstrovan_audit(file, length, table, 4, 1, audited), audited, 3);
    show("pass", ilstrovan_pass(file, length, table, 4, 1, note, 5, passed), passed, 5);
    show("take back", ilstrovan_take_back(file, length, table, 4, 1, note, 5, taken), taken, 1);
    show("page", ilstrovan_page(file, length, table, 4, 1, page, sizeof page), NULL, 0);
    show("page", ilstrovan_page(file, length, table, 4, 1, page, 29), NULL, 0);
    for (size_t i = 0; i < sizeof page; i++)
        blank += page[i] == 0xEE;
    show_numbers(table, 5);
    show_note(note, 6);
    printf("blank %u\n", blank);
}

static void town_with_a_zone(void)
{
    uint8_t other[sizeof zone], output[96];
    uint32_t table[5] = {9, 9, 9, 9, 9};
    uint32_t through[5] = {2, 3, 0, 0, 9}, lost[5] = {2, 2, 0, 0, 9};
    uint64_t ended[6];

    show("check", ilstrovan_check(zone, sizeof zone), NULL, 0);
    for (size_t length = 31; length <= 41; length++)
        show("check", ilstrovan_check(zone, length), NULL, 0);

    start_and_audit(zone, sizeof zone, table);
    memcpy(other, zone, sizeof zone);
    other[ZONE_CLOSED] = 0;
    start_and_audit(other, sizeof other, table);
    refuse(zone, sizeof zone, through);
    refuse(zone, sizeof zone, lost);
    show("run", ilstrovan_run(zone, sizeof zone, table, 5, 10, 0, ended), ended, 6);
    show_numbers(table, 5);

    /* A closed byte of 2, which is asked about before trips to itself. */
    other[ZONE_CLOSED] = 2;
    show("check", ilstrovan_check(other, sizeof other), NULL, 0);
    show("start", ilstrovan_start(other, sizeof other, table, 5), NULL, 0);
    other[ZONE_OWN_TRIPS] = 1;
    show("check", ilstrovan_check(other, sizeof other), NULL, 0);
    other[ZONE_CLOSED] = 1;
    show("check", ilstrovan_check(other, sizeof other), NULL, 0);

    /* Links 0 and 1 alone, with the zone closed and open. */
    memcpy(other, zone, sizeof zone);
    other[4] = 2;
    other[12] = 20;
    show("check", ilstrovan_check(other, sizeof other), NULL, 0);
    other[ZONE_CLOSED] = 0;
    show("check", ilstrovan_check(other, sizeof other), NULL, 0);

    memset(output, 0xEE, sizeof output);
    show("pack", ilstrovan_pack(zone, sizeof zone, output, 93), NULL, 0);
    printf("first %u\n", (unsigned)output[0]);
    show("pack", ilstrovan_pack(zone, sizeof zone, output, 94), NULL, 0);
    printf("same %d, after it %u %u\n", memcmp(output, zone, sizeof zone) == 0,
           (unsigned)output[94], (unsigned)output[95]);
}

/* Eight trips on a road of capacity 2, four times as many as it has room for:
   the road is over, also in what the pass answers of the table before its move. */
static void busy_town(void)
{
    uint8_t busy[sizeof town];
    uint32_t table[3] = {8, 0, 9};
    uint16_t note[4] = {6, 5, 4, 3};
    uint64_t passed[5], ended[6], audited[3];

    memcpy(busy, town, sizeof town);
    busy[TOWN_TRIPS] = 8;
    show("audit", ilstrovan_audit(busy, sizeof busy, table, 3, 1, audited), audited, 3);
    show("pass", ilstrovan_pass(busy, sizeof busy, table, 3, 1, note, 4, passed), passed, 5);
    show_table(table);
    show_note(note, 4);
    show("run", ilstrovan_run(busy, sizeof busy, table, 3, 1, 0, ended), ended, 6);
    show_table(table);
}

/* A pass of a table of the town at a share, and the move taken back, twice: the
   second time there is nothing left to take back. */
static void move_and_back(uint32_t flow, uint32_t share)
{
    uint32_t table[3] = {flow, 0, 9};
    uint16_t note[4] = {6, 5, 4, 3};
    uint64_t passed[5], taken[1];

    show("pass", ilstrovan_pass(town, sizeof town, table, 2, share, note, 4, passed), passed, 5);
    show_table(table);
    show_note(note, 4);
    share = (uint32_t)passed[3];
    for (int turn = 0; turn < 2; turn++) {
        show("take back", ilstrovan_take_back(town, sizeof town, table, 2, share, note, 3, taken),
             taken, 1);
        show_table(table);
        show_note(note, 4);
        share = (uint32_t)taken[0];
    }
}

/* A note that somebody else wrote. */
static void take_back_by(uint32_t *table, uint32_t share, uint16_t j, uint16_t link, size_t length)
{
    uint16_t note[3] = {j, link, 65535};
    uint64_t taken[1] = {9};
    show("take back", ilstrovan_take_back(town, sizeof town, table, 3, share, note, length, taken),
         taken, 1);
    show_table(table);
    show_note(note, 3);
}

/* Moves of the town taken back, and the refusals of a note. */
static void taking_back(void)
{
    uint32_t table[3] = {16, 2, 9}, odd[3] = {17, 3, 9};
    uint16_t note[4] = {6, 5, 4, 3};
    uint64_t passed[5];

    move_and_back(16, 8);
    move_and_back(2, 1);

    /* A note that is too short, for a share of 0 too. */
    show("pass", ilstrovan_pass(town, sizeof town, table, 3, 9, note, 2, passed), passed, 5);
    show("pass", ilstrovan_pass(town, sizeof town, table, 3, 0, note, 0, passed), passed, 5);
    show_table(table);
    show_note(note, 4);
    take_back_by(table, 9, 1, 1, 2);
    take_back_by(table, 0, 1, 1, 0);
    /* No link, and a link that there is not. */
    take_back_by(table, 9, 1, 65535, 3);
    take_back_by(table, 9, 9, 2, 3);
    /* As many loadings as the share, more than the table holds, and odd numbers. */
    take_back_by(table, 9, 9, 0, 3);
    take_back_by(table, 9, 2, 1, 3);
    take_back_by(table, 9, 0, 65535, 3);
    take_back_by(odd, 10, 0, 65535, 3);
    /* A note that another pass could have left. */
    take_back_by(table, 9, 8, 0, 3);
}

/* Every power from 0 to 5 on link 0. */
static void town_with_powers(void)
{
    uint8_t file[sizeof curved], output[sizeof curved + 1];
    uint32_t table[3] = {16, 2, 9};
    uint16_t note[3] = {6, 5, 4};
    uint64_t passed[5], ended[6], audited[3];

    memcpy(file, curved, sizeof curved);
    for (uint8_t power = 0; power <= 5; power++) {
        file[CURVED_POWER] = power;
        table[0] = 16;
        table[1] = 2;
        show("check", ilstrovan_check(file, sizeof file), NULL, 0);
        show("audit", ilstrovan_audit(file, sizeof file, table, 3, 9, audited), audited, 3);
        show("pass", ilstrovan_pass(file, sizeof file, table, 3, 9, note, 3, passed), passed, 5);
        show_table(table);
        show_note(note, 3);
        show("run", ilstrovan_run(file, sizeof file, table, 3, 10, 0, ended), ended, 6);
        show_table(table);
    }
    memset(output, 0xEE, sizeof output);
    show("pack", ilstrovan_pack(curved, sizeof curved, output, 71), NULL, 0);
    show("pack", ilstrovan_pack(curved, sizeof curved, output, sizeof output), NULL, 0);
    printf("same %d, after it %u\n", memcmp(output, curved, sizeof curved) == 0,
           (unsigned)output[72]);
}

/* One loading of two cars and a lorry, and back. */
static void lorries_and_back(void)
{
    uint32_t table[5] = {16, 0, 0, 8, 9};
    uint16_t note[6] = {6, 5, 4, 3, 2, 1};
    uint64_t passed[5], taken[1];

    show("pass", ilstrovan_pass(freight, sizeof freight, table, 5, 8, note, 4, passed), passed, 5);
    show("pass", ilstrovan_pass(freight, sizeof freight, table, 4, 8, note, 5, passed), passed, 5);
    show_numbers(table, 5);
    show_note(note, 6);
    /* The lorry by link 0, which is barred to it. */
    note[3] = 0;
    show("take back", ilstrovan_take_back(freight, sizeof freight, table, 4, 9, note, 5, taken),
         taken, 1);
    note[3] = 1;
    show("take back", ilstrovan_take_back(freight, sizeof freight, table, 4, 9, note, 5, taken),
         taken, 1);
    show_numbers(table, 5);
}

/* Cars first, and the lorry after them. */
static void town_with_lorries(void)
{
    uint8_t other[sizeof freight], output[96];
    uint32_t table[5] = {9, 9, 9, 9, 9}, barred[5] = {2, 0, 1, 0, 9}, lost[5] = {2, 0, 0, 0, 9};
    uint64_t ended[6];

    show("check", ilstrovan_check(freight, sizeof freight), NULL, 0);
    for (size_t length = 54; length <= 57; length++)
        show("check", ilstrovan_check(freight, length), NULL, 0);
    show("start", ilstrovan_start(freight, sizeof freight, table, 3), NULL, 0);
    start_and_audit(freight, sizeof freight, table);
    refuse(freight, sizeof freight, barred);
    refuse(freight, sizeof freight, lost);
    show("run", ilstrovan_run(freight, sizeof freight, table, 5, 10, 0, ended), ended, 6);
    show_numbers(table, 5);
    lorries_and_back();

    /* A barred byte of 2, which is asked about before trips to itself. */
    memcpy(other, freight, sizeof freight);
    other[FREIGHT_BARRED] = 2;
    other[FREIGHT_OWN_TRIPS] = 1;
    show("check", ilstrovan_check(other, sizeof other), NULL, 0);
    other[FREIGHT_BARRED] = 0;
    show("check", ilstrovan_check(other, sizeof other), NULL, 0);

    memset(output, 0xEE, sizeof output);
    show("pack", ilstrovan_pack(freight, sizeof freight, output, 93), NULL, 0);
    show("pack", ilstrovan_pack(freight, sizeof freight, output, sizeof output), NULL, 0);
    printf("same %d, after it %u %u\n", memcmp(output, freight, sizeof freight) == 0,
           (unsigned)output[94], (unsigned)output[95]);
}

/* Tables that hold 9s, one for each seat. */
static void fill_tables(uint32_t tables[8][5])
{
    for (size_t k = 0; k < 8; k++)
        for (size_t i = 0; i < 5; i++)
            tables[k][i] = 9;
}

/* Two desks with the town, one of which has its run cut off, and six seats
   without a desk, one of them lent nothing; then refused calls. */
static void two_desks(void)
{
    uint32_t tables[8][5], budgets[8] = {10, 10, 1, 0, 0, 0, 0, 0};
    uint16_t excesses[8] = {0, 5, 0, 0, 0, 0, 0, 0};
    struct ilstrovan_seat seats[8];
    uint64_t answer[57];
    static const uint32_t refused[4][2] = {{0, 3}, {9, 0}, {2, 0}, {8, 8193}};

    fill_tables(tables);
    for (size_t k = 0; k < 8; k++)
        seats[k] = (struct ilstrovan_seat){town, sizeof town, tables[k], 3};
    seats[7].file_length = seats[7].table_length = 0;
    for (size_t i = 0; i < 57; i++)
        answer[i] = i + 1;
    show("desks", ilstrovan_desks_at(seats, 2, 3, budgets, excesses, answer), answer, 57);
    for (size_t k = 0; k < 8; k++)
        show_table(tables[k]);
    for (size_t i = 0; i < 4; i++)
        show("desks",
             ilstrovan_desks_at(seats, refused[i][0], refused[i][1], budgets, excesses, answer),
             answer, 57);
    show_table(tables[0]);
    show_table(tables[1]);
}

/* A study on each seat, with runs cut off, ended and refused. */
static void eight_desks(void)
{
    uint32_t tables[8][5], budgets[8] = {10, 1, 9, 8, 7, 1025, 3, 2};
    uint16_t excesses[8] = {0, 0, 0, 0, 0, 0, 4, 5};
    struct ilstrovan_seat seats[8] = {
        {town, sizeof town, tables[0], 3},       {zone, sizeof zone, tables[1], 5},
        {curved, sizeof curved, tables[2], 2},   {freight, sizeof freight, tables[3], 4},
        {town, 57, tables[4], 5},                {zone, sizeof zone, tables[5], 4},
        {curved, sizeof curved, tables[6], 3},   {freight, sizeof freight, tables[7], 3}};
    uint64_t answer[57];

    for (uint32_t allowance = 1; allowance <= 33; allowance += 8) {
        fill_tables(tables);
        show("desks", ilstrovan_desks_at(seats, 8, allowance, budgets, excesses, answer), answer,
             57);
        for (size_t k = 0; k < 8; k++)
            show_numbers(tables[k], 5);
    }
}

int main(void)
{
    uint8_t output[60], page[64];
    uint32_t table[3] = {7, 8, 9};
    uint16_t note[3] = {6, 5, 4};
    uint64_t passed[5], ended[6], audited[3];

    show("check", ilstrovan_check(town, sizeof town), NULL, 0);
    show("check", ilstrovan_check(town, 57), NULL, 0);

    memset(output, 0xEE, sizeof output);
    show("pack", ilstrovan_pack(town, sizeof town, output, 57), NULL, 0);
    show("pack", ilstrovan_pack(town, sizeof town, output, sizeof output), NULL, 0);
    printf("same %d, after it %u %u\n", memcmp(output, town, sizeof town) == 0,
           (unsigned)output[58], (unsigned)output[59]);

    show("start", ilstrovan_start(town, sizeof town, table, 1), NULL, 0);
    show("start", ilstrovan_start(town, sizeof town, table, 3), NULL, 0);
    show_table(table);
    show("audit", ilstrovan_audit(town, sizeof town, table, 3, 1, audited), audited, 3);
    show("audit", ilstrovan_audit(town, sizeof town, table, 3, 2, audited), audited, 3);

    show("run", ilstrovan_run(town, sizeof town, table, 3, 10, 0, ended), ended, 6);
    show_table(table);
    show("run", ilstrovan_run(town, sizeof town, table, 3, 0, 65535, ended), ended, 6);
    show_table(table);
    show("run", ilstrovan_run(town, sizeof town, table, 3, 3, 0, ended), ended, 6);
    show_table(table);

    table[0] = 16;
    table[1] = 0;
    show("pass", ilstrovan_pass(town, sizeof town, table, 3, 8, note, 3, passed), passed, 5);
    show_table(table);
    show("pass", ilstrovan_pass(town, sizeof town, table, 3, 1025, note, 3, passed), passed, 5);
    show_table(table);
    show_note(note, 3);

    memset(page, 0xEE, sizeof page);
    show("page", ilstrovan_page(town, sizeof town, table, 3, 9, page + 2, 59), NULL, 0);
    show_page(page);
    show("page", ilstrovan_page(town, sizeof town, table, 3, 9, page + 2, 60), NULL, 0);
    show_page(page);
    show_table(table);

    busy_town();
    taking_back();
    town_with_a_zone();
    town_with_powers();
    town_with_lorries();
    two_desks();
    eight_desks();
    return 0;
}

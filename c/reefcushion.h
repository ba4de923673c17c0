/* The register's calls for programs in C and C++.

   A register holds, for each request number (the key), the commit that it became (the value): any two 64-bit numbers. No
   key is held twice. A file is an area of pages that the caller lends, and a small state that the caller keeps in a slip.

   The calls are in libreefcushion.a, for x86-64 Linux. They need nothing else but C's memcpy and memset, take no memory but
   some 22 KiB of the stack at most, and keep nothing from one call to the next, so threads may call them at once, each with
   its own slip, area, row, replies and list.

   What each call does is proved (crates/reefcushion, and crates/reefcushion_c for the archive), for any bytes and any
   numbers. A caller owes this much:
   - the lengths are true: so many bytes of each slip and area, of records, replies, list and comparison, and so many
     aligned 32-bit counts of the row, are there, and each has been written once (zeros will do);
   - no two of those that one call is given overlap, but for two that it only reads;
   - nothing else writes them while a call runs, nor reads what the call may write.
   A null pointer with length 0 is fine: it is refused by number like any other wrong length, and never followed. */
#ifndef REEFCUSHION_H
#define REEFCUSHION_H

#include <stddef.h>
#include <stdint.h>

#ifdef __cplusplus
#define REEFCUSHION_ASSERT(holds, else_says) static_assert(holds, else_says)
extern "C" {
#else
#define REEFCUSHION_ASSERT(holds, else_says) _Static_assert(holds, else_says)
#endif

/* The slip, 40 bytes, all numbers little-endian. A call reads the state in its first 16 bytes. It writes all 40: the
   state after it, and its answer.

   The state is a value. Before the first format it is all zero, and every call but a format is refused with 1. A copy of
   the slip is the state of that time: it goes with a copy of the area of that time, and with no other. find, put and
   remove do not look whether the two go together; check does.

   The edition says where keys live, and stays as long as the file does. Request numbers that run upward from small values
   all move to new pages at once in edition 1; edition 2 spreads them. The library before this one, which knew one edition,
   wrote 0 where the edition less 1 stands: its slips are of edition 1, and a program that was compiled against its header
   goes on with this library as it is. */
struct reefcushion_slip {
    /* the state */
    uint16_t n0;             /* pages a group at the start, 1 to 4 */
    uint16_t groups;         /* N, groups at the start, 1 to 64 */
    uint16_t sweeps;         /* s, 1 to 8 */
    uint16_t pages;          /* P, pages grown to, from n0 x N to cap */
    uint16_t cap;            /* pages lent, 1 to 4096 */
    uint16_t edition_less_1; /* the file's edition, 1 or 2, less 1 */
    uint32_t records;        /* r, records held, at most 12 x cap */
    /* the answer */
    uint64_t value;   /* the commit that is held: of an accepted find, and of refusals 6 and 13; of a merge's refusal 13, the
                         lowest clashing key; else 0 */
    uint32_t read;    /* how many pages were looked at */
    uint32_t moved;   /* put, remove: how often a held record went to a neighbouring page; grow, shrink: records whose
                         page differs; else 0 */
    uint16_t refusal; /* the number that the call returned */
    uint16_t page;    /* the broken page of refusal 4; else 0 */
    uint16_t file;    /* of a merge: the file that a refusal 1, 2, 3, 4 or 9 is about, 1 or 2; else 0 */
    uint16_t zeros;   /* written as 0 */
};

REEFCUSHION_ASSERT(sizeof(struct reefcushion_slip) == 40, "a slip is 40 bytes");
REEFCUSHION_ASSERT(offsetof(struct reefcushion_slip, edition_less_1) == 10, "the edition stands before r");
REEFCUSHION_ASSERT(offsetof(struct reefcushion_slip, records) == 12, "r is the last of the state's 16 bytes");
REEFCUSHION_ASSERT(offsetof(struct reefcushion_slip, value) == 16, "the answer follows the state");
REEFCUSHION_ASSERT(offsetof(struct reefcushion_slip, refusal) == 32, "the refusal follows what was read and moved");

/* The area: cap pages of 256 bytes, page a from byte 256 x a on. Two files of equal n0, N, s, edition, P and cap that hold
   the same records are the same bytes. A page:
     0  length 256 (2 bytes), kind 0x0011 (2), its own address (4), records used (2), six zero bytes
    16  twelve slots of 20 bytes: length 20 (2), kind (2), key (8), value (8)
   Kind 1 is a record. Kind 0 is an empty slot, with key and value 0. Records stand first, by (home, key). */
#define REEFCUSHION_PAGE 256

/* What a call returns: 0, or why it was refused. The first reason that holds is given, in the order that stands at the
   call. A refusal leaves the area and the state as they were. */
enum reefcushion_refusal {
    REEFCUSHION_ACCEPTED = 0,
    REEFCUSHION_OUT_OF_RANGE = 1, /* a number of the state, its edition too, is out of range */
    REEFCUSHION_WRONG_AREA = 2,   /* the area isn't 256 x cap bytes */
    REEFCUSHION_WRONG_ROW = 3,    /* the row isn't cap counts */
    REEFCUSHION_BROKEN = 4,       /* a page that was looked at is broken; its address is in `page` */
    REEFCUSHION_ABSENT = 5,       /* the key isn't held */
    REEFCUSHION_HELD = 6,         /* a repeat: the key is held already, with the value offered; it is in `value` too */
    REEFCUSHION_NO_ROOM = 7,      /* put, grow, merge: no room on the lent pages, each record at its home page or a higher
                                     one */
    REEFCUSHION_AT_CAP = 8,       /* all lent pages are grown to */
    REEFCUSHION_NOT_IMAGE = 9,    /* the count, or the order of the records on the pages, is wrong */
    REEFCUSHION_NOT_PUTS = 10,    /* a run's bytes aren't whole put records, each with the right length and kind */
    REEFCUSHION_CLASH = 13,       /* a clash: the key is held with another value, which is in `value`; merge: both files hold
                                     a key with two values, and the lowest such key is in `value` */
    REEFCUSHION_AT_START = 14,    /* the file has the pages that it started with, n0 x N */
    REEFCUSHION_WRONG_ROOM = 15,  /* the room for a run's replies isn't 28 bytes a record; the room for a comparison's list
                                     is shorter than the list */
    REEFCUSHION_NO_SLIP = 100     /* slip_bytes isn't 40, or comparison_bytes isn't 20: nothing is done, and nothing
                                     written, the slip included */
};

/* An empty file of n0 x N pages, whatever was held before, of edition 1 or 2. It is judged on the five numbers that it is
   given; the state in the slip is only what a refused format leaves there. 100, 1, 2. */
uint32_t reefcushion_format_edition(void *slip, size_t slip_bytes, void *area, size_t area_bytes, uint16_t n0,
                                    uint16_t groups, uint16_t sweeps, uint16_t cap, uint16_t edition);

/* The same of edition 1. */
uint32_t reefcushion_format(void *slip, size_t slip_bytes, void *area, size_t area_bytes, uint16_t n0, uint16_t groups,
                            uint16_t sweeps, uint16_t cap);

/* The value of a key, in `value`. 100, 1, 2, then 4 or 5. */
uint32_t reefcushion_find(void *slip, size_t slip_bytes, const void *area, size_t area_bytes, uint64_t key);

/* A record more. A held key keeps its value, whatever is offered: a repeat of what was put is told apart (6) from a key
   that is used for a second value (13), and both have the value held. 100, 1, 2, then 4, 6, 7 or 13, then 9. */
uint32_t reefcushion_put(void *slip, size_t slip_bytes, void *area, size_t area_bytes, uint64_t key, uint64_t value);

/* A put of a run, 20 bytes, and its reply, 28 bytes, as they stand in a log; all numbers little-endian. */
#pragma pack(push, 1)
struct reefcushion_put_record {
    uint16_t length; /* 20 */
    uint16_t kind;   /* 258 */
    uint64_t key;
    uint64_t value;
};

struct reefcushion_reply {
    uint16_t length;  /* 28 */
    uint16_t kind;    /* 513 */
    uint16_t refusal; /* of this put: 0, or 1, 2, 4, 6, 7, 9 or 13 */
    uint16_t page;    /* the rest of its answer, as in a slip */
    uint64_t value;
    uint32_t read;
    uint32_t moved;
    uint16_t pages; /* P, and whether growth is due (1 or 0), of the state after this put */
    uint16_t due;
};
#pragma pack(pop)

REEFCUSHION_ASSERT(sizeof(struct reefcushion_put_record) == 20, "a put record is 20 bytes");
REEFCUSHION_ASSERT(sizeof(struct reefcushion_reply) == 28, "a reply is 28 bytes");

#define REEFCUSHION_PUT_LENGTH 20
#define REEFCUSHION_PUT_KIND 258

/* A pay run: put records end to end, and for each, in the same order, a reply in the lent room. The area, the state and the
   replies end as if each record had been put by a call of its own, in that order: no put is left out because an earlier one
   was refused, and nothing is undone. No record at all, with no room, is an accepted run.

   0 says that every record was put and every reply written, not that every put was accepted: look at each reply's
   `refusal`. A state out of range and a wrong area are told there too, as 1 or 2 in every reply. What the run itself
   refuses, it refuses before the first put, and area, state and replies stay as they were: 100, 10, 15. The answer in the
   slip has no number but `refusal`. Nothing grows by itself: look at the last reply's `due`. */
uint32_t reefcushion_put_run(void *slip, size_t slip_bytes, void *area, size_t area_bytes, const void *records,
                             size_t records_bytes, void *replies, size_t replies_bytes);

/* A record less. 100, 1, 2, then 4 or 5, then 9. */
uint32_t reefcushion_remove(void *slip, size_t slip_bytes, void *area, size_t area_bytes, uint64_t key);

/* One page more, after a check of the whole file. Nothing grows by itself. The row is room for cap counts, whatever stands
   in it: it is untouched by every refusal but 7, and after success or 7 it holds, page by page, how many records have their
   home there with one page more. 100, 1, 2, 3, 8, 4, 9, 7. */
uint32_t reefcushion_grow(void *slip, size_t slip_bytes, void *area, size_t area_bytes, uint32_t *row, size_t row_counts);

/* One page less, after a check of the whole file: the reverse of grow. An accepted growth followed at once by a shrink gives
   back the same bytes and state, and so does a shrink followed by a growth. The pages lent stay as many as they were.

   A shrink never runs out of room, and never answers 7: with one page less no key has a higher home, so each record might
   stay on its page. It is accepted exactly where a check is and pages is more than n0 x groups.

   Nothing shrinks by itself. A shrink as soon as no growth is due would be undone by the next puts, a check of the whole
   file each time. So shrink only while 5 x records <= 36 x (pages - 1), that is, while one page less is filled to three
   fifths at most: the records then have to become a third more before a growth is due again. 100, 1, 2, 14, 4, 9. */
uint32_t reefcushion_shrink(void *slip, size_t slip_bytes, void *area, size_t area_bytes);

/* Accepted exactly when the area is the one image of `records` records for this state. 100, 1, 2, 4 with the lowest broken
   page, 9. */
uint32_t reefcushion_check(void *slip, size_t slip_bytes, const void *area, size_t area_bytes);

/* What differs between two files, as records that rise by key, each with its length and kind in front; all numbers
   little-endian. A key stands in one record at most: of kind 769 where only the first file holds it, of kind 770 where only
   the second does, of kind 771 where both do with two values. One record of kind 772 closes the list, with how many there
   are of each. Files that hold the same are told by that record alone, with zeros. */
#pragma pack(push, 1)
struct reefcushion_only {
    uint16_t length; /* 20 */
    uint16_t kind;   /* 769: only in the first; 770: only in the second */
    uint64_t key;
    uint64_t value;
};

struct reefcushion_unlike {
    uint16_t length; /* 28 */
    uint16_t kind;   /* 771 */
    uint64_t key;
    uint64_t first_value;
    uint64_t second_value;
};

struct reefcushion_closing {
    uint16_t length; /* 16 */
    uint16_t kind;   /* 772 */
    uint32_t only_first;
    uint32_t only_second;
    uint32_t unlike;
};
#pragma pack(pop)

REEFCUSHION_ASSERT(sizeof(struct reefcushion_only) == 20, "a record of one file is 20 bytes");
REEFCUSHION_ASSERT(sizeof(struct reefcushion_unlike) == 28, "a record of two values is 28 bytes");
REEFCUSHION_ASSERT(sizeof(struct reefcushion_closing) == 16, "the closing record is 16 bytes");

#define REEFCUSHION_ONLY_FIRST_KIND 769
#define REEFCUSHION_ONLY_SECOND_KIND 770
#define REEFCUSHION_UNLIKE_KIND 771
#define REEFCUSHION_CLOSING_KIND 772

/* What a comparison came to, 20 bytes. */
struct reefcushion_comparison {
    uint16_t refusal; /* the number that the call returned */
    uint16_t file;    /* the file that a refusal 1, 2, 4 or 9 is about, 1 or 2; else 0 */
    uint16_t page;    /* the broken page of refusal 4, in that file; else 0 */
    uint16_t zeros;   /* written as 0 */
    uint32_t read;    /* how many pages were looked at, over both files; 0 with refusals 1 and 2 of either */
    uint32_t length;  /* how many bytes the list took; 0 after any refusal */
    uint32_t wanted;  /* how many bytes the whole list takes: after success and after 15; else 0 */
};

REEFCUSHION_ASSERT(sizeof(struct reefcushion_comparison) == 20, "a comparison is 20 bytes");

/* What differs between two files, which may have other parameters, sizes and editions. Each is checked first. The list goes
   to the front of the lent room, and what stands behind it there stays. Neither file is written, nor its slip.

   How much room a list takes is told by a comparison with no room, list_bytes 0: it is refused with 15, and `wanted` says
   how many bytes to lend; 20 for each record of both files and 16 more are always enough. The call works in the lent room
   and takes no other memory. Its time goes up with the number of records, and for those that differ as that of a sort; where
   very many keys have one home a search there goes by halves.

   100, the first file's 1, 2, 4 or 9, the second's 1, 2, 4 or 9, then 15 exactly where the room is shorter than the list.
   After any of them the room is as it was and `length` is 0. */
uint32_t reefcushion_compare(const void *slip, size_t slip_bytes, const void *area, size_t area_bytes,
                             const void *other_slip, size_t other_slip_bytes, const void *other_area,
                             size_t other_area_bytes, void *list, size_t list_bytes, void *comparison,
                             size_t comparison_bytes);

/* The other file's records into the living one, which `slip` and `area` are: it ends as the one image of both record sets
   with its own parameters, edition, P and cap. A record that both hold with one value counts once. Each file is checked
   first; they may have other parameters, sizes and editions. The other file is never written, nor its slip.

   The row is room for cap counts of the living file, as for grow, whatever stands in it: it is untouched by every refusal
   but 7, and after success or 7 it holds, page by page, how many records of both files together have their home there. An
   empty other file changes no page. `records` grew by as many as were added; the other file's records beyond those were
   held already.

   The records are laid anew in the living area, which takes no other memory and, in every case, some r log r steps for r
   records of both files: putting them one by one comes to the same bytes.

   100, the living file's 1 and 2, the row's 3, the living file's 4 and 9, the other's 1, 2, 4 and 9, then 13 where both hold
   a key with two values, then 7. `file` says which file a refusal 1, 2, 3, 4 or 9 is about; `read` counts the pages of
   both, and is 0 with 1, 2 and 3 of either. */
uint32_t reefcushion_merge(void *slip, size_t slip_bytes, void *area, size_t area_bytes, const void *other_slip,
                           size_t other_slip_bytes, const void *other_area, size_t other_area_bytes, uint32_t *row,
                           size_t row_counts);

/* 1 where growth is due (5 x records > 48 x pages), else 0; 0 too where slip_bytes isn't 40 or a number of the state is out
   of range. It leaves the slip as it is. */
uint32_t reefcushion_due(const void *slip, size_t slip_bytes);

#ifdef __cplusplus
}
#endif

/* The same calls for Rust, which links the same archive into an x86-64 program (-L native=DIR -l static=reefcushion):

   #[repr(C)]
   #[derive(Clone, Copy, Default)]
   pub struct Slip {
       pub n0: u16, pub groups: u16, pub sweeps: u16, pub pages: u16, pub cap: u16,
       pub edition_less_1: u16, pub records: u32,
       pub value: u64, pub read: u32, pub moved: u32, pub refusal: u16, pub page: u16, pub file: u16, pub zeros: u16,
   }

   #[repr(C)]
   #[derive(Clone, Copy, Default)]
   pub struct Comparison {
       pub refusal: u16, pub file: u16, pub page: u16, pub zeros: u16, pub read: u32, pub length: u32, pub wanted: u32,
   }

   unsafe extern "C" {
       fn reefcushion_format_edition(slip: *mut Slip, slip_bytes: usize, area: *mut u8, area_bytes: usize,
                                     n0: u16, groups: u16, sweeps: u16, cap: u16, edition: u16) -> u32;
       fn reefcushion_format(slip: *mut Slip, slip_bytes: usize, area: *mut u8, area_bytes: usize,
                             n0: u16, groups: u16, sweeps: u16, cap: u16) -> u32;
       fn reefcushion_find(slip: *mut Slip, slip_bytes: usize, area: *const u8, area_bytes: usize, key: u64) -> u32;
       fn reefcushion_put(slip: *mut Slip, slip_bytes: usize, area: *mut u8, area_bytes: usize, key: u64, value: u64) -> u32;
       fn reefcushion_put_run(slip: *mut Slip, slip_bytes: usize, area: *mut u8, area_bytes: usize,
                              records: *const u8, records_bytes: usize, replies: *mut u8, replies_bytes: usize) -> u32;
       fn reefcushion_remove(slip: *mut Slip, slip_bytes: usize, area: *mut u8, area_bytes: usize, key: u64) -> u32;
       fn reefcushion_grow(slip: *mut Slip, slip_bytes: usize, area: *mut u8, area_bytes: usize,
                           row: *mut u32, row_counts: usize) -> u32;
       fn reefcushion_shrink(slip: *mut Slip, slip_bytes: usize, area: *mut u8, area_bytes: usize) -> u32;
       fn reefcushion_check(slip: *mut Slip, slip_bytes: usize, area: *const u8, area_bytes: usize) -> u32;
       fn reefcushion_compare(slip: *const Slip, slip_bytes: usize, area: *const u8, area_bytes: usize,
                              other_slip: *const Slip, other_slip_bytes: usize, other_area: *const u8,
                              other_area_bytes: usize, list: *mut u8, list_bytes: usize,
                              comparison: *mut Comparison, comparison_bytes: usize) -> u32;
       fn reefcushion_merge(slip: *mut Slip, slip_bytes: usize, area: *mut u8, area_bytes: usize,
                            other_slip: *const Slip, other_slip_bytes: usize, other_area: *const u8,
                            other_area_bytes: usize, row: *mut u32, row_counts: usize) -> u32;
       fn reefcushion_due(slip: *const Slip, slip_bytes: usize) -> u32;
   } */

#endif

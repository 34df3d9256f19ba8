/*
 * METER.DRV, a sample driver: everything that stands in a 16-bit Windows module, written out as data. `make try` builds it;
 * by hand:
 *
 *     cc -c -o sample.o examples/sample.s && objcopy -O binary sample.o sample.drv
 *
 * No instruction of any machine is assembled here, only bytes, words (.2byte) and double words (.4byte), low byte first.
 *
 * A place is counted from the file's start, from the NE header or from the start of a table or segment; so most of what
 * follows is a difference of two labels. Stored bytes and resources are placed in sectors of 2 to the shift bytes.
 */
        .set    SHIFT, 4
        .set    SECTOR, 1 << SHIFT

/* A name: a length byte and its text. */
        .macro  name text
        .byte   2f - 1f
1:      .ascii  "\text"
2:
        .endm

        .data
file:

/* The MZ header, 64 bytes. The NE header's place stands at its end; all else is for the DOS program that may follow. */
        .ascii  "MZ"
        .zero   0x3C - 2
        .4byte  ne - file

/* The NE header, 64 bytes. Table places count from here, but for one. */
ne:
        .ascii  "NE"
        .byte   5, 10                           /* 02 the linker's version */
        .2byte  entries - ne                    /* 04 entry table, */
        .2byte  entries_end - entries           /* 06 and its bytes */
        .4byte  0                               /* 08 checksum */
        .2byte  0x8001                          /* 0C a library, with one data segment: */
        .2byte  2                               /* 0E segment 2, */
        .2byte  0, 0                            /* 10 with no heap and no stack added */
        .2byte  0, 0                            /* 14 no start address, */
        .2byte  0, 0                            /* 18 and no stack address */
        .2byte  (segments_end - segments) / 8   /* 1C segments */
        .2byte  (modules_end - modules) / 2     /* 1E module references */
        .2byte  nonresident_end - nonresident   /* 20 the nonresident names' bytes */
        .2byte  segments - ne                   /* 22 segment table */
        .2byte  resources - ne                  /* 24 resource table */
        .2byte  resident - ne                   /* 26 resident names */
        .2byte  modules - ne                    /* 28 module references */
        .2byte  imported - ne                   /* 2A imported names */
        .4byte  nonresident - file              /* 2C nonresident names, from the file's start */
        .2byte  2                               /* 30 movable entries */
        .2byte  SHIFT                           /* 32 alignment shift */
        .2byte  0                               /* 34 segments that are resources */
        .byte   2, 0                            /* 36 for Windows */
        .2byte  0, 0, 0                         /* 38 no fast-load area */
        .2byte  0x030A                          /* 3E for version 3.10 */

/*
 * The segment table: sector, stored length, flags, allocation. The allocation is the length in memory; what isn't stored is
 * zero there. Flags: 0001h data, 0010h movable, 0040h preload, 0100h fixup records follow the stored bytes.
 */
segments:
        .2byte  (code - file) / SECTOR, code_end - code, 0x0150, code_end - code
        .2byte  (data - file) / SECTOR, data_end - data, 0x0151, 32
segments_end:

/*
 * The resource table: a shift of its own, then for each type a block of type, count and 4 reserved bytes, and for each
 * resource its sector, its length in sectors, flags, id and 4 reserved bytes. The bit 8000h says that a type or an id is a
 * number and no name. Type 0 ends the table.
 */
resources:
        .2byte  SHIFT
        .2byte  0x8006, 1, 0, 0                 /* string tables: one */
        .2byte  (strings - file) / SECTOR, (strings_end - strings) / SECTOR, 0x0030, 0x8001, 0, 0
        .2byte  0x800A, 1, 0, 0                 /* data of the driver's own: one */
        .2byte  (curve - file) / SECTOR, (curve_end - curve) / SECTOR, 0x0030, 0x8002, 0, 0
        .2byte  0

/* The resident names, which stay in memory: each with its ordinal. The first is the module's own. Length 0 ends the list. */
resident:
        name    "METER"
        .2byte  0
        name    "OPEN"
        .2byte  1
        name    "CALIBRATE"
        .2byte  2
        .byte   0

/* The module references: for each module that is imported from, the place of its name among the imported names. */
modules:
        .2byte  kernel - imported
        .2byte  rack - imported
modules_end:

/* The imported names: of modules, and of functions that are imported by name. The first is empty by custom. */
imported:
        .byte   0
kernel: name    "KERNEL"
rack:   name    "RACK"
read_port:
        name    "READPORT"

/*
 * The entry table: bundles of entries that stand in one segment. A bundle is a count, a segment and its entries; ordinals
 * count on from 1 through all bundles. Flags: 01h exported, 02h uses the module's one data segment. Count 0 ends the table.
 */
entries:
        .byte   2, 255                          /* ordinals 1 and 2, movable: each says its segment, behind CDh 3Fh */
        .byte   3, 0xCD, 0x3F, 1
        .2byte  open - code
        .byte   3, 0xCD, 0x3F, 1
        .2byte  calibrate - code
        .byte   1, 0                            /* ordinal 3, null: it has no entry */
        .byte   1, 2                            /* ordinal 4, fixed in segment 2 */
        .byte   1
        .2byte  scale - data
        .byte   0
entries_end:

/* The nonresident names, which are read when they are asked for. The first describes the module. */
nonresident:
        name    "Sample driver of a rack's meter"
        .2byte  0
        name    "SCALE"
        .2byte  4
        .byte   0
nonresident_end:

/*
 * A fixup record says what address belongs where in a segment: type, flags, the first site, and the target in two words.
 *
 * The type is what part of the address is written. The target is inside the module (a segment and an offset, or 255 and an
 * ordinal) or imported (a module's number and an ordinal, or the place of a name), or the record is the operating system's and
 * writes nothing. A record that is additive adds to the one site that it names. Otherwise the word at each site is the next
 * site of a chain, FFFFh at the last, and is replaced.
 */
        .set    LOW_BYTE, 0
        .set    SELECTOR, 2
        .set    FAR_POINTER, 3
        .set    OFFSET_WORD, 5

        .set    INTERNAL, 0
        .set    IMPORT_BY_ORDINAL, 1
        .set    IMPORT_BY_NAME, 2
        .set    OS_FIXUP, 3
        .set    ADDITIVE, 4

        .macro  fixup type, flags, site, first, last
        .byte   \type, \flags
        .2byte  \site, \first, \last
        .endm

/* Segment 1: code, of which only the sites below matter to a loader. */
        .balign SECTOR
code:
open:
        .byte   0xB8                            /* mov ax, the selector of segment 2 */
load_1: .2byte  load_2 - code
        .byte   0x8E, 0xD8                      /* mov ds, ax */
        .byte   0x9A                            /* call KERNEL.132 (GetWinFlags) */
call_1: .2byte  call_2 - code, 0
        .byte   0x9A                            /* call RACK.READPORT */
port:   .2byte  0xFFFF, 0
        .byte   0xBB                            /* mov bx, the offset of SCALE + 2 */
second: .2byte  2
        .byte   0xCB                            /* retf */
calibrate:
        .byte   0xB8                            /* mov ax, the selector of segment 2 */
load_2: .2byte  0xFFFF
        .byte   0x8E, 0xD8                      /* mov ds, ax */
        .byte   0x9A                            /* call KERNEL.132 */
call_2: .2byte  0xFFFF, 0
        .byte   0xB0                            /* mov al, the low byte of SCALE's offset + 6 */
last:   .byte   6
float:  .byte   0x9B, 0xD9, 0xEE                /* fldz: an OS fixup would make it a call where there is no coprocessor */
        .byte   0xCB                            /* retf */
code_end:

/* Its records, right behind it: a count, and 8 bytes each. */
        .2byte  (code_records_end - code_records) / 8
code_records:
        fixup   SELECTOR, INTERNAL, load_1-code, 2, 0
        fixup   FAR_POINTER, IMPORT_BY_ORDINAL, call_1-code, 1, 132
        fixup   FAR_POINTER, IMPORT_BY_NAME, port-code, 2, read_port-imported
        fixup   OFFSET_WORD, INTERNAL|ADDITIVE, second-code, 2, scale-data
        fixup   LOW_BYTE, INTERNAL|ADDITIVE, last-code, 255, 4
        fixup   OFFSET_WORD, OS_FIXUP, float-code, 5, 0
code_records_end:

/* Segment 2: data. 20 bytes are stored, and 12 more are zero in memory. */
        .balign SECTOR
data:
near_1: .2byte  near_2 - data                   /* the offset of CALIBRATE, */
own:    .2byte  0x1234                          /* the selector of this segment, whatever is stored, */
scale:  .2byte  1, 10, 100, 1000                /* a table, */
behind: .2byte  3, 0                            /* the far pointer to RACK.READPORT + 3, */
flags:  .2byte  0xFFFF                          /* the low byte of KERNEL.178 (WinFlags, a number); FFh stays behind it, */
near_2: .2byte  0xFFFF                          /* and again the offset of CALIBRATE */
data_end:

        .2byte  (data_records_end - data_records) / 8
data_records:
        fixup   OFFSET_WORD, INTERNAL, near_1-data, 255, 2
        fixup   SELECTOR, INTERNAL|ADDITIVE, own-data, 2, 0
        fixup   FAR_POINTER, IMPORT_BY_NAME|ADDITIVE, behind-data, 2, read_port-imported
        fixup   LOW_BYTE, IMPORT_BY_ORDINAL, flags-data, 1, 178
data_records_end:

/* The resources' data: a table of 16 strings, of which two aren't empty, and a curve. */
        .balign SECTOR
strings:
        name    "Meter"
        name    "Not calibrated"
        .zero   14
        .balign SECTOR
strings_end:
curve:
        .byte   0, 1, 4, 9, 16, 25, 36, 49, 64, 81, 100, 121, 144, 169, 196, 225
curve_end:

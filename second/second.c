#include "second.h"

#include <stdbool.h>
#include <string.h>

/* ---- Versions --------------------------------------------------------- */

/* The four of document 01, then the five of request Q-4, called the first. */
enum version { V2, V3, P2, P3, V1, P11, P12, P13, P14, VERSIONS, NO_VERSION = VERSIONS };

static enum version version_of(uint32_t token)
{
    switch (token) {
    case 0xFFFE0200: return V2;
    case 0xFFFE0300: return V3;
    case 0xFFFF0200: return P2;
    case 0xFFFF0300: return P3;
    case 0xFFFE0101: return V1;
    case 0xFFFF0101: return P11;
    case 0xFFFF0102: return P12;
    case 0xFFFF0103: return P13;
    case 0xFFFF0104: return P14;
    default: return NO_VERSION;
    }
}

/* The first versions state no size: the opcode tells how many tokens follow. */
static bool is_first(enum version version)
{
    return version >= V1;
}

static bool is_version_3(enum version version)
{
    return version == V3 || version == P3;
}

/* ---- Places: what an operand token may be ----------------------------- */

/* The kinds of places an operand token can stand at. */
enum place {
    FREE_D,      /* a destination without a rule of its own */
    CONST_D,     /* DEF */
    INT_D,       /* DEFI */
    BOOL_D,      /* DEFB */
    PREDICATE_D, /* SETP */
    ADDRESS_D,   /* MOVA */
    KILL_D,      /* TEXKILL */
    MOVED_D,     /* MOV in the first versions */
    TEXTURE_D,   /* texture instructions of the first versions */
    TEMPORARY_D, /* the same in ps_1_4 */
    DECLARED_D,  /* DCL */
    FREE_S,      /* a source without a rule of its own */
    LABEL_S,     /* CALL, LABEL, CALLNZ's first */
    BOOL_S,      /* IF, CALLNZ's second */
    LOOP_S,      /* LOOP's first */
    INT_S,       /* LOOP's second, REP */
    PREDICATE_S, /* BREAKP */
    SAMPLER_S,   /* second source of TEX, TEXLDL, TEXLDD */
    TEXTURE_S,   /* texture instructions of the first versions */
    COORDINATE_S, /* TEX in ps_1_4 */
    TEMPORARY_S, /* CND's first before ps_1_4, BEM's second */
    CONSTANT_S,  /* TEXM3x3SPEC's second */
    BUMPED_S,    /* BEM's first */
    PREDICATE,   /* the token behind a predicated instruction's destination */
    RELATIVE,    /* the token behind an operand with bit 13 */
    JUDGED_PLACES,
    RAW = JUDGED_PLACES, /* any 32 bits */
    USAGE                /* DCL's usage token */
};

#define TYPE(n) (UINT32_C(1) << (n))

enum { TYPE_SAMPLER = 10, TYPE_MISC = 17, TYPE_PREDICATE = 19 };

/* What a judge says of an operand token that breaks its layout. It is no number
   of the papers: fault_at has that, and the bit. */
enum { MISLAID = 0xFF };

static const uint32_t BIT_31 = UINT32_C(1) << 31;
static const uint32_t BIT_13 = UINT32_C(1) << 13;
static const uint32_t COISSUE = UINT32_C(1) << 30;

/* Bits of a token that its layout fixes: bit 31 as one, the others as zero. */
#define SOURCE_FIXED UINT32_C(0x8000E000)
#define VERTEX_FIXED UINT32_C(0x8FE0E000)
#define PIXEL_FIXED UINT32_C(0x8F80E000)
#define SHIFTED_FIXED UINT32_C(0x8080E000)
#define INDEXABLE(fixed) ((fixed) & ~UINT32_C(0x2000))

/* Modifiers as a set; D is tied to type 19 in judge_token. */
#define NO_MODIFIER UINT32_C(0x0001)
#define NONE_OR_NOT UINT32_C(0x2001)
#define ALL_MODIFIERS UINT32_C(0x387F)
#define PS_1_4_MODIFIERS UINT32_C(0x3FFF)

struct layout {
    uint32_t fixed;     /* bits that must read as BIT_31 */
    uint32_t modifiers; /* set of values of bits 27:24 */
    uint32_t types;     /* set of register types */
};

#define VERTEX_D_TYPES (TYPE(0) | TYPE(3) | TYPE(4) | TYPE(5) | TYPE(6))
#define PIXEL_D_TYPES (TYPE(0) | TYPE(8) | TYPE(9))
#define VERTEX_S_TYPES (TYPE(0) | TYPE(1) | TYPE(2) | TYPE(11) | TYPE(12) | TYPE(13))
#define PIXEL_S_TYPES (VERTEX_S_TYPES | TYPE(3) | TYPE(17))

#define LAYOUTS(fixed_d, free_d, free_s, d_types, s_types, bool_types, relative_types, dcl_types) \
    {                                                                                             \
        [FREE_D] = {free_d, NO_MODIFIER, d_types},                                                \
        [CONST_D] = {fixed_d, NO_MODIFIER, TYPE(2)},                                              \
        [INT_D] = {fixed_d, NO_MODIFIER, TYPE(7)},                                                \
        [BOOL_D] = {fixed_d, NO_MODIFIER, TYPE(14)},                                              \
        [PREDICATE_D] = {fixed_d, NO_MODIFIER, TYPE(19)},                                         \
        [ADDRESS_D] = {fixed_d, NO_MODIFIER, TYPE(3)},                                            \
        [KILL_D] = {fixed_d, NO_MODIFIER, TYPE(0) | TYPE(3)},                                     \
        [DECLARED_D] = {fixed_d, NO_MODIFIER, dcl_types},                                         \
        [FREE_S] = {free_s, ALL_MODIFIERS, s_types},                                              \
        [LABEL_S] = {SOURCE_FIXED, ALL_MODIFIERS, TYPE(18)},                                      \
        [BOOL_S] = {SOURCE_FIXED, ALL_MODIFIERS, bool_types},                                     \
        [LOOP_S] = {SOURCE_FIXED, ALL_MODIFIERS, TYPE(15)},                                       \
        [INT_S] = {SOURCE_FIXED, ALL_MODIFIERS, TYPE(7)},                                         \
        [PREDICATE_S] = {SOURCE_FIXED, ALL_MODIFIERS, TYPE(19)},                                  \
        [SAMPLER_S] = {SOURCE_FIXED, ALL_MODIFIERS, TYPE(10)},                                    \
        [PREDICATE] = {SOURCE_FIXED, NONE_OR_NOT, TYPE(19)},                                      \
        [RELATIVE] = {SOURCE_FIXED, NO_MODIFIER, relative_types},                                 \
    }

/* The first versions: all their sources are laid out alike, and so are all their
   destinations, whose bits 27:24 are the shift scale where they are not fixed. */
#define FIRST_LAYOUTS(fixed_d, fixed_s, modifiers, moved_types, d_types, s_types, dcl_types) \
    {                                                                                        \
        [FREE_D] = {fixed_d, 0, d_types},                                                    \
        [CONST_D] = {fixed_d, 0, TYPE(2) | TYPE(11) | TYPE(12) | TYPE(13)},                  \
        [KILL_D] = {fixed_d, 0, TYPE(0) | TYPE(3)},                                          \
        [MOVED_D] = {fixed_d, 0, moved_types},                                               \
        [TEXTURE_D] = {fixed_d, 0, TYPE(3)},                                                 \
        [TEMPORARY_D] = {fixed_d, 0, TYPE(0)},                                               \
        [DECLARED_D] = {fixed_d, 0, dcl_types},                                              \
        [FREE_S] = {fixed_s, modifiers, s_types},                                            \
        [TEXTURE_S] = {fixed_s, modifiers, TYPE(3)},                                         \
        [COORDINATE_S] = {fixed_s, modifiers, TYPE(0) | TYPE(3)},                            \
        [TEMPORARY_S] = {fixed_s, modifiers, TYPE(0)},                                       \
        [CONSTANT_S] = {fixed_s, modifiers, TYPE(2)},                                        \
        [BUMPED_S] = {fixed_s, modifiers, TYPE(0) | TYPE(2)},                                \
    }

#define V1_D_TYPES (TYPE(0) | TYPE(4) | TYPE(5) | TYPE(6))
#define PS_1_X(modifiers, d_types, s_types) \
    FIRST_LAYOUTS(SHIFTED_FIXED, SOURCE_FIXED, modifiers, d_types, d_types, s_types, 0)
#define PS_1_1_TO_3 \
    PS_1_X(ALL_MODIFIERS, TYPE(0) | TYPE(3), TYPE(0) | TYPE(1) | TYPE(2) | TYPE(3))

static const struct layout layouts[VERSIONS][JUDGED_PLACES] = {
    [V2] = LAYOUTS(VERTEX_FIXED, VERTEX_FIXED, INDEXABLE(SOURCE_FIXED),
                   VERTEX_D_TYPES, VERTEX_S_TYPES,
                   TYPE(14), TYPE(3) | TYPE(15), TYPE(1)),
    [V3] = LAYOUTS(VERTEX_FIXED, INDEXABLE(VERTEX_FIXED), INDEXABLE(SOURCE_FIXED),
                   VERTEX_D_TYPES, VERTEX_S_TYPES,
                   TYPE(14) | TYPE(19), TYPE(3) | TYPE(15), TYPE(1) | TYPE(6) | TYPE(10)),
    [P2] = LAYOUTS(PIXEL_FIXED, PIXEL_FIXED, SOURCE_FIXED,
                   PIXEL_D_TYPES, PIXEL_S_TYPES,
                   TYPE(14), TYPE(15), TYPE(1) | TYPE(3) | TYPE(10)),
    [P3] = LAYOUTS(PIXEL_FIXED, PIXEL_FIXED, INDEXABLE(SOURCE_FIXED),
                   PIXEL_D_TYPES, PIXEL_S_TYPES,
                   TYPE(14) | TYPE(19), TYPE(15), TYPE(1) | TYPE(3) | TYPE(10) | TYPE(17)),
    [V1] = FIRST_LAYOUTS(VERTEX_FIXED, INDEXABLE(SOURCE_FIXED), ALL_MODIFIERS,
                         V1_D_TYPES | TYPE(3), V1_D_TYPES, VERTEX_S_TYPES, TYPE(1)),
    [P11] = PS_1_1_TO_3,
    [P12] = PS_1_1_TO_3,
    [P13] = PS_1_1_TO_3,
    [P14] = PS_1_X(PS_1_4_MODIFIERS, TYPE(0), TYPE(0) | TYPE(1) | TYPE(2)),
};

static uint32_t field(uint32_t token, unsigned low, uint32_t ones)
{
    return (token >> low) & ones;
}

static uint32_t type_of(uint32_t token)
{
    return field(token, 28, 7) | field(token, 11, 3) << 3;
}

/* One operand token at a place: its layout, then its type. */
static inline uint32_t judge_token(uint32_t token, const struct layout *layout)
{
    const uint32_t type = type_of(token);
    const uint32_t modifier = field(token, 24, 15);

    if ((token & layout->fixed) != BIT_31 || !(layout->modifiers >> modifier & 1))
        return MISLAID;
    if (modifier == 0xD && type != TYPE_PREDICATE)
        return MISLAID;
    if (!(layout->types >> type & 1))
        return SECOND_REGISTER;
    return SECOND_YES;
}

/* A destination of a first version, which has no modifier. */
static inline uint32_t judge_first_destination(uint32_t token, const struct layout *layout)
{
    if ((token & layout->fixed) != BIT_31)
        return MISLAID;
    return layout->types >> type_of(token) & 1 ? SECOND_YES : SECOND_REGISTER;
}

/* ---- The opcode table ------------------------------------------------- */

/* What an instruction does to the open blocks. */
enum flow {
    PLAIN,
    OPEN_IF,
    OPEN_LOOP,
    OPEN_REP,
    TURN_ELSE,
    CLOSE_IF,
    CLOSE_LOOP,
    CLOSE_REP,
    IN_LOOP,  /* stands inside some LOOP or REP */
    OUTSIDE   /* stands in no block */
};

struct rule {
    uint8_t versions;   /* set of versions; 0 for an opcode not in the table */
    uint8_t predicable; /* in V3 and P3 */
    uint8_t low, high;  /* lawful controls */
    uint8_t flow;
    uint8_t places;     /* operands in places[] */
    uint8_t place[5];
};

#define V2_ (1u << V2)
#define V3_ (1u << V3)
#define P2_ (1u << P2)
#define P3_ (1u << P3)
#define ALL (V2_ | V3_ | P2_ | P3_)
#define VERTEX (V2_ | V3_)
#define PIXEL (P2_ | P3_)
#define NOT_P2 (V2_ | V3_ | P3_)
#define THREE (V3_ | P3_)

#define DS(set) {set, 1, 0, 0, PLAIN, 2, {FREE_D, FREE_S}}
#define DSS(set) {set, 1, 0, 0, PLAIN, 3, {FREE_D, FREE_S, FREE_S}}
#define DSSS(set) {set, 1, 0, 0, PLAIN, 4, {FREE_D, FREE_S, FREE_S, FREE_S}}
#define BARE(set, flow) {set, 0, 0, 0, flow, 0, {0}}
#define S(set, flow, s) {set, 0, 0, 0, flow, 1, {s}}
#define SS(set, flow, s, t) {set, 0, 0, 0, flow, 2, {s, t}}
#define COMPARE(set, flow) {set, 0, 1, 6, flow, 2, {FREE_S, FREE_S}}

enum { OP_DCL = 31, OP_SINCOS = 37, SINCOS_3 = 97, RULES, OP_PHASE = 0xFFFD };

static const struct rule rules[RULES] = {
    [0] = BARE(ALL, PLAIN),                             /* NOP */
    [1] = DS(ALL),                                      /* MOV */
    [2] = DSS(ALL),                                     /* ADD */
    [3] = DSS(ALL),                                     /* SUB */
    [4] = DSSS(ALL),                                    /* MAD */
    [5] = DSS(ALL),                                     /* MUL */
    [6] = DS(ALL),                                      /* RCP */
    [7] = DS(ALL),                                      /* RSQ */
    [8] = DSS(ALL),                                     /* DP3 */
    [9] = DSS(ALL),                                     /* DP4 */
    [10] = DSS(ALL),                                    /* MIN */
    [11] = DSS(ALL),                                    /* MAX */
    [12] = DSS(VERTEX),                                 /* SLT */
    [13] = DSS(VERTEX),                                 /* SGE */
    [14] = DS(ALL),                                     /* EXP */
    [15] = DS(ALL),                                     /* LOG */
    [16] = DS(VERTEX),                                  /* LIT */
    [17] = DSS(VERTEX),                                 /* DST */
    [18] = DSSS(ALL),                                   /* LRP */
    [19] = DS(ALL),                                     /* FRC */
    [20] = DSS(ALL),                                    /* M4x4 */
    [21] = DSS(ALL),                                    /* M4x3 */
    [22] = DSS(ALL),                                    /* M3x4 */
    [23] = DSS(ALL),                                    /* M3x3 */
    [24] = DSS(ALL),                                    /* M3x2 */
    [25] = S(NOT_P2, PLAIN, LABEL_S),                   /* CALL */
    [26] = SS(NOT_P2, PLAIN, LABEL_S, BOOL_S),          /* CALLNZ */
    [27] = SS(NOT_P2, OPEN_LOOP, LOOP_S, INT_S),        /* LOOP */
    [28] = BARE(NOT_P2, OUTSIDE),                       /* RET */
    [29] = BARE(NOT_P2, CLOSE_LOOP),                    /* ENDLOOP */
    [30] = S(NOT_P2, OUTSIDE, LABEL_S),                 /* LABEL */
    [OP_DCL] = {ALL, 0, 0, 0, PLAIN, 2, {USAGE, DECLARED_D}},
    [32] = DSS(ALL),                                    /* POW */
    [33] = DSS(ALL),                                    /* CRS */
    [34] = DSSS(VERTEX),                                /* SGN */
    [35] = DS(ALL),                                     /* ABS */
    [36] = DS(ALL),                                     /* NRM */
    [OP_SINCOS] = DSSS(ALL),                            /* SINCOS in V2, P2 */
    [38] = S(NOT_P2, OPEN_REP, INT_S),                  /* REP */
    [39] = BARE(NOT_P2, CLOSE_REP),                     /* ENDREP */
    [40] = S(NOT_P2, OPEN_IF, BOOL_S),                  /* IF */
    [41] = COMPARE(THREE, OPEN_IF),                     /* IFC */
    [42] = BARE(NOT_P2, TURN_ELSE),                     /* ELSE */
    [43] = BARE(NOT_P2, CLOSE_IF),                      /* ENDIF */
    [44] = BARE(THREE, IN_LOOP),                        /* BREAK */
    [45] = COMPARE(THREE, IN_LOOP),                     /* BREAKC */
    [46] = {VERTEX, 1, 0, 0, PLAIN, 2, {ADDRESS_D, FREE_S}}, /* MOVA */
    [47] = {NOT_P2, 0, 0, 0, PLAIN, 2, {BOOL_D, RAW}},  /* DEFB */
    [48] = {NOT_P2, 0, 0, 0, PLAIN, 5, {INT_D, RAW, RAW, RAW, RAW}}, /* DEFI */
    [65] = {PIXEL, 1, 0, 0, PLAIN, 1, {KILL_D}},        /* TEXKILL */
    [66] = {PIXEL, 1, 0, 2, PLAIN, 3, {FREE_D, FREE_S, SAMPLER_S}}, /* TEX */
    [78] = DS(VERTEX),                                  /* EXPP */
    [79] = DS(VERTEX),                                  /* LOGP */
    [81] = {ALL, 0, 0, 0, PLAIN, 5, {CONST_D, RAW, RAW, RAW, RAW}}, /* DEF */
    [88] = DSSS(PIXEL),                                 /* CMP */
    [90] = DSSS(PIXEL),                                 /* DP2ADD */
    [91] = DS(P3_),                                     /* DSX */
    [92] = DS(P3_),                                     /* DSY */
    [93] = {P3_, 1, 0, 0, PLAIN, 5, {FREE_D, FREE_S, SAMPLER_S, FREE_S, FREE_S}}, /* TEXLDD */
    [94] = {THREE, 1, 1, 6, PLAIN, 3, {PREDICATE_D, FREE_S, FREE_S}}, /* SETP */
    [95] = {THREE, 1, 0, 0, PLAIN, 3, {FREE_D, FREE_S, SAMPLER_S}},   /* TEXLDL */
    [96] = S(THREE, IN_LOOP, PREDICATE_S),              /* BREAKP */
    [SINCOS_3] = DS(THREE), /* not an opcode: SINCOS as V3 and P3 have it */
};

/* The rows of operands that instructions of the first versions have. No rule
   of these says anything on versions: the table below does. */
enum row {
    NO_ROW,
    NONE,      /* no operands */
    D_S,       /* free ones */
    D_S_S,
    D_S_S_S,
    M_S,       /* MOV */
    U_D,       /* DCL */
    T,         /* a texture instruction's destination ... */
    T_T,       /* ... with a source ... */
    T_T_C,     /* ... and a constant */
    K,         /* TEXKILL */
    E,         /* a temporary, in ps_1_4 ... */
    E_T,       /* ... from a coordinate ... */
    E_ET,      /* ... or from either */
    E_B_E,     /* BEM */
    D_E_S_S,   /* CND before ps_1_4 */
    DEF_ROW,
    ROWS
};

#define ROW(count, ...) {0, 0, 0, 0, PLAIN, count, {__VA_ARGS__}}

static const struct rule first_rules[ROWS] = {
    [NONE] = ROW(0, 0),
    [D_S] = ROW(2, FREE_D, FREE_S),
    [D_S_S] = ROW(3, FREE_D, FREE_S, FREE_S),
    [D_S_S_S] = ROW(4, FREE_D, FREE_S, FREE_S, FREE_S),
    [M_S] = ROW(2, MOVED_D, FREE_S),
    [U_D] = ROW(2, USAGE, DECLARED_D),
    [T] = ROW(1, TEXTURE_D),
    [T_T] = ROW(2, TEXTURE_D, TEXTURE_S),
    [T_T_C] = ROW(3, TEXTURE_D, TEXTURE_S, CONSTANT_S),
    [K] = ROW(1, KILL_D),
    [E] = ROW(1, TEMPORARY_D),
    [E_T] = ROW(2, TEMPORARY_D, TEXTURE_S),
    [E_ET] = ROW(2, TEMPORARY_D, COORDINATE_S),
    [E_B_E] = ROW(3, TEMPORARY_D, BUMPED_S, TEMPORARY_S),
    [D_E_S_S] = ROW(4, FREE_D, TEMPORARY_S, FREE_S, FREE_S),
    [DEF_ROW] = ROW(5, CONST_D, RAW, RAW, RAW, RAW),
};

/* docs/FIRST-VERSIONS.md, row by row: V1, then P11 to P14. */
enum { FIRST_OPCODES = 90, FIRST_VERSIONS = 5 };

static const uint8_t first_rows[FIRST_OPCODES][FIRST_VERSIONS] = {
    [0] = {NONE, NONE, NONE, NONE, NONE},                  /* NOP */
    [1] = {M_S, M_S, M_S, M_S, M_S},                       /* MOV */
    [2] = {D_S_S, D_S_S, D_S_S, D_S_S, D_S_S},             /* ADD */
    [3] = {D_S_S, D_S_S, D_S_S, D_S_S, D_S_S},             /* SUB */
    [4] = {D_S_S_S, D_S_S_S, D_S_S_S, D_S_S_S, D_S_S_S},   /* MAD */
    [5] = {D_S_S, D_S_S, D_S_S, D_S_S, D_S_S},             /* MUL */
    [6] = {D_S},                                           /* RCP */
    [7] = {D_S},                                           /* RSQ */
    [8] = {D_S_S, D_S_S, D_S_S, D_S_S, D_S_S},             /* DP3 */
    [9] = {D_S_S, NO_ROW, D_S_S, D_S_S, D_S_S},            /* DP4 */
    [10] = {D_S_S},                                        /* MIN */
    [11] = {D_S_S},                                        /* MAX */
    [12] = {D_S_S},                                        /* SLT */
    [13] = {D_S_S},                                        /* SGE */
    [14] = {D_S},                                          /* EXP */
    [15] = {D_S},                                          /* LOG */
    [16] = {D_S},                                          /* LIT */
    [17] = {D_S_S},                                        /* DST */
    [18] = {NO_ROW, D_S_S_S, D_S_S_S, D_S_S_S, D_S_S_S},   /* LRP */
    [19] = {D_S},                                          /* FRC */
    [20] = {D_S_S},                                        /* M4x4 */
    [21] = {D_S_S},                                        /* M4x3 */
    [22] = {D_S_S},                                        /* M3x4 */
    [23] = {D_S_S},                                        /* M3x3 */
    [24] = {D_S_S},                                        /* M3x2 */
    [OP_DCL] = {U_D},
    [64] = {NO_ROW, T, T, T, E_T},                         /* TEXCOORD */
    [65] = {NO_ROW, K, K, K, K},                           /* TEXKILL */
    [66] = {NO_ROW, T, T, T, E_ET},                        /* TEX */
    [67] = {NO_ROW, T_T, T_T, T_T},                        /* TEXBEM */
    [68] = {NO_ROW, T_T, T_T, T_T},                        /* TEXBEML */
    [69] = {NO_ROW, T_T, T_T, T_T},                        /* TEXREG2AR */
    [70] = {NO_ROW, T_T, T_T, T_T},                        /* TEXREG2GB */
    [71] = {NO_ROW, T_T, T_T, T_T},                        /* TEXM3x2PAD */
    [72] = {NO_ROW, T_T, T_T, T_T},                        /* TEXM3x2TEX */
    [73] = {NO_ROW, T_T, T_T, T_T},                        /* TEXM3x3PAD */
    [74] = {NO_ROW, T_T, T_T, T_T},                        /* TEXM3x3TEX */
    [76] = {NO_ROW, T_T_C, T_T_C, T_T_C},                  /* TEXM3x3SPEC */
    [77] = {NO_ROW, T_T, T_T, T_T},                        /* TEXM3x3VSPEC */
    [78] = {D_S},                                          /* EXPP */
    [79] = {D_S},                                          /* LOGP */
    [80] = {NO_ROW, D_E_S_S, D_E_S_S, D_E_S_S, D_S_S_S},   /* CND */
    [81] = {DEF_ROW, DEF_ROW, DEF_ROW, DEF_ROW, DEF_ROW},  /* DEF */
    [82] = {NO_ROW, NO_ROW, T_T, T_T},                     /* TEXREG2RGB */
    [83] = {NO_ROW, NO_ROW, T_T, T_T},                     /* TEXDP3TEX */
    [84] = {NO_ROW, NO_ROW, NO_ROW, T_T},                  /* TEXM3x2DEPTH */
    [85] = {NO_ROW, NO_ROW, T_T, T_T},                     /* TEXDP3 */
    [86] = {NO_ROW, NO_ROW, T_T, T_T},                     /* TEXM3x3 */
    [87] = {NO_ROW, NO_ROW, NO_ROW, NO_ROW, E},            /* TEXDEPTH */
    [88] = {NO_ROW, NO_ROW, D_S_S_S, D_S_S_S, D_S_S_S},    /* CMP */
    [89] = {NO_ROW, NO_ROW, NO_ROW, NO_ROW, E_B_E},        /* BEM */
};

static inline const struct rule *first_rule_of(enum version version, uint32_t opcode)
{
    if (opcode >= FIRST_OPCODES)
        return opcode == OP_PHASE && version == P14 ? &first_rules[NONE] : NULL;

    const unsigned row = first_rows[opcode][version - V1];
    return row != NO_ROW ? &first_rules[row] : NULL;
}

static inline const struct rule *later_rule_of(enum version version, uint32_t opcode)
{
    if (opcode >= SINCOS_3)
        return NULL;
    if (opcode == OP_SINCOS && is_version_3(version))
        return &rules[SINCOS_3];
    return rules[opcode].versions >> version & 1 ? &rules[opcode] : NULL;
}

/* The rule of an opcode in a version, or null. */
static inline const struct rule *rule_of(enum version version, uint32_t opcode)
{
    return is_first(version) ? first_rule_of(version, opcode) : later_rule_of(version, opcode);
}

/* ---- One instruction, up to SIZE -------------------------------------- */

/* What DCL's destination asks beyond its layout and its type. */
static bool is_declarable(uint32_t destination)
{
    const uint32_t number = field(destination, 0, 0x7FF);

    if (type_of(destination) != TYPE_MISC)
        return true;
    return number == 0 || (number == 1 && field(destination, 16, 0xFF) == 0x0F);
}

static bool is_usage_form(uint32_t token)
{
    return (token & 0xFFF0FFE0) == BIT_31 && field(token, 0, 0x1F) <= 13;
}

/* DCL's usage token beside a lawful destination of this type. */
static bool is_usage(enum version version, uint32_t type, uint32_t token)
{
    const uint32_t texture = field(token, 27, 0xF);

    if (!(token & BIT_31))
        return false;
    if (type == TYPE_SAMPLER)
        return (token & 0x07FFFFFF) == 0 && texture >= 2 && texture <= 4;
    if (version == P2 || type == TYPE_MISC)
        return token == BIT_31;
    return is_usage_form(token);
}

/*
 * DCL's operands behind the instruction token at `at`, its size already known
 * to lie inside the stream. *place is the position of a refusal.
 */
static uint32_t judge_dcl(enum version version, const uint32_t *tokens, size_t at,
                          uint32_t size, size_t *place)
{
    uint32_t number;

    *place = at;
    if (size < 2)
        return SECOND_SIZE;

    const uint32_t destination = tokens[at + 2];
    number = judge_token(destination, &layouts[version][DECLARED_D]);
    if (number == SECOND_YES && !is_declarable(destination))
        number = MISLAID;
    if (number != SECOND_YES) {
        *place = at + 2;
        return number;
    }
    if (!is_usage(version, type_of(destination), tokens[at + 1])) {
        *place = at + 1;
        return MISLAID;
    }
    return size == 2 ? SECOND_YES : SECOND_SIZE;
}

/*
 * The operands behind the instruction token at `at`, left to right; the stated
 * size ends before `end`. Of an instruction that is predicated the first is the
 * destination, and the predicate stands straight behind it and its relative
 * token. *place as in judge_later.
 */
static inline uint32_t judge_operands(enum version version, const struct rule *rule,
                                      bool predicated, const uint32_t *tokens, size_t at,
                                      size_t end, size_t *place)
{
    const struct layout *const set = layouts[version];
    uint8_t with_predicate[6];
    const uint8_t *places = rule->place;
    unsigned count = rule->places;
    size_t next = at + 1;

    if (predicated) {
        with_predicate[0] = places[0];
        with_predicate[1] = PREDICATE;
        memcpy(with_predicate + 2, places + 1, 4);
        places = with_predicate;
        count++;
    }
    for (unsigned k = 0; k < count; k++, next++) {
        if (next == end)
            return SECOND_SIZE;
        if (places[k] == RAW)
            continue;

        const uint32_t token = tokens[next];
        uint32_t number = judge_token(token, &set[places[k]]);
        if (number == SECOND_YES && token & BIT_13) {
            if (++next == end)
                return SECOND_SIZE;
            number = judge_token(tokens[next], &set[RELATIVE]);
        }
        if (number != SECOND_YES) {
            *place = next;
            return number;
        }
    }
    if (next != end)
        return SECOND_SIZE;
    *place = end;
    return SECOND_YES;
}

/* A comment or END at tokens[at], `left` tokens before the end. */
static uint32_t judge_mark(uint32_t token, size_t left, size_t at, size_t *place)
{
    const uint32_t length = field(token, 16, 0x7FFF);

    if ((token & 0xFFFF) == SECOND_END) {
        if (token != SECOND_END)
            return SECOND_BITS;
        *place = at + 1;
        return SECOND_YES;
    }
    if (token & BIT_31)
        return SECOND_BITS;
    if (length > left)
        return SECOND_RUN_OUT;
    *place = at + 1 + length;
    return SECOND_YES;
}

/*
 * The instruction, comment or END at tokens[at], where at < count, in a version
 * of document 01. On a yes *place is the next place, on a refusal the refusal's
 * position.
 */
static uint32_t judge_later(enum version version, const uint32_t *tokens, size_t count,
                            size_t at, size_t *place)
{
    const uint32_t token = tokens[at];
    const uint32_t opcode = token & 0xFFFF;
    const size_t left = count - at - 1;

    *place = at;
    if (opcode >= SECOND_COMMENT)
        return judge_mark(token, left, at, place);

    const struct rule *const rule = later_rule_of(version, opcode);
    const uint32_t controls = field(token, 16, 0xFF);
    const uint32_t size = field(token, 24, 0xF);
    const uint32_t predicated = field(token, 28, 1);

    if (rule == NULL)
        return SECOND_OPCODE;
    if (token >> 29 != 0 || controls < rule->low || controls > rule->high)
        return SECOND_BITS;
    if (predicated && !(rule->predicable && is_version_3(version)))
        return SECOND_BITS;
    if (size > left)
        return SECOND_RUN_OUT;

    const size_t end = at + 1 + size;
    if (opcode == OP_DCL) {
        const uint32_t number = judge_dcl(version, tokens, at, size, place);
        if (number == SECOND_YES)
            *place = end;
        return number;
    }

    return judge_operands(version, rule, predicated, tokens, at, end, place);
}

/* DCL's operands in vs_1_1: as judge_dcl has them, with their one form of U. */
static uint32_t judge_first_dcl(const uint32_t *tokens, size_t at, size_t *place)
{
    const uint32_t number = judge_first_destination(tokens[at + 2], &layouts[V1][DECLARED_D]);

    if (number != SECOND_YES) {
        *place = at + 2;
        return number;
    }
    if (!is_usage_form(tokens[at + 1])) {
        *place = at + 1;
        return MISLAID;
    }
    *place = at + 3;
    return SECOND_YES;
}

/*
 * The same in a first version: the opcode says how many tokens there are, and
 * bit 13 brings none. The first operand is the destination, but for DCL.
 */
static uint32_t judge_first(enum version version, const uint32_t *tokens, size_t count,
                            size_t at, size_t *place)
{
    const uint32_t token = tokens[at];
    const uint32_t opcode = token & 0xFFFF;
    const size_t left = count - at - 1;

    *place = at;
    if (opcode >= SECOND_COMMENT)
        return judge_mark(token, left, at, place);

    const struct rule *const rule = first_rule_of(version, opcode);
    const uint32_t coissue = version == V1 ? 0 : COISSUE;
    const struct layout *const set = layouts[version];

    if (rule == NULL)
        return SECOND_OPCODE;
    if ((token & ~coissue) >> 16 != 0)
        return SECOND_BITS;
    if (rule->places > left)
        return SECOND_RUN_OUT;

    if (opcode == OP_DCL)
        return judge_first_dcl(tokens, at, place);
    for (unsigned k = 0; k < rule->places; k++) {
        const enum place at_k = rule->place[k];
        if (at_k == RAW)
            continue;
        const uint32_t number = k == 0 ? judge_first_destination(tokens[at + 1], &set[at_k])
                                       : judge_token(tokens[at + 1 + k], &set[at_k]);
        if (number != SECOND_YES) {
            *place = at + 1 + k;
            return number;
        }
    }
    *place = at + 1 + rule->places;
    return SECOND_YES;
}

/* Which of the two judges a version's instructions. */
typedef uint32_t judge(enum version version, const uint32_t *tokens, size_t count, size_t at,
                       size_t *place);

static judge *judge_of(enum version version)
{
    return is_first(version) ? judge_first : judge_later;
}

/* ---- What is wrong with a token: request Q-3 --------------------------- */

struct fault {
    uint32_t number, bit;
};

static bool is_set(uint32_t token, unsigned bit)
{
    return token >> bit & 1;
}

/*
 * The place at which tokens[position] stands in the instruction at tokens[at];
 * what stands between the two is lawful.
 */
static enum place place_of(enum version version, const uint32_t *tokens, size_t at, size_t position)
{
    const struct rule *const rule = rule_of(version, tokens[at] & 0xFFFF);
    size_t next = at + 1;

    for (unsigned k = 0; k < rule->places; k++) {
        const bool relative = rule->place[k] < RAW && tokens[next] & BIT_13 && !is_first(version);
        if (next++ == position)
            return rule->place[k];
        if (relative && next++ == position)
            return RELATIVE;
        if (k == 0 && field(tokens[at], 28, 1) && next++ == position)
            return PREDICATE;
    }
    return RAW;
}

/* Whether a destination breaks DCL's rules for type 17 at a bit, which is the
   lowest where it is a field's. */
static bool is_misdeclared(uint32_t token, unsigned bit)
{
    const uint32_t number = field(token, 0, 0x7FF);

    if (type_of(token) != TYPE_MISC)
        return false;
    if (bit == 0)
        return number > 1;
    if (number != 1)
        return false;
    if (bit == 16)
        return field(token, 16, 0xF) != 0xF;
    return bit >= 20 && bit <= 23 && is_set(token, bit);
}

/* The same of U, which stands before a destination of this type. */
static bool is_misused(enum version version, uint32_t type, uint32_t token, unsigned bit)
{
    const uint32_t texture = field(token, 27, 0xF);

    if (type == TYPE_SAMPLER)
        return bit == 27 ? texture < 2 || texture > 4 : bit < 27 && is_set(token, bit);
    if (version == P2 || type == TYPE_MISC)
        return is_set(token, bit);
    if (bit == 0)
        return field(token, 0, 0x1F) > 13;
    return ((bit >= 5 && bit <= 15) || bit >= 20) && is_set(token, bit);
}

static struct fault fault_of_usage(enum version version, uint32_t type, uint32_t token)
{
    for (unsigned bit = 0; bit < 31 && is_set(token, 31); bit++)
        if (is_misused(version, type, token, bit))
            return (struct fault){SECOND_RESERVED, bit};
    return (struct fault){SECOND_RESERVED, 31};
}

static struct fault fault_of_operand(enum version version, enum place place, uint32_t token)
{
    const uint32_t fixed = layouts[version][place].fixed;

    if (!is_set(token, 31))
        return (struct fault){SECOND_RESERVED, 31};
    for (unsigned bit = 0; bit < 31; bit++) {
        if (bit != 13 && is_set(fixed, bit) && is_set(token, bit))
            return (struct fault){SECOND_RESERVED, bit};
        if (version == P3 && place == DECLARED_D && is_misdeclared(token, bit))
            return (struct fault){SECOND_RESERVED, bit};
    }
    if (is_set(fixed, 13) && is_set(token, 13))
        return (struct fault){SECOND_RELATIVE, 13};
    return (struct fault){SECOND_MODIFIER, 24};
}

/* What to tell of a refusal at tokens[position], in the instruction at tokens[at].
   Cold, so that what is lawful is judged by the same code as without it. */
__attribute__((cold))
static struct fault fault_at(enum version version, const uint32_t *tokens, size_t at,
                             uint32_t number, size_t position)
{
    if (number != MISLAID)
        return (struct fault){number, 0};

    const enum place place = place_of(version, tokens, at, position);
    if (place == USAGE)
        return fault_of_usage(version, type_of(tokens[position + 1]), tokens[position]);
    return fault_of_operand(version, place, tokens[position]);
}

/* ---- Blocks ----------------------------------------------------------- */

/*
 * The open blocks, two bits each, the innermost lowest. Both kinds of loop
 * have their upper bit set and no other has. What is closed is shifted out, so
 * equal blocks are equal numbers.
 */
enum { KIND_IF, KIND_ELSE, KIND_LOOP, KIND_REP };
#define ANY_LOOP UINT64_C(0xAAAAAAAAAAAAAAAA)

struct blocks {
    uint64_t kinds;
    uint32_t depth;
    bool phase; /* a PHASE has stood */
};

static uint32_t open_block(struct blocks *blocks, unsigned kind)
{
    if (blocks->depth == SECOND_MAX_BLOCKS)
        return SECOND_DEPTH;
    blocks->kinds = blocks->kinds << 2 | kind;
    blocks->depth++;
    return SECOND_YES;
}

static bool innermost_is(const struct blocks *blocks, unsigned kind)
{
    return blocks->depth != 0 && (blocks->kinds & 3) == kind;
}

static uint32_t close_block(struct blocks *blocks, bool fits)
{
    if (!fits)
        return SECOND_BLOCK;
    blocks->kinds >>= 2;
    blocks->depth--;
    return SECOND_YES;
}

static uint32_t judge_flow(struct blocks *blocks, enum flow flow)
{
    switch (flow) {
    case PLAIN:
        return SECOND_YES;
    case OPEN_IF:
        return open_block(blocks, KIND_IF);
    case OPEN_LOOP:
        return open_block(blocks, KIND_LOOP);
    case OPEN_REP:
        return open_block(blocks, KIND_REP);
    case TURN_ELSE:
        if (!innermost_is(blocks, KIND_IF))
            return SECOND_BLOCK;
        blocks->kinds |= KIND_ELSE;
        return SECOND_YES;
    case CLOSE_IF:
        return close_block(blocks, innermost_is(blocks, KIND_IF) || innermost_is(blocks, KIND_ELSE));
    case CLOSE_LOOP:
        return close_block(blocks, innermost_is(blocks, KIND_LOOP));
    case CLOSE_REP:
        return close_block(blocks, innermost_is(blocks, KIND_REP));
    case IN_LOOP:
        return blocks->kinds & ANY_LOOP ? SECOND_YES : SECOND_BLOCK;
    case OUTSIDE:
        return blocks->depth == 0 ? SECOND_YES : SECOND_BLOCK;
    }
    return SECOND_BLOCK;
}

/* PHASE stands once. */
static uint32_t judge_phase(struct blocks *blocks)
{
    if (blocks->phase)
        return SECOND_BLOCK;
    blocks->phase = true;
    return SECOND_YES;
}

/* ---- The walk --------------------------------------------------------- */

struct walk {
    enum version version;
    judge *judge;
    const uint32_t *tokens;
    size_t count;
    size_t at;             /* the next instruction; a boundary if below count */
    struct blocks blocks;  /* open at that place */
    uint32_t instructions; /* before that place */
    bool over;             /* judged to its end or refused */
    uint32_t number;       /* the judge's when over, 0 for a yes */
    size_t position;
};

static inline struct walk walk_from(enum version version, const uint32_t *tokens, size_t count)
{
    const struct walk walk = {
        .version = version, .judge = judge_of(version), .tokens = tokens, .count = count, .at = 1,
    };
    return walk;
}

static inline void walk_over(struct walk *walk, uint32_t number, size_t position)
{
    walk->over = true;
    walk->number = number;
    walk->position = position;
}

/* Judges what stands at walk->at and moves behind it, or ends the walk. */
static inline void walk_on(struct walk *walk)
{
    const size_t at = walk->at;
    size_t place;

    if (at == walk->count) {
        walk_over(walk, SECOND_RUN_OUT, at);
        return;
    }

    const uint32_t opcode = walk->tokens[at] & 0xFFFF;
    uint32_t number = walk->judge(walk->version, walk->tokens, walk->count, at, &place);
    if (number != SECOND_YES) {
        walk_over(walk, number, place);
    } else if (opcode == SECOND_END) {
        if (walk->blocks.depth != 0)
            walk_over(walk, SECOND_BLOCK, at);
        else if (place != walk->count)
            walk_over(walk, SECOND_TAIL, place);
        else
            walk_over(walk, SECOND_YES, 0);
    } else {
        if (opcode < SINCOS_3 && rules[opcode].flow != PLAIN)
            number = judge_flow(&walk->blocks, rules[opcode].flow);
        else if (opcode == OP_PHASE)
            number = judge_phase(&walk->blocks);
        if (number != SECOND_YES) {
            walk_over(walk, number, at);
            return;
        }
        if (opcode != SECOND_COMMENT)
            walk->instructions++;
        walk->at = place;
    }
}

/* What a walk tells that was refused, at walk->at. */
static struct fault walk_fault(const struct walk *walk)
{
    return fault_at(walk->version, walk->tokens, walk->at, walk->number, walk->position);
}

/* ---- Check ------------------------------------------------------------ */

static struct second_verdict refused(uint32_t number, size_t position, uint32_t detail)
{
    const struct second_verdict verdict = {number, (uint32_t)position, detail, 0, 0};
    return verdict;
}

struct second_verdict second_check(const uint32_t *tokens, size_t count)
{
    if (count < 2 || count > SECOND_MAX_TOKENS)
        return refused(SECOND_LENGTH, 0, 0);

    const enum version version = version_of(tokens[0]);
    if (version == NO_VERSION)
        return refused(SECOND_VERSION, 0, 0);

    struct walk walk = walk_from(version, tokens, count);
    while (!walk.over)
        walk_on(&walk);
    if (walk.number != SECOND_YES) {
        const struct fault fault = walk_fault(&walk);
        return refused(fault.number, walk.position, fault.bit);
    }

    const struct second_verdict yes = {SECOND_YES, 0, 0, (uint32_t)count, walk.instructions};
    return yes;
}

struct second_verdict second_check_bytes(const uint8_t *bytes, size_t length)
{
    uint32_t tokens[SECOND_MAX_TOKENS];
    const size_t count = length / 4;

    if (length % 4 != 0 || count > SECOND_MAX_TOKENS)
        return refused(SECOND_LENGTH, 0, 0);
    for (size_t k = 0; k < count; k++) {
        const uint8_t *const b = bytes + 4 * k;
        tokens[k] = (uint32_t)b[0] | (uint32_t)b[1] << 8 | (uint32_t)b[2] << 16 | (uint32_t)b[3] << 24;
    }
    return second_check(tokens, count);
}

/* ---- Reader ----------------------------------------------------------- */

static bool is_destination(enum place place)
{
    return place <= DECLARED_D;
}

/* Fields of the lawful operand at tokens[at]; gives the place behind it. */
static size_t unpack_operand(enum version version, enum place place, const uint32_t *tokens,
                             size_t at, struct second_operand *operand)
{
    const uint32_t token = tokens[at++];

    if (place == RAW || place == USAGE) {
        operand->raw = token;
        return at;
    }
    operand->number = field(token, 0, 0x7FF);
    operand->type = type_of(token);
    operand->relative = field(token, 13, 1);
    if (is_destination(place)) {
        operand->mask = field(token, 16, 0xF);
        operand->result = field(token, 20, 7);
        operand->shift = field(token, 24, 0xF);
    } else {
        operand->swizzle = field(token, 16, 0xFF);
        operand->modifier = field(token, 24, 0xF);
    }
    if (operand->relative && !is_first(version)) {
        operand->relative_number = field(tokens[at], 0, 0x7FF);
        operand->relative_type = type_of(tokens[at]);
        operand->relative_swizzle = field(tokens[at], 16, 0xFF);
        at++;
    }
    return at;
}

/* The record of the lawful instruction at tokens[at]. */
static void unpack(enum version version, const uint32_t *tokens, size_t at,
                   struct second_record *record)
{
    const uint32_t token = tokens[at++];
    const uint32_t opcode = token & 0xFFFF;

    record->opcode = opcode;
    if (opcode == SECOND_END)
        return;
    if (opcode == SECOND_COMMENT) {
        record->length = field(token, 16, 0x7FFF);
        return;
    }

    const struct rule *const rule = rule_of(version, opcode);
    record->controls = field(token, 16, 0xFF);
    record->predicated = field(token, 28, 1);
    record->coissue = field(token, 30, 1);
    unsigned k = 0;
    if (record->predicated) {
        at = unpack_operand(version, rule->place[k], tokens, at, &record->operands[k]);
        at = unpack_operand(version, PREDICATE, tokens, at, &record->operands[SECOND_PREDICATE]);
        k++;
    }
    for (; k < rule->places; k++)
        at = unpack_operand(version, rule->place[k], tokens, at, &record->operands[k]);
}

struct second_read second_read(uint32_t version, const uint32_t *tokens, size_t count, size_t at)
{
    struct second_read result = {0};
    const enum version known = version_of(version);
    size_t place = 0;

    if (count > SECOND_MAX_TOKENS) {
        result.number = SECOND_LENGTH;
    } else if (known == NO_VERSION) {
        result.number = SECOND_VERSION;
    } else if (at >= count) {
        result.number = SECOND_RUN_OUT;
        place = count;
    } else {
        const uint32_t number = judge_of(known)(known, tokens, count, at, &place);
        if (number == SECOND_YES) {
            result.next = place;
            unpack(known, tokens, at, &result.record);
            return result;
        }
        const struct fault fault = fault_at(known, tokens, at, number, place);
        result.number = fault.number;
        result.detail = fault.bit;
    }
    result.position = (uint32_t)place;
    return result;
}

/* ---- Notes on what drivers read otherwise ------------------------------ */

/* The row of comments right before an instruction. */
struct comments {
    size_t begin;
    unsigned count;
    unsigned empty;  /* how many of them have no body */
    bool ends_empty; /* whether the last one has none */
};

/*
 * wined3d 8.0 steps over comments twice before it takes an opcode, and stops each
 * time behind an empty one. Between the two it looks whether END is there. So it
 * comes through a row with at most two empty comments, the second one at its end,
 * and to an END only if no comment stands behind the first empty one.
 */
static bool wined3d_is_lost(const struct comments *before, uint32_t opcode)
{
    if (opcode == SECOND_COMMENT)
        return before->empty == 2;
    if (opcode == SECOND_END)
        return before->empty > 1 || (before->empty == 1 && !before->ends_empty);
    return false;
}

static uint32_t shapes_of(uint32_t version, const struct second_record *record, const struct comments *before)
{
    enum { NOTED_SGN = 34, NOTED_IFC = 41, NOTED_BREAKC = 45, NOTED_TEXKILL = 65, NOTED_PHASE = 0xFFFD };
    const bool is_vs_3_0 = version == 0xFFFE0300;
    uint32_t notes = 0;
    if (wined3d_is_lost(before, record->opcode))
        notes |= SECOND_WINED3D_COMMENTS;
    if (record->opcode == SECOND_END && before->count > 0)
        notes |= SECOND_NINE_COMMENTS;
    if (is_vs_3_0 && record->opcode == NOTED_SGN)
        notes |= SECOND_WINED3D_SGN;
    /* TEXKILL has no source: its predicate is last as well as behind the destination */
    if (record->predicated && record->opcode != NOTED_TEXKILL)
        notes |= SECOND_MOJOSHADER_PREDICATE;
    /* these two begin with a source that may be relative */
    if (is_vs_3_0 && record->operands[0].relative && record->opcode != NOTED_IFC && record->opcode != NOTED_BREAKC)
        notes |= SECOND_MOJOSHADER_DESTINATION;
    if (record->opcode == NOTED_PHASE && record->coissue)
        notes |= SECOND_MOJOSHADER_PHASE;
    return notes;
}

struct second_noted second_note(uint32_t version, const uint32_t *tokens, size_t count, size_t from)
{
    struct second_noted result = {0};
    struct comments before = {0};
    for (size_t at = from;;) {
        const struct second_read read = second_read(version, tokens, count, at);
        if (read.number != SECOND_YES) {
            result.number = read.number;
            result.position = read.position;
            result.detail = read.detail;
            return result;
        }
        if (before.count == 0)
            before.begin = at;
        const uint32_t notes = shapes_of(version, &read.record, &before);
        if (notes != 0 || read.record.opcode == SECOND_END) {
            result.notes = notes;
            result.at = at;
            result.comments = before.begin;
            result.next = read.next;
            return result;
        }
        if (read.record.opcode == SECOND_COMMENT) {
            before.count++;
            before.ends_empty = read.record.length == 0;
            before.empty += before.ends_empty;
        } else {
            before = (struct comments){0};
        }
        at = (size_t)read.next;
    }
}

/* ---- Writer ----------------------------------------------------------- */

/* Any record packs into this, also one where all is relative. */
enum { PACKED_MAX = 1 + 2 * SECOND_OPERANDS };

static uint32_t type_bits(uint32_t type)
{
    return field(type, 0, 7) << 28 | field(type, 3, 3) << 11;
}

/* Fields too wide for their bits lose their upper part here. */
static size_t pack_operand(enum version version, enum place place,
                           const struct second_operand *operand, uint32_t *tokens, size_t at)
{
    if (place == RAW || place == USAGE) {
        tokens[at++] = operand->raw;
        return at;
    }

    uint32_t token = BIT_31 | type_bits(operand->type) | field(operand->number, 0, 0x7FF);
    if (is_destination(place))
        token |= field(operand->mask, 0, 0xF) << 16 | field(operand->result, 0, 7) << 20
               | field(operand->shift, 0, 0xF) << 24;
    else
        token |= field(operand->swizzle, 0, 0xFF) << 16 | field(operand->modifier, 0, 0xF) << 24;

    if (operand->relative == 0) {
        tokens[at++] = token;
    } else {
        tokens[at++] = token | BIT_13;
        if (!is_first(version))
            tokens[at++] = BIT_31 | type_bits(operand->relative_type)
                         | field(operand->relative_number, 0, 0x7FF)
                         | field(operand->relative_swizzle, 0, 0xFF) << 16;
    }
    return at;
}

/*
 * The tokens of a record that is neither a comment nor END: 0 if the record is
 * none that the reader gives. A record and the tokens it is read from determine
 * each other, so it is enough to read the packed tokens back and compare.
 */
static size_t pack(uint32_t version, const struct second_record *record,
                   uint32_t tokens[PACKED_MAX])
{
    const enum version known = version_of(version);
    const struct rule *const rule = rule_of(known, record->opcode);
    size_t at = 1;
    unsigned k = 0;

    if (rule == NULL)
        return 0;
    if (record->predicated && rule->predicable) {
        at = pack_operand(known, rule->place[k], &record->operands[k], tokens, at);
        at = pack_operand(known, PREDICATE, &record->operands[SECOND_PREDICATE], tokens, at);
        k++;
    }
    for (; k < rule->places; k++)
        at = pack_operand(known, rule->place[k], &record->operands[k], tokens, at);
    tokens[0] = record->opcode | field(record->controls, 0, 0xFF) << 16
              | (is_first(known) ? 0 : (uint32_t)(at - 1) << 24)
              | (record->predicated ? UINT32_C(1) << 28 : 0) | (record->coissue ? COISSUE : 0);

    const struct second_read back = second_read(version, tokens, at, 0);
    if (back.number != SECOND_YES || memcmp(&back.record, record, sizeof *record) != 0)
        return 0;
    return at;
}

_Static_assert(sizeof(struct second_record) == (5 + 12 * SECOND_OPERANDS) * sizeof(uint32_t),
               "records are compared as bytes and must not hold padding");

struct second_written second_write(uint32_t version, const struct second_record *record,
                                   const uint32_t *body, size_t body_length,
                                   uint32_t *buffer, size_t buffer_length, size_t at)
{
    const struct second_written wrong_record = {SECOND_RECORD, 0, 0};
    uint32_t head[PACKED_MAX];
    size_t head_length = 1;

    if (version_of(version) == NO_VERSION) {
        const struct second_written wrong_version = {SECOND_VERSION, 0, 0};
        return wrong_version;
    }

    if (record->opcode == SECOND_COMMENT || record->opcode == SECOND_END) {
        struct second_record only = {.opcode = record->opcode};
        if (record->opcode == SECOND_COMMENT && record->length < SECOND_MAX_TOKENS)
            only.length = record->length;
        if (memcmp(&only, record, sizeof only) != 0)
            return wrong_record;
        head[0] = record->opcode | record->length << 16;
    } else {
        head_length = pack(version, record, head);
        if (head_length == 0)
            return wrong_record;
    }
    if (body_length != record->length)
        return wrong_record;

    if (at > buffer_length || head_length + body_length > buffer_length - at) {
        const struct second_written no_room = {SECOND_ROOM, 0, 0};
        return no_room;
    }
    for (size_t k = 0; k < head_length; k++)
        buffer[at + k] = head[k];
    for (size_t k = 0; k < body_length; k++)
        buffer[at + head_length + k] = body[k];

    const struct second_written written = {SECOND_YES, 0, at + head_length + body_length};
    return written;
}

/* ---- Edit ------------------------------------------------------------- */

static struct second_edited not_edited(uint32_t number, size_t position, uint32_t detail)
{
    const struct second_edited edited = {number, (uint32_t)position, detail, 0, 0};
    return edited;
}

static void copy_tokens(uint32_t *to, const uint32_t *from, size_t count)
{
    if (count != 0)
        memcpy(to, from, count * sizeof *to);
}

static bool same_blocks(struct blocks a, struct blocks b)
{
    return a.depth == b.depth && a.kinds == b.kinds && a.phase == b.phase;
}

struct second_edited second_edit(uint32_t *buffer, size_t buffer_length, size_t n,
                                 size_t i, size_t j, const uint32_t *run, size_t m)
{
    uint32_t splice[SECOND_MAX_TOKENS];

    if (n < 2 || n > SECOND_MAX_TOKENS || n > buffer_length)
        return not_edited(SECOND_LENGTH, 0, 0);
    const enum version version = version_of(buffer[0]);
    if (version == NO_VERSION)
        return not_edited(SECOND_VERSION, 0, 0);

    /* The old stream: are i and j boundaries, and what is open at j. */
    bool found_i = false, found_j = false;
    struct blocks open_at_j = {0};
    for (struct walk old = walk_from(version, buffer, n); !old.over; walk_on(&old)) {
        if (old.at == n)
            break;
        if (old.at == i)
            found_i = true;
        if (old.at == j) {
            found_j = true;
            open_at_j = old.blocks;
        }
    }
    if (!found_i || !found_j || i > j)
        return not_edited(SECOND_PLACE, 0, 0);

    const size_t kept = n - (j - i);
    if (m > SECOND_MAX_TOKENS - kept || m > buffer_length - kept)
        return not_edited(SECOND_ROOM, 0, 0);
    const size_t length = kept + m;

    copy_tokens(splice, buffer, i);
    copy_tokens(splice + i, run, m);
    copy_tokens(splice + i + m, buffer + j, n - j);

    /* The new one: read until it meets the old walk, or to its end. */
    bool joined = false;
    struct walk new = walk_from(version, splice, length);
    while (!new.over && !joined) {
        if (new.at == i + m && same_blocks(new.blocks, open_at_j))
            joined = true;
        else
            walk_on(&new);
    }
    if (!joined && new.number != SECOND_YES) {
        const struct fault fault = walk_fault(&new);
        return not_edited(fault.number, new.position, fault.bit);
    }

    copy_tokens(buffer, splice, length);
    const struct second_edited edited = {SECOND_YES, 0, 0, joined, length};
    return edited;
}

/*
 * The CS cutter: operators, sheets and gate lists, four-by-four unitaries, bundles of
 * sheets, gate lists as OpenQASM 2.0 text, the layers of a program, and the CS states
 * to order.
 * Formats, numbers and the order of refusals are those of documents 01 and 02.
 *
 * Every call answers one 64-bit word:
 *
 *   bits      what
 *   0 to 7    the refusal's number, 0 where there is none; with a refusal all
 *             other bits are 0
 *   8 to 31   the value: the count, the figure of states to order, the number of
 *             bytes written (a bundle, a text, or the letters of a text), the place
 *             of a part's first byte, or the number of layers
 *   32 to 47  the length: the letters that an operator or a unitary was cut into, or
 *             the length of a part; 0 unless one of these was cut into gates or a
 *             part found
 *   48 to 55  L: the cuts whose rows grouped as 2 and 4; 0 unless an operator or a
 *             unitary was cut
 *   56 to 63  the sign of an operator's gate list: 0 if it multiplies to the operator,
 *             1 if to its negative; or the power of omega, 0 to 7, of a unitary's
 *             gate list; 0 unless one of these was cut into gates
 *
 * The functions at the end of this file take a word apart.
 *
 * An operator file is a byte k and 36 entries row by row, low byte first, two's
 * complement. There are two kinds: a short file has 73 bytes, k from 0 to 28 and
 * entries of 16 bits; a long one has 145 bytes, k from 0 to 60 and entries of 32 bits.
 * It stands for the matrix of the entries divided by root two to the power k. Both
 * kinds are read, and whatever the kind and k, one operator has one result. Written is
 * the least k, in a short file where it is at most 28 and in a long one otherwise:
 * dimfrets_operator_bytes tells how long. The length that a file is read with is its
 * own and not that of the buffer that it lies in.
 *
 * A call reads the in_len bytes at `in` and writes nowhere but in the out_len
 * bytes at `out`; a call without `out` writes nothing. With a refusal no byte of
 * `out` changes; on success the bytes past the output keep theirs. Pointers are
 * valid for their lengths and not null, also where a length is 0, and the two
 * ranges do not overlap.
 */
#ifndef DIMFRETS_H
#define DIMFRETS_H

#include <stddef.h>
#include <stdint.h>

#ifdef __cplusplus
extern "C" {
#endif

/* Sizes, in bytes. */
enum dimfrets_size {
    DIMFRETS_SHORT_OPERATOR_BYTES = 73, /* a short operator file */
    DIMFRETS_LONG_OPERATOR_BYTES = 145, /* a long one; holds any operator file written */
    DIMFRETS_UNITARY_BYTES = 65,    /* a unitary */
    DIMFRETS_MIN_SHEET = 8,         /* the sheet of a Clifford; each generator adds one */
    DIMFRETS_MAX_SHEET = 68,        /* the sheet of an operator of count 60 */
    DIMFRETS_MAX_LETTERS = 16384,   /* the longest gate list that is read, also from a text */
    DIMFRETS_GATES_BUFFER = 15616,  /* holds the gate list of any operator or unitary:
                                       256 * (60 + 1) */
    DIMFRETS_BUNDLE_BUFFER = 35842, /* holds any bundle written: 512 * (68 + 2) + 2 */
    DIMFRETS_QASM_BUFFER = 344111   /* holds any text written: 47 + 21 * 16384 */
};

/* Limits of exponents, counts, orders, bundles and programs. */
enum dimfrets_limit {
    DIMFRETS_MAX_SHORT_EXPONENT = 28, /* the largest exponent k of a short operator file */
    DIMFRETS_MAX_COUNT = 60,        /* the largest exponent k of an operator, and count t */
    DIMFRETS_MAX_UNITARY_EXPONENT = 29, /* the largest exponent k of a unitary */
    DIMFRETS_MAX_SPOILAGE = 1000,   /* the largest spoilage, in thousandths */
    DIMFRETS_MAX_SHEETS = 512,      /* the most sheets of a bundle */
    DIMFRETS_MAX_BLOCKS = 64,       /* the most blocks of a program, and with them layers */
    DIMFRETS_QUBITS = 32            /* the qubits of a program, numbered from 0 */
};

/* The refusals, by who causes them. */
enum dimfrets_refusal {
    /* The maker of an operator file. */
    DIMFRETS_FILE_LENGTH = 1,         /* length neither 73 nor 145 */
    DIMFRETS_EXPONENT_TOO_LARGE = 2,  /* k above 28 in 73 bytes, above 60 in 145 */
    DIMFRETS_ENTRY_TOO_LARGE = 3,     /* an entry whose square exceeds 2 to the power k */
    DIMFRETS_NOT_ORTHOGONAL = 4,      /* not orthogonal */
    DIMFRETS_NOT_PROPER = 5,          /* orthogonal, not proper */
    /* The lender of an output buffer. */
    DIMFRETS_BUFFER_TOO_SHORT = 6,    /* shorter than 256 * (t + 1) for the gate list of an
                                         operator or a unitary, than the sheet, than the operator
                                         file that is written (73 or 145 bytes), than the bundle,
                                         than the text, than its letters, or than the layers, a
                                         byte a block */
    /* The writer of a gate list. */
    DIMFRETS_TOO_MANY_LETTERS = 7,    /* more than 16,384 letters, or statements of a text */
    DIMFRETS_UNKNOWN_LETTER = 8,      /* a byte that is no letter of the table */
    DIMFRETS_BEGINNING_TOO_DEEP = 9,  /* a beginning whose product has a least exponent above 60 */
    /* The maker of a sheet. */
    DIMFRETS_SHEET_LENGTH = 10,       /* length below 8 or above 68 */
    DIMFRETS_SHEET_COUNT = 16,        /* a first byte that is not the length plus 56 */
    DIMFRETS_SHEET_BYTE = 11,         /* a generator byte outside 1 to 15, or a column byte
                                         outside 1 to 6 and 129 to 134 */
    DIMFRETS_NO_CLIFFORD = 12,        /* the six columns are no Clifford */
    DIMFRETS_SHEET_SIGN = 15,         /* a last byte above 1, or a negative column 1 */
    DIMFRETS_OTHER_SHEET = 13,        /* cutting its operator gives another sheet */
    /* Whoever orders states. */
    DIMFRETS_ORDER_OUT_OF_RANGE = 14, /* t above 60 or p above 1000 */
    /* The maker of a unitary. */
    DIMFRETS_UNITARY_SHAPE = 17,      /* length not 65, or k above 29 */
    DIMFRETS_UNITARY_ENTRY = 18,      /* an entry whose squared size exceeds 2 to the power k */
    DIMFRETS_NOT_UNITARY = 19,        /* not unitary */
    /* The maker of a bundle. */
    DIMFRETS_BUNDLE_TRAILER = 20,     /* no trailer of a fitting length, or more than 512 sheets */
    DIMFRETS_BUNDLE_SHEETS = 21,      /* a sheet's first byte below 64, offsets that do not follow
                                         the sheets, or sheets that do not end where the trailer
                                         starts; bytes to bundle that are not sheets end to end */
    /* Whoever asks for a sheet. */
    DIMFRETS_NO_SHEET = 22,           /* no sheet n */
    /* The writer of a text. */
    DIMFRETS_NO_STATEMENT = 23,       /* a line that is no statement, one of the first three lines
                                         missing, repeated or out of its place, or a last line
                                         with no line feed */
    /* The writer of a program. */
    DIMFRETS_PROGRAM_LENGTH = 24,     /* an odd number of bytes, or more than 64 blocks */
    DIMFRETS_BLOCK_QUBITS = 25        /* a qubit above 31, or a block that names one qubit twice */
};

/*
 * Cuts an operator.
 * Reads an operator file of either kind at `in`. Writes its sheet at `out`: the byte
 * 64 + t, t generator bytes, six column bytes of a Clifford whose column 1 is
 * positive, and a last byte, 0 if the operator is their product and 1 if it is the
 * negative of that. Two operators agree up to sign exactly when their sheets agree
 * before the last byte. Sheets laid end to end can be told apart: each is as long as
 * its first byte less 56. Answers the count t and L, the number of cuts whose rows
 * grouped as 2 and 4. L is 0 for a Clifford and below t for every other operator; it
 * is the same for M and -M.
 * Refusals, the first that holds: 1, 2, 3, 4, 5, 6 (out_len below t + 8).
 */
uint64_t dimfrets_operator_to_sheet(const uint8_t *in, size_t in_len,
                                    uint8_t *out, size_t out_len);

/*
 * Cuts an operator into gates.
 * Reads an operator file of either kind at `in`. Writes a gate list at `out` that
 * multiplies to the operator if the sign is 0, and to its negative if it is 1: letters
 * H h S s Z C, exactly t of them C, at most 256 * (t + 1) in all. No list that
 * multiplies to the operator or to its negative has fewer C. In each stretch without C
 * (before the first C, between two, and after the last) there are as many Z as there are
 * indices among 1 to 3 that the stretch sends to 4 to 6; no stretch with the same image
 * up to sign has fewer. Answers the count t, the number of letters, L as for the sheet,
 * and the sign, which follows from the letters. The way back is
 * dimfrets_gates_to_operator: it writes the operator or, with the sign 1, the operator
 * with every entry negated.
 * Refusals, the first that holds: 1, 2, 3, 4, 5, 6 (out_len below 256 * (t + 1),
 * however many letters there are).
 */
uint64_t dimfrets_operator_to_gates(const uint8_t *in, size_t in_len,
                                    uint8_t *out, size_t out_len);

/*
 * Cuts a four-by-four unitary into gates.
 * Reads a unitary at `in`: a byte k from 0 to 29, then 16 Gaussian integers row by row,
 * each its real and then its imaginary part, 16 bits each, two's complement, low byte
 * first. It stands for their matrix divided by root two to the power k; the first qubit
 * is the left tensor factor. Writes a gate list at `out`: letters H h S s Z C, exactly t
 * of them C, at most 256 * (t + 1) in all. The plain matrices of the letters, in their
 * order, times omega = (1 + i) / root two to the power that is answered, are the unitary
 * exactly: (1, 1), (1, -1) over root two for H and diag(1, i) for S on the first qubit,
 * the same on the second for h and s, diag(1, 1, 1, -1) for Z, and diag(1, 1, 1, i) for
 * C. No list whose plain matrices give the unitary up to a power of omega has fewer C,
 * and no unitary of this form lacks a list. The letters, t and L are those of
 * dimfrets_operator_to_gates for the six-by-six form of the unitary, and for the negative
 * of that form, so the promise about Z holds too. Answers the count t, at most 2 * k + 2,
 * the number of letters, L, and the power of omega, which follows from the letters.
 * Refusals, the first that holds: 17 (in_len not 65, or k above 29), 18, 19, 6 (out_len
 * below 256 * (t + 1), however many letters there are).
 */
uint64_t dimfrets_unitary_to_gates(const uint8_t *in, size_t in_len,
                                   uint8_t *out, size_t out_len);

/*
 * Multiplies a gate list.
 * Reads a gate list at `in`, its first letter the leftmost factor. Writes the
 * operator file of the product, with the least exponent, at `out`. Answers the
 * count of the operator, which can be lower than the number of letters C; the file has
 * dimfrets_operator_bytes of it.
 * Refusals: 7; then 8 or 9 at the leftmost place that earns one; then 6 (out_len
 * below 73, or below 145 where the count is above 28).
 */
uint64_t dimfrets_gates_to_operator(const uint8_t *in, size_t in_len,
                                    uint8_t *out, size_t out_len);

/*
 * Multiplies a sheet.
 * Reads a sheet at `in`. Writes the operator file of its product, the sign of the
 * last byte included, with the least exponent, at `out`. Answers the count,
 * in_len - 8; the file has dimfrets_operator_bytes of it.
 * Refusals, the first that holds: 10, 16, 11, 12, 15, 13, 6 (out_len below 73, or below
 * 145 where the count is above 28).
 */
uint64_t dimfrets_sheet_to_operator(const uint8_t *in, size_t in_len,
                                    uint8_t *out, size_t out_len);

/*
 * The number of CS states to order for the count t and a spoilage of p
 * thousandths: t plus t * p / 1000, rounded to the nearest whole state, an exact
 * half to the even one; at most 120.
 * Reads and writes no bytes. Refusal: 14.
 */
uint64_t dimfrets_states_to_order(uint64_t t, uint64_t p);

/*
 * Finds a sheet in a bundle.
 * Reads a bundle at `in`: up to 512 sheets end to end, each as long as its first byte
 * less 56, and right after the last a trailer: for each sheet the offset of its first
 * byte, from 0 up, then the number of sheets, each of them 16 bits, low byte first.
 * The bundle of no sheets is two zero bytes. Answers where sheet n, counted from 0,
 * stands: it is the part of `length` bytes at `in + value`. A part that is found is
 * not empty and lies before the trailer; with a refusal the length is 0. The part has
 * 8 to 199 bytes, of which the first alone is looked at, so it may earn the refusals
 * of a sheet when it is read.
 * Refusals, the first that holds: 20 (in_len below 2, or below 2 * number + 2, or a
 * number above 512); 21 (a first byte below 64, an offset that is not where the
 * sheets before it end, or sheets that do not end where the trailer starts); 22 (n
 * not below the number).
 */
uint64_t dimfrets_bundle_sheet(const uint8_t *in, size_t in_len, uint64_t n);

/*
 * Bundles sheets.
 * Reads sheets at `in`, laid end to end; there may be none. Writes the bundle of them
 * at `out`: their bytes as they are, then the trailer. Answers the number of bytes
 * written, in_len + 2 * number + 2. A sheet stands whole if its first byte is from 64
 * to 124 and as many bytes as that less 56 are there; no other byte of it is looked
 * at, so it may earn the refusals of a sheet when it is read.
 * Refusals, the first that holds: 20 (at least 513 sheets stand whole, end to end,
 * from the front, whatever follows); 21 (those that stand whole do not end where the
 * bytes end); 6 (out_len below in_len + 2 * number + 2).
 */
uint64_t dimfrets_sheets_to_bundle(const uint8_t *in, size_t in_len,
                                   uint8_t *out, size_t out_len);

/*
 * Writes a gate list as text.
 * Reads a gate list at `in`; it may be empty. Writes its OpenQASM 2.0 text at `out`:
 * the lines
 *
 *   OPENQASM 2.0;
 *   include "qelib1.inc";
 *   qreg q[2];
 *
 * and then a statement a line, in time order, from the last letter to the first:
 *
 *   H   h q[0];       S   s q[0];       Z   cz q[0],q[1];
 *   h   h q[1];       s   s q[1];       C   cu1(pi/2) q[0],q[1];
 *
 * Each line ends in one line feed. Answers the number of bytes written, from 47 to
 * 344,111. How deep the list goes is not looked at: there is no refusal 9.
 * Refusals, the first that holds: 7, 8 (at any place), 6 (out_len below the number of
 * bytes of the text).
 */
uint64_t dimfrets_gates_to_qasm(const uint8_t *in, size_t in_len,
                                uint8_t *out, size_t out_len);

/*
 * Reads a gate list from its text.
 * Reads at `in` a text as dimfrets_gates_to_qasm writes it, or with the qubits of a cz
 * or a cu1(pi/2) in the other order. Writes the letters of its statements at `out`,
 * that of the last statement first. Answers the number of bytes written, one for each
 * statement; the first three lines alone are the empty list. A list that is written
 * and read is the same list.
 * Refusals, the first that holds: 23 (anywhere in the text: a line that is none of
 * these, one of the first three lines missing, repeated or out of its place, or a last
 * line with no line feed; also no text at all); 7 (more than 16,384 statements); 6
 * (out_len below the number of statements).
 */
uint64_t dimfrets_qasm_to_gates(const uint8_t *in, size_t in_len,
                                uint8_t *out, size_t out_len);

/*
 * Lays a program out in layers.
 * Reads a program at `in`: up to 64 blocks, each two bytes, the numbers from 0 to 31 of
 * its two different qubits; there may be none. Writes one byte a block at `out`, in list
 * order: the block's layer, from 0. Of two blocks that share a qubit the later one has the
 * higher layer, so blocks in a layer share none. No layering with that property has fewer
 * layers or puts any block earlier: a block's layer is one above the highest of the
 * earlier blocks that share a qubit with it, or 0 where there are none. Answers the number
 * of layers, 0 where there are no blocks and at most 64.
 * Refusals, the first that holds: 24 (in_len odd, or above 128); 25 (in any block); 6
 * (out_len below the number of blocks).
 */
uint64_t dimfrets_blocks_to_layers(const uint8_t *in, size_t in_len,
                                   uint8_t *out, size_t out_len);

/* Whether an answer is a refusal: 1 or 0. */
static inline int dimfrets_is_refused(uint64_t answer)
{
    return (answer & 0xFF) != 0;
}

/* The number of a refusal, 1 to 25; 0 if the answer is none. */
static inline unsigned dimfrets_refusal_number(uint64_t answer)
{
    return (unsigned)(answer & 0xFF);
}

/*
 * The count, the figure of states to order, the number of bytes of a bundle, of a text
 * or of the letters of a text, the place of a part's first byte, counted from `in`, or
 * the number of layers; of an answer that is no refusal.
 */
static inline unsigned dimfrets_value(uint64_t answer)
{
    return (unsigned)(answer >> 8 & 0xFFFFFF);
}

/*
 * The number of letters that an operator or a unitary was cut into, or the length of a
 * part; 0 unless one of these was cut into gates or a part found.
 */
static inline size_t dimfrets_length(uint64_t answer)
{
    return (size_t)(answer >> 32 & 0xFFFF);
}

/*
 * L, the number of cuts whose rows grouped as 2 and 4; 0 unless an operator or a unitary
 * was cut.
 */
static inline unsigned dimfrets_loose(uint64_t answer)
{
    return (unsigned)(answer >> 48 & 0xFF);
}

/*
 * The sign of an operator's gate list, 0 if it multiplies to the operator and 1 if to its
 * negative; of an answer about an operator. 0 unless it was cut into gates.
 */
static inline unsigned dimfrets_sign(uint64_t answer)
{
    return (unsigned)(answer >> 56);
}

/*
 * The power of omega, 0 to 7, that stands before a unitary's gate list; of an answer about
 * a unitary. 0 unless it was cut into gates.
 */
static inline unsigned dimfrets_omega(uint64_t answer)
{
    return (unsigned)(answer >> 56);
}

/* The length of the operator file that is written for a count: 73, or 145 above 28. */
static inline size_t dimfrets_operator_bytes(unsigned count)
{
    return count <= DIMFRETS_MAX_SHORT_EXPONENT ? DIMFRETS_SHORT_OPERATOR_BYTES
                                                : DIMFRETS_LONG_OPERATOR_BYTES;
}

#ifdef __cplusplus
}
#endif

#endif /* DIMFRETS_H */

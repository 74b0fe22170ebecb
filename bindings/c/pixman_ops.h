/* pixman_ops.h - the operators of pixman, at the numbers of those of pix.h. */
#ifndef PIXMAN_OPS_H
#define PIXMAN_OPS_H

#include "pix.h"
#include <pixman.h>

enum {
    PEER_SRC = PIXMAN_OP_SRC, PEER_DEST = PIXMAN_OP_DST, PEER_SRC_OVER = PIXMAN_OP_OVER, PEER_DEST_OVER = PIXMAN_OP_OVER_REVERSE,
    PEER_SRC_OUT = PIXMAN_OP_OUT, PEER_DEST_OUT = PIXMAN_OP_OUT_REVERSE, PEER_SRC_IN = PIXMAN_OP_IN,
    PEER_DEST_IN = PIXMAN_OP_IN_REVERSE, PEER_SRC_ATOP = PIXMAN_OP_ATOP, PEER_DEST_ATOP = PIXMAN_OP_ATOP_REVERSE,
    PEER_XOR = PIXMAN_OP_XOR, PEER_CLEAR = PIXMAN_OP_CLEAR, PEER_PLUS = PIXMAN_OP_ADD
};

#define PEER_(NAME, WORD) (pixman_op_t)PEER_##NAME,
static const pixman_op_t operators[PIX_OP_COUNT] = {PIX_EACH_OP(PEER_)};
#undef PEER_

#endif

/* The loops of the line library written in C, to compare times with.
   `whole_` takes each sum in 64 bits, so that it gives what the proved calls give for every input.
   `short_` takes it in 32 bits, as codecs commonly do: right only where no sum overflows, as for every map. */
#ifndef PEERS_H
#define PEERS_H
#include <stddef.h>
#include <stdint.h>

#define PEERS(kind)                                                                                             \
    void kind##_predict_row(int32_t *restrict t, const int32_t *restrict l, const int32_t *restrict r, size_t n);   \
    void kind##_update_row(int32_t *restrict t, const int32_t *restrict l, const int32_t *restrict r, size_t n);    \
    void kind##_unupdate_row(int32_t *restrict t, const int32_t *restrict l, const int32_t *restrict r, size_t n);  \
    void kind##_unpredict_row(int32_t *restrict t, const int32_t *restrict l, const int32_t *restrict r, size_t n); \
    void kind##_lift(int32_t *line, size_t n);                                                                  \
    void kind##_unlift(int32_t *line, size_t n);                                                                \
    void kind##_forward(const int32_t *restrict line, int32_t *restrict out, size_t n);                         \
    void kind##_backward(const int32_t *restrict coefficients, int32_t *restrict out, size_t n);                 \
    /* the integer 9/7: l and r are the rows beside, ll and rr those beyond */                                  \
    void kind##_predict_row_nine_seven(int32_t *restrict t, const int32_t *restrict l, const int32_t *restrict r, const int32_t *restrict ll, \
                               const int32_t *restrict rr, size_t n);                                           \
    void kind##_update_row_nine_seven(int32_t *restrict t, const int32_t *restrict l, const int32_t *restrict r, size_t n);   \
    void kind##_unupdate_row_nine_seven(int32_t *restrict t, const int32_t *restrict l, const int32_t *restrict r, size_t n); \
    void kind##_unpredict_row_nine_seven(int32_t *restrict t, const int32_t *restrict l, const int32_t *restrict r, const int32_t *restrict ll, \
                                 const int32_t *restrict rr, size_t n);                                         \
    void kind##_lift_nine_seven(int32_t *line, size_t n);                                                               \
    void kind##_unlift_nine_seven(int32_t *line, size_t n);                                                             \
    void kind##_forward_nine_seven(const int32_t *restrict line, int32_t *restrict out, size_t n);                      \
    void kind##_backward_nine_seven(const int32_t *restrict coefficients, int32_t *restrict out, size_t n);

PEERS(whole)
PEERS(short)

#endif

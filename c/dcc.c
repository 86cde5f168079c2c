/* SPDX-License-Identifier: MIT OR Apache-2.0
 *
 * Digital Command Control: the functions of dcc.h as one file of C99.
 *
 * tools/c-source of Kogreffyn made this file from code that is proved in Rattle. Do not edit it. Each function shows
 * its name in Rattle. The file has no data but constants, allocates nothing, and needs memcpy, memmove and memset.
 *
 * Crates of others are compiled into this file too. The file THIRD-PARTY of a release has their licences, which
 * tools/third-party of the repository prints. */
#include "dcc.h"
#include <stddef.h>
#include <string.h>

#if defined __BYTE_ORDER__ ? __BYTE_ORDER__ != __ORDER_LITTLE_ENDIAN__ : defined __BIG_ENDIAN__
#error "dcc.c is for little-endian machines"
#endif

#if defined __GNUC__ && !defined __clang__
/* gcc inlines code for long texts into a function with a text of 12 bytes, and does not see that it never runs there */
#pragma GCC diagnostic ignored "-Warray-bounds"
#pragma GCC diagnostic ignored "-Wmaybe-uninitialized"
#if __GNUC__ >= 7
#pragma GCC diagnostic ignored "-Wstringop-overflow"
#endif
#endif
/* pcc defines __GNUC__ too, and lacks the builtins */
#if defined __GNUC__ && !defined __PCC__
#define DCC_UNREACHABLE() __builtin_unreachable()
#define DCC_NOINLINE __attribute__((noinline))
#else
#define DCC_UNREACHABLE() for (;;) {}
#define DCC_NOINLINE
#endif
/* on AVR and MSP430 the builtin is a call of abort */
#if defined __GNUC__ && !defined __AVR__ && !defined __MSP430__ && !defined __PCC__
#define DCC_TRAP() __builtin_trap()
#else
#define DCC_TRAP() for (;;) {}
#endif

/* gcc and clang read and write aligned numbers at once. A number of 64 bits is aligned to 4 bytes on some targets. */
#if defined __GNUC__ && !defined __AVR__ && !defined __PCC__
typedef uint16_t __attribute__((may_alias)) dcc_number_16;
typedef uint32_t __attribute__((may_alias)) dcc_number_32;
typedef uint64_t __attribute__((may_alias, aligned(4))) dcc_number_64;
#define DCC_LOAD(bits, to, from) ((to) = *(const dcc_number_##bits *)(const void *)(from))
#define DCC_STORE(bits, to, from) (*(dcc_number_##bits *)(void *)(to) = (from))
#define DCC_ALIGNED(place) __builtin_assume_aligned(place, 4)
#else
#define DCC_LOAD(bits, to, from) memcpy(&(to), from, bits / 8)
#define DCC_STORE(bits, to, from) memcpy(to, &(from), bits / 8)
#define DCC_ALIGNED(place) (place)
#endif

/* C leaves to the compiler how a large unsigned number becomes a signed one. This file needs that it wraps. */
typedef char dcc_numbers_wrap[(int64_t)UINT64_C(18446744073709551615) == -1 && (ptrdiff_t)(uintptr_t)-1 == -1 ? 1 : -1];

struct dcc_wide { uint64_t low, high; };
union dcc_slot { const unsigned char *place; uint64_t whole; void (*code)(void); };

struct dcc_8_16 { uint8_t f0; uint16_t f1; };
struct dcc_8_8 { uint8_t f0; uint8_t f1; };

static inline struct dcc_wide dcc_wide_of(uint64_t high, uint64_t low) { struct dcc_wide it; it.low = low; it.high = high; return it; }
static inline uint64_t dcc_cttz_64(uint64_t a) {
    uint64_t n = 0;
    while (n < 64 && !(a >> n & 1)) n++;
    return n;
}
static inline uint16_t dcc_load_16(const unsigned char *from) { uint16_t it; memcpy(&it, from, sizeof it); return it; }
static inline uint16_t dcc_load_16_aligned(const unsigned char *from) { uint16_t it; DCC_LOAD(16, it, from); return it; }
static inline uint32_t dcc_load_24(const unsigned char *from) { return (uint32_t)from[0] | (uint32_t)from[1] << 8 | (uint32_t)from[2] << 16; }
static inline uint32_t dcc_load_32(const unsigned char *from) { uint32_t it; memcpy(&it, from, sizeof it); return it; }
static inline uint32_t dcc_load_32_aligned(const unsigned char *from) { uint32_t it; DCC_LOAD(32, it, from); return it; }
static inline uint64_t dcc_load_64(const unsigned char *from) { uint64_t it; memcpy(&it, from, sizeof it); return it; }
static inline uint64_t dcc_load_64_aligned(const unsigned char *from) { uint64_t it; DCC_LOAD(64, it, from); return it; }
static inline unsigned char *dcc_load_ptr(const unsigned char *from) {
    unsigned char *it;
    memcpy(&it, from, sizeof it);
    return it;
}
static inline struct dcc_8_16 dcc_made_8_16(uint8_t f0, uint16_t f1) { struct dcc_8_16 it; it.f0 = f0; it.f1 = f1; return it; }
static inline struct dcc_8_8 dcc_made_8_8(uint8_t f0, uint8_t f1) { struct dcc_8_8 it; it.f0 = f0; it.f1 = f1; return it; }
static inline uint8_t dcc_smax_8(uint8_t a, uint8_t b) { return (a ^ 128u) > (b ^ 128u) ? a : b; }
static inline void dcc_store_16(unsigned char *to, uint16_t it) { memcpy(to, &it, sizeof it); }
static inline void dcc_store_16_aligned(unsigned char *to, uint16_t it) { DCC_STORE(16, to, it); }
static inline void dcc_store_24(unsigned char *to, uint32_t it) { to[0] = (unsigned char)(it >> 0); to[1] = (unsigned char)(it >> 8); to[2] = (unsigned char)(it >> 16); }
static inline void dcc_store_32(unsigned char *to, uint32_t it) { memcpy(to, &it, sizeof it); }
static inline void dcc_store_32_aligned(unsigned char *to, uint32_t it) { DCC_STORE(32, to, it); }
static inline void dcc_store_40(unsigned char *to, uint64_t it) { to[0] = (unsigned char)(it >> 0); to[1] = (unsigned char)(it >> 8); to[2] = (unsigned char)(it >> 16); to[3] = (unsigned char)(it >> 24); to[4] = (unsigned char)(it >> 32); }
static inline void dcc_store_48(unsigned char *to, uint64_t it) { to[0] = (unsigned char)(it >> 0); to[1] = (unsigned char)(it >> 8); to[2] = (unsigned char)(it >> 16); to[3] = (unsigned char)(it >> 24); to[4] = (unsigned char)(it >> 32); to[5] = (unsigned char)(it >> 40); }
static inline void dcc_store_56(unsigned char *to, uint64_t it) { to[0] = (unsigned char)(it >> 0); to[1] = (unsigned char)(it >> 8); to[2] = (unsigned char)(it >> 16); to[3] = (unsigned char)(it >> 24); to[4] = (unsigned char)(it >> 32); to[5] = (unsigned char)(it >> 40); to[6] = (unsigned char)(it >> 48); }
static inline void dcc_store_64(unsigned char *to, uint64_t it) { memcpy(to, &it, sizeof it); }
static inline void dcc_store_64_aligned(unsigned char *to, uint64_t it) { DCC_STORE(64, to, it); }
static inline void dcc_store_ptr(unsigned char *to, unsigned char *it) { memcpy(to, &it, sizeof it); }
static inline uint16_t dcc_uadd_sat_16(uint16_t a, uint16_t b) { return (uint16_t)(a + b) < a ? (uint16_t)(~(uint16_t)(0u)) : (uint16_t)(a + b); }
static inline uint32_t dcc_uadd_sat_32(uint32_t a, uint32_t b) { return (uint32_t)(a + b) < a ? (uint32_t)(~(uint32_t)(0u)) : (uint32_t)(a + b); }
static inline uint64_t dcc_uadd_sat_64(uint64_t a, uint64_t b) { return (uint64_t)(a + b) < a ? (uint64_t)(~(uint64_t)(0u)) : (uint64_t)(a + b); }
static inline uint8_t dcc_uadd_sat_8(uint8_t a, uint8_t b) { return (uint8_t)(a + b) < a ? (uint8_t)(~(uint8_t)(0u)) : (uint8_t)(a + b); }
static inline uint16_t dcc_umax_16(uint16_t a, uint16_t b) { return a > b ? a : b; }
static inline uint64_t dcc_umax_64(uint64_t a, uint64_t b) { return a > b ? a : b; }
static inline uint16_t dcc_umin_16(uint16_t a, uint16_t b) { return a < b ? a : b; }
static inline uint64_t dcc_umin_64(uint64_t a, uint64_t b) { return a < b ? a : b; }
static inline uint8_t dcc_umin_8(uint8_t a, uint8_t b) { return a < b ? a : b; }
static inline uint64_t dcc_usub_sat_64(uint64_t a, uint64_t b) { return a < b ? 0u : (uint64_t)(a - b); }
static inline uint8_t dcc_usub_sat_8(uint8_t a, uint8_t b) { return a < b ? 0u : (uint8_t)(a - b); }
static inline struct dcc_wide dcc_wide_and(struct dcc_wide a, struct dcc_wide b) { return dcc_wide_of(a.high & b.high, a.low & b.low); }
static inline uint8_t dcc_wide_eq(struct dcc_wide a, struct dcc_wide b) { return a.high == b.high && a.low == b.low; }
static inline struct dcc_wide dcc_wide_lshr(struct dcc_wide a, unsigned n) {
    if (n & 64) return dcc_wide_of(0, a.high >> (n & 63));
    if (n & 63) return dcc_wide_of(a.high >> (n & 63), a.low >> (n & 63) | a.high << (64 - (n & 63)));
    return a;
}
static inline struct dcc_wide dcc_wide_or(struct dcc_wide a, struct dcc_wide b) { return dcc_wide_of(a.high | b.high, a.low | b.low); }
static inline struct dcc_wide dcc_wide_sext(uint64_t a, uint64_t top) { return a & top ? dcc_wide_of(~(uint64_t)0, a | ~(top - 1)) : dcc_wide_of(0, a); }
static inline struct dcc_wide dcc_wide_shl(struct dcc_wide a, unsigned n) {
    if (n & 64) return dcc_wide_of(a.low << (n & 63), 0);
    if (n & 63) return dcc_wide_of(a.high << (n & 63) | a.low >> (64 - (n & 63)), a.low << (n & 63));
    return a;
}
static inline uint8_t dcc_wide_ult(struct dcc_wide a, struct dcc_wide b) { return a.high < b.high || (a.high == b.high && a.low < b.low); }
static inline struct dcc_wide dcc_wide_xor(struct dcc_wide a, struct dcc_wide b) { return dcc_wide_of(a.high ^ b.high, a.low ^ b.low); }

static uint8_t dcc_lost_figures_TrackFigures_try_push_run(unsigned char *a0, uint16_t a1, uint32_t a2);
static DCC_NOINLINE void dcc_timing_tally_Tally_extend(unsigned char *a0, uint64_t a1);
static DCC_NOINLINE void dcc_lost_figures_TrackFigures_push_shown(unsigned char *a0, uint16_t a1);
static DCC_NOINLINE void dcc_timing_bits_Bits_add(unsigned char *a0, unsigned char *a1, uint64_t a2);
static DCC_NOINLINE void dcc_timing_recent_LastNumbers_move_to_front(unsigned char *a0);
static DCC_NOINLINE void dcc_lost_figures_Ended_count(unsigned char *a0, unsigned char *a1, unsigned char *a2, unsigned char *a3);
static DCC_NOINLINE void dcc_lost_bodies_frame_of_body(unsigned char *a0, unsigned char *a1, uint64_t a2, uint64_t a3);
static DCC_NOINLINE void dcc_lost_figures_TrackFigures_push_apart(unsigned char *a0, uint16_t a1);
static void dcc_packet_from_frame_read_loco(unsigned char *a0, unsigned char *a1, uint64_t a2);
static DCC_NOINLINE void dcc_c_frame_frame_of(unsigned char *a0, unsigned char *a1, uint64_t a2);
static void dcc_wire_frame_Frame_of(unsigned char *a0, unsigned char *a1, uint64_t a2);
static void dcc_packet_packet_Packet_read(unsigned char *a0, unsigned char *a1);
static void dcc_c_station_ring_DccRingPacketRing_push_back(unsigned char *a0, unsigned char *a1);
static DCC_NOINLINE void dcc_packet_packet_Packet_frame(unsigned char *a0, unsigned char *a1);
static void dcc_packet_to_frame_with_error_byte(unsigned char *a0, unsigned char *a1, uint64_t a2);
static void dcc_service_packet_ServicePacket_read(unsigned char *a0, unsigned char *a1);
static void dcc_packet_words_Words_next(unsigned char *a0, unsigned char *a1);
static uint8_t core_slice_reads_slice_T_starts_with__i8_31_core_cmp_numbers_U8(unsigned char *a0, uint64_t a1, unsigned char *a2, uint64_t a3);
static uint8_t core_slice_scan_any_in_quarters(unsigned char *a0, uint64_t a1, uint64_t a2);
static struct dcc_8_8 dcc_packet_numeral_small_number(unsigned char *a0, uint64_t a1);
static struct dcc_8_8 dcc_packet_fields_DirectionField_take(unsigned char *a0);
static struct dcc_8_8 dcc_packet_fields_U8Field_take(unsigned char *a0);
static struct dcc_8_8 dcc_packet_fields_SwitchField_take(unsigned char *a0);
static void dcc_packet_field_Tuple2Field_take(unsigned char *a0, unsigned char *a1);
static void dcc_packet_fields_CvNumberField_take(unsigned char *a0, unsigned char *a1);
static void dcc_packet_fields_U16Field_take(unsigned char *a0, unsigned char *a1);
static void dcc_packet_field_Tuple2Field_take_2(unsigned char *a0, unsigned char *a1);
static uint8_t dcc_regs_heard_hears(unsigned char *a0, unsigned char *a1);
static void dcc_regs_heard_address_of(unsigned char *a0, unsigned char *a1);
static void dcc_service_packet_ServicePacket_bytes(unsigned char *a0, unsigned char *a1);
static void dcc_c_service_progress_of(unsigned char *a0, unsigned char *a1);
static void dcc_service_progress_ServiceProgress_due(unsigned char *a0, unsigned char *a1, unsigned char *a2);
static DCC_NOINLINE uint8_t core_cmp_slices_groups_equal__i8_31_core_cmp_numbers_U8PartialE(unsigned char *a0, uint64_t a1, unsigned char *a2, uint64_t a3);
static void dcc_c_service_put(unsigned char *a0, unsigned char *a1);
static uint8_t dcc_service_progress_ServiceProgress_apply_with_value(unsigned char *a0, unsigned char *a1, unsigned char *a2);
static void dcc_c_track_part_TrackPart_end_service(unsigned char *a0, unsigned char *a1);
static void dcc_c_track_part_TrackPart_end_service_2(unsigned char *a0, unsigned char *a1);
static struct dcc_8_16 dcc_track_main_track_hear_on_main(unsigned char *a0, unsigned char *a1);
static void dcc_c_possible_board_PossibleBoardProgrammable_apply_packet(unsigned char *a0, unsigned char *a1);
static struct dcc_8_8 dcc_regs_outputs_outs_set(unsigned char *a0);
static void dcc_regs_board_set_aspects(unsigned char *a0, unsigned char *a1);
static struct dcc_8_16 dcc_track_main_track_hear_on_main_2(unsigned char *a0, unsigned char *a1);
static void dcc_c_possible_loco_PossibleLocoProgrammable_apply_packet(unsigned char *a0, unsigned char *a1);
static DCC_NOINLINE uint8_t dcc_c_loco_apply_pending(unsigned char *a0, unsigned char *a1, uint64_t a2);
static DCC_NOINLINE uint8_t dcc_c_loco_numbers_has_pending_write(unsigned char *a0);
static void dcc_c_station_ring_DccRingPacketRing_front(unsigned char *a0, unsigned char *a1);
static void dcc_c_kept_packet_KeptPacket_packet(unsigned char *a0, unsigned char *a1);
static DCC_NOINLINE uint8_t dcc_c_kept_packet_KeptPacket_is_displaced_by_instruction(unsigned char *a0, unsigned char *a1);
static uint8_t dcc_station_left_is_left_by_group(uint8_t a0, unsigned char *a1, unsigned char *a2);
static uint8_t dcc_station_entries_displaces_by_registers(unsigned char *a0, unsigned char *a1);
static DCC_NOINLINE uint8_t dcc_packet_packet_Packet_is(unsigned char *a0, unsigned char *a1);
static struct dcc_8_16 dcc_regs_hearers_board_number(unsigned char *a0);
static uint8_t dcc_regs_conflicts_differ_in(uint8_t a0, unsigned char *a1, unsigned char *a2);
static void dcc_regs_effects_Effects_of(unsigned char *a0, unsigned char *a1, uint8_t a2);
static DCC_NOINLINE void dcc_regs_effects_effect_on_speed(unsigned char *a0, uint8_t a1, unsigned char *a2);
static DCC_NOINLINE struct dcc_8_8 dcc_regs_effects_effect_on_direction(unsigned char *a0);
static DCC_NOINLINE uint8_t dcc_c_kept_packet_KeptPacket_is_displaced_as_read(unsigned char *a0, unsigned char *a1);
static DCC_NOINLINE void dcc_c_station_put_frame(unsigned char *a0, unsigned char *a1);
static void dcc_packet_to_line_word_put_digits(unsigned char *a0, uint16_t a1);
static void dcc_packet_form_put_form(unsigned char *a0, unsigned char *a1, uint64_t a2, unsigned char *a3);
static void dcc_packet_form_put_form_2(unsigned char *a0, unsigned char *a1, uint64_t a2, unsigned char *a3);
static DCC_NOINLINE uint64_t core_slice_words_skip_far(unsigned char *a0, uint64_t a1, uint64_t a2);
static void dcc_plain_packet_from_bytes_standard_read(unsigned char *a0, unsigned char *a1, uint64_t a2);
static void dcc_plain_packet_from_bytes_clock_row(unsigned char *a0, uint8_t a1, uint8_t a2, uint8_t a3);
static void dcc_plain_packet_from_bytes_cv_access(unsigned char *a0, uint8_t a1, uint8_t a2, uint8_t a3);
static void dcc_plain_packet_from_bytes_cv_row(unsigned char *a0, uint8_t a1, uint8_t a2, unsigned char *a3);
static void dcc_plain_words_append_address(unsigned char *a0, unsigned char *a1);
static DCC_NOINLINE void dcc_plain_text_append_digits(unsigned char *a0, uint32_t a1);
static DCC_NOINLINE void dcc_plain_text_append(unsigned char *a0, unsigned char *a1, uint64_t a2);
static void dcc_plain_words_append_instruction(unsigned char *a0, unsigned char *a1, unsigned char *a2);
static void dcc_plain_words_append_step28(unsigned char *a0, uint8_t a1);
static void dcc_plain_words_append_step128(unsigned char *a0, uint8_t a1);
static void dcc_plain_functions_append_functions(unsigned char *a0, uint8_t a1, uint8_t a2, uint32_t a3);
static void dcc_plain_functions_append_range(unsigned char *a0, uint8_t a1, uint8_t a2);
static void dcc_plain_words_append_state(unsigned char *a0, uint16_t a1, uint8_t a2);
static void dcc_plain_words_append_switch(unsigned char *a0, uint8_t a1);
static void dcc_plain_words_append_cv_write(unsigned char *a0, unsigned char *a1, uint8_t a2);
static void dcc_plain_words_append_cv_verify(unsigned char *a0, unsigned char *a1, uint8_t a2);
static void dcc_plain_words_append_cv_bit_write(unsigned char *a0, unsigned char *a1, unsigned char *a2, uint8_t a3);
static void dcc_plain_words_append_cv_bit(unsigned char *a0, unsigned char *a1, unsigned char *a2);
static void dcc_plain_words_append_cv_bit_verify(unsigned char *a0, unsigned char *a1, unsigned char *a2, uint8_t a3);
static void dcc_plain_words_append_signal_name(unsigned char *a0, unsigned char *a1);
static void dcc_plain_words_append_other(unsigned char *a0, unsigned char *a1, uint64_t a2, unsigned char *a3);
static void dcc_plain_text_append_hex_words(unsigned char *a0, unsigned char *a1, uint64_t a2);
static DCC_NOINLINE void dcc_plain_text_append_hex(unsigned char *a0, unsigned char *a1, uint64_t a2);
static void dcc_plain_standard_words_append_dashed(unsigned char *a0, uint8_t a1);
static DCC_NOINLINE void dcc_c_framer_push_apart(unsigned char *a0, uint16_t a1, unsigned char *a2);
static uint8_t dcc_c_loco_registers_hear(unsigned char *a0, unsigned char *a1, uint64_t a2, unsigned char *a3);
static void dcc_c_packet_fields_address_of(unsigned char *a0, uint8_t a1, uint16_t a2);
static DCC_NOINLINE void dcc_lost_finder_LostFinder_packet_at_end(unsigned char *a0, unsigned char *a1);
static void dcc_c_lost_packet_lost_numbers(unsigned char *a0, unsigned char *a1);
static DCC_NOINLINE uint8_t dcc_c_small_loco_take_up_small(unsigned char *a0, unsigned char *a1);
static DCC_NOINLINE uint8_t dcc_c_loco_numbers_read_pending(unsigned char *a0, unsigned char *a1);
static DCC_NOINLINE uint8_t dcc_regs_loco_registers_LocoRegisters_is_possible(unsigned char *a0);
static uint8_t dcc_regs_writes_is_repeated_write(unsigned char *a0, unsigned char *a1);
static void dcc_c_loco_dcc_loco_power_up(unsigned char *a0);
static DCC_NOINLINE uint8_t dcc_regs_loco_registers_LocoRegisters_apply_with_value(unsigned char *a0, unsigned char *a1, unsigned char *a2, unsigned char *a3);
static DCC_NOINLINE uint8_t dcc_c_lost_write_packet_at_end(unsigned char *a0, unsigned char *a1);

static const unsigned char constant_84fc920c[2] = {255u, 0u};
static const unsigned char constant_32480031[5] = {102u, 114u, 97u, 109u, 101u};
static const unsigned char constant_992c05ee[4] = {105u, 100u, 108u, 101u};
static const unsigned char constant_609f5100[4] = {108u, 111u, 99u, 111u};
static const unsigned char constant_04bd89e6[9] = {97u, 99u, 99u, 101u, 115u, 115u, 111u, 114u, 121u};
static const unsigned char constant_59382055[6] = {115u, 105u, 103u, 110u, 97u, 108u};
static const unsigned char constant_213e1f56[5] = {114u, 101u, 115u, 101u, 116u};
static const unsigned char constant_d9b981af[7] = {115u, 112u, 101u, 101u, 100u, 50u, 56u};
static const unsigned char constant_9ab52f84[8] = {115u, 112u, 101u, 101u, 100u, 49u, 50u, 56u};
static const unsigned char constant_b9673404[9] = {102u, 117u, 110u, 99u, 116u, 105u, 111u, 110u, 115u};
static const unsigned char constant_daef56db[5] = {115u, 116u, 97u, 116u, 101u};
static const unsigned char constant_8de69593[5] = {119u, 114u, 105u, 116u, 101u};
static const unsigned char constant_34c0f21c[6] = {118u, 101u, 114u, 105u, 102u, 121u};
static const unsigned char constant_2f0e2531[8] = {98u, 105u, 116u, 119u, 114u, 105u, 116u, 101u};
static const unsigned char constant_802c3e52[9] = {98u, 105u, 116u, 118u, 101u, 114u, 105u, 102u, 121u};
static const unsigned char constant_2c14b2e0[1] = {0};
static const unsigned char constant_4943e2a3[6] = {102u, 114u, 97u, 109u, 101u, 32u};
static const unsigned char constant_c4b36e03[3] = {97u, 108u, 108u};
static const unsigned char constant_90c14424[1] = {32u};
static const unsigned char constant_3c1ceb00[1] = {48u};
static const unsigned char constant_76a96026[1] = {53u};
static const unsigned char constant_631141ed[1] = {57u};
static const unsigned char constant_21f3b1e5[2] = {49u, 51u};
static const unsigned char constant_b1fb77ef[2] = {50u, 49u};
static const unsigned char constant_8035e733[2] = {50u, 57u};
static const unsigned char constant_2ed97a61[2] = {51u, 55u};
static const unsigned char constant_e0581b7f[2] = {52u, 53u};
static const unsigned char constant_4b62f536[2] = {53u, 51u};
static const unsigned char constant_945818d2[2] = {54u, 49u};
static const unsigned char constant_2157709d[2] = {111u, 110u};
static const unsigned char constant_bcde24ec[3] = {111u, 102u, 102u};
static const unsigned char constant_9be45b36[1] = {49u};
static const unsigned char constant_2ee17754[16] = {48u, 49u, 50u, 51u, 52u, 53u, 54u, 55u, 56u, 57u, 97u, 98u, 99u,
    100u, 101u, 102u};
static const unsigned char constant_36dfff28[2] = {58u, 32u};
static const unsigned char constant_9758e8b5[15] = {97u, 108u, 108u, 32u, 108u, 111u, 99u, 111u, 109u, 111u, 116u, 105u,
    118u, 101u, 115u};
static const unsigned char constant_63cee0ff[11] = {108u, 111u, 99u, 111u, 109u, 111u, 116u, 105u, 118u, 101u, 32u};
static const unsigned char constant_dba50b5e[7] = {32u, 40u, 108u, 111u, 110u, 103u, 41u};
static const unsigned char constant_8db76964[20] = {115u, 116u, 111u, 112u, 44u, 32u, 101u, 118u, 101u, 114u, 121u,
    116u, 104u, 105u, 110u, 103u, 32u, 111u, 102u, 102u};
static const unsigned char constant_a74fa2ec[13] = {110u, 111u, 116u, 104u, 105u, 110u, 103u, 32u, 116u, 111u, 32u,
    100u, 111u};
static const unsigned char constant_f5091d74[4] = {115u, 116u, 111u, 112u};
static const unsigned char constant_d241a507[14] = {101u, 109u, 101u, 114u, 103u, 101u, 110u, 99u, 121u, 32u, 115u,
    116u, 111u, 112u};
static const unsigned char constant_a9678de8[5] = {115u, 116u, 101u, 112u, 32u};
static const unsigned char constant_a15b1204[6] = {32u, 111u, 102u, 32u, 50u, 56u};
static const unsigned char constant_eaad7221[9] = {44u, 32u, 102u, 111u, 114u, 119u, 97u, 114u, 100u};
static const unsigned char constant_268ee5a1[9] = {44u, 32u, 114u, 101u, 118u, 101u, 114u, 115u, 101u};
static const unsigned char constant_19eb2479[7] = {32u, 111u, 102u, 32u, 49u, 50u, 54u};
static const unsigned char constant_5c87d6ac[3] = {32u, 111u, 110u};
static const unsigned char constant_eecb2a21[4] = {32u, 111u, 102u, 102u};
static const unsigned char constant_8dcf3d35[17] = {32u, 111u, 110u, 44u, 32u, 116u, 104u, 101u, 32u, 114u, 101u, 115u,
    116u, 32u, 111u, 102u, 32u};
static const unsigned char constant_e395cdce[2] = {44u, 32u};
static const unsigned char constant_472cb4ef[1] = {70u};
static const unsigned char constant_71d0b96f[4] = {32u, 116u, 111u, 32u};
static const unsigned char constant_713bac87[17] = {97u, 108u, 108u, 32u, 98u, 105u, 110u, 97u, 114u, 121u, 32u, 115u,
    116u, 97u, 116u, 101u, 115u};
static const unsigned char constant_0a30d724[13] = {98u, 105u, 110u, 97u, 114u, 121u, 32u, 115u, 116u, 97u, 116u, 101u,
    32u};
static const unsigned char constant_da5a848b[4] = {32u, 58u, 61u, 32u};
static const unsigned char constant_0c1dd72b[2] = {67u, 86u};
static const unsigned char constant_86a5e7fc[3] = {105u, 115u, 32u};
static const unsigned char constant_6cd1856d[1] = {63u};
static const unsigned char constant_7e63207b[4] = {98u, 105u, 116u, 32u};
static const unsigned char constant_16eb9872[4] = {32u, 111u, 102u, 32u};
static const unsigned char constant_4df15fd7[6] = {98u, 111u, 97u, 114u, 100u, 32u};
static const unsigned char constant_aee597a4[9] = {44u, 32u, 111u, 117u, 116u, 112u, 117u, 116u, 32u};
static const unsigned char constant_bff2eb0d[12] = {44u, 32u, 97u, 108u, 108u, 32u, 98u, 111u, 97u, 114u, 100u, 115u};
static const unsigned char constant_aba6ddf1[10] = {44u, 32u, 116u, 117u, 114u, 110u, 111u, 117u, 116u, 32u};
static const unsigned char constant_373a7624[9] = {58u, 32u, 97u, 115u, 112u, 101u, 99u, 116u, 32u};
static const unsigned char constant_a6154aae[11] = {97u, 108u, 108u, 32u, 115u, 105u, 103u, 110u, 97u, 108u, 115u};
static const unsigned char constant_a291ae8a[7] = {115u, 105u, 103u, 110u, 97u, 108u, 32u};
static const unsigned char constant_b69e8c0e[24] = {111u, 110u, 32u, 97u, 32u, 112u, 114u, 111u, 103u, 114u, 97u, 109u,
    109u, 105u, 110u, 103u, 32u, 116u, 114u, 97u, 99u, 107u, 58u, 32u};
static const unsigned char constant_4a16d971[13] = {115u, 121u, 115u, 116u, 101u, 109u, 32u, 116u, 105u, 109u, 101u,
    58u, 32u};
static const unsigned char constant_863630dd[3] = {32u, 109u, 115u};
static const unsigned char constant_a363ab27[15] = {58u, 32u, 110u, 111u, 116u, 104u, 105u, 110u, 103u, 32u, 116u, 111u,
    32u, 100u, 111u};
static const unsigned char constant_26f195b5[10] = {104u, 97u, 114u, 100u, 32u, 114u, 101u, 115u, 101u, 116u};
static const unsigned char constant_a8952f36[11] = {97u, 99u, 107u, 110u, 111u, 119u, 108u, 101u, 100u, 103u, 101u};
static const unsigned char constant_1f9496b5[19] = {101u, 120u, 116u, 101u, 110u, 100u, 101u, 100u, 32u, 114u, 101u,
    97u, 100u, 32u, 111u, 102u, 32u, 67u, 86u};
static const unsigned char constant_d9a430b6[12] = {102u, 97u, 99u, 116u, 111u, 114u, 121u, 32u, 116u, 101u, 115u,
    116u};
static const unsigned char constant_6927d41b[13] = {100u, 101u, 99u, 111u, 100u, 101u, 114u, 32u, 102u, 108u, 97u, 103u,
    115u};
static const unsigned char constant_94bac48c[33] = {98u, 105u, 116u, 32u, 53u, 32u, 111u, 102u, 32u, 67u, 86u, 50u, 57u,
    32u, 58u, 61u, 32u, 49u, 32u, 40u, 108u, 111u, 110u, 103u, 32u, 97u, 100u, 100u, 114u, 101u, 115u, 115u, 41u};
static const unsigned char constant_92371067[34] = {98u, 105u, 116u, 32u, 53u, 32u, 111u, 102u, 32u, 67u, 86u, 50u, 57u,
    32u, 58u, 61u, 32u, 48u, 32u, 40u, 115u, 104u, 111u, 114u, 116u, 32u, 97u, 100u, 100u, 114u, 101u, 115u, 115u, 41u};
static const unsigned char constant_977f30bb[17] = {108u, 101u, 97u, 118u, 101u, 32u, 116u, 104u, 101u, 32u, 99u, 111u,
    110u, 115u, 105u, 115u, 116u};
static const unsigned char constant_a2ae59ea[13] = {106u, 111u, 105u, 110u, 32u, 99u, 111u, 110u, 115u, 105u, 115u,
    116u, 32u};
static const unsigned char constant_e0ea1ce6[10] = {44u, 32u, 114u, 101u, 118u, 101u, 114u, 115u, 101u, 100u};
static const unsigned char constant_81665693[2] = {59u, 32u};
static const unsigned char constant_be826d68[14] = {97u, 110u, 97u, 108u, 111u, 103u, 32u, 111u, 117u, 116u, 112u, 117u,
    116u, 32u};
static const unsigned char constant_7d2c9635[4] = {32u, 97u, 116u, 32u};
static const unsigned char constant_ad251c6d[15] = {111u, 112u, 101u, 114u, 97u, 116u, 105u, 110u, 103u, 32u, 109u,
    111u, 100u, 101u, 115u};
static const unsigned char constant_f557dc23[8] = {67u, 86u, 50u, 52u, 32u, 58u, 61u, 32u};
static const unsigned char constant_2d993f39[8] = {67u, 86u, 50u, 51u, 32u, 58u, 61u, 32u};
static const unsigned char constant_1766d49a[20] = {101u, 120u, 116u, 101u, 110u, 100u, 101u, 100u, 32u, 119u, 114u,
    105u, 116u, 101u, 32u, 111u, 102u, 32u, 67u, 86u};
static const unsigned char constant_10a80c67[24] = {101u, 120u, 116u, 101u, 110u, 100u, 101u, 100u, 32u, 98u, 105u,
    116u, 32u, 119u, 114u, 105u, 116u, 101u, 58u, 32u, 98u, 105u, 116u, 32u};
static const unsigned char constant_e887c43c[6] = {32u, 111u, 102u, 32u, 67u, 86u};
static const unsigned char constant_fe7f451c[12] = {109u, 111u, 100u, 101u, 108u, 32u, 116u, 105u, 109u, 101u, 58u,
    32u};
static const unsigned char constant_22c74f47[7] = {77u, 111u, 110u, 100u, 97u, 121u, 32u};
static const unsigned char constant_7b52a18d[8] = {84u, 117u, 101u, 115u, 100u, 97u, 121u, 32u};
static const unsigned char constant_fee63fa1[10] = {87u, 101u, 100u, 110u, 101u, 115u, 100u, 97u, 121u, 32u};
static const unsigned char constant_c9bd12cb[9] = {84u, 104u, 117u, 114u, 115u, 100u, 97u, 121u, 32u};
static const unsigned char constant_b236127f[7] = {70u, 114u, 105u, 100u, 97u, 121u, 32u};
static const unsigned char constant_e7ee7ace[9] = {83u, 97u, 116u, 117u, 114u, 100u, 97u, 121u, 32u};
static const unsigned char constant_b96bf6fe[7] = {83u, 117u, 110u, 100u, 97u, 121u, 32u};
static const unsigned char constant_0087fa8d[1] = {58u};
static const unsigned char constant_b2851826[9] = {44u, 32u, 102u, 97u, 99u, 116u, 111u, 114u, 32u};
static const unsigned char constant_43ef828e[5] = {44u, 32u, 115u, 101u, 116u};
static const unsigned char constant_e10a4cbc[12] = {109u, 111u, 100u, 101u, 108u, 32u, 100u, 97u, 116u, 101u, 58u, 32u};
static const unsigned char constant_dd30e0ba[1] = {45u};
static const unsigned char constant_3aa78beb[7] = {44u, 32u, 112u, 97u, 105u, 114u, 32u};
static const unsigned char constant_71145e61[6] = {68u, 67u, 67u, 45u, 65u, 58u};
static const unsigned char constant_702635a5[9] = {101u, 120u, 116u, 101u, 110u, 100u, 101u, 100u, 58u};
static const uint16_t switch_table_dcc_lost_figures_TrackFigures_push_shown[5] = {0u, 0u, 2u, 0u, 2u};
static const unsigned char switch_table_dcc_plain_words_append_instruction_2[10] = {5u, 4u, 4u, 8u, 8u, 8u, 8u, 8u, 8u,
    8u};
static const uint64_t switch_table_dcc_plain_words_append_other[7] = {UINT64_C(7), UINT64_C(8), UINT64_C(10),
    UINT64_C(9), UINT64_C(7), UINT64_C(9), UINT64_C(7)};
static const union dcc_slot switch_table_dcc_plain_words_append_other_3[7] = {{(const unsigned char
    *)constant_22c74f47}, {(const unsigned char *)constant_7b52a18d}, {(const unsigned char *)constant_fee63fa1},
    {(const unsigned char *)constant_c9bd12cb}, {(const unsigned char *)constant_b236127f}, {(const unsigned char
    *)constant_e7ee7ace}, {(const unsigned char *)constant_b96bf6fe}};
static const uint64_t switch_table_dcc_line[10] = {UINT64_C(1), UINT64_C(1), UINT64_C(1), UINT64_C(2), UINT64_C(2),
    UINT64_C(2), UINT64_C(2), UINT64_C(2), UINT64_C(2), UINT64_C(2)};
static const union dcc_slot switch_table_dcc_line_4[10] = {{(const unsigned char *)constant_3c1ceb00}, {(const unsigned
    char *)constant_76a96026}, {(const unsigned char *)constant_631141ed}, {(const unsigned char *)constant_21f3b1e5},
    {(const unsigned char *)constant_b1fb77ef}, {(const unsigned char *)constant_8035e733}, {(const unsigned char
    *)constant_2ed97a61}, {(const unsigned char *)constant_e0581b7f}, {(const unsigned char *)constant_4b62f536},
    {(const unsigned char *)constant_945818d2}};
static const unsigned char switch_table_dcc_read[10] = {0u, 5u, 9u, 13u, 21u, 29u, 37u, 45u, 53u, 61u};
static const unsigned char switch_table_dcc_loco_apply[10] = {1u, 5u, 9u, 13u, 21u, 29u, 37u, 45u, 53u, 61u};

/* dcc_lost::figures::TrackFigures::try_push_run */
static uint8_t dcc_lost_figures_TrackFigures_try_push_run(unsigned char *a0, uint16_t a1, uint32_t a2) {
    uint16_t r7_4, r39, r7_7, r7_10, r45_2, r7_13, v0, r4, r7_5, r17, r19, r30_2, r32_2, a1_2, r4_2, r7_8, r39_2,
        r17_2, r19_3, r3, r45, r3_3, r10_5, r23_2, v2, r35, v3, r47_2, v4, r4_3, r7_11, r17_3, r19_5, r30_6, r32_4,
        a1_3, r4_4, r7_14, r45_3, r17_4, r19_7, r3_6, common_2;
    uint32_t r0, r1, r5, r8_2, r10_3, r8_4, r10_8, r10_10;
    uint64_t r1_2, r5_2, r11, r13, r1_3, r11_2, r13_2, r16, r6, r13_3, r7_6, r10_4, r16_2, r19_2, r1_4, r11_3, r1_5,
        r2_2, r16_3, r22_2, r3_4, r5_3, r11_4, r13_4, r1_6, r11_5, r13_5, r16_5, r6_2, r13_6, r7_12, r10_9, r16_6,
        r19_6, r1_7, r11_6;
    uint8_t r30_4, r7, r41404, or_2, common, r9, r10, r7_2, v1, r7_3, r9_2, r10_2, r22, r23, r32, r28, r30, r34,
        r47, r54, r57, r2, r3_2, r9_3, r10_6, r7_9, r9_4, r10_7, r22_3, r23_3, r32_3, r28_2, r30_3, r28_3, r30_5,
        r47_3, r54_2, r57_2, r2_3, r3_5;
    unsigned char *r8, *r14, *r14_2, *r19_4, *r8_3, *r14_3, *r14_4;
    uint64_t place_0[4];
    unsigned char *const r16_4 = (unsigned char *)place_0;
    r1 = dcc_load_32_aligned(a0);
    r5 = a2 ^ UINT32_C(4294967295);
    r7 = r1 > r5;
    r41404 = a2 == UINT32_C(0);
    or_2 = r41404 | r7;
    if (!(or_2)) goto join;
common:;
    common = r7 ^ 1u;
    return common;
join:;
    v0 = (uint16_t)(a1 + 65446u);
    r1_2 = a1;
    r0 = UINT32_C(0);
join_9:;
    if (a1 < 52u) goto after;
    if (!(a1 < 65u)) goto join_2;
    r9 = *(a0 + 288);
    r10 = r9;
    if (r10) goto arm;
    r7_2 = *(a0 + 289);
    v1 = dcc_umin_8(r7_2, 19u);
    r7_3 = (uint8_t)(v1 + 1u);
    *(a0 + 289) = r7_3;
    goto join_3;
arm:;
    r9_2 = *(a0 + 290);
    r10_2 = r9_2;
    if (!(r10_2)) goto then;
    r22 = *(a0 + 291);
    r23 = r22;
    if (!(r23)) goto then_2;
    r32 = *(a0 + 294);
    if (r32 == 0u) goto then_2;
    goto join_4;
then:;
    *(a0 + 290) = 1u;
    *(a0 + 291) = 1u;
    goto join_3;
join_4:;
    *(a0 + 290) = 0u;
    r28 = *(a0 + 293);
    r30 = (uint8_t)((1u * r28) << 1u);
    r34 = r30 | 1u;
    if (!(r32 < 8u)) goto else_2;
    *(a0 + 293) = r34;
    r47 = (uint8_t)(r32 + 1u);
    *(a0 + 294) = r47;
    goto join_3;
else_2:;
    r5_2 = dcc_load_64_aligned((a0 + 304));
    r8 = (a0 + 296) + (ptrdiff_t)r5_2;
    *r8 = r34;
    r11 = dcc_load_64_aligned((a0 + 304));
    r13 = (uint64_t)(r11 + UINT64_C(1));
    dcc_store_64_aligned((a0 + 304), r13);
    r54 = *(a0 + 292);
    r57 = r54 ^ r34;
    *(a0 + 292) = r57;
    *(a0 + 293) = 0u;
    *(a0 + 294) = 0u;
join_3:;
    r4 = dcc_load_16_aligned((a0 + 696));
    if (!(r4 == 192u)) { r7_4 = r4; goto then_3; }
    dcc_timing_recent_LastNumbers_move_to_front((a0 + 312));
    r7_5 = dcc_load_16_aligned((a0 + 696));
    r7_4 = r7_5;
then_3:;
    r1_3 = r7_4;
    r11_2 = (uint64_t)((1u * r1_3) << UINT64_C(1));
    r14 = (a0 + 312) + (ptrdiff_t)r11_2;
    dcc_store_16_aligned(r14, a1);
    r17 = dcc_load_16_aligned((a0 + 696));
    r19 = (uint16_t)(r17 + 1u);
    dcc_store_16_aligned((a0 + 696), r19);
    r8_2 = dcc_load_32_aligned(a0);
    r10_3 = (uint32_t)(r8_2 + UINT32_C(1));
    dcc_store_32_aligned(a0, r10_3);
    r13_2 = dcc_load_64_aligned((a0 + 8));
    r16 = (uint64_t)(r13_2 + r1_2);
    dcc_store_64_aligned((a0 + 8), r16);
    r6 = dcc_load_64_aligned((a0 + 64));
    if (r6 > r1_2) goto after_2;
    r13_3 = dcc_load_64_aligned((a0 + 72));
    if (!(r13_3 < r1_2)) goto join_5;
after_2:;
    dcc_timing_tally_Tally_extend((a0 + 48), r1_2);
    goto join_5;
then_2:;
    dcc_lost_figures_TrackFigures_push_shown(a0, a1);
    goto dcc_lost_figures_TrackFigures_push_inline;
join_5:;
    r7_6 = dcc_load_64_aligned((a0 + 48));
    r10_4 = (uint64_t)(r7_6 + UINT64_C(1));
    dcc_store_64_aligned((a0 + 48), r10_4);
    r16_2 = dcc_load_64_aligned((a0 + 56));
    r19_2 = (uint64_t)(r16_2 + r1_2);
    dcc_store_64_aligned((a0 + 56), r19_2);
    r30_2 = dcc_load_16_aligned((a0 + 712));
    r32_2 = dcc_load_16_aligned((a0 + 714));
    a1_2 = dcc_umin_16(r32_2, r30_2);
    r4_2 = dcc_load_16_aligned((a0 + 1100));
    if (!(r4_2 == 192u)) { r39 = r30_2; r7_7 = r4_2; goto dcc_timing_recent_LastNumbers_make_room; }
    dcc_timing_recent_LastNumbers_move_to_front((a0 + 716));
    r7_8 = dcc_load_16_aligned((a0 + 1100));
    r39_2 = dcc_load_16_aligned((a0 + 712));
    r39 = r39_2;
    r7_7 = r7_8;
dcc_timing_recent_LastNumbers_make_room:;
    r1_4 = r7_7;
    r11_3 = (uint64_t)((1u * r1_4) << UINT64_C(1));
    r14_2 = (a0 + 716) + (ptrdiff_t)r11_3;
    dcc_store_16_aligned(r14_2, a1_2);
    r17_2 = dcc_load_16_aligned((a0 + 1100));
    r19_3 = (uint16_t)(r17_2 + 1u);
    dcc_store_16_aligned((a0 + 1100), r19_3);
    r3 = dcc_uadd_sat_16(r39, 1u);
    dcc_store_16_aligned((a0 + 712), r3);
    r2 = *(a0 + 288);
    r3_2 = r2;
    if (r3_2) goto dcc_lost_figures_unused_next;
    r45 = dcc_load_16_aligned((a0 + 714));
    r3_3 = dcc_uadd_sat_16(r45, 1u);
    dcc_store_16_aligned((a0 + 714), r3_3);
    r10_5 = dcc_load_16_aligned((a0 + 696));
    r1_5 = r10_5;
    r2_2 = dcc_usub_sat_64(r1_5, UINT64_C(56));
    r16_3 = (uint64_t)((1u * r2_2) << UINT64_C(1));
    r19_4 = (a0 + 312) + (ptrdiff_t)r16_3;
    r22_2 = (uint64_t)(r1_5 - r2_2);
    if (r22_2 == UINT64_C(56)) goto then_4;
    goto dcc_lost_figures_TrackFigures_push_inline;
dcc_lost_figures_unused_next:;
    dcc_store_16_aligned((a0 + 714), 0u);
    goto dcc_lost_figures_TrackFigures_push_inline;
then_4:;
    r23_2 = dcc_load_16_aligned(r19_4);
    v2 = (uint16_t)(r23_2 + 65459u);
    if (!(v2 < 19924u)) goto dcc_lost_figures_TrackFigures_push_inline;
    r35 = dcc_load_16_aligned((r19_4 + 36));
    v3 = (uint16_t)(r35 + 65459u);
    if (!(v3 < 19924u)) goto dcc_lost_figures_TrackFigures_push_inline;
    r47_2 = dcc_load_16_aligned((r19_4 + 72));
    v4 = (uint16_t)(r47_2 + 65459u);
    if (!(v4 < 19924u)) goto dcc_lost_figures_TrackFigures_push_inline;
    memset(DCC_ALIGNED(r16_4), 0u, 32);
    dcc_lost_figures_Ended_count((a0 + 704), a0, (a0 + 716), r16_4);
dcc_lost_figures_TrackFigures_push_inline:;
    goto dcc_lost_figures_TrackFigures_push;
join_2:;
    if (!(v0 < 9911u)) goto after;
    r9_3 = *(a0 + 288);
    r10_6 = r9_3;
    if (r10_6) goto arm_2;
    r7_9 = *(a0 + 289);
    if (!(r7_9 > 19u)) goto else_3;
    *(a0 + 288) = 1u;
    *(a0 + 290) = 1u;
    dcc_store_32((a0 + 291), UINT32_C(0));
    memset((a0 + 296), 0u, 16);
    goto join_6;
else_3:;
    *(a0 + 289) = 0u;
    goto join_6;
arm_2:;
    r9_4 = *(a0 + 290);
    r10_7 = r9_4;
    if (!(r10_7)) goto then_5;
    r22_3 = *(a0 + 291);
    r23_3 = r22_3;
    if (r23_3) goto then_6;
    r32_3 = *(a0 + 294);
    if (!(r32_3 == 0u)) goto join_7;
    r3_4 = dcc_load_64_aligned((a0 + 304));
    if (!(r3_4 < UINT64_C(6))) goto then_6;
    *(a0 + 290) = 0u;
    r28_2 = *(a0 + 293);
    r30_3 = (uint8_t)((1u * r28_2) << 1u);
    r30_4 = r30_3;
    goto then_7;
then_5:;
    *(a0 + 290) = 1u;
    *(a0 + 291) = 0u;
    goto join_6;
join_7:;
    *(a0 + 290) = 0u;
    r28_3 = *(a0 + 293);
    r30_5 = (uint8_t)((1u * r28_3) << 1u);
    if (!(r32_3 < 8u)) goto else_4;
    r30_4 = r30_5;
then_7:;
    *(a0 + 293) = r30_4;
    r47_3 = (uint8_t)(r32_3 + 1u);
    *(a0 + 294) = r47_3;
    goto join_6;
else_4:;
    r5_3 = dcc_load_64_aligned((a0 + 304));
    r8_3 = (a0 + 296) + (ptrdiff_t)r5_3;
    *r8_3 = r30_5;
    r11_4 = dcc_load_64_aligned((a0 + 304));
    r13_4 = (uint64_t)(r11_4 + UINT64_C(1));
    dcc_store_64_aligned((a0 + 304), r13_4);
    r54_2 = *(a0 + 292);
    r57_2 = r54_2 ^ r30_5;
    *(a0 + 292) = r57_2;
    *(a0 + 293) = 0u;
    *(a0 + 294) = 0u;
join_6:;
    r4_3 = dcc_load_16_aligned((a0 + 696));
    if (!(r4_3 == 192u)) { r7_10 = r4_3; goto then_8; }
    dcc_timing_recent_LastNumbers_move_to_front((a0 + 312));
    r7_11 = dcc_load_16_aligned((a0 + 696));
    r7_10 = r7_11;
then_8:;
    r1_6 = r7_10;
    r11_5 = (uint64_t)((1u * r1_6) << UINT64_C(1));
    r14_3 = (a0 + 312) + (ptrdiff_t)r11_5;
    dcc_store_16_aligned(r14_3, a1);
    r17_3 = dcc_load_16_aligned((a0 + 696));
    r19_5 = (uint16_t)(r17_3 + 1u);
    dcc_store_16_aligned((a0 + 696), r19_5);
    r8_4 = dcc_load_32_aligned(a0);
    r10_8 = (uint32_t)(r8_4 + UINT32_C(1));
    dcc_store_32_aligned(a0, r10_8);
    r13_5 = dcc_load_64_aligned((a0 + 8));
    r16_5 = (uint64_t)(r13_5 + r1_2);
    dcc_store_64_aligned((a0 + 8), r16_5);
    r6_2 = dcc_load_64_aligned((a0 + 128));
    if (r6_2 > r1_2) goto after_3;
    r13_6 = dcc_load_64_aligned((a0 + 136));
    if (!(r13_6 < r1_2)) goto join_8;
after_3:;
    dcc_timing_tally_Tally_extend((a0 + 112), r1_2);
    goto join_8;
then_6:;
    dcc_lost_figures_TrackFigures_push_shown(a0, a1);
    goto dcc_lost_figures_TrackFigures_push;
join_8:;
    r7_12 = dcc_load_64_aligned((a0 + 112));
    r10_9 = (uint64_t)(r7_12 + UINT64_C(1));
    dcc_store_64_aligned((a0 + 112), r10_9);
    r16_6 = dcc_load_64_aligned((a0 + 120));
    r19_6 = (uint64_t)(r16_6 + r1_2);
    dcc_store_64_aligned((a0 + 120), r19_6);
    r30_6 = dcc_load_16_aligned((a0 + 712));
    r32_4 = dcc_load_16_aligned((a0 + 714));
    a1_3 = dcc_umin_16(r32_4, r30_6);
    r4_4 = dcc_load_16_aligned((a0 + 1100));
    if (!(r4_4 == 192u)) { r45_2 = r32_4; r7_13 = r4_4; goto dcc_timing_recent_LastNumbers_make_room_2; }
    dcc_timing_recent_LastNumbers_move_to_front((a0 + 716));
    r7_14 = dcc_load_16_aligned((a0 + 1100));
    r45_3 = dcc_load_16_aligned((a0 + 714));
    r45_2 = r45_3;
    r7_13 = r7_14;
dcc_timing_recent_LastNumbers_make_room_2:;
    r1_7 = r7_13;
    r11_6 = (uint64_t)((1u * r1_7) << UINT64_C(1));
    r14_4 = (a0 + 716) + (ptrdiff_t)r11_6;
    dcc_store_16_aligned(r14_4, a1_3);
    r17_4 = dcc_load_16_aligned((a0 + 1100));
    r19_7 = (uint16_t)(r17_4 + 1u);
    dcc_store_16_aligned((a0 + 1100), r19_7);
    dcc_store_16_aligned((a0 + 712), 0u);
    r2_3 = *(a0 + 288);
    r3_5 = r2_3;
    r3_6 = dcc_uadd_sat_16(r45_2, 1u);
    common_2 = r3_5 ? 0u : r3_6;
    dcc_store_16_aligned((a0 + 714), common_2);
    goto dcc_lost_figures_TrackFigures_push;
after:;
    dcc_lost_figures_TrackFigures_push_apart(a0, a1);
dcc_lost_figures_TrackFigures_push:;
    r10_10 = (uint32_t)(r0 + UINT32_C(1));
    if (r10_10 == a2) goto common;
    r0 = r10_10;
    goto join_9;
}

/* dcc_timing::tally::Tally::extend */
static DCC_NOINLINE void dcc_timing_tally_Tally_extend(unsigned char *a0, uint64_t a1) {
    uint64_t r3, r5, v0, r3_2, r12, a0_2;
    uint8_t r4;
    r3 = dcc_load_64_aligned(a0);
    r5 = dcc_load_64_aligned((a0 + 16));
    r4 = r3 == UINT64_C(0);
    v0 = dcc_umin_64(a1, r5);
    r3_2 = r4 ? a1 : v0;
    dcc_store_64_aligned((a0 + 16), r3_2);
    r12 = dcc_load_64_aligned((a0 + 24));
    a0_2 = dcc_umax_64(a1, r12);
    dcc_store_64_aligned((a0 + 24), a0_2);
    return;
}

/* dcc_lost::figures::TrackFigures::push_shown */
static DCC_NOINLINE void dcc_lost_figures_TrackFigures_push_shown(unsigned char *a0, uint16_t a1) {
    uint16_t r2_2, r2_3, r2_4, r2_5, r7, r7_9, common, r16, r18, a1_2, r3_3, v1, r4_3, r7_2, r17, r19, r10_9, r4_4,
        r7_10, r17_3, r19_5, switch_3;
    uint32_t r8, r10_3, r20, r22, r26, r28, r32, r34, r38_2, r40, r44, r46, r13_7, r15_2;
    uint64_t r0, r0_2, r3_5, r3_6, r3_9, r3_10, r3_11, r3_13, r3_14, r3_15, it, r4, r9, r0_5, r0_6, r1_2, r11, r1_3,
        r13, r16_2, r6, r13_2, r7_3, r10_4, r6_2, r13_3, r7_4, r10_5, r6_3, r13_4, r7_5, r10_6, r6_4, r13_5, r7_6,
        r10_7, r6_5, r13_6, r7_7, r10_8, r16_3, r19_2, r32_2, r17_2, r19_3, r5, r7_8, r9_2, r2_6, a0_2, r2_7, r3_18,
        it_2, r1_4, r2_8, r16_4, r22_2, r39, r1_5, r11_2, v4;
    uint8_t r3, r3_2, r0_3, r3_4, r3_7, r10, r3_8, r3_12, r10_2, r4_2, r3_16, r1, r12, r12_2, r38, spec, r68, r0_4,
        r3_17, r2_9, r3_19;
    unsigned char *r14, *r14_2, *r14_3, *r14_4, *r14_5, *r15, *r19_4, *r14_6, *switch_2;
    uint64_t place_0[4];
    unsigned char *const r2 = (unsigned char *)place_0;
    memset(DCC_ALIGNED(r2), 0u, 32);
    r16 = dcc_load_16_aligned((a0 + 712));
    r18 = dcc_load_16_aligned((a0 + 714));
    a1_2 = dcc_umin_16(r18, r16);
    if (!(a1 < 26u)) goto core_iter_ranges_RangeInclusive_contains;
    r3 = 1u;
    r14 = (a0 + 288);
    r2_2 = 0u;
    r3_2 = 0u;
    goto dcc_wire_kept_KeptFramer_outcome;
core_iter_ranges_RangeInclusive_contains:;
    if (!(a1 < 77u)) goto join;
    r3_3 = dcc_uadd_sat_16(r16, 1u);
    if (a1 < 52u) { r3 = 1u; r14 = (a0 + 288); r2_2 = r3_3; r3_2 = 0u; goto dcc_wire_kept_KeptFramer_outcome; }
    if (a1 < 65u) goto arm;
    r3 = 0u;
    r14 = (a0 + 288);
    r2_2 = r3_3;
    r3_2 = 0u;
    goto dcc_wire_kept_KeptFramer_outcome;
join:;
    v1 = (uint16_t)(a1 + 65446u);
    if (v1 < 9911u) goto arm_2;
    r3 = 0u;
    r14 = (a0 + 288);
    r2_2 = 0u;
    r3_2 = 0u;
    goto dcc_wire_kept_KeptFramer_outcome;
arm:;
    r12 = *(a0 + 291);
    if (r12 == 0u) { r3 = 0u; r14 = (a0 + 288); r2_2 = r3_3; r3_2 = 1u; goto dcc_wire_kept_KeptFramer_outcome; }
    goto join_2;
arm_2:;
    r12_2 = *(a0 + 291);
    r38 = r12_2 == 0u;
    spec = r38 ? 3u : 1u;
    r3 = 0u;
    r14 = (a0 + 288);
    r2_2 = 0u;
    r3_2 = spec;
    goto dcc_wire_kept_KeptFramer_outcome;
join_2:;
    r4 = dcc_load_64_aligned((a0 + 304));
    if (r4 < UINT64_C(3)) { r0 = UINT64_C(0); r0_2 = UINT64_C(0); r0_3 = 2u; goto dcc_wire_kept_KeptFramer_outcome_2; }
    r68 = *(a0 + 292);
    r9 = dcc_load_64((a0 + 296));
    if (r68 == 0u) goto dcc_wire_kept_KeptFramer_outcome_3;
    r0 = r9;
    r0_2 = r4;
    r0_3 = 4u;
    goto dcc_wire_kept_KeptFramer_outcome_2;
dcc_wire_kept_KeptFramer_outcome:;
    *r14 = 0u;
    r3_4 = r3_2;
    r3_5 = UINT64_C(0);
    r3_6 = UINT64_C(0);
    r2_3 = r2_2;
    r14_2 = r14;
    r3_7 = r3;
    goto arm_3;
dcc_wire_kept_KeptFramer_outcome_2:;
    *(a0 + 288) = 0u;
    r3_4 = r0_3;
    r3_5 = r0_2;
    r3_6 = r0;
    r2_3 = r3_3;
    r14_2 = (a0 + 288);
    r3_7 = 0u;
    goto arm_3;
dcc_wire_kept_KeptFramer_outcome_3:;
    r0_4 = (uint8_t)(r9);
    r0_5 = r9 >> UINT64_C(8);
    r0_6 = r0_5;
    *(a0 + 288) = 0u;
    r10 = 1u;
    r3_8 = r0_4;
    r3_9 = r0_6;
    r3_10 = UINT64_C(0);
    r3_11 = r4;
    r2_4 = r3_3;
    r14_3 = (a0 + 288);
    r3_12 = 0u;
    goto after;
arm_3:;
    switch (r3_4) {
    case 2u: case 4u: r10 = 2u; r3_8 = r3_4; r3_9 = UINT64_C(0); r3_10 = r3_5; r3_11 = r3_6; r2_4 = r2_3; r14_3 = r14_2; r3_12 = r3_7; goto after;
    case 0u: case 1u: case 3u: r10_2 = 2u; r4_2 = r3_4; r3_13 = UINT64_C(0); r3_14 = r3_5; r3_15 = r3_6; r2_5 = r2_3; r14_4 = r14_2; r3_16 = r3_7; r1 = 0u; goto dcc_wire_seen_Seen_ones_left;
    default: goto default_2;
    }
after:;
    r10_2 = r10;
    r4_2 = r3_8;
    r3_13 = r3_9;
    r3_14 = r3_10;
    r3_15 = r3_11;
    r2_5 = r2_4;
    r14_4 = r14_3;
    r3_16 = r3_12;
    r1 = 2u;
    goto dcc_wire_seen_Seen_ones_left;
default_2:;
    DCC_UNREACHABLE();
dcc_wire_seen_Seen_ones_left:;
    *(r14_4 + 1) = r1;
    r4_3 = dcc_load_16_aligned((a0 + 696));
    if (!(r4_3 == 192u)) { r7 = r4_3; goto dcc_timing_recent_LastNumbers_make_room; }
    dcc_timing_recent_LastNumbers_move_to_front((a0 + 312));
    r7_2 = dcc_load_16_aligned((a0 + 696));
    r7 = r7_2;
dcc_timing_recent_LastNumbers_make_room:;
    r1_2 = r7;
    r11 = (uint64_t)((1u * r1_2) << UINT64_C(1));
    r14_5 = (a0 + 312) + (ptrdiff_t)r11;
    dcc_store_16_aligned(r14_5, a1);
    r17 = dcc_load_16_aligned((a0 + 696));
    r19 = (uint16_t)(r17 + 1u);
    dcc_store_16_aligned((a0 + 696), r19);
    r8 = dcc_load_32_aligned(a0);
    r10_3 = (uint32_t)(r8 + UINT32_C(1));
    dcc_store_32_aligned(a0, r10_3);
    r1_3 = a1;
    r13 = dcc_load_64_aligned((a0 + 8));
    r16_2 = (uint64_t)(r13 + r1_3);
    dcc_store_64_aligned((a0 + 8), r16_2);
    if (!(r3_16)) goto join_3;
    r6 = dcc_load_64_aligned((a0 + 32));
    if (r6 > r1_3) goto after_2;
    r13_2 = dcc_load_64_aligned((a0 + 40));
    if (!(r13_2 < r1_3)) goto dcc_timing_tally_Tally_cover;
after_2:;
    dcc_timing_tally_Tally_extend((a0 + 16), r1_3);
dcc_timing_tally_Tally_cover:;
    r7_3 = dcc_load_64_aligned((a0 + 16));
    r10_4 = (uint64_t)(r7_3 + UINT64_C(1));
    dcc_store_64_aligned((a0 + 16), r10_4);
    it = UINT64_C(24);
    goto dcc_timing_timings_Timings_push_shown;
join_3:;
    if (!(a1 < 65u)) goto join_4;
    r6_2 = dcc_load_64_aligned((a0 + 64));
    if (r6_2 > r1_3) goto after_3;
    r13_3 = dcc_load_64_aligned((a0 + 72));
    if (!(r13_3 < r1_3)) goto dcc_timing_tally_Tally_cover_2;
after_3:;
    dcc_timing_tally_Tally_extend((a0 + 48), r1_3);
dcc_timing_tally_Tally_cover_2:;
    r7_4 = dcc_load_64_aligned((a0 + 48));
    r10_5 = (uint64_t)(r7_4 + UINT64_C(1));
    dcc_store_64_aligned((a0 + 48), r10_5);
    it = UINT64_C(56);
    goto dcc_timing_timings_Timings_push_shown;
join_4:;
    if (!(a1 < 90u)) goto join_5;
    r6_3 = dcc_load_64_aligned((a0 + 96));
    if (r6_3 > r1_3) goto after_4;
    r13_4 = dcc_load_64_aligned((a0 + 104));
    if (!(r13_4 < r1_3)) goto dcc_timing_tally_Tally_cover_3;
after_4:;
    dcc_timing_tally_Tally_extend((a0 + 80), r1_3);
dcc_timing_tally_Tally_cover_3:;
    r7_5 = dcc_load_64_aligned((a0 + 80));
    r10_6 = (uint64_t)(r7_5 + UINT64_C(1));
    dcc_store_64_aligned((a0 + 80), r10_6);
    it = UINT64_C(88);
    goto dcc_timing_timings_Timings_push_shown;
join_5:;
    if (!(a1 < 10001u)) goto join_6;
    r6_4 = dcc_load_64_aligned((a0 + 128));
    if (r6_4 > r1_3) goto after_5;
    r13_5 = dcc_load_64_aligned((a0 + 136));
    if (!(r13_5 < r1_3)) goto dcc_timing_tally_Tally_cover_4;
after_5:;
    dcc_timing_tally_Tally_extend((a0 + 112), r1_3);
dcc_timing_tally_Tally_cover_4:;
    r7_6 = dcc_load_64_aligned((a0 + 112));
    r10_7 = (uint64_t)(r7_6 + UINT64_C(1));
    dcc_store_64_aligned((a0 + 112), r10_7);
    it = UINT64_C(120);
    goto dcc_timing_timings_Timings_push_shown;
join_6:;
    r6_5 = dcc_load_64_aligned((a0 + 160));
    if (r6_5 > r1_3) goto after_6;
    r13_6 = dcc_load_64_aligned((a0 + 168));
    if (!(r13_6 < r1_3)) goto dcc_timing_tally_Tally_cover_5;
after_6:;
    dcc_timing_tally_Tally_extend((a0 + 144), r1_3);
dcc_timing_tally_Tally_cover_5:;
    r7_7 = dcc_load_64_aligned((a0 + 144));
    r10_8 = (uint64_t)(r7_7 + UINT64_C(1));
    dcc_store_64_aligned((a0 + 144), r10_8);
    it = UINT64_C(152);
dcc_timing_timings_Timings_push_shown:;
    r15 = a0 + (ptrdiff_t)it;
    r16_3 = dcc_load_64_aligned(r15);
    r19_2 = (uint64_t)(r16_3 + r1_3);
    dcc_store_64_aligned(r15, r19_2);
    if (!(r10_2 == 2u)) goto arm_4;
    switch (r4_2) {
    case 0u: goto arm_5;
    case 1u: goto arm_6;
    case 2u: goto arm_7;
    case 3u: goto arm_8;
    case 4u: goto arm_9;
    default: goto noarm;
    }
arm_5:;
    r20 = dcc_load_32_aligned((a0 + 180));
    r22 = (uint32_t)(r20 + UINT32_C(1));
    dcc_store_32_aligned((a0 + 180), r22);
    goto dcc_timing_packets_Packets_add;
arm_6:;
    r26 = dcc_load_32_aligned((a0 + 184));
    r28 = (uint32_t)(r26 + UINT32_C(1));
    dcc_store_32_aligned((a0 + 184), r28);
    goto dcc_timing_packets_Packets_add;
arm_7:;
    r32 = dcc_load_32_aligned((a0 + 188));
    r34 = (uint32_t)(r32 + UINT32_C(1));
    dcc_store_32_aligned((a0 + 188), r34);
    goto dcc_timing_packets_Packets_add;
arm_8:;
    r38_2 = dcc_load_32_aligned((a0 + 192));
    r40 = (uint32_t)(r38_2 + UINT32_C(1));
    dcc_store_32_aligned((a0 + 192), r40);
    goto dcc_timing_packets_Packets_add;
arm_9:;
    r44 = dcc_load_32_aligned((a0 + 196));
    r46 = (uint32_t)(r44 + UINT32_C(1));
    dcc_store_32_aligned((a0 + 196), r46);
    goto dcc_timing_packets_Packets_add;
noarm:;
    DCC_UNREACHABLE();
arm_4:;
    r13_7 = dcc_load_32_aligned((a0 + 176));
    r15_2 = (uint32_t)(r13_7 + UINT32_C(1));
    dcc_store_32_aligned((a0 + 176), r15_2);
    r32_2 = dcc_load_64_aligned((a0 + 8));
    r17_2 = (uint64_t)(1u * r3_15 * UINT64_C(18));
    r19_3 = (uint64_t)(r17_2 + UINT64_C(22));
    r5 = dcc_load_64_aligned((a0 + 264));
    r7_8 = dcc_load_64_aligned((a0 + 280));
    r9_2 = dcc_load_64_aligned((a0 + 272));
    r2_6 = dcc_usub_sat_64(r32_2, r9_2);
    r3_17 = r5 == UINT64_C(0);
    a0_2 = dcc_umax_64(r2_6, r7_8);
    r2_7 = r3_17 ? r7_8 : a0_2;
    dcc_store_64_aligned((a0 + 280), r2_7);
    r3_18 = dcc_uadd_sat_64(r5, UINT64_C(1));
    it_2 = dcc_umin_64(r3_18, UINT64_C(2));
    dcc_store_64_aligned((a0 + 264), it_2);
    dcc_store_64_aligned((a0 + 272), r32_2);
    r10_9 = dcc_load_16_aligned((a0 + 696));
    r1_4 = r10_9;
    r2_8 = dcc_usub_sat_64(r1_4, r19_3);
    r16_4 = (uint64_t)((1u * r2_8) << UINT64_C(1));
    r19_4 = (a0 + 312) + (ptrdiff_t)r16_4;
    r22_2 = (uint64_t)(r1_4 - r2_8);
    dcc_timing_bits_Bits_add((a0 + 200), r19_4, r22_2);
dcc_timing_packets_Packets_add:;
    r39 = r10_2;
    dcc_store_64_aligned(r2, r39);
    *(r2 + 8) = r4_2;
    dcc_store_56((r2 + 9), r3_13);
    dcc_store_64_aligned((r2 + 16), r3_15);
    dcc_store_64_aligned((r2 + 24), r3_14);
    r4_4 = dcc_load_16_aligned((a0 + 1100));
    if (!(r4_4 == 192u)) { r7_9 = r4_4; goto dcc_timing_recent_LastNumbers_make_room_2; }
    dcc_timing_recent_LastNumbers_move_to_front((a0 + 716));
    r7_10 = dcc_load_16_aligned((a0 + 1100));
    r7_9 = r7_10;
dcc_timing_recent_LastNumbers_make_room_2:;
    r1_5 = r7_9;
    r11_2 = (uint64_t)((1u * r1_5) << UINT64_C(1));
    r14_6 = (a0 + 716) + (ptrdiff_t)r11_2;
    dcc_store_16_aligned(r14_6, a1_2);
    r17_3 = dcc_load_16_aligned((a0 + 1100));
    r19_5 = (uint16_t)(r17_3 + 1u);
    dcc_store_16_aligned((a0 + 1100), r19_5);
    dcc_store_16_aligned((a0 + 712), r2_5);
    r2_9 = *r14_4;
    r3_19 = r2_9;
    if (r3_19) { common = 0u; goto dcc_lost_figures_unused_next; }
    if (r10_2 == 1u) { common = 2u; goto dcc_lost_figures_unused_next; }
    v4 = r4_2;
    switch_2 = ((unsigned char *)switch_table_dcc_lost_figures_TrackFigures_push_shown) + (ptrdiff_t)v4 * 2;
    switch_3 = dcc_load_16_aligned(switch_2);
    common = switch_3;
dcc_lost_figures_unused_next:;
    dcc_store_16_aligned((a0 + 714), common);
    dcc_lost_figures_Ended_count((a0 + 704), a0, (a0 + 716), r2);
    return;
}

/* dcc_timing::bits::Bits::add */
static DCC_NOINLINE void dcc_timing_bits_Bits_add(unsigned char *a0, unsigned char *a1, uint64_t a2) {
    uint16_t r28, r37, v0, v1, a0_2, a1_2, r28_2, v2, v3, narrow;
    uint64_t r2, it, r1_2, r23, r1, r6, r13, r7, r10, r49, r6_2, r13_2, r7_2, r10_2, r16, r19, r42, r16_2;
    uint8_t spec, spec_2, or_2;
    unsigned char *r26, *r15;
    if (!(a2 > UINT64_C(1))) goto after;
    r2 = UINT64_C(0);
join:;
    r23 = (uint64_t)((1u * r2) << UINT64_C(1));
    r26 = a1 + (ptrdiff_t)r23;
    r28 = dcc_load_16_aligned(r26);
    r37 = dcc_load_16_aligned((r26 + 2));
    v0 = (uint16_t)(r28 + 65484u);
    if (!(v0 < 13u)) goto after_2;
    v1 = (uint16_t)(r37 + 65484u);
    if (!(v1 < 13u)) goto dcc_timing_bits_Bits_add_bit;
    a0_2 = dcc_umax_16(r37, r28);
    a1_2 = dcc_umin_16(r37, r28);
    r28_2 = (uint16_t)(a0_2 - a1_2);
    r1 = r28_2;
    r6 = dcc_load_64_aligned((a0 + 16));
    if (r6 > r1) goto after_3;
    r13 = dcc_load_64_aligned((a0 + 24));
    if (!(r13 < r1)) goto dcc_timing_tally_Tally_cover;
after_3:;
    dcc_timing_tally_Tally_extend(a0, r1);
dcc_timing_tally_Tally_cover:;
    r7 = dcc_load_64_aligned(a0);
    r10 = (uint64_t)(r7 + UINT64_C(1));
    dcc_store_64_aligned(a0, r10);
    it = UINT64_C(8);
    r1_2 = r1;
    goto after_4;
after_2:;
    v2 = (uint16_t)(r28 + 65446u);
    spec = v2 < 9911u;
    v3 = (uint16_t)(r37 + 65446u);
    spec_2 = v3 < 9911u;
    or_2 = spec & spec_2;
    if (!(or_2)) goto dcc_timing_bits_Bits_add_bit;
    narrow = (uint16_t)(r37 + r28);
    r49 = narrow;
    r6_2 = dcc_load_64_aligned((a0 + 48));
    if (r6_2 > r49) goto after_5;
    r13_2 = dcc_load_64_aligned((a0 + 56));
    if (!(r13_2 < r49)) goto dcc_timing_tally_Tally_cover_2;
after_5:;
    dcc_timing_tally_Tally_extend((a0 + 32), r49);
dcc_timing_tally_Tally_cover_2:;
    r7_2 = dcc_load_64_aligned((a0 + 32));
    r10_2 = (uint64_t)(r7_2 + UINT64_C(1));
    dcc_store_64_aligned((a0 + 32), r10_2);
    it = UINT64_C(40);
    r1_2 = r49;
after_4:;
    r15 = a0 + (ptrdiff_t)it;
    r16 = dcc_load_64_aligned(r15);
    r19 = (uint64_t)(r16 + r1_2);
    dcc_store_64_aligned(r15, r19);
dcc_timing_bits_Bits_add_bit:;
    r42 = (uint64_t)(r2 + UINT64_C(2));
    r16_2 = (uint64_t)(a2 - r42);
    if (r16_2 > UINT64_C(1)) { r2 = r42; goto join; }
after:;
    return;
}

/* dcc_timing::recent::LastNumbers::move_to_front */
static DCC_NOINLINE void dcc_timing_recent_LastNumbers_move_to_front(unsigned char *a0) {
    memmove(a0, (a0 + 124), 260);
    dcc_store_16_aligned((a0 + 384), 130u);
    return;
}

/* dcc_lost::figures::Ended::count */
static DCC_NOINLINE void dcc_lost_figures_Ended_count(unsigned char *a0, unsigned char *a1, unsigned char *a2, unsigned char *a3) {
    uint16_t r7_3, r10, r20, v1, r27, v2, r20_2, v4, r27_2, v5, r20_3, v7, r27_3, v8, r20_4, v10, r27_4, v11, r10_2,
        r17, r15, a1_2, r2_8;
    uint32_t r14, r1_4, r3_6;
    uint64_t r3_2, common, r3_3, common_2, r3_4, common_3, r3_5, common_4, r0_8, r1_2, r7_2, r1_3, r2_3, r16, r22,
        r21, r40, r41, r0_2, r2_4, r16_2, r22_2, r21_2, r40_2, r41_2, r0_4, r2_5, r16_3, r22_3, r21_3, r40_3, r41_3,
        r0_6, r2_6, r16_4, r22_4, r21_4, r40_4, r41_4, r0_10, r7, r25, r27_5, r1_5, r2_7, r16_5;
    uint8_t r0_9, r1, r2, r2_2, r3, r49, r49_2, r49_3, r49_4, v12, r9, r11, r12;
    unsigned char *r19, *r24, *r19_2, *r24_2, *r19_3, *r24_3, *r19_4, *r24_4, *r19_5;
    uint64_t place_0[3];
    unsigned char *const r0_7 = (unsigned char *)place_0;
    unsigned char *const r0_5 = (unsigned char *)place_0;
    unsigned char *const r0_3 = (unsigned char *)place_0;
    unsigned char *const r0 = (unsigned char *)place_0;
    r2 = *a3;
    if (!(r2 == 0u)) { r1 = 0u; r1_2 = UINT64_C(0); goto dcc_lost_figures_frame_lost; }
    r2_2 = *(a1 + 288);
    r3 = r2_2;
    if (r3) { r1 = 0u; r1_2 = UINT64_C(0); goto dcc_lost_figures_frame_lost; }
    r10 = dcc_load_16_aligned((a1 + 696));
    r1_3 = r10;
    r2_3 = dcc_usub_sat_64(r1_3, UINT64_C(118));
    r16 = (uint64_t)((1u * r2_3) << UINT64_C(1));
    r19 = (a1 + 312) + (ptrdiff_t)r16;
    r22 = (uint64_t)(r1_3 - r2_3);
    memset(DCC_ALIGNED(r0), 0u, 24);
    if (!(r22 > UINT64_C(8))) goto dcc_lost_bodies_frame_after_ones;
    r20 = dcc_load_16_aligned((r19 + 16));
    v1 = (uint16_t)(r20 + 65459u);
    if (!(v1 < 19924u)) goto dcc_lost_bodies_frame_after_ones;
    r3_2 = UINT64_C(0);
join:;
    r21 = (uint64_t)((1u * r3_2) << UINT64_C(1));
    r24 = r19 + (ptrdiff_t)r21;
    r27 = dcc_load_16_aligned(r24);
    v2 = (uint16_t)(r27 + 65510u);
    if (!(v2 < 51u)) { common = r3_2; goto dcc_lost_nearest_ones_before; }
    r40 = (uint64_t)(r3_2 + UINT64_C(1));
    if (!(r40 == r22)) { r3_2 = r40; goto join; }
    common = r22;
dcc_lost_nearest_ones_before:;
    if (!(common < UINT64_C(8))) goto dcc_lost_bodies_frame_after_ones_2;
dcc_lost_bodies_frame_after_ones:;
    goto join_2;
dcc_lost_bodies_frame_after_ones_2:;
    r41 = (uint64_t)(r22 + UINT64_C(18446744073709551608));
    dcc_lost_bodies_frame_of_body(r0, (r19 + 16), r41, UINT64_C(6));
    r49 = *r0;
    r0_2 = dcc_load_64_aligned((r0 + 16));
    if (r49 == 1u) { r1 = 1u; r1_2 = r0_2; goto dcc_lost_figures_frame_lost; }
join_2:;
    r2_4 = dcc_usub_sat_64(r1_3, UINT64_C(100));
    r16_2 = (uint64_t)((1u * r2_4) << UINT64_C(1));
    r19_2 = (a1 + 312) + (ptrdiff_t)r16_2;
    r22_2 = (uint64_t)(r1_3 - r2_4);
    memset(DCC_ALIGNED(r0_3), 0u, 24);
    if (!(r22_2 > UINT64_C(8))) goto dcc_lost_bodies_frame_after_ones_3;
    r20_2 = dcc_load_16_aligned((r19_2 + 16));
    v4 = (uint16_t)(r20_2 + 65459u);
    if (!(v4 < 19924u)) goto dcc_lost_bodies_frame_after_ones_3;
    r3_3 = UINT64_C(0);
join_3:;
    r21_2 = (uint64_t)((1u * r3_3) << UINT64_C(1));
    r24_2 = r19_2 + (ptrdiff_t)r21_2;
    r27_2 = dcc_load_16_aligned(r24_2);
    v5 = (uint16_t)(r27_2 + 65510u);
    if (!(v5 < 51u)) { common_2 = r3_3; goto dcc_lost_nearest_ones_before_2; }
    r40_2 = (uint64_t)(r3_3 + UINT64_C(1));
    if (!(r40_2 == r22_2)) { r3_3 = r40_2; goto join_3; }
    common_2 = r22_2;
dcc_lost_nearest_ones_before_2:;
    if (!(common_2 < UINT64_C(8))) goto dcc_lost_bodies_frame_after_ones_4;
dcc_lost_bodies_frame_after_ones_3:;
    goto join_4;
dcc_lost_bodies_frame_after_ones_4:;
    r41_2 = (uint64_t)(r22_2 + UINT64_C(18446744073709551608));
    dcc_lost_bodies_frame_of_body(r0_3, (r19_2 + 16), r41_2, UINT64_C(5));
    r49_2 = *r0_3;
    r0_4 = dcc_load_64_aligned((r0_3 + 16));
    if (r49_2 == 1u) { r1 = 1u; r1_2 = r0_4; goto dcc_lost_figures_frame_lost; }
join_4:;
    r2_5 = dcc_usub_sat_64(r1_3, UINT64_C(82));
    r16_3 = (uint64_t)((1u * r2_5) << UINT64_C(1));
    r19_3 = (a1 + 312) + (ptrdiff_t)r16_3;
    r22_3 = (uint64_t)(r1_3 - r2_5);
    memset(DCC_ALIGNED(r0_5), 0u, 24);
    if (!(r22_3 > UINT64_C(8))) goto dcc_lost_bodies_frame_after_ones_5;
    r20_3 = dcc_load_16_aligned((r19_3 + 16));
    v7 = (uint16_t)(r20_3 + 65459u);
    if (!(v7 < 19924u)) goto dcc_lost_bodies_frame_after_ones_5;
    r3_4 = UINT64_C(0);
join_5:;
    r21_3 = (uint64_t)((1u * r3_4) << UINT64_C(1));
    r24_3 = r19_3 + (ptrdiff_t)r21_3;
    r27_3 = dcc_load_16_aligned(r24_3);
    v8 = (uint16_t)(r27_3 + 65510u);
    if (!(v8 < 51u)) { common_3 = r3_4; goto dcc_lost_nearest_ones_before_3; }
    r40_3 = (uint64_t)(r3_4 + UINT64_C(1));
    if (!(r40_3 == r22_3)) { r3_4 = r40_3; goto join_5; }
    common_3 = r22_3;
dcc_lost_nearest_ones_before_3:;
    if (!(common_3 < UINT64_C(8))) goto dcc_lost_bodies_frame_after_ones_6;
dcc_lost_bodies_frame_after_ones_5:;
    goto join_6;
dcc_lost_bodies_frame_after_ones_6:;
    r41_3 = (uint64_t)(r22_3 + UINT64_C(18446744073709551608));
    dcc_lost_bodies_frame_of_body(r0_5, (r19_3 + 16), r41_3, UINT64_C(4));
    r49_3 = *r0_5;
    r0_6 = dcc_load_64_aligned((r0_5 + 16));
    if (r49_3 == 1u) { r1 = 1u; r1_2 = r0_6; goto dcc_lost_figures_frame_lost; }
join_6:;
    r2_6 = dcc_usub_sat_64(r1_3, UINT64_C(64));
    r16_4 = (uint64_t)((1u * r2_6) << UINT64_C(1));
    r19_4 = (a1 + 312) + (ptrdiff_t)r16_4;
    r22_4 = (uint64_t)(r1_3 - r2_6);
    memset(DCC_ALIGNED(r0_7), 0u, 24);
    if (!(r22_4 > UINT64_C(8))) { r0_8 = UINT64_C(0); r0_9 = 0u; goto dcc_lost_bodies_frame_after_ones_7; }
    r20_4 = dcc_load_16_aligned((r19_4 + 16));
    v10 = (uint16_t)(r20_4 + 65459u);
    if (!(v10 < 19924u)) { r0_8 = UINT64_C(0); r0_9 = 0u; goto dcc_lost_bodies_frame_after_ones_7; }
    r3_5 = UINT64_C(0);
join_7:;
    r21_4 = (uint64_t)((1u * r3_5) << UINT64_C(1));
    r24_4 = r19_4 + (ptrdiff_t)r21_4;
    r27_4 = dcc_load_16_aligned(r24_4);
    v11 = (uint16_t)(r27_4 + 65510u);
    if (!(v11 < 51u)) { common_4 = r3_5; goto dcc_lost_nearest_ones_before_4; }
    r40_4 = (uint64_t)(r3_5 + UINT64_C(1));
    if (!(r40_4 == r22_4)) { r3_5 = r40_4; goto join_7; }
    common_4 = r22_4;
dcc_lost_nearest_ones_before_4:;
    if (common_4 < UINT64_C(8)) { r0_8 = UINT64_C(0); r0_9 = 0u; goto dcc_lost_bodies_frame_after_ones_7; }
    r41_4 = (uint64_t)(r22_4 + UINT64_C(18446744073709551608));
    dcc_lost_bodies_frame_of_body(r0_7, (r19_4 + 16), r41_4, UINT64_C(3));
    r49_4 = *r0_7;
    r0_10 = dcc_load_64_aligned((r0_7 + 16));
    r0_8 = r0_10;
    r0_9 = r49_4;
dcc_lost_bodies_frame_after_ones_7:;
    r1 = r0_9;
    r1_2 = r0_8;
dcc_lost_figures_frame_lost:;
    r14 = dcc_load_32_aligned(a0);
    v12 = r1 & 1u;
    r1_4 = v12;
    r3_6 = dcc_uadd_sat_32(r1_4, r14);
    dcc_store_32_aligned(a0, r3_6);
    r9 = *a3;
    if (!(r9 == 1u)) goto dcc_lost_figures_frame_ended;
    r7 = dcc_load_64((a3 + 16));
    r7_2 = r7;
    goto arm;
dcc_lost_figures_frame_ended:;
    if (r1 == 0u) goto dcc_lost_figures_Ended_shorten;
    r7_2 = r1_2;
arm:;
    r25 = (uint64_t)(1u * r7_2 * UINT64_C(18));
    r27_5 = (uint64_t)(r25 + UINT64_C(2));
    r10_2 = dcc_load_16_aligned((a2 + 384));
    r1_5 = r10_2;
    r2_7 = dcc_usub_sat_64(r1_5, r27_5);
    if (r2_7 == r1_5) { r7_3 = 0u; goto arm_2; }
    r16_5 = (uint64_t)((1u * r2_7) << UINT64_C(1));
    r19_5 = a2 + (ptrdiff_t)r16_5;
    r17 = dcc_load_16_aligned(r19_5);
    r7_3 = r17;
arm_2:;
    r11 = *(a0 + 4);
    r12 = r11;
    r15 = dcc_load_16_aligned((a0 + 6));
    a1_2 = dcc_umin_16(r7_3, r15);
    r2_8 = r12 ? a1_2 : r7_3;
    dcc_store_16_aligned((a0 + 6), r2_8);
    *(a0 + 4) = 1u;
dcc_lost_figures_Ended_shorten:;
    return;
}

/* dcc_lost::bodies::frame_of_body */
static DCC_NOINLINE void dcc_lost_bodies_frame_of_body(unsigned char *a0, unsigned char *a1, uint64_t a2, uint64_t a3) {
    uint16_t r20, v0, r34;
    uint64_t r4, r5_3, r5_4, r28, r5, r11, r13, r3_2, r11_2, r13_2, r4_2, r9_3, r61, r2, r2_2, r32;
    uint8_t v1, v2, r68, v3, v4, r7, r9, v6, v7, v8, v9, v10, r7_3, r9_2, r5_2, r15, r17, r19, r20_2, r21, r10, v5,
        r7_2, r10_2, r23, r34_2, or_2, r30, r34_3, r47, r57, r10_3, r10_4, r23_2, r34_4, r5_5, or_3, r30_2, r47_2,
        r57_2, r10_5, r18, or_4;
    unsigned char *r31, *r8, *r8_2;
    uint64_t place_0[3];
    unsigned char *const r3 = (unsigned char *)place_0;
    if (a2 == UINT64_C(0)) goto then;
    r20 = dcc_load_16_aligned(a1);
    v0 = (uint16_t)(r20 + 65459u);
    if (v0 < 19924u) goto join;
    goto then;
common:;
    return;
then:;
    memset(a0, 0u, 24);
    goto common;
join:;
    memset((r3 + 7), 0u, 17);
    memset((r3 + 2), 0u, 5);
    r15 = *(r3 + 2);
    r17 = *(r3 + 3);
    r19 = *(r3 + 4);
    r20_2 = *(r3 + 5);
    r21 = *(r3 + 6);
    v1 = r21;
    v2 = r20_2;
    r68 = r19;
    v3 = r17;
    v4 = r15;
    r7 = 20u;
    r4 = UINT64_C(0);
    r9 = 0u;
join_2:;
    r28 = (uint64_t)((1u * r4) << UINT64_C(1));
    r31 = a1 + (ptrdiff_t)r28;
    r34 = dcc_load_16_aligned(r31);
    if (r34 < 26u) goto arm;
    if (r34 < 77u) goto arm_2;
    if (r34 < 20001u) goto arm_3;
    goto arm;
arm_2:;
    r10 = r9;
    if (r10) goto arm_4;
    v5 = dcc_umin_8(r7, 19u);
    r7_2 = (uint8_t)(v5 + 1u);
    v6 = v1;
    v7 = v2;
    v8 = r68;
    v9 = v3;
    v10 = v4;
    r7_3 = r7_2;
    r9_2 = 0u;
    goto after;
arm_4:;
    r10_2 = v4;
    if (!(r10_2)) { v6 = v1; v7 = v2; v8 = r68; v9 = 1u; v10 = 1u; r7_3 = r7; r9_2 = 1u; goto after; }
    r23 = v3;
    r34_2 = v1 != 0u;
    or_2 = r23 ? r34_2 : 0u;
    if (!(or_2)) goto arm_5;
    r30 = (uint8_t)((1u * v2) << 1u);
    r34_3 = r30 | 1u;
    if (!(v1 < 8u)) goto else_2;
    r47 = (uint8_t)(v1 + 1u);
    v6 = r47;
    v7 = r34_3;
    v8 = r68;
    v9 = 1u;
    v10 = 0u;
    r7_3 = r7;
    r9_2 = 1u;
    goto after;
else_2:;
    r5 = dcc_load_64_aligned((r3 + 16));
    r8 = (r3 + 8) + (ptrdiff_t)r5;
    *r8 = r34_3;
    r11 = dcc_load_64_aligned((r3 + 16));
    r13 = (uint64_t)(r11 + UINT64_C(1));
    dcc_store_64_aligned((r3 + 16), r13);
    r57 = r34_3 ^ r68;
    v6 = 0u;
    v7 = 0u;
    v8 = r57;
    v9 = 1u;
    v10 = 0u;
    r7_3 = r7;
    r9_2 = 1u;
    goto after;
arm_3:;
    r10_3 = r9;
    if (r10_3) goto arm_6;
    if (!(r7 > 19u)) { v6 = v1; v7 = v2; v8 = r68; v9 = v3; v10 = v4; r7_3 = 0u; r9_2 = 0u; goto after; }
    memset(DCC_ALIGNED((r3 + 8)), 0u, 16);
    v6 = 0u;
    v7 = 0u;
    v8 = 0u;
    v9 = 0u;
    v10 = 1u;
    r7_3 = 20u;
    r9_2 = 1u;
    goto after;
arm_6:;
    r10_4 = v4;
    if (!(r10_4)) { v6 = v1; v7 = v2; v8 = r68; v9 = 0u; v10 = 1u; r7_3 = r7; r9_2 = 1u; goto after; }
    r23_2 = v3;
    if (r23_2) { r5_2 = 0u; r5_3 = UINT64_C(0); r5_4 = UINT64_C(1); goto dcc_lost_bodies_outcome_of; }
    r34_4 = v1 != 0u;
    r3_2 = dcc_load_64_aligned((r3 + 16));
    r5_5 = r3_2 < UINT64_C(6);
    or_3 = r34_4 ? 1u : r5_5;
    if (!(or_3)) { r5_2 = 0u; r5_3 = UINT64_C(0); r5_4 = UINT64_C(3); goto dcc_lost_bodies_outcome_of; }
    r30_2 = (uint8_t)((1u * v2) << 1u);
    if (!(v1 < 8u)) goto else_3;
    r47_2 = (uint8_t)(v1 + 1u);
    v6 = r47_2;
    v7 = r30_2;
    v8 = r68;
    v9 = 0u;
    v10 = 0u;
    r7_3 = r7;
    r9_2 = 1u;
    goto after;
else_3:;
    r8_2 = (r3 + 8) + (ptrdiff_t)r3_2;
    *r8_2 = r30_2;
    r11_2 = dcc_load_64_aligned((r3 + 16));
    r13_2 = (uint64_t)(r11_2 + UINT64_C(1));
    dcc_store_64_aligned((r3 + 16), r13_2);
    r57_2 = r68 ^ r30_2;
    v6 = 0u;
    v7 = 0u;
    v8 = r57_2;
    v9 = 0u;
    v10 = 0u;
    r7_3 = r7;
    r9_2 = 1u;
    goto after;
arm:;
    r10_5 = r9;
    if (r10_5) { r5_2 = 0u; r5_3 = UINT64_C(0); r5_4 = UINT64_C(0); goto dcc_lost_bodies_outcome_of; }
    v6 = v1;
    v7 = v2;
    v8 = r68;
    v9 = v3;
    v10 = v4;
    r7_3 = 0u;
    r9_2 = 0u;
    goto after;
arm_5:;
    if (!(v3 == 1u)) { r5_2 = 0u; r5_3 = UINT64_C(0); r5_4 = UINT64_C(1); goto dcc_lost_bodies_outcome_of; }
    r4_2 = dcc_load_64_aligned((r3 + 16));
    if (r4_2 < UINT64_C(3)) { r5_2 = 0u; r5_3 = UINT64_C(0); r5_4 = UINT64_C(2); goto dcc_lost_bodies_outcome_of; }
    r9_3 = dcc_load_64_aligned((r3 + 8));
    if (!(r68 == 0u)) { r5_2 = 0u; r5_3 = r9_3; r5_4 = UINT64_C(4); goto dcc_lost_bodies_outcome_of; }
    r5_2 = 1u;
    r5_3 = r4_2;
    r5_4 = r9_3;
    goto dcc_lost_bodies_outcome_of;
after:;
    r61 = (uint64_t)(r4 + UINT64_C(1));
    if (!(r61 == a2)) { v1 = v6; v2 = v7; r68 = v8; v3 = v9; v4 = v10; r7 = r7_3; r4 = r61; r9 = r9_2; goto join_2; }
    r5_2 = 0u;
    r5_3 = UINT64_C(0);
    r5_4 = UINT64_C(0);
dcc_lost_bodies_outcome_of:;
    r18 = r5_3 == a3;
    or_4 = r5_2 ? r18 : 0u;
    r2 = or_4 ? r5_3 : UINT64_C(0);
    r2_2 = or_4 ? r5_4 : UINT64_C(0);
    r32 = or_4;
    dcc_store_64(a0, r32);
    dcc_store_64((a0 + 8), r2_2);
    dcc_store_64((a0 + 16), r2);
    goto common;
}

/* dcc_lost::figures::TrackFigures::push_apart */
static DCC_NOINLINE void dcc_lost_figures_TrackFigures_push_apart(unsigned char *a0, uint16_t a1) {
    uint16_t r7_4, r45, r39, r7_11, v0, r4, r7_5, r17, r19, r30_5, r32_3, a1_2, r4_2, r7_12, r39_2, r45_2, r17_2,
        r19_3, v2, r3_3, r2, r3_5, common, v3, r10_12, r23_3, v4, r35, v5, r47_3, v6;
    uint32_t r8_3, r10_6;
    uint64_t it, r5, r11, r13, r3_2, r5_2, r11_2, r13_2, r1, r11_3, r1_2, r13_3, r16, r6, r13_4, r7_6, r10_7, r6_2,
        r13_5, r7_7, r10_8, r6_3, r13_6, r7_8, r10_9, r6_4, r13_7, r7_9, r10_10, r6_5, r13_8, r7_10, r10_11, r16_2,
        r19_2, r1_3, r11_4, r1_4, r2_3, r16_3, r22_3;
    uint8_t r30_3, r3, r9, r10, r7, v1, r7_2, r9_2, r10_2, r22, r23, r32, r28, r30, r34, r47, r54, r57, r9_3, r10_3,
        r7_3, r9_4, r10_4, r22_2, r23_2, r32_2, r28_2, r30_2, r28_3, r30_4, r47_2, r54_2, r57_2, r9_5, r10_5, or_2,
        r2_2, r3_4, or_3, brmerge;
    unsigned char *r27, *r8, *r8_2, *r14, *r15, *r14_2, *r19_4;
    uint64_t place_0[4];
    unsigned char *const r16_4 = (unsigned char *)place_0;
    r3 = a1 < 52u;
    if (r3) goto arm;
    if (a1 < 65u) goto arm_2;
    v0 = (uint16_t)(a1 + 65446u);
    if (v0 < 9911u) goto arm_3;
    goto arm;
arm_2:;
    r9 = *(a0 + 288);
    r10 = r9;
    if (r10) goto arm_4;
    r7 = *(a0 + 289);
    v1 = dcc_umin_8(r7, 19u);
    r7_2 = (uint8_t)(v1 + 1u);
    *(a0 + 289) = r7_2;
    goto join;
arm_4:;
    r9_2 = *(a0 + 290);
    r10_2 = r9_2;
    if (!(r10_2)) goto then;
    r22 = *(a0 + 291);
    r23 = r22;
    if (!(r23)) goto then_2;
    r32 = *(a0 + 294);
    if (r32 == 0u) goto then_2;
    goto join_2;
then:;
    *(a0 + 290) = 1u;
    *(a0 + 291) = 1u;
    goto join;
join_2:;
    *(a0 + 290) = 0u;
    r28 = *(a0 + 293);
    r30 = (uint8_t)((1u * r28) << 1u);
    r34 = r30 | 1u;
    if (!(r32 < 8u)) goto else_2;
    *(a0 + 293) = r34;
    r47 = (uint8_t)(r32 + 1u);
    *(a0 + 294) = r47;
    goto join;
else_2:;
    r5 = dcc_load_64_aligned((a0 + 304));
    r8 = (a0 + 296) + (ptrdiff_t)r5;
    *r8 = r34;
    r11 = dcc_load_64_aligned((a0 + 304));
    r13 = (uint64_t)(r11 + UINT64_C(1));
    dcc_store_64_aligned((a0 + 304), r13);
    r54 = *(a0 + 292);
    r57 = r54 ^ r34;
    *(a0 + 292) = r57;
    *(a0 + 293) = 0u;
    *(a0 + 294) = 0u;
    goto join;
arm_3:;
    r9_3 = *(a0 + 288);
    r10_3 = r9_3;
    if (r10_3) goto arm_5;
    r7_3 = *(a0 + 289);
    if (!(r7_3 > 19u)) goto else_3;
    *(a0 + 288) = 1u;
    *(a0 + 290) = 1u;
    dcc_store_32((a0 + 291), UINT32_C(0));
    memset((a0 + 296), 0u, 16);
    goto join;
else_3:;
    *(a0 + 289) = 0u;
    goto join;
arm_5:;
    r9_4 = *(a0 + 290);
    r10_4 = r9_4;
    if (!(r10_4)) goto then_3;
    r22_2 = *(a0 + 291);
    r23_2 = r22_2;
    if (r23_2) goto then_2;
    r32_2 = *(a0 + 294);
    if (!(r32_2 == 0u)) goto join_3;
    r3_2 = dcc_load_64_aligned((a0 + 304));
    if (!(r3_2 < UINT64_C(6))) goto then_2;
    *(a0 + 290) = 0u;
    r28_2 = *(a0 + 293);
    r30_2 = (uint8_t)((1u * r28_2) << 1u);
    r30_3 = r30_2;
    r27 = (a0 + 293);
    goto then_4;
then_3:;
    *(a0 + 290) = 1u;
    *(a0 + 291) = 0u;
    goto join;
join_3:;
    *(a0 + 290) = 0u;
    r28_3 = *(a0 + 293);
    r30_4 = (uint8_t)((1u * r28_3) << 1u);
    if (!(r32_2 < 8u)) goto else_4;
    r30_3 = r30_4;
    r27 = (a0 + 293);
then_4:;
    *r27 = r30_3;
    r47_2 = (uint8_t)(r32_2 + 1u);
    *(a0 + 294) = r47_2;
    goto join;
else_4:;
    r5_2 = dcc_load_64_aligned((a0 + 304));
    r8_2 = (a0 + 296) + (ptrdiff_t)r5_2;
    *r8_2 = r30_4;
    r11_2 = dcc_load_64_aligned((a0 + 304));
    r13_2 = (uint64_t)(r11_2 + UINT64_C(1));
    dcc_store_64_aligned((a0 + 304), r13_2);
    r54_2 = *(a0 + 292);
    r57_2 = r54_2 ^ r30_4;
    *(a0 + 292) = r57_2;
    *(a0 + 293) = 0u;
    *(a0 + 294) = 0u;
    goto join;
arm:;
    r9_5 = *(a0 + 288);
    r10_5 = r9_5;
    if (r10_5) goto then_2;
    *(a0 + 289) = 0u;
join:;
    r4 = dcc_load_16_aligned((a0 + 696));
    if (!(r4 == 192u)) { r7_4 = r4; goto dcc_timing_recent_LastNumbers_make_room; }
    dcc_timing_recent_LastNumbers_move_to_front((a0 + 312));
    r7_5 = dcc_load_16_aligned((a0 + 696));
    r7_4 = r7_5;
dcc_timing_recent_LastNumbers_make_room:;
    r1 = r7_4;
    r11_3 = (uint64_t)((1u * r1) << UINT64_C(1));
    r14 = (a0 + 312) + (ptrdiff_t)r11_3;
    dcc_store_16_aligned(r14, a1);
    r17 = dcc_load_16_aligned((a0 + 696));
    r19 = (uint16_t)(r17 + 1u);
    dcc_store_16_aligned((a0 + 696), r19);
    r8_3 = dcc_load_32_aligned(a0);
    r10_6 = (uint32_t)(r8_3 + UINT32_C(1));
    dcc_store_32_aligned(a0, r10_6);
    r1_2 = a1;
    r13_3 = dcc_load_64_aligned((a0 + 8));
    r16 = (uint64_t)(r13_3 + r1_2);
    dcc_store_64_aligned((a0 + 8), r16);
    if (!(r3)) goto join_4;
    r6 = dcc_load_64_aligned((a0 + 32));
    if (r6 > r1_2) goto after;
    r13_4 = dcc_load_64_aligned((a0 + 40));
    if (!(r13_4 < r1_2)) goto dcc_timing_tally_Tally_cover;
after:;
    dcc_timing_tally_Tally_extend((a0 + 16), r1_2);
dcc_timing_tally_Tally_cover:;
    r7_6 = dcc_load_64_aligned((a0 + 16));
    r10_7 = (uint64_t)(r7_6 + UINT64_C(1));
    dcc_store_64_aligned((a0 + 16), r10_7);
    it = UINT64_C(24);
    goto join_5;
join_4:;
    if (!(a1 < 65u)) goto join_6;
    r6_2 = dcc_load_64_aligned((a0 + 64));
    if (r6_2 > r1_2) goto after_2;
    r13_5 = dcc_load_64_aligned((a0 + 72));
    if (!(r13_5 < r1_2)) goto dcc_timing_tally_Tally_cover_2;
after_2:;
    dcc_timing_tally_Tally_extend((a0 + 48), r1_2);
dcc_timing_tally_Tally_cover_2:;
    r7_7 = dcc_load_64_aligned((a0 + 48));
    r10_8 = (uint64_t)(r7_7 + UINT64_C(1));
    dcc_store_64_aligned((a0 + 48), r10_8);
    it = UINT64_C(56);
    goto join_5;
join_6:;
    if (!(a1 < 90u)) goto join_7;
    r6_3 = dcc_load_64_aligned((a0 + 96));
    if (r6_3 > r1_2) goto after_3;
    r13_6 = dcc_load_64_aligned((a0 + 104));
    if (!(r13_6 < r1_2)) goto dcc_timing_tally_Tally_cover_3;
after_3:;
    dcc_timing_tally_Tally_extend((a0 + 80), r1_2);
dcc_timing_tally_Tally_cover_3:;
    r7_8 = dcc_load_64_aligned((a0 + 80));
    r10_9 = (uint64_t)(r7_8 + UINT64_C(1));
    dcc_store_64_aligned((a0 + 80), r10_9);
    it = UINT64_C(88);
    goto join_5;
join_7:;
    if (!(a1 < 10001u)) goto join_8;
    r6_4 = dcc_load_64_aligned((a0 + 128));
    if (r6_4 > r1_2) goto after_4;
    r13_7 = dcc_load_64_aligned((a0 + 136));
    if (!(r13_7 < r1_2)) goto dcc_timing_tally_Tally_cover_4;
after_4:;
    dcc_timing_tally_Tally_extend((a0 + 112), r1_2);
dcc_timing_tally_Tally_cover_4:;
    r7_9 = dcc_load_64_aligned((a0 + 112));
    r10_10 = (uint64_t)(r7_9 + UINT64_C(1));
    dcc_store_64_aligned((a0 + 112), r10_10);
    it = UINT64_C(120);
    goto join_5;
join_8:;
    r6_5 = dcc_load_64_aligned((a0 + 160));
    if (r6_5 > r1_2) goto after_5;
    r13_8 = dcc_load_64_aligned((a0 + 168));
    if (!(r13_8 < r1_2)) goto dcc_timing_tally_Tally_cover_5;
after_5:;
    dcc_timing_tally_Tally_extend((a0 + 144), r1_2);
dcc_timing_tally_Tally_cover_5:;
    r7_10 = dcc_load_64_aligned((a0 + 144));
    r10_11 = (uint64_t)(r7_10 + UINT64_C(1));
    dcc_store_64_aligned((a0 + 144), r10_11);
    it = UINT64_C(152);
    goto join_5;
then_2:;
    dcc_lost_figures_TrackFigures_push_shown(a0, a1);
    goto dcc_lost_figures_TrackFigures_push_inline;
join_5:;
    r15 = a0 + (ptrdiff_t)it;
    r16_2 = dcc_load_64_aligned(r15);
    r19_2 = (uint64_t)(r16_2 + r1_2);
    dcc_store_64_aligned(r15, r19_2);
    r30_5 = dcc_load_16_aligned((a0 + 712));
    r32_3 = dcc_load_16_aligned((a0 + 714));
    a1_2 = dcc_umin_16(r32_3, r30_5);
    r4_2 = dcc_load_16_aligned((a0 + 1100));
    if (!(r4_2 == 192u)) { r45 = r32_3; r39 = r30_5; r7_11 = r4_2; goto dcc_timing_recent_LastNumbers_make_room_2; }
    dcc_timing_recent_LastNumbers_move_to_front((a0 + 716));
    r7_12 = dcc_load_16_aligned((a0 + 1100));
    r39_2 = dcc_load_16_aligned((a0 + 712));
    r45_2 = dcc_load_16_aligned((a0 + 714));
    r45 = r45_2;
    r39 = r39_2;
    r7_11 = r7_12;
dcc_timing_recent_LastNumbers_make_room_2:;
    r1_3 = r7_11;
    r11_4 = (uint64_t)((1u * r1_3) << UINT64_C(1));
    r14_2 = (a0 + 716) + (ptrdiff_t)r11_4;
    dcc_store_16_aligned(r14_2, a1_2);
    r17_2 = dcc_load_16_aligned((a0 + 1100));
    r19_3 = (uint16_t)(r17_2 + 1u);
    dcc_store_16_aligned((a0 + 1100), r19_3);
    v2 = (uint16_t)(a1 + 65510u);
    or_2 = v2 < 51u;
    r3_3 = dcc_uadd_sat_16(r39, 1u);
    r2 = or_2 ? r3_3 : 0u;
    dcc_store_16_aligned((a0 + 712), r2);
    r2_2 = *(a0 + 288);
    r3_4 = r2_2;
    r3_5 = dcc_uadd_sat_16(r45, 1u);
    common = r3_4 ? 0u : r3_5;
    dcc_store_16_aligned((a0 + 714), common);
    v3 = (uint16_t)(a1 + 65459u);
    or_3 = v3 < 65485u;
    brmerge = or_3 ? 1u : r3_4;
    if (brmerge) goto dcc_lost_figures_TrackFigures_push_inline;
    r10_12 = dcc_load_16_aligned((a0 + 696));
    r1_4 = r10_12;
    r2_3 = dcc_usub_sat_64(r1_4, UINT64_C(56));
    r16_3 = (uint64_t)((1u * r2_3) << UINT64_C(1));
    r19_4 = (a0 + 312) + (ptrdiff_t)r16_3;
    r22_3 = (uint64_t)(r1_4 - r2_3);
    if (!(r22_3 == UINT64_C(56))) goto dcc_lost_figures_TrackFigures_push_inline;
    r23_3 = dcc_load_16_aligned(r19_4);
    v4 = (uint16_t)(r23_3 + 65459u);
    if (!(v4 < 19924u)) goto dcc_lost_figures_TrackFigures_push_inline;
    r35 = dcc_load_16_aligned((r19_4 + 36));
    v5 = (uint16_t)(r35 + 65459u);
    if (!(v5 < 19924u)) goto dcc_lost_figures_TrackFigures_push_inline;
    r47_3 = dcc_load_16_aligned((r19_4 + 72));
    v6 = (uint16_t)(r47_3 + 65459u);
    if (!(v6 < 19924u)) goto dcc_lost_figures_TrackFigures_push_inline;
    memset(DCC_ALIGNED(r16_4), 0u, 32);
    dcc_lost_figures_Ended_count((a0 + 704), a0, (a0 + 716), r16_4);
dcc_lost_figures_TrackFigures_push_inline:;
    return;
}

/* dcc_packet::from_frame::read_loco */
static void dcc_packet_from_frame_read_loco(unsigned char *a0, unsigned char *a1, uint64_t a2) {
    uint16_t r13_5, r9_4, r1, r11, r1_2, r15, r1_3, r10_2, r1_4, r14_2, r16_2, r9_10;
    uint32_t r15_2, r15_3, r15_4, r15_5;
    uint64_t r13, r109, r140, r166;
    uint8_t r147, r13_3, r13_4, r9, r9_2, r9_3, r9_5, r9_6, r9_7, r9_8, r58, r72, v0, r119, r32, r8, r10, r11_2,
        r13_6, r16, v1, it, r14, r21, it_2, r2, r2_2, r2_3, r45, r47, a1_2, r6, v2, r4, a1_3, r63, r67, v3, r65,
        r6_2, r9_9, r17, it_3, v4, it_4;
    unsigned char *r13_2;
    switch (a2) {
    case UINT64_C(0): goto arm;
    case UINT64_C(1): goto then;
    default: goto join;
    }
then:;
    r58 = *a1;
    if (r58 == 0u) goto after;
    if ((r58 ^ 128u) > (255u ^ 128u)) { r147 = r58; goto after_2; }
    goto arm;
join:;
    r72 = *a1;
    if (r72 == 0u) goto after;
    if ((r72 ^ 128u) > (255u ^ 128u)) { r147 = r72; goto after_2; }
    v0 = (uint8_t)(r72 + 64u);
    if (!(v0 < 40u)) goto arm;
    r109 = (uint64_t)(a2 + UINT64_C(18446744073709551614));
    r119 = *(a1 + 1);
    r1 = v0;
    r11 = (uint16_t)((1u * r1) << 8u);
    r1_2 = r119;
    r15 = r11 | r1_2;
    r13 = r109;
    r13_2 = (a1 + 2);
    r13_3 = 2u;
    r13_4 = 0u;
    r13_5 = r15;
    goto arm_2;
after_2:;
    r140 = (uint64_t)(a2 + UINT64_C(18446744073709551615));
    r13 = r140;
    r13_2 = (a1 + 1);
    r13_3 = 1u;
    r13_4 = r147;
    r13_5 = 0u;
    goto arm_2;
after:;
    r166 = (uint64_t)(a2 + UINT64_C(18446744073709551615));
    r13 = r166;
    r13_2 = (a1 + 1);
    r13_3 = 0u;
    r13_4 = 0u;
    r13_5 = 0u;
arm_2:;
    switch (r13) {
    case UINT64_C(0): goto arm_3;
    case UINT64_C(1): goto then_2;
    default: goto join_2;
    }
then_2:;
    r32 = *r13_2;
    if (r32 == 0u) { r9 = 0u; r9_2 = 0u; r9_3 = 0u; goto dcc_packet_instruction_from_frame_instruction; }
    if (r32 < 64u) goto arm_3;
    if (!((r32 ^ 128u) > (255u ^ 128u))) goto join_3;
    r8 = (uint8_t)((1u * r32) << 1u);
    r10 = r8 & 30u;
    r11_2 = r32 >> 4u;
    r13_6 = r11_2 & 1u;
    r16 = r10 | r13_6;
    v1 = r32 >> 5u;
    it = v1 & 1u;
    r9 = r16;
    r9_2 = it;
    r9_3 = 1u;
    goto dcc_packet_instruction_from_frame_instruction;
join_3:;
    if (!(r32 < 192u)) goto arm_3;
    r14 = r32 < 160u;
    r21 = r32 < 176u;
    it_2 = r21 ? 2u : 1u;
    r2 = r14 ? 0u : it_2;
    r2_2 = r14 ? 31u : 15u;
    r2_3 = r2_2 & r32;
    r9 = r2_3;
    r9_2 = r2;
    r9_3 = 3u;
    goto dcc_packet_instruction_from_frame_instruction;
join_2:;
    if (!(r13 < UINT64_C(3))) goto join_4;
    r45 = *r13_2;
    r47 = *(r13_2 + 1);
    if (!(r45 == 63u)) goto default_2;
    a1_2 = r47 >> 7u;
    r6 = r47 & 127u;
    r9 = r6;
    r9_2 = a1_2;
    r9_3 = 2u;
    goto dcc_packet_instruction_from_frame_instruction;
default_2:;
    v2 = r45 & 248u;
    if (!(v2 == 216u)) goto arm_3;
    switch (r45) {
    case 222u: r9 = r47; r9_2 = 3u; r9_3 = 3u; goto dcc_packet_instruction_from_frame_instruction;
    case 223u: goto arm_4;
    case 216u: goto arm_5;
    case 217u: goto arm_6;
    case 218u: goto arm_7;
    case 219u: goto arm_8;
    case 220u: goto arm_9;
    case 221u: goto default_3;
    default: goto default_4;
    }
arm_4:;
    r9 = r47;
    r9_2 = 4u;
    r9_3 = 3u;
    goto dcc_packet_instruction_from_frame_instruction;
arm_5:;
    r9 = r47;
    r9_2 = 5u;
    r9_3 = 3u;
    goto dcc_packet_instruction_from_frame_instruction;
arm_6:;
    r9 = r47;
    r9_2 = 6u;
    r9_3 = 3u;
    goto dcc_packet_instruction_from_frame_instruction;
arm_7:;
    r9 = r47;
    r9_2 = 7u;
    r9_3 = 3u;
    goto dcc_packet_instruction_from_frame_instruction;
arm_8:;
    r9 = r47;
    r9_2 = 8u;
    r9_3 = 3u;
    goto dcc_packet_instruction_from_frame_instruction;
arm_9:;
    r9 = r47;
    r9_2 = 9u;
    r9_3 = 3u;
    goto dcc_packet_instruction_from_frame_instruction;
default_4:;
    DCC_UNREACHABLE();
default_3:;
    r4 = r47 & 127u;
    a1_3 = r47 >> 7u;
    r9 = a1_3;
    r9_2 = r4;
    r9_3 = 4u;
    goto dcc_packet_instruction_from_frame_instruction;
join_4:;
    if (!(r13 == UINT64_C(3))) goto arm_3;
    r63 = *r13_2;
    r67 = *(r13_2 + 2);
    v3 = (uint8_t)(r63 + 28u);
    if (!(v3 < 12u)) goto arm_3;
    r65 = *(r13_2 + 1);
    r6_2 = r63 & 3u;
    r1_3 = r6_2;
    r10_2 = (uint16_t)((1u * r1_3) << 8u);
    r1_4 = r65;
    r14_2 = r10_2 | 1u;
    r16_2 = (uint16_t)(r14_2 + r1_4);
    if (r63 < 232u) { r9_4 = r16_2; r9_5 = 6u; r9_6 = 0u; r9_7 = r67; r9_8 = 0u; goto arm_10; }
    if (!(r63 < 236u)) { r9_4 = r16_2; r9_5 = 5u; r9_6 = 0u; r9_7 = r67; r9_8 = 0u; goto arm_10; }
    if (r67 < 224u) goto arm_3;
    r9_9 = r67 & 7u;
    r17 = r67 < 240u;
    it_3 = r17 ? 8u : 7u;
    v4 = r67 >> 3u;
    it_4 = v4 & 1u;
    r9_4 = r16_2;
    r9_5 = it_3;
    r9_6 = 0u;
    r9_7 = r9_9;
    r9_8 = it_4;
    goto arm_10;
dcc_packet_instruction_from_frame_instruction:;
    r9_10 = r9;
    r9_4 = r9_10;
    r9_5 = r9_3;
    r9_6 = r9_2;
    r9_7 = 0u;
    r9_8 = 0u;
    goto arm_10;
common:;
    return;
arm:;
    memset(a0, 0u, 12);
    goto common;
arm_10:;
    r15_2 = r9_4;
    r15_3 = (uint32_t)(((1u * r15_2) << UINT32_C(8)) & UINT32_C(16777215));
    r15_4 = r9_6;
    r15_5 = r15_3 | r15_4;
    dcc_store_16(a0, 1u);
    *(a0 + 2) = r13_3;
    *(a0 + 3) = r13_4;
    dcc_store_16((a0 + 4), r13_5);
    *(a0 + 6) = r9_5;
    dcc_store_24((a0 + 7), r15_5);
    *(a0 + 10) = r9_7;
    *(a0 + 11) = r9_8;
    goto common;
arm_3:;
    memset(a0, 0u, 12);
    goto common;
}

/* dcc_c::frame::frame_of */
static DCC_NOINLINE void dcc_c_frame_frame_of(unsigned char *a0, unsigned char *a1, uint64_t a2) {
    uint8_t r9_2, r1, r1_2, v1, it;
    uint64_t place_0[3];
    unsigned char *const r3 = (unsigned char *)place_0;
    uint16_t place_1[11];
    unsigned char *const r9 = (unsigned char *)place_1;
    uint16_t place_2[8];
    unsigned char *const r0 = (unsigned char *)place_2;
    memset(DCC_ALIGNED(r3), 0u, 24);
    dcc_wire_frame_Frame_of(r3, a1, a2);
    r1 = *r3;
    r1_2 = *(r3 + 1);
    memset(r9, 0u, 22);
    if (!(r1 == 0u)) goto arm;
    memcpy((r9 + 6), DCC_ALIGNED((r3 + 8)), 16);
    r9_2 = 0u;
    goto core_result_Result_map_err;
arm:;
    v1 = r1_2 == 0u;
    it = v1 ? 1u : 2u;
    r9_2 = it;
core_result_Result_map_err:;
    memcpy(r0, (r9 + 6), 16);
    *a0 = r1;
    *(a0 + 1) = r9_2;
    memcpy((a0 + 8), r0, 16);
    return;
}

/* dcc_wire::frame::Frame::of */
static void dcc_wire_frame_Frame_of(unsigned char *a0, unsigned char *a1, uint64_t a2) {
    uint64_t r4, v0, r23;
    uint8_t r6, r5, r5_2, r5_3, it, r2, r4_3, r18, r18_2, r18_3, r18_4, r18_5, r18_6;
    unsigned char *r4_2;
    v0 = (uint64_t)(a2 + UINT64_C(18446744073709551609));
    if (v0 < UINT64_C(18446744073709551612)) { it = 0u; goto arm; }
    r6 = 0u;
    r4 = a2;
    r4_2 = a1;
arm_2:;
    r23 = (uint64_t)(r4 + UINT64_C(18446744073709551615));
    r2 = *r4_2;
    r4_3 = r2 ^ r6;
    if (!(r23 == UINT64_C(0))) { r6 = r4_3; r4 = r23; r4_2 = (r4_2 + 1); goto arm_2; }
    if (!(r2 == r6)) { it = 1u; goto arm; }
    r18 = *a1;
    r18_2 = *(a1 + 1);
    r18_3 = *(a1 + 2);
    if (a2 == UINT64_C(3)) { r5 = 0u; r5_2 = 0u; r5_3 = 0u; goto dcc_wire_frame_Frame_of_valid; }
    r18_4 = *(a1 + 3);
    if (!(a2 > UINT64_C(4))) { r5 = 0u; r5_2 = r18_4; r5_3 = 0u; goto dcc_wire_frame_Frame_of_valid; }
    r18_5 = *(a1 + 4);
    if (a2 == UINT64_C(5)) { r5 = r18_5; r5_2 = r18_4; r5_3 = 0u; goto dcc_wire_frame_Frame_of_valid; }
    r18_6 = *(a1 + 5);
    r5 = r18_5;
    r5_2 = r18_4;
    r5_3 = r18_6;
dcc_wire_frame_Frame_of_valid:;
    *a0 = 0u;
    *(a0 + 1) = 0u;
    *(a0 + 8) = r18;
    *(a0 + 9) = r18_2;
    *(a0 + 10) = r18_3;
    *(a0 + 11) = r5_2;
    *(a0 + 12) = r5;
    *(a0 + 13) = r5_3;
    dcc_store_16((a0 + 14), 0u);
    dcc_store_64((a0 + 16), a2);
common:;
    return;
arm:;
    *a0 = 1u;
    *(a0 + 1) = it;
    memset((a0 + 8), 0u, 16);
    goto common;
}

/* dcc_packet::packet::Packet::read */
static void dcc_packet_packet_Packet_read(unsigned char *a0, unsigned char *a1) {
    uint16_t r49, it_7, r6_3, r6_6, r6_7, r8_13, r8_16, r8_7, r8_9, r9_3, r9_6, r9_7, r9_8, r1, r43, r1_2, r49_2,
        r1_3, v2, v4, r67, r1_4, r75, r3, r3_2, r4_4, r8_23, r8_25, r8_26, r8_27, r8_28, r134, r11_3;
    uint64_t r4, r20;
    uint8_t it, it_2, r51, it_3, it_5, it_6, it_8, r6_2, r6_4, r6_5, r6_8, r8_12, r8_14, r8_15, r8_17, r8_18, r8_19,
        r8_20, r8_21, r8_2, r8_3, r8_4, r8_5, r8_6, r8_8, r8_10, r9_2, r9_4, r9_5, r9_9, r41, r46, r84, r35, r37,
        r39, r44, r51_2, v0, it_4, r96, r120, v1, r122, r51_3, r55, v3, r68, r70, r11, r4_2, r4_3, r4_5, r4_6,
        r8_22, r8_24, r11_4, r11_5;
    unsigned char *r11_2;
    uint16_t place_0[6];
    unsigned char *const r5 = (unsigned char *)place_0;
    uint8_t place_1[12];
    unsigned char *const r6 = (unsigned char *)place_1;
    uint32_t place_2[3];
    unsigned char *const r8_11 = (unsigned char *)place_2;
    uint8_t place_3[12];
    unsigned char *const r8 = (unsigned char *)place_3;
    uint8_t place_4[12];
    unsigned char *const r9 = (unsigned char *)place_4;
    memset(r9, 0u, 12);
    r4 = dcc_load_64_aligned((a1 + 8));
    r20 = (uint64_t)(r4 + UINT64_C(18446744073709551615));
    if (r20 < UINT64_C(2)) goto after;
    if (!(r20 == UINT64_C(2))) goto join;
    r41 = *a1;
    if (!(r41 == 255u)) goto default_2;
    r46 = *(a1 + 1);
    if (!(r46 == 0u)) goto after;
    memset(r8, 0u, 12);
    r8_2 = 0u;
    r8_3 = 0u;
    r8_4 = 0u;
    r8_5 = 0u;
    r8_6 = 0u;
    r8_7 = 0u;
    r8_8 = 0u;
    r8_9 = 0u;
    r8_10 = 0u;
    goto arm;
default_2:;
    if (!((r41 ^ 128u) < (192u ^ 128u))) goto after;
    r84 = *(a1 + 1);
    if ((r84 ^ 128u) > (255u ^ 128u)) { it = 0u; it_2 = 0u; r49 = 0u; r51 = 0u; it_3 = 0u; goto dcc_packet_from_frame_accessory_row; }
    r35 = r84 >> 4u;
    r37 = r35 & 7u;
    r39 = r37 ^ 7u;
    r1 = r39;
    r43 = (uint16_t)((1u * r1) << 6u);
    r44 = r41 & 63u;
    r1_2 = r44;
    r49_2 = r43 | r1_2;
    r51_2 = r84 & 7u;
    v0 = r84 >> 3u;
    it_4 = v0 & 1u;
    it = 1u;
    it_2 = 2u;
    r49 = r49_2;
    r51 = r51_2;
    it_3 = it_4;
dcc_packet_from_frame_accessory_row:;
    memset(DCC_ALIGNED(r8_11), 0u, 12);
    r8_12 = 0u;
    r8_13 = 0u;
    r8_14 = it;
    r8_15 = it_2;
    r8_16 = r49;
    r8_17 = r51;
    r8_18 = it_3;
    r8_19 = 0u;
    r8_20 = 0u;
    r8_21 = 0u;
    goto dcc_packet_from_frame_row;
join:;
    if (!(r20 < UINT64_C(4))) goto after;
    r96 = *a1;
    if (!((r96 ^ 128u) < (192u ^ 128u))) goto after;
    r120 = *(a1 + 1);
    v1 = r120 & 137u;
    if (!(v1 == 1u)) { it_5 = 0u; it_6 = 0u; it_7 = 0u; it_8 = 0u; goto dcc_packet_from_frame_signal_row; }
    r122 = *(a1 + 2);
    r51_3 = r120 >> 4u;
    r55 = r51_3 ^ 7u;
    r1_3 = r55;
    v2 = (uint16_t)((1u * r1_3) << 8u);
    v3 = (uint8_t)((1u * r96) << 2u);
    v4 = v3;
    r67 = v2 | v4;
    r68 = r120 >> 1u;
    r70 = r68 & 3u;
    r1_4 = r70;
    r75 = r67 | r1_4;
    it_5 = 1u;
    it_6 = 3u;
    it_7 = r75;
    it_8 = r122;
dcc_packet_from_frame_signal_row:;
    memset(DCC_ALIGNED(r8_11), 0u, 12);
    r8_12 = 0u;
    r8_13 = 0u;
    r8_14 = it_5;
    r8_15 = it_6;
    r8_16 = it_7;
    r8_17 = it_8;
    r8_18 = 0u;
    r8_19 = 0u;
    r8_20 = 0u;
    r8_21 = 0u;
    goto dcc_packet_from_frame_row;
after:;
    memset(r5, 0u, 12);
    memset(r6, 0u, 12);
    dcc_packet_from_frame_read_loco(r5, a1, r20);
    r11 = *r5;
    if (!(r11 == 1u)) { r6_2 = 0u; r6_3 = 0u; r6_4 = 0u; r6_5 = 0u; r6_6 = 0u; r6_7 = 0u; r6_8 = 0u; goto dcc_packet_from_frame_loco_row; }
    r3 = dcc_load_16_aligned((r5 + 2));
    r3_2 = dcc_load_16_aligned((r5 + 4));
    r4_2 = *(r5 + 6);
    r4_3 = *(r5 + 7);
    r4_4 = dcc_load_16_aligned((r5 + 8));
    r4_5 = *(r5 + 10);
    r4_6 = *(r5 + 11);
    memset(r6, 0u, 12);
    r6_2 = r4_3;
    r6_3 = r4_4;
    r6_4 = r4_5;
    r6_5 = r4_6;
    r6_6 = r3;
    r6_7 = r3_2;
    r6_8 = r4_2;
dcc_packet_from_frame_loco_row:;
    r8_22 = (uint8_t)(r6_7);
    r8_23 = r6_7 >> 8u;
    r8_24 = (uint8_t)r8_23;
    memcpy(DCC_ALIGNED(r8_11), r6, 12);
    r8_12 = r6_2;
    r8_13 = r6_3;
    r8_14 = r11;
    r8_15 = r11;
    r8_16 = r6_6;
    r8_17 = r8_22;
    r8_18 = r8_24;
    r8_19 = r6_8;
    r8_20 = r6_4;
    r8_21 = r6_5;
dcc_packet_from_frame_row:;
    memcpy(r8, DCC_ALIGNED(r8_11), 12);
    if (!(r8_14 == 1u)) goto arm_2;
    r8_2 = r8_21;
    r8_3 = r8_20;
    r8_4 = r8_19;
    r8_5 = r8_18;
    r8_6 = r8_17;
    r8_7 = r8_16;
    r8_8 = r8_15;
    r8_9 = r8_13;
    r8_10 = r8_12;
arm:;
    r8_25 = r8_5;
    r8_26 = (uint16_t)((1u * r8_25) << 8u);
    r8_27 = r8_6;
    r8_28 = r8_26 | r8_27;
    r134 = r8_8;
    r11_2 = r8;
    r9_2 = r8_10;
    r9_3 = r8_9;
    r9_4 = r8_3;
    r9_5 = r8_2;
    r9_6 = r134;
    r9_7 = r8_7;
    r9_8 = r8_28;
    r9_9 = r8_4;
    goto join_2;
arm_2:;
    r11_3 = dcc_load_16(a1);
    r11_4 = *(a1 + 2);
    r11_5 = *(a1 + 3);
    r11_2 = (a1 + 4);
    r9_2 = 0u;
    r9_3 = r11_3;
    r9_4 = r11_4;
    r9_5 = r11_5;
    r9_6 = 4u;
    r9_7 = 0u;
    r9_8 = 0u;
    r9_9 = 0u;
join_2:;
    memcpy(r9, r11_2, 12);
    dcc_store_16(a0, r9_6);
    dcc_store_16((a0 + 2), r9_7);
    dcc_store_16((a0 + 4), r9_8);
    *(a0 + 6) = r9_9;
    *(a0 + 7) = r9_2;
    dcc_store_16((a0 + 8), r9_3);
    *(a0 + 10) = r9_4;
    *(a0 + 11) = r9_5;
    memcpy((a0 + 12), r9, 12);
    return;
}

/* dcc_c::station_ring::DccRingPacketRing::push_back */
static void dcc_c_station_ring_DccRingPacketRing_push_back(unsigned char *a0, unsigned char *a1) {
    uint16_t r2, r0, r0_2;
    uint64_t r1_2, r3_2, r3_3, r3_4, r1_4, r18;
    uint8_t r11_2, r1_3, r1, r0_3, r30, r37, r3, r2_2, r4, r11_3, r12, r9, r2_4, r4_2, r26;
    unsigned char *r21;
    uint64_t place_0[3];
    unsigned char *const r11 = (unsigned char *)place_0;
    uint64_t place_1[2];
    unsigned char *const r2_3 = (unsigned char *)place_1;
    r1 = *a1;
    r2 = r1;
    r0 = dcc_load_16((a1 + 2));
    r0_2 = dcc_load_16((a1 + 4));
    r0_3 = *(a1 + 6);
    dcc_store_16_aligned(r11, r2);
    dcc_store_16_aligned((r11 + 2), r0);
    dcc_store_16_aligned((r11 + 4), r0_2);
    *(r11 + 6) = r0_3;
    memcpy((r11 + 7), (a1 + 7), 17);
    r30 = *(a0 + 898);
    if (!(r30 == 0u)) goto join;
common:;
    return;
join:;
    r37 = *(a0 + 897);
    if (!(r37 == r30)) { r11_2 = r37; goto join_2; }
    r3 = *(a0 + 896);
    r2_2 = (uint8_t)(r3 + 1u);
    r4 = r2_2 & 127u;
    *(a0 + 896) = r4;
    r11_3 = (uint8_t)(r30 + 255u);
    r11_2 = r11_3;
join_2:;
    memset(DCC_ALIGNED(r2_3), 0u, 16);
    if (r1 == 0u) { r1_2 = UINT64_C(0); r1_3 = 0u; goto dcc_c_kept_packet_KeptPacket_of; }
    dcc_packet_packet_Packet_frame(r2_3, r11);
    r3_2 = dcc_load_64_aligned(r2_3);
    r3_3 = dcc_load_64_aligned((r2_3 + 8));
    r12 = (uint8_t)(r3_3);
    r3_4 = (uint64_t)((r3_2) & UINT64_C(281474976710655));
    r1_2 = r3_4;
    r1_3 = r12;
dcc_c_kept_packet_KeptPacket_of:;
    r9 = *(a0 + 896);
    r2_4 = (uint8_t)(r11_2 + r9);
    r4_2 = r2_4 & 127u;
    r1_4 = r4_2;
    r18 = (uint64_t)(1u * r1_4 * UINT64_C(7));
    r21 = a0 + (ptrdiff_t)r18;
    *r21 = r1_3;
    dcc_store_48((r21 + 1), r1_2);
    r26 = (uint8_t)(r11_2 + 1u);
    *(a0 + 897) = r26;
    goto common;
}

/* dcc_packet::packet::Packet::frame */
static DCC_NOINLINE void dcc_packet_packet_Packet_frame(unsigned char *a0, unsigned char *a1) {
    uint16_t r40, r42, r52, r16, r16_2, r16_3, r28_2, r28_3, r28_4, r17_2, r17_3, r17_4, r21, r21_2, r21_3, r25,
        r25_2, r25_3, r29, r29_2, r29_3, r33, r33_2, r33_3, r37, r37_2, r37_3, r41, r41_2, r41_3, r38, r38_2, r38_3,
        r7, r9, r11, r7_2, r9_2, r11_2, r7_3, r9_3, r11_3, r7_5, r9_4, r11_4, r14, r18, r25_4, sh, r20_3, r20_4,
        r20_5, r13_5, sh_2;
    uint64_t it_19, r4, r32, r32_2, r32_3, r32_4, r32_5, r32_6, r32_7, r32_8, r32_9, r32_10, r32_11, r32_12, r32_13,
        r32_14, r32_15, r32_16, r32_17, r32_18;
    uint8_t r30, r20, r30_2, r74, r85, r86, r20_2, r10_2, r12, r26, r15, r17, r28, r104, r111, r102, r114, r45, r46,
        r48, r57, r66, r131, r138, r129, r141, r19, r13, r15_2, r153, r19_2, r13_2, r15_3, r165, r19_3, r13_3,
        r15_4, r178, r6, r7_4, r10_3, r186, r19_4, r13_4, r15_5, r199, r6_2, r7_6, r10_4, r207, r56, r57_2, r26_2,
        tr, tr_2, r36, r32_19, r39, r41_4, r71, v0, v1, r30_3, r20_6, r32_20, tr_3, v2, reass, r41_5;
    unsigned char *it, *it_2, *it_3, *it_4, *it_5, *it_6, *it_7, *it_8, *it_9, *it_10, *it_11, *it_12, *it_13,
        *it_14, *it_15, *it_16, *it_17, *it_18;
    uint64_t place_0[2];
    unsigned char *const r3 = (unsigned char *)place_0;
    uint64_t place_1[2];
    unsigned char *const r10 = (unsigned char *)place_1;
    uint8_t place_2[3];
    unsigned char *const r27 = (unsigned char *)place_2;
    uint16_t place_3[1];
    unsigned char *const r22 = (unsigned char *)place_3;
    memset(DCC_ALIGNED(r10), 0u, 16);
    r30 = *a1;
    switch (r30) {
    case 0u: goto arm;
    case 1u: goto arm_2;
    case 2u: goto arm_3;
    case 3u: goto arm_4;
    case 4u: goto arm_5;
    default: goto noarm;
    }
arm:;
    dcc_packet_to_frame_with_error_byte(r10, ((unsigned char *)constant_84fc920c), UINT64_C(2));
    goto join;
arm_2:;
    memset(DCC_ALIGNED(r3), 0u, 16);
    r20 = *(a1 + 2);
    switch (r20) {
    case 0u: it = (r3 + 1); it_2 = (r3 + 1); it_3 = (r3 + 1); it_4 = (r3 + 1); it_5 = (r3 + 1); it_6 = (r3 + 1); it_7 = (r3 + 1); it_8 = (r3 + 1); it_9 = (r3 + 1); it_10 = (r3 + 1); it_11 = (r3 + 1); it_12 = (r3 + 1); it_13 = (r3 + 1); it_14 = (r3 + 1); it_15 = (r3 + 1); it_16 = (r3 + 1); it_17 = (r3 + 1); it_18 = (r3 + 1); it_19 = UINT64_C(1); goto dcc_packet_to_frame_put_address;
    case 1u: goto join_2;
    case 2u: goto join_3;
    default: goto noarm_2;
    }
join_2:;
    r30_2 = *(a1 + 3);
    *r3 = r30_2;
    it = (r3 + 1);
    it_2 = (r3 + 1);
    it_3 = (r3 + 1);
    it_4 = (r3 + 1);
    it_5 = (r3 + 1);
    it_6 = (r3 + 1);
    it_7 = (r3 + 1);
    it_8 = (r3 + 1);
    it_9 = (r3 + 1);
    it_10 = (r3 + 1);
    it_11 = (r3 + 1);
    it_12 = (r3 + 1);
    it_13 = (r3 + 1);
    it_14 = (r3 + 1);
    it_15 = (r3 + 1);
    it_16 = (r3 + 1);
    it_17 = (r3 + 1);
    it_18 = (r3 + 1);
    it_19 = UINT64_C(1);
    goto dcc_packet_to_frame_put_address;
join_3:;
    r40 = dcc_load_16_aligned((a1 + 4));
    r42 = r40 >> 8u;
    r52 = (uint16_t)(r42 + 192u);
    r16 = (uint16_t)((1u * r40) << 8u);
    r16_2 = r52 & 255u;
    r16_3 = r16_2 | r16;
    dcc_store_16_aligned(r3, r16_3);
    it = (r3 + 2);
    it_2 = (r3 + 2);
    it_3 = (r3 + 2);
    it_4 = (r3 + 2);
    it_5 = (r3 + 2);
    it_6 = (r3 + 2);
    it_7 = (r3 + 2);
    it_8 = (r3 + 2);
    it_9 = (r3 + 2);
    it_10 = (r3 + 2);
    it_11 = (r3 + 2);
    it_12 = (r3 + 2);
    it_13 = (r3 + 2);
    it_14 = (r3 + 2);
    it_15 = (r3 + 2);
    it_16 = (r3 + 2);
    it_17 = (r3 + 2);
    it_18 = (r3 + 2);
    it_19 = UINT64_C(2);
    goto dcc_packet_to_frame_put_address;
noarm_2:;
    DCC_UNREACHABLE();
dcc_packet_to_frame_put_address:;
    r74 = *(a1 + 6);
    switch (r74) {
    case 0u: goto join_4;
    case 1u: goto join_5;
    case 2u: goto join_6;
    case 3u: goto arm_6;
    case 4u: goto join_7;
    case 5u: goto join_8;
    case 6u: goto join_9;
    case 7u: goto join_10;
    case 8u: goto join_11;
    default: goto noarm_3;
    }
join_4:;
    *it_18 = 0u;
    r32 = (uint64_t)(it_19 + UINT64_C(1));
    dcc_store_64_aligned((r3 + 8), r32);
    r4 = r32;
    goto dcc_packet_to_frame_put_instruction;
join_5:;
    r85 = *(a1 + 7);
    r86 = r85;
    r20_2 = r86 ? 96u : 64u;
    r10_2 = *(a1 + 8);
    r12 = r10_2 >> 1u;
    r26 = r20_2 | r12;
    r15 = (uint8_t)((1u * r10_2) << 4u);
    r17 = r15 & 16u;
    r28 = r26 | r17;
    *it_17 = r28;
    r32_2 = (uint64_t)(it_19 + UINT64_C(1));
    dcc_store_64_aligned((r3 + 8), r32_2);
    r4 = r32_2;
    goto dcc_packet_to_frame_put_instruction;
join_6:;
    r104 = *(a1 + 7);
    r111 = (uint8_t)((1u * r104) << 7u);
    r102 = *(a1 + 8);
    r114 = r111 | r102;
    r28_2 = r114;
    r28_3 = (uint16_t)((1u * r28_2) << 8u);
    r28_4 = r28_3 | 63u;
    dcc_store_16(it_16, r28_4);
    r32_3 = (uint64_t)(it_19 + UINT64_C(2));
    dcc_store_64_aligned((r3 + 8), r32_3);
    r4 = r32_3;
    goto dcc_packet_to_frame_put_instruction;
arm_6:;
    r45 = *(a1 + 8);
    r46 = *(a1 + 7);
    switch (r46) {
    case 0u: goto join_12;
    case 1u: goto join_13;
    case 2u: goto join_14;
    case 3u: goto join_15;
    case 4u: goto join_16;
    case 5u: goto join_17;
    case 6u: goto join_18;
    case 7u: goto join_19;
    case 8u: goto join_20;
    case 9u: goto join_21;
    default: goto noarm_4;
    }
join_12:;
    r48 = r45 | 128u;
    *it_15 = r48;
    r32_4 = (uint64_t)(it_19 + UINT64_C(1));
    dcc_store_64_aligned((r3 + 8), r32_4);
    r4 = r32_4;
    goto dcc_packet_to_frame_put_instruction;
join_13:;
    r57 = r45 | 176u;
    *it_14 = r57;
    r32_5 = (uint64_t)(it_19 + UINT64_C(1));
    dcc_store_64_aligned((r3 + 8), r32_5);
    r4 = r32_5;
    goto dcc_packet_to_frame_put_instruction;
join_14:;
    r66 = r45 | 160u;
    *it_13 = r66;
    r32_6 = (uint64_t)(it_19 + UINT64_C(1));
    dcc_store_64_aligned((r3 + 8), r32_6);
    r4 = r32_6;
    goto dcc_packet_to_frame_put_instruction;
join_15:;
    r17_2 = r45;
    r17_3 = (uint16_t)((1u * r17_2) << 8u);
    r17_4 = r17_3 | 222u;
    dcc_store_16(it_12, r17_4);
    r32_7 = (uint64_t)(it_19 + UINT64_C(2));
    dcc_store_64_aligned((r3 + 8), r32_7);
    r4 = r32_7;
    goto dcc_packet_to_frame_put_instruction;
join_16:;
    r21 = r45;
    r21_2 = (uint16_t)((1u * r21) << 8u);
    r21_3 = r21_2 | 223u;
    dcc_store_16(it_11, r21_3);
    r32_8 = (uint64_t)(it_19 + UINT64_C(2));
    dcc_store_64_aligned((r3 + 8), r32_8);
    r4 = r32_8;
    goto dcc_packet_to_frame_put_instruction;
join_17:;
    r25 = r45;
    r25_2 = (uint16_t)((1u * r25) << 8u);
    r25_3 = r25_2 | 216u;
    dcc_store_16(it_10, r25_3);
    r32_9 = (uint64_t)(it_19 + UINT64_C(2));
    dcc_store_64_aligned((r3 + 8), r32_9);
    r4 = r32_9;
    goto dcc_packet_to_frame_put_instruction;
join_18:;
    r29 = r45;
    r29_2 = (uint16_t)((1u * r29) << 8u);
    r29_3 = r29_2 | 217u;
    dcc_store_16(it_9, r29_3);
    r32_10 = (uint64_t)(it_19 + UINT64_C(2));
    dcc_store_64_aligned((r3 + 8), r32_10);
    r4 = r32_10;
    goto dcc_packet_to_frame_put_instruction;
join_19:;
    r33 = r45;
    r33_2 = (uint16_t)((1u * r33) << 8u);
    r33_3 = r33_2 | 218u;
    dcc_store_16(it_8, r33_3);
    r32_11 = (uint64_t)(it_19 + UINT64_C(2));
    dcc_store_64_aligned((r3 + 8), r32_11);
    r4 = r32_11;
    goto dcc_packet_to_frame_put_instruction;
join_20:;
    r37 = r45;
    r37_2 = (uint16_t)((1u * r37) << 8u);
    r37_3 = r37_2 | 219u;
    dcc_store_16(it_7, r37_3);
    r32_12 = (uint64_t)(it_19 + UINT64_C(2));
    dcc_store_64_aligned((r3 + 8), r32_12);
    r4 = r32_12;
    goto dcc_packet_to_frame_put_instruction;
join_21:;
    r41 = r45;
    r41_2 = (uint16_t)((1u * r41) << 8u);
    r41_3 = r41_2 | 220u;
    dcc_store_16(it_6, r41_3);
    r32_13 = (uint64_t)(it_19 + UINT64_C(2));
    dcc_store_64_aligned((r3 + 8), r32_13);
    r4 = r32_13;
    goto dcc_packet_to_frame_put_instruction;
noarm_4:;
    DCC_UNREACHABLE();
join_7:;
    r131 = *(a1 + 8);
    r138 = (uint8_t)((1u * r131) << 7u);
    r129 = *(a1 + 7);
    r141 = r138 | r129;
    r38 = r141;
    r38_2 = (uint16_t)((1u * r38) << 8u);
    r38_3 = r38_2 | 221u;
    dcc_store_16(it_5, r38_3);
    r32_14 = (uint64_t)(it_19 + UINT64_C(2));
    dcc_store_64_aligned((r3 + 8), r32_14);
    r4 = r32_14;
    goto dcc_packet_to_frame_put_instruction;
join_8:;
    r7 = dcc_load_16_aligned((a1 + 8));
    r9 = (uint16_t)(r7 + 65535u);
    r19 = (uint8_t)(r9);
    r11 = r9 >> 8u;
    r13 = (uint8_t)r11;
    r15_2 = (uint8_t)(r13 + 236u);
    r153 = *(a1 + 10);
    *it_4 = r15_2;
    *(it_4 + 1) = r19;
    *(it_4 + 2) = r153;
    r32_15 = (uint64_t)(it_19 + UINT64_C(3));
    dcc_store_64_aligned((r3 + 8), r32_15);
    r4 = r32_15;
    goto dcc_packet_to_frame_put_instruction;
join_9:;
    r7_2 = dcc_load_16_aligned((a1 + 8));
    r9_2 = (uint16_t)(r7_2 + 65535u);
    r19_2 = (uint8_t)(r9_2);
    r11_2 = r9_2 >> 8u;
    r13_2 = (uint8_t)r11_2;
    r15_3 = (uint8_t)(r13_2 + 228u);
    r165 = *(a1 + 10);
    *it_3 = r15_3;
    *(it_3 + 1) = r19_2;
    *(it_3 + 2) = r165;
    r32_16 = (uint64_t)(it_19 + UINT64_C(3));
    dcc_store_64_aligned((r3 + 8), r32_16);
    r4 = r32_16;
    goto dcc_packet_to_frame_put_instruction;
join_10:;
    r7_3 = dcc_load_16_aligned((a1 + 8));
    r9_3 = (uint16_t)(r7_3 + 65535u);
    r19_3 = (uint8_t)(r9_3);
    r11_3 = r9_3 >> 8u;
    r13_3 = (uint8_t)r11_3;
    r15_4 = (uint8_t)(r13_3 + 232u);
    r178 = *(a1 + 11);
    r6 = (uint8_t)((1u * r178) << 3u);
    r7_4 = *(a1 + 10);
    r10_3 = r7_4 | r6;
    r186 = r10_3 | 240u;
    *it_2 = r15_4;
    *(it_2 + 1) = r19_3;
    *(it_2 + 2) = r186;
    r32_17 = (uint64_t)(it_19 + UINT64_C(3));
    dcc_store_64_aligned((r3 + 8), r32_17);
    r4 = r32_17;
    goto dcc_packet_to_frame_put_instruction;
join_11:;
    r7_5 = dcc_load_16_aligned((a1 + 8));
    r9_4 = (uint16_t)(r7_5 + 65535u);
    r19_4 = (uint8_t)(r9_4);
    r11_4 = r9_4 >> 8u;
    r13_4 = (uint8_t)r11_4;
    r15_5 = (uint8_t)(r13_4 + 232u);
    r199 = *(a1 + 11);
    r6_2 = (uint8_t)((1u * r199) << 3u);
    r7_6 = *(a1 + 10);
    r10_4 = r7_6 | r6_2;
    r207 = r10_4 | 224u;
    *it = r15_5;
    *(it + 1) = r19_4;
    *(it + 2) = r207;
    r32_18 = (uint64_t)(it_19 + UINT64_C(3));
    dcc_store_64_aligned((r3 + 8), r32_18);
    r4 = r32_18;
    goto dcc_packet_to_frame_put_instruction;
noarm_3:;
    DCC_UNREACHABLE();
dcc_packet_to_frame_put_instruction:;
    dcc_packet_to_frame_with_error_byte(r10, r3, r4);
    goto join;
arm_3:;
    r56 = *(a1 + 5);
    r57_2 = r56;
    r14 = dcc_load_16_aligned((a1 + 2));
    r18 = r14 & 63u;
    r25_4 = r18 | 128u;
    r26_2 = *(a1 + 4);
    sh = r14 >> 2u;
    tr = (uint8_t)(sh);
    tr_2 = tr & 112u;
    r36 = tr_2 ^ 112u;
    r32_19 = r57_2 ? 136u : 128u;
    r39 = r32_19 | r26_2;
    r41_4 = r39 | r36;
    r20_3 = r41_4;
    r20_4 = (uint16_t)((1u * r20_3) << 8u);
    r20_5 = r20_4 | r25_4;
    dcc_store_16_aligned(r22, r20_5);
    dcc_packet_to_frame_with_error_byte(r10, r22, UINT64_C(2));
    goto join;
arm_4:;
    r71 = *(a1 + 4);
    r13_5 = dcc_load_16_aligned((a1 + 2));
    v0 = (uint8_t)(r13_5);
    v1 = v0 >> 2u;
    r30_3 = v1 | 128u;
    r20_6 = (uint8_t)((1u * v0) << 1u);
    r32_20 = r20_6 & 6u;
    sh_2 = r13_5 >> 4u;
    tr_3 = (uint8_t)(sh_2);
    v2 = tr_3 & 240u;
    reass = (uint8_t)(r32_20 - v2);
    r41_5 = (uint8_t)(reass + 113u);
    *r27 = r30_3;
    *(r27 + 1) = r41_5;
    *(r27 + 2) = r71;
    dcc_packet_to_frame_with_error_byte(r10, r27, UINT64_C(3));
    goto join;
arm_5:;
    memcpy(DCC_ALIGNED(r10), (a1 + 8), 16);
join:;
    memcpy(a0, DCC_ALIGNED(r10), 16);
    return;
noarm:;
    DCC_UNREACHABLE();
}

/* dcc_packet::to_frame::with_error_byte */
static void dcc_packet_to_frame_with_error_byte(unsigned char *a0, unsigned char *a1, uint64_t a2) {
    uint16_t r9_7;
    uint64_t r4, v0, r23, r11, r13;
    uint8_t r5, r5_2, r5_3, r6, r18, r18_2, r18_3, r18_4, r18_5, r2, r4_3, r9, r9_2, r9_3, r9_4, r9_5, r9_6;
    unsigned char *r4_2, *r8;
    uint64_t place_0[2];
    unsigned char *const r3 = (unsigned char *)place_0;
    v0 = (uint64_t)(a2 + UINT64_C(18446744073709551610));
    if (v0 < UINT64_C(18446744073709551612)) goto arm;
    r18 = *a1;
    r18_2 = *(a1 + 1);
    if (!(a2 > UINT64_C(2))) { r5 = 0u; r5_2 = 0u; r5_3 = 0u; goto dcc_wire_bytes_PacketBytes_of; }
    r18_3 = *(a1 + 2);
    if (a2 == UINT64_C(3)) { r5 = 0u; r5_2 = r18_3; r5_3 = 0u; goto dcc_wire_bytes_PacketBytes_of; }
    r18_4 = *(a1 + 3);
    if (!(a2 > UINT64_C(4))) { r5 = 0u; r5_2 = r18_3; r5_3 = r18_4; goto dcc_wire_bytes_PacketBytes_of; }
    r18_5 = *(a1 + 4);
    r5 = r18_5;
    r5_2 = r18_3;
    r5_3 = r18_4;
dcc_wire_bytes_PacketBytes_of:;
    *r3 = r18;
    *(r3 + 1) = r18_2;
    *(r3 + 2) = r5_2;
    *(r3 + 3) = r5_3;
    *(r3 + 4) = r5;
    *(r3 + 5) = 0u;
    dcc_store_16_aligned((r3 + 6), 0u);
    dcc_store_64_aligned((r3 + 8), a2);
    r6 = 0u;
    r4 = a2;
    r4_2 = a1;
arm_2:;
    r23 = (uint64_t)(r4 + UINT64_C(18446744073709551615));
    r2 = *r4_2;
    r4_3 = r2 ^ r6;
    if (!(r23 == UINT64_C(0))) { r6 = r4_3; r4 = r23; r4_2 = (r4_2 + 1); goto arm_2; }
    r8 = r3 + (ptrdiff_t)a2;
    *r8 = r4_3;
    r11 = dcc_load_64_aligned((r3 + 8));
    r13 = (uint64_t)(r11 + UINT64_C(1));
    r9 = *r3;
    r9_2 = *(r3 + 1);
    r9_3 = *(r3 + 2);
    r9_4 = *(r3 + 3);
    r9_5 = *(r3 + 4);
    r9_6 = *(r3 + 5);
    r9_7 = dcc_load_16_aligned((r3 + 6));
    *a0 = r9;
    *(a0 + 1) = r9_2;
    *(a0 + 2) = r9_3;
    *(a0 + 3) = r9_4;
    *(a0 + 4) = r9_5;
    *(a0 + 5) = r9_6;
    dcc_store_16((a0 + 6), r9_7);
    dcc_store_64((a0 + 8), r13);
    return;
arm:;
    DCC_TRAP();
    DCC_UNREACHABLE();
}

/* dcc_service::packet::ServicePacket::read */
static void dcc_service_packet_ServicePacket_read(unsigned char *a0, unsigned char *a1) {
    uint16_t r9, r9_2, r9_3, r6, r6_2, r6_5, r1, r11, r1_2, r15, r17;
    uint64_t r4;
    uint8_t r9_4, r9_5, r6_3, r6_4, r37, r39, r41, r7, r10, r12, v0, r7_2, r19, r9_6;
    r4 = dcc_load_64_aligned((a1 + 8));
    if (!(r4 == UINT64_C(4))) { r6 = 0u; r6_2 = 0u; r6_3 = 0u; r6_4 = 0u; r6_5 = 0u; goto after; }
    r37 = *a1;
    r39 = *(a1 + 1);
    r41 = *(a1 + 2);
    r7 = r37 & 3u;
    r1 = r7;
    r11 = (uint16_t)((1u * r1) << 8u);
    r1_2 = r39;
    r15 = (uint16_t)(r1_2 + 1u);
    r17 = (uint16_t)(r15 + r11);
    r10 = r37 & 252u;
    switch (r10) {
    case 124u: r6 = 1u; r6_2 = 0u; r6_3 = 0u; r6_4 = r41; r6_5 = r17; goto after;
    case 116u: goto arm;
    case 120u: goto arm_2;
    default: goto default_2;
    }
arm:;
    r6 = 1u;
    r6_2 = 1u;
    r6_3 = 0u;
    r6_4 = r41;
    r6_5 = r17;
    goto after;
arm_2:;
    r12 = r41 & 7u;
    v0 = r41 & 8u;
    r7_2 = v0 != 0u;
    r19 = r41 & 240u;
    switch (r19) {
    case 240u: r9 = 1u; r9_2 = 2u; r9_3 = r17; r9_4 = r12; r9_5 = r7_2; goto dcc_service_from_frame_bit_access;
    case 224u: goto arm_3;
    default: goto default_3;
    }
arm_3:;
    r9 = 1u;
    r9_2 = 3u;
    r9_3 = r17;
    r9_4 = r12;
    r9_5 = r7_2;
    goto dcc_service_from_frame_bit_access;
default_3:;
    r9 = 0u;
    r9_2 = 0u;
    r9_3 = 0u;
    r9_4 = 0u;
    r9_5 = 0u;
dcc_service_from_frame_bit_access:;
    r9_6 = r9_5;
    r6 = r9;
    r6_2 = r9_2;
    r6_3 = r9_6;
    r6_4 = r9_4;
    r6_5 = r9_3;
    goto after;
default_2:;
    r6 = 0u;
    r6_2 = 0u;
    r6_3 = 0u;
    r6_4 = 0u;
    r6_5 = 0u;
after:;
    dcc_store_16(a0, r6);
    dcc_store_16((a0 + 2), r6_2);
    dcc_store_16((a0 + 4), r6_5);
    *(a0 + 6) = r6_4;
    *(a0 + 7) = r6_3;
    return;
}

/* dcc_packet::words::Words::next */
static void dcc_packet_words_Words_next(unsigned char *a0, unsigned char *a1) {
    uint64_t r3, r23, r0, r3_3, r23_3, r0_2, r1_2, r23_2, r31, r19, r23_4, r31_2, r19_2, it_2;
    uint8_t r3_2, r2, r7;
    unsigned char *r20, *r20_2, *r1, *r16, *r16_2, *it;
    r1 = dcc_load_ptr(a1);
    r1_2 = dcc_load_64((a1 + 8));
    if (r1_2 == UINT64_C(0)) { r0 = UINT64_C(0); goto dcc_packet_words_separators; }
    r20 = r1;
    r3 = UINT64_C(0);
    r23 = r1_2;
arm:;
    r3_2 = *r20;
    switch (r3_2) {
    case 9u: case 13u: case 32u: goto join;
    default: r0 = r3; goto dcc_packet_words_separators;
    }
join:;
    r23_2 = (uint64_t)(r23 + UINT64_C(18446744073709551615));
    r31 = (uint64_t)(r3 + UINT64_C(1));
    if (!(r23_2 == UINT64_C(0))) { r20 = (r20 + 1); r3 = r31; r23 = r23_2; goto arm; }
    r0 = r1_2;
dcc_packet_words_separators:;
    r16 = r1 + (ptrdiff_t)r0;
    r19 = (uint64_t)(r1_2 - r0);
    if (r19 == UINT64_C(0)) { r0_2 = UINT64_C(0); goto dcc_packet_words_word_len; }
    r20_2 = r16;
    r3_3 = UINT64_C(0);
    r23_3 = r19;
arm_2:;
    r2 = *r20_2;
    switch (r2) {
    case 9u: case 13u: case 32u: r0_2 = r3_3; goto dcc_packet_words_word_len;
    default: goto join_2;
    }
join_2:;
    r23_4 = (uint64_t)(r23_3 + UINT64_C(18446744073709551615));
    r31_2 = (uint64_t)(r3_3 + UINT64_C(1));
    if (!(r23_4 == UINT64_C(0))) { r20_2 = (r20_2 + 1); r3_3 = r31_2; r23_3 = r23_4; goto arm_2; }
    r0_2 = r19;
dcc_packet_words_word_len:;
    r16_2 = r16 + (ptrdiff_t)r0_2;
    r19_2 = (uint64_t)(r19 - r0_2);
    dcc_store_ptr(a1, r16_2);
    dcc_store_64((a1 + 8), r19_2);
    r7 = r0_2 != UINT64_C(0);
    it = r7 ? r16 : (unsigned char *)0;
    it_2 = r7;
    dcc_store_64(a0, it_2);
    dcc_store_ptr((a0 + 8), it);
    dcc_store_64((a0 + 16), r0_2);
    return;
}

/* core::slice::reads::slice+T::starts_with::<i8,31'core::cmp::numbers::U8PartialEq{}> */
static uint8_t core_slice_reads_slice_T_starts_with__i8_31_core_cmp_numbers_U8(unsigned char *a0, uint64_t a1, unsigned char *a2, uint64_t a3) {
    uint64_t r2, r2_2, r19, r23, r6, r12, r23_2;
    uint8_t common, r1, r1_2, common_2, r3, r4, r7, r3_2, r4_2, r7_2, r3_3, r4_3, r7_3, r17, r27, r3_4, r4_4, r7_4,
        r20, r3_5, r4_5, r7_5, r20_2, r14, r51, r35;
    unsigned char *r16, *r21, *r16_2, *r21_2, *r16_3, *r21_3;
    uint64_t place_0[4];
    unsigned char *const r9 = (unsigned char *)place_0;
    if (!(a1 < a3)) goto join;
    common = 0u;
common:;
    return common;
join:;
    dcc_store_ptr(r9, a2);
    dcc_store_64_aligned((r9 + 8), a3);
    dcc_store_ptr((r9 + 16), a0);
    dcc_store_64_aligned((r9 + 24), a3);
    if (!(a3 < UINT64_C(4))) goto join_2;
    r3 = *a2;
    r4 = *a0;
    r7 = r3 != r4;
    r3_2 = *(a2 + 1);
    r4_2 = *(a0 + 1);
    r7_2 = r3_2 != r4_2;
    r19 = (uint64_t)(a3 + UINT64_C(18446744073709551615));
    r16 = a2 + (ptrdiff_t)r19;
    r21 = a0 + (ptrdiff_t)r19;
    r3_3 = *r16;
    r4_3 = *r21;
    r7_3 = r3_3 != r4_3;
    r17 = r7 | r7_2;
    r27 = r17 | r7_3;
    common_2 = r27;
    goto core_cmp_slices_parts_equal__i8_31_core_cmp_numbers_U8PartialEq;
join_2:;
    if (!(a3 < UINT64_C(9))) goto join_3;
    r1 = 0u;
    r2 = UINT64_C(0);
join_4:;
    r16_2 = a2 + (ptrdiff_t)r2;
    r21_2 = a0 + (ptrdiff_t)r2;
    r3_4 = *r16_2;
    r4_4 = *r21_2;
    r7_4 = r3_4 != r4_4;
    r20 = r1 | r7_4;
    r23 = (uint64_t)(r2 + UINT64_C(1));
    if (!(r23 == UINT64_C(4))) { r1 = r20; r2 = r23; goto join_4; }
    r6 = (uint64_t)(a3 + UINT64_C(18446744073709551612));
    r1_2 = 0u;
    r2_2 = UINT64_C(0);
join_5:;
    r12 = (uint64_t)(r6 + r2_2);
    r16_3 = a2 + (ptrdiff_t)r12;
    r21_3 = a0 + (ptrdiff_t)r12;
    r3_5 = *r16_3;
    r4_5 = *r21_3;
    r7_5 = r3_5 != r4_5;
    r20_2 = r1_2 | r7_5;
    r23_2 = (uint64_t)(r2_2 + UINT64_C(1));
    if (!(r23_2 == UINT64_C(4))) { r1_2 = r20_2; r2_2 = r23_2; goto join_5; }
    r14 = r20 | r20_2;
    common_2 = r14;
    goto core_cmp_slices_parts_equal__i8_31_core_cmp_numbers_U8PartialEq;
join_3:;
    r51 = core_slice_scan_any_in_quarters(r9, UINT64_C(9), UINT64_C(8));
    common_2 = r51;
core_cmp_slices_parts_equal__i8_31_core_cmp_numbers_U8PartialEq:;
    r35 = common_2 ^ 1u;
    common = r35;
    goto common;
}

/* core::slice::scan::any_in_quarters::<#953750c03e87c3e2> */
static uint8_t core_slice_scan_any_in_quarters(unsigned char *a0, uint64_t a1, uint64_t a2) {
    uint64_t r2, r2_2, r2_3, r2_4, r23, r11, a1_2, r12, r23_2, r25, a1_3, r12_2, r23_3, r12_3, r23_4;
    uint8_t r1, r1_2, r1_3, r1_4, r3_2, r4_2, r7, r20, r3_3, r4_3, r7_2, r20_2, r3_4, r4_4, r7_3, r20_3, r3_5, r4_5,
        r7_4, r20_4, r23_5, r36, r45;
    unsigned char *r3, *r4, *r16, *r21, *r16_2, *r21_2, *r16_3, *r21_3, *r16_4, *r21_4;
    r3 = dcc_load_ptr(a0);
    r4 = dcc_load_ptr((a0 + 16));
    r1 = 0u;
    r2 = UINT64_C(0);
join:;
    r16 = r3 + (ptrdiff_t)r2;
    r21 = r4 + (ptrdiff_t)r2;
    r3_2 = *r16;
    r4_2 = *r21;
    r7 = r3_2 != r4_2;
    r20 = r1 | r7;
    r23 = (uint64_t)(r2 + UINT64_C(1));
    if (!(r23 == a2)) { r1 = r20; r2 = r23; goto join; }
    r11 = (uint64_t)(a1 - a2);
    a1_2 = dcc_umin_64(r11, a2);
    r1_2 = 0u;
    r2_2 = UINT64_C(0);
join_2:;
    r12 = (uint64_t)(r2_2 + a1_2);
    r16_2 = r3 + (ptrdiff_t)r12;
    r21_2 = r4 + (ptrdiff_t)r12;
    r3_3 = *r16_2;
    r4_3 = *r21_2;
    r7_2 = r3_3 != r4_3;
    r20_2 = r1_2 | r7_2;
    r23_2 = (uint64_t)(r2_2 + UINT64_C(1));
    if (!(r23_2 == a2)) { r1_2 = r20_2; r2_2 = r23_2; goto join_2; }
    r25 = (uint64_t)((1u * a2) << UINT64_C(1));
    a1_3 = dcc_umin_64(r11, r25);
    r1_3 = 0u;
    r2_3 = UINT64_C(0);
join_3:;
    r12_2 = (uint64_t)(r2_3 + a1_3);
    r16_3 = r3 + (ptrdiff_t)r12_2;
    r21_3 = r4 + (ptrdiff_t)r12_2;
    r3_4 = *r16_3;
    r4_4 = *r21_3;
    r7_3 = r3_4 != r4_4;
    r20_3 = r1_3 | r7_3;
    r23_3 = (uint64_t)(r2_3 + UINT64_C(1));
    if (!(r23_3 == a2)) { r1_3 = r20_3; r2_3 = r23_3; goto join_3; }
    r1_4 = 0u;
    r2_4 = UINT64_C(0);
join_4:;
    r12_3 = (uint64_t)(r2_4 + r11);
    r16_4 = r3 + (ptrdiff_t)r12_3;
    r21_4 = r4 + (ptrdiff_t)r12_3;
    r3_5 = *r16_4;
    r4_5 = *r21_4;
    r7_4 = r3_5 != r4_5;
    r20_4 = r1_4 | r7_4;
    r23_4 = (uint64_t)(r2_4 + UINT64_C(1));
    if (!(r23_4 == a2)) { r1_4 = r20_4; r2_4 = r23_4; goto join_4; }
    r23_5 = r20 | r20_2;
    r36 = r23_5 | r20_3;
    r45 = r36 | r20_4;
    return r45;
}

/* dcc_packet::numeral::small_number */
static struct dcc_8_8 dcc_packet_numeral_small_number(unsigned char *a0, uint64_t a1) {
    struct dcc_8_8 r36, r36_2;
    uint32_t r3, r57, r1, r66;
    uint64_t r4, v0, r68;
    uint8_t r0, r0_2, r3_2, v1, r27, r33, spec, spec_2;
    unsigned char *r45;
    v0 = (uint64_t)(a1 + UINT64_C(18446744073709551610));
    if (v0 < UINT64_C(18446744073709551611)) { r0 = 10u; r0_2 = 1u; goto return_2; }
    r3 = UINT32_C(0);
    r4 = UINT64_C(0);
join:;
    r45 = a0 + (ptrdiff_t)r4;
    r3_2 = *r45;
    v1 = (uint8_t)(r3_2 + 208u);
    if (!(v1 < 10u)) { r0 = 10u; r0_2 = 1u; goto return_2; }
    r57 = (uint32_t)(1u * r3 * UINT32_C(10));
    r1 = v1;
    r66 = (uint32_t)(r57 + r1);
    r68 = (uint64_t)(r4 + UINT64_C(1));
    if (!(r68 == a1)) { r3 = r66; r4 = r68; goto join; }
    if (r66 > UINT32_C(65535)) { r0 = 10u; r0_2 = 1u; goto return_2; }
    r27 = r66 > UINT32_C(255);
    r33 = (uint8_t)(r66);
    spec = r27 ? 10u : r33;
    spec_2 = r27;
    r0 = spec;
    r0_2 = spec_2;
return_2:;
    r36 = dcc_made_8_8(0u, 0u);
    r36.f0 = r0_2;
    r36_2 = r36;
    r36_2.f1 = r0;
    return r36_2;
}

/* dcc_packet::fields::DirectionField::take */
static struct dcc_8_8 dcc_packet_fields_DirectionField_take(unsigned char *a0) {
    struct dcc_8_8 r32_2, r32, r43;
    uint64_t r4_2;
    uint8_t r3, r3_2, r3_3, r7, r23, r12, r13, v1, spec;
    unsigned char *r4;
    uint64_t place_0[3];
    unsigned char *const r2 = (unsigned char *)place_0;
    memset(DCC_ALIGNED(r2), 0u, 24);
    dcc_packet_words_Words_next(r2, a0);
    r7 = *r2;
    if (!(r7 == 1u)) goto arm;
    r4 = dcc_load_ptr((r2 + 8));
    r4_2 = dcc_load_64_aligned((r2 + 16));
    if (!(r4_2 == UINT64_C(1))) goto after;
    r23 = *r4;
    switch (r23) {
    case 102u: r3 = 0u; r3_2 = 1u; goto dcc_packet_dcc_packet_line_word_direction_FnOnce_call_once;
    case 114u: goto arm_2;
    default: goto after;
    }
arm_2:;
    r3 = 0u;
    r3_2 = 0u;
    goto dcc_packet_dcc_packet_line_word_direction_FnOnce_call_once;
after:;
    r3 = 1u;
    r3_2 = 9u;
dcc_packet_dcc_packet_line_word_direction_FnOnce_call_once:;
    r32 = dcc_made_8_8(0u, 0u);
    r32.f0 = r3;
    r32_2 = r32;
    r3_3 = r3_2;
    goto core_result_Result_and_then;
arm:;
    r32_2 = dcc_made_8_8(1u, 0u);
    r3_3 = 9u;
core_result_Result_and_then:;
    r12 = r32_2.f0;
    r13 = r3_3 & 1u;
    v1 = r12 == 0u;
    spec = v1 ? r13 : r3_3;
    r43 = r32_2;
    r43.f1 = spec;
    return r43;
}

/* dcc_packet::fields::U8Field::take */
static struct dcc_8_8 dcc_packet_fields_U8Field_take(unsigned char *a0) {
    struct dcc_8_8 r24, r6;
    uint64_t r4_2;
    uint8_t r7;
    unsigned char *r4;
    uint64_t place_0[3];
    unsigned char *const r2 = (unsigned char *)place_0;
    memset(DCC_ALIGNED(r2), 0u, 24);
    dcc_packet_words_Words_next(r2, a0);
    r7 = *r2;
    if (!(r7 == 1u)) goto arm;
    r4 = dcc_load_ptr((r2 + 8));
    r4_2 = dcc_load_64_aligned((r2 + 16));
    r6 = dcc_packet_numeral_small_number(r4, r4_2);
    r24 = r6;
    goto core_result_Result_and_then;
arm:;
    r24 = dcc_made_8_8(1u, 9u);
core_result_Result_and_then:;
    return r24;
}

/* dcc_packet::fields::SwitchField::take */
static struct dcc_8_8 dcc_packet_fields_SwitchField_take(unsigned char *a0) {
    struct dcc_8_8 r66_2, r66, r43;
    uint64_t r4_2;
    uint8_t r3, r3_2, r3_3, r7, r31, r36, r49, r54, r59, r12, r13, v1, spec;
    unsigned char *r4;
    uint64_t place_0[3];
    unsigned char *const r2 = (unsigned char *)place_0;
    memset(DCC_ALIGNED(r2), 0u, 24);
    dcc_packet_words_Words_next(r2, a0);
    r7 = *r2;
    if (!(r7 == 1u)) goto arm;
    r4 = dcc_load_ptr((r2 + 8));
    r4_2 = dcc_load_64_aligned((r2 + 16));
    if (r4_2 < UINT64_C(2)) goto after;
    if (!(r4_2 == UINT64_C(2))) goto join;
    r31 = *r4;
    if (!(r31 == 111u)) goto after;
    r36 = *(r4 + 1);
    if (r36 == 110u) { r3 = 1u; r3_2 = 0u; goto dcc_packet_dcc_packet_line_word_switch_FnOnce_call_once; }
    goto after;
join:;
    if (!(r4_2 < UINT64_C(4))) goto after;
    r49 = *r4;
    if (!(r49 == 111u)) goto after;
    r54 = *(r4 + 1);
    if (!(r54 == 102u)) goto after;
    r59 = *(r4 + 2);
    if (r59 == 102u) { r3 = 0u; r3_2 = 0u; goto dcc_packet_dcc_packet_line_word_switch_FnOnce_call_once; }
after:;
    r3 = 9u;
    r3_2 = 1u;
dcc_packet_dcc_packet_line_word_switch_FnOnce_call_once:;
    r66 = dcc_made_8_8(0u, 0u);
    r66.f0 = r3_2;
    r66_2 = r66;
    r3_3 = r3;
    goto core_result_Result_and_then;
arm:;
    r66_2 = dcc_made_8_8(1u, 0u);
    r3_3 = 9u;
core_result_Result_and_then:;
    r12 = r66_2.f0;
    r13 = r3_3 & 1u;
    v1 = r12 == 0u;
    spec = v1 ? r13 : r3_3;
    r43 = r66_2;
    r43.f1 = spec;
    return r43;
}

/* dcc_packet::field::Tuple2Field::take::<#ddb6ef46cb5545e6> */
static void dcc_packet_field_Tuple2Field_take(unsigned char *a0, unsigned char *a1) {
    struct dcc_8_8 r28;
    uint16_t r1_2;
    uint32_t r0, r0_2, r0_3, r0_4, r0_5;
    uint8_t it, it_2, r1, r36, r37, r1_3;
    uint16_t place_0[2];
    unsigned char *const r8 = (unsigned char *)place_0;
    dcc_packet_fields_CvNumberField_take(r8, a1);
    r1 = *r8;
    if (!(r1 == 0u)) goto arm;
    r1_2 = dcc_load_16_aligned((r8 + 2));
    r28 = dcc_packet_fields_U8Field_take(a1);
    r36 = r28.f0;
    r37 = r28.f1;
    if (r36 == 0u) goto arm_2;
    it = 1u;
    it_2 = r37;
    r0 = UINT32_C(0);
common:;
    *a0 = it;
    *(a0 + 1) = it_2;
    dcc_store_32((a0 + 2), r0);
    return;
arm:;
    r1_3 = *(r8 + 1);
    it = 1u;
    it_2 = r1_3;
    r0 = UINT32_C(0);
    goto common;
arm_2:;
    r0_2 = r1_2;
    r0_3 = r37;
    r0_4 = (uint32_t)((1u * r0_3) << UINT32_C(16));
    r0_5 = r0_4 | r0_2;
    it = 0u;
    it_2 = 0u;
    r0 = r0_5;
    goto common;
}

/* dcc_packet::fields::CvNumberField::take */
static void dcc_packet_fields_CvNumberField_take(unsigned char *a0, unsigned char *a1) {
    uint16_t r8, r1_4, v1, a1_2;
    uint8_t r8_2, r8_3, r1_2, r1_3, or_2, it, it_2;
    uint32_t place_0[1];
    unsigned char *const r1 = (unsigned char *)place_0;
    dcc_store_32_aligned(r1, UINT32_C(0));
    dcc_packet_fields_U16Field_take(r1, a1);
    r1_2 = *r1;
    r1_3 = *(r1 + 1);
    if (!(r1_2 == 0u)) { r8 = 0u; r8_2 = r1_3; r8_3 = 1u; goto core_result_Result_and_then; }
    r1_4 = dcc_load_16_aligned((r1 + 2));
    v1 = (uint16_t)(r1_4 + 64511u);
    or_2 = v1 < 64512u;
    it = or_2;
    it_2 = or_2 ? 5u : 0u;
    a1_2 = or_2 ? 0u : r1_4;
    r8 = a1_2;
    r8_2 = it_2;
    r8_3 = it;
core_result_Result_and_then:;
    *a0 = r8_3;
    *(a0 + 1) = r8_2;
    dcc_store_16((a0 + 2), r8);
    return;
}

/* dcc_packet::fields::U16Field::take */
static void dcc_packet_fields_U16Field_take(unsigned char *a0, unsigned char *a1) {
    uint16_t r8, r36;
    uint32_t r3, r57, r1, r66;
    uint64_t r4_3, r4_2, v1, r68;
    uint8_t r8_2, r8_3, r7, r3_2, v2;
    unsigned char *r4, *r45;
    uint64_t place_0[3];
    unsigned char *const r2 = (unsigned char *)place_0;
    memset(DCC_ALIGNED(r2), 0u, 24);
    dcc_packet_words_Words_next(r2, a1);
    r7 = *r2;
    if (r7 == 1u) goto arm;
    r8 = 0u;
    r8_2 = 9u;
    r8_3 = 1u;
    goto core_result_Result_and_then;
arm:;
    r4 = dcc_load_ptr((r2 + 8));
    r4_2 = dcc_load_64_aligned((r2 + 16));
    v1 = (uint64_t)(r4_2 + UINT64_C(18446744073709551610));
    if (v1 < UINT64_C(18446744073709551611)) { r8 = 0u; r8_2 = 10u; r8_3 = 1u; goto core_result_Result_and_then; }
    r3 = UINT32_C(0);
    r4_3 = UINT64_C(0);
join:;
    r45 = r4 + (ptrdiff_t)r4_3;
    r3_2 = *r45;
    v2 = (uint8_t)(r3_2 + 208u);
    if (!(v2 < 10u)) { r8 = 0u; r8_2 = 10u; r8_3 = 1u; goto core_result_Result_and_then; }
    r57 = (uint32_t)(1u * r3 * UINT32_C(10));
    r1 = v2;
    r66 = (uint32_t)(r57 + r1);
    r68 = (uint64_t)(r4_3 + UINT64_C(1));
    if (!(r68 == r4_2)) { r3 = r66; r4_3 = r68; goto join; }
    if (r66 > UINT32_C(65535)) { r8 = 0u; r8_2 = 10u; r8_3 = 1u; goto core_result_Result_and_then; }
    r36 = (uint16_t)r66;
    r8 = r36;
    r8_2 = 0u;
    r8_3 = 0u;
core_result_Result_and_then:;
    *a0 = r8_3;
    *(a0 + 1) = r8_2;
    dcc_store_16((a0 + 2), r8);
    return;
}

/* dcc_packet::field::Tuple2Field::take::<#15c19fcad0a68fb0> */
static void dcc_packet_field_Tuple2Field_take_2(unsigned char *a0, unsigned char *a1) {
    struct dcc_8_8 r4;
    uint16_t r1_2;
    uint32_t r17, r3, r17_2, r17_3, r17_4, r17_5, r17_6;
    uint64_t r4_4;
    uint8_t it, it_2, r1, r5, r6, trunc, r4_2, narrow, r7, r23, it_3, it_4, r1_3;
    unsigned char *r4_3;
    uint64_t place_0[3];
    unsigned char *const r2 = (unsigned char *)place_0;
    uint16_t place_1[2];
    unsigned char *const r8 = (unsigned char *)place_1;
    dcc_packet_fields_CvNumberField_take(r8, a1);
    r1 = *r8;
    if (!(r1 == 0u)) goto arm;
    r1_2 = dcc_load_16_aligned((r8 + 2));
    r4 = dcc_packet_fields_U8Field_take(a1);
    r5 = r4.f0;
    r6 = r4.f1;
    trunc = r5;
    r4_2 = r6 > 7u;
    narrow = trunc ? 1u : r4_2;
    if (narrow) goto arm_2;
    memset(DCC_ALIGNED(r2), 0u, 24);
    dcc_packet_words_Words_next(r2, a1);
    r7 = *r2;
    if (!(r7 == 1u)) goto arm_3;
    r4_3 = dcc_load_ptr((r2 + 8));
    r4_4 = dcc_load_64_aligned((r2 + 16));
    if (!(r4_4 == UINT64_C(1))) { it = 1u; it_2 = 9u; r17 = UINT32_C(0); goto common; }
    r23 = *r4_3;
    switch (r23) {
    case 49u: r3 = UINT32_C(256); goto arm_4;
    case 48u: goto arm_5;
    default: it = 1u; it_2 = 9u; r17 = UINT32_C(0); goto common;
    }
arm_5:;
    r3 = UINT32_C(0);
    goto arm_4;
arm_3:;
    it = 1u;
    it_2 = 9u;
    r17 = UINT32_C(0);
    goto common;
arm_2:;
    it_3 = r4_2 ? 6u : r6;
    it_4 = trunc ? r6 : it_3;
    it = 1u;
    it_2 = it_4;
    r17 = UINT32_C(0);
common:;
    *a0 = it;
    *(a0 + 1) = it_2;
    dcc_store_32((a0 + 2), r17);
    return;
arm:;
    r1_3 = *(r8 + 1);
    it = 1u;
    it_2 = r1_3;
    r17 = UINT32_C(0);
    goto common;
arm_4:;
    r17_2 = r6;
    r17_3 = r3 | r17_2;
    r17_4 = r1_2;
    r17_5 = (uint32_t)((1u * r17_3) << UINT32_C(16));
    r17_6 = r17_5 | r17_4;
    it = 0u;
    it_2 = 0u;
    r17 = r17_6;
    goto common;
}

/* dcc_regs::heard::hears */
static uint8_t dcc_regs_heard_hears(unsigned char *a0, unsigned char *a1) {
    uint16_t r1, r1_4, v4, v6, r1_5, r1_6, r10110;
    uint8_t r3, r24, r2, r1_2, r1_3, r5, v2, v3, v8, r29, spec, v9, r43, spec_2, r53, r4, r12, v11, r72, r79,
        spec_3, r106;
    uint16_t place_0[3];
    unsigned char *const r2_2 = (unsigned char *)place_0;
    r2 = *a0;
    r1 = dcc_load_16((a0 + 2));
    r1_2 = *(a0 + 4);
    r1_3 = *(a0 + 5);
    r1_4 = dcc_load_16((a0 + 6));
    if (!(r2 == 0u)) goto arm;
    memset(r2_2, 0u, 6);
    dcc_regs_heard_address_of(r2_2, a1);
    r5 = *r2_2;
    if (!(r5 == 1u)) { r3 = 0u; goto dcc_regs_heard_loco_hears; }
    v2 = *(r2_2 + 2);
    v3 = *(r2_2 + 3);
    v4 = dcc_load_16_aligned((r2_2 + 4));
    if (v2 == 0u) { r3 = 1u; goto dcc_regs_heard_loco_hears; }
    v6 = r1 & 255u;
    if (!(v6 == 1u)) { r3 = 0u; goto dcc_regs_heard_loco_hears; }
    switch (r1_2) {
    case 0u: r3 = 0u; goto dcc_regs_heard_loco_hears;
    case 1u: goto arm_2;
    case 2u: goto arm_3;
    default: goto noarm;
    }
arm_2:;
    v8 = v2 == 1u;
    r29 = r1_3 == v3;
    spec = v8 ? r29 : 0u;
    r3 = spec;
    goto dcc_regs_heard_loco_hears;
arm_3:;
    v9 = v2 == 2u;
    r43 = r1_4 == v4;
    spec_2 = v9 ? r43 : 0u;
    r3 = spec_2;
    goto dcc_regs_heard_loco_hears;
noarm:;
    DCC_UNREACHABLE();
dcc_regs_heard_loco_hears:;
    r24 = r3;
    goto join;
arm:;
    r53 = *a1;
    switch (r53) {
    case 1u: goto arm_4;
    case 2u: goto arm_5;
    case 3u: goto arm_6;
    case 0u: case 4u: r24 = 0u; goto join;
    default: goto noarm_2;
    }
arm_4:;
    r4 = *(a1 + 2);
    if (!(r4 == 0u)) { r24 = 0u; goto join; }
    r12 = *(a1 + 6);
    v11 = r12 == 0u;
    r24 = v11;
    goto join;
arm_5:;
    r1_5 = dcc_load_16_aligned((a1 + 2));
    r72 = r1_5 == r1;
    r79 = r1_5 == 511u;
    spec_3 = r72 | r79;
    r24 = spec_3;
    goto join;
arm_6:;
    r1_6 = dcc_load_16_aligned((a1 + 2));
    if (r1_6 == 2047u) { r24 = 1u; goto join; }
    if (!(r1_6 < 2044u)) { r24 = 0u; goto join; }
    r10110 = r1_6 >> 2u;
    r106 = r10110 == r1;
    r24 = r106;
join:;
    return r24;
noarm_2:;
    DCC_UNREACHABLE();
}

/* dcc_regs::heard::address_of */
static void dcc_regs_heard_address_of(unsigned char *a0, unsigned char *a1) {
    uint16_t r3, r3_4, r4_3, r1, r52, r54, r1_2, r63;
    uint8_t r3_2, r3_3, r6, r4, r4_2, r23, v0, r58;
    r6 = *a1;
    switch (r6) {
    case 1u: goto arm;
    case 4u: goto arm_2;
    case 0u: case 2u: case 3u: r3 = 0u; r3_2 = 0u; r3_3 = 0u; r3_4 = 0u; goto join;
    default: goto noarm;
    }
arm:;
    r4 = *(a1 + 2);
    r4_2 = *(a1 + 3);
    r4_3 = dcc_load_16((a1 + 4));
    r3 = 1u;
    r3_2 = r4;
    r3_3 = r4_2;
    r3_4 = r4_3;
    goto join;
arm_2:;
    r23 = *(a1 + 8);
    if (r23 == 0u) { r3 = 1u; r3_2 = 0u; r3_3 = 0u; r3_4 = 0u; goto join; }
    if ((r23 ^ 128u) > (255u ^ 128u)) { r3 = 1u; r3_2 = 1u; r3_3 = r23; r3_4 = 0u; goto join; }
    v0 = (uint8_t)(r23 + 64u);
    if (!(v0 < 40u)) { r3 = 0u; r3_2 = 0u; r3_3 = 0u; r3_4 = 0u; goto join; }
    r1 = r23;
    r52 = (uint16_t)((1u * r1) << 8u);
    r54 = (uint16_t)(r52 + 16384u);
    r58 = *(a1 + 9);
    r1_2 = r58;
    r63 = r54 | r1_2;
    r3 = 1u;
    r3_2 = 2u;
    r3_3 = 0u;
    r3_4 = r63;
join:;
    dcc_store_16(a0, r3);
    *(a0 + 2) = r3_2;
    *(a0 + 3) = r3_3;
    dcc_store_16((a0 + 4), r3_4);
    return;
noarm:;
    DCC_UNREACHABLE();
}

/* dcc_service::packet::ServicePacket::bytes */
static void dcc_service_packet_ServicePacket_bytes(unsigned char *a0, unsigned char *a1) {
    uint16_t r1, r8, r10_3;
    uint8_t it, r11, r20, r24, r30, r37, r6, r7, r10, r45, r52, r6_2, r7_2, r10_2, r60, r12, r14, r11_2;
    r20 = *a1;
    switch (r20) {
    case 0u: goto arm;
    case 1u: goto arm_2;
    case 2u: goto arm_3;
    case 3u: goto arm_4;
    default: goto noarm;
    }
arm:;
    r24 = *(a1 + 4);
    it = 124u;
    r11 = r24;
    goto join;
arm_2:;
    r30 = *(a1 + 4);
    it = 116u;
    r11 = r30;
    goto join;
arm_3:;
    r37 = *(a1 + 5);
    r6 = (uint8_t)((1u * r37) << 3u);
    r7 = *(a1 + 4);
    r10 = r6 | r7;
    r45 = r10 | 240u;
    it = 120u;
    r11 = r45;
    goto join;
arm_4:;
    r52 = *(a1 + 5);
    r6_2 = (uint8_t)((1u * r52) << 3u);
    r7_2 = *(a1 + 4);
    r10_2 = r6_2 | r7_2;
    r60 = r10_2 | 224u;
    it = 120u;
    r11 = r60;
join:;
    r1 = dcc_load_16_aligned((a1 + 2));
    r8 = (uint16_t)(r1 + 65535u);
    r10_3 = r8 >> 8u;
    r12 = (uint8_t)r10_3;
    r14 = (uint8_t)(it + r12);
    r11_2 = (uint8_t)(r8);
    *a0 = r14;
    *(a0 + 1) = r11_2;
    *(a0 + 2) = r11;
    return;
noarm:;
    DCC_UNREACHABLE();
}

/* dcc_c::service::progress_of */
static void dcc_c_service_progress_of(unsigned char *a0, unsigned char *a1) {
    uint16_t r7, r2, v17, r6_9, r6_10, r19, r23;
    uint32_t v20;
    uint64_t r16, r16_2, r16_3, r16_4, r7_2, r7_3, r7_4, r7_5, r6, a1_2, r1_7, v9, v10, v11, v12, v13, v14, v15,
        v16, r6_2, r6_3, r6_4, r6_5, r6_6, r6_7, r6_8, v19;
    uint8_t r11, r38, r45, r57, r69, r81, r88, r96, v0, v1, v2, v3, v4, v5, v6, r58, r1, r1_2, r1_3, r1_4, r1_5,
        r1_6, r12, r63, r77, r83, r97, r103, r117, r123, r137, r143, r157, r163, r177, r183, r87, r89, r2_2, r2_3;
    uint64_t place_0[3];
    unsigned char *const r5 = (unsigned char *)place_0;
    uint16_t place_1[4];
    unsigned char *const r14 = (unsigned char *)place_1;
    r11 = *a1;
    memset(DCC_ALIGNED(r5), 0u, 24);
    r38 = *(a1 + 2);
    r45 = *(a1 + 3);
    r57 = *(a1 + 4);
    r69 = *(a1 + 5);
    r81 = *(a1 + 6);
    r88 = *(a1 + 7);
    r96 = *(a1 + 1);
    v0 = r45 | r38;
    v1 = v0 | r57;
    v2 = v1 | r69;
    v3 = v2 | r81;
    v4 = v3 | r88;
    v5 = v4 | r96;
    if (!(v5 == 0u)) goto join;
    r6 = UINT64_C(0);
    goto arm;
join:;
    v6 = dcc_umin_8(r96, 6u);
    a1_2 = v6;
    dcc_wire_frame_Frame_of(r5, (a1 + 2), a1_2);
    r58 = *r5;
    if (!(r58 == 0u)) { r7 = 0u; r7_2 = UINT64_C(0); r7_3 = UINT64_C(0); r7_4 = UINT64_C(0); r7_5 = UINT64_C(0); goto dcc_c_service_pending_of; }
    r1 = *(r5 + 8);
    r1_2 = *(r5 + 9);
    r1_3 = *(r5 + 10);
    r1_4 = *(r5 + 11);
    r1_5 = *(r5 + 12);
    r1_6 = *(r5 + 13);
    r1_7 = dcc_load_64_aligned((r5 + 16));
    r12 = (uint8_t)(r1_7);
    r63 = r96 == r12;
    r77 = r38 == r1;
    r83 = r77 & r63;
    r97 = r45 == r1_2;
    r103 = r97 & r83;
    r117 = r57 == r1_3;
    r123 = r117 & r103;
    r137 = r69 == r1_4;
    r143 = r137 & r123;
    r157 = r81 == r1_5;
    r163 = r157 & r143;
    r177 = r88 == r1_6;
    r183 = r177 & r163;
    if (r183) goto join_2;
    goto arm_2;
join_2:;
    dcc_service_packet_ServicePacket_read(r14, (r5 + 8));
    r87 = *r14;
    if (!(r87 == 1u)) { r16 = UINT64_C(0); r16_2 = UINT64_C(0); r16_3 = UINT64_C(0); r16_4 = UINT64_C(0); goto join_3; }
    r89 = *(r14 + 2);
    r2 = dcc_load_16_aligned((r14 + 4));
    r2_2 = *(r14 + 6);
    r2_3 = *(r14 + 7);
    v9 = r89;
    v10 = (uint64_t)((1u * v9) << UINT64_C(16));
    v11 = r2;
    v12 = (uint64_t)((1u * v11) << UINT64_C(32));
    v13 = r2_2;
    v14 = (uint64_t)((1u * v13) << UINT64_C(48));
    v15 = r2_3;
    v16 = (uint64_t)((1u * v15) << UINT64_C(56));
    r16 = v10;
    r16_2 = v12;
    r16_3 = v14;
    r16_4 = v16;
join_3:;
    v17 = r87;
    r7 = v17;
    r7_2 = r16;
    r7_3 = r16_2;
    r7_4 = r16_3;
    r7_5 = r16_4;
dcc_c_service_pending_of:;
    r6_2 = r7;
    r6_3 = r7_2 | r6_2;
    r6_4 = r6_3 | r7_3;
    r6_5 = r6_4 & UINT64_C(18374967954648334335);
    r6_6 = r6_5 | r7_4;
    r6_7 = r6_6 | r7_5;
    if (!(r7 == 1u)) goto arm_2;
    r6 = r6_7;
arm:;
    r6_8 = r6 >> UINT64_C(16);
    r6_9 = (uint16_t)(r6_8);
    r6_10 = (uint16_t)(r6);
    r19 = r6_10 & 255u;
    r23 = r6_9 & 255u;
    dcc_store_16(a0, 1u);
    *(a0 + 2) = r11;
    *(a0 + 3) = 0u;
    dcc_store_16((a0 + 4), r19);
    dcc_store_16((a0 + 6), r23);
    v19 = r6 >> UINT64_C(32);
    v20 = (uint32_t)v19;
    dcc_store_32((a0 + 8), v20);
common:;
    return;
arm_2:;
    memset(a0, 0u, 12);
    goto common;
}

/* dcc_service::progress::ServiceProgress::due */
static void dcc_service_progress_ServiceProgress_due(unsigned char *a0, unsigned char *a1, unsigned char *a2) {
    uint16_t r55, v1, r1_2, r1_4;
    uint64_t r1, r4, r17;
    uint8_t r3, r31, r32, r52, r54, v2, v3, r6_2, r19, r69, r13, r1_3, r19_2, r25, it, r33, r88, r8, r12, spec;
    unsigned char *r16;
    uint16_t place_0[4];
    unsigned char *const r6 = (unsigned char *)place_0;
    r4 = dcc_load_64_aligned((a2 + 8));
    if (!(r4 == UINT64_C(3))) goto join;
    r1 = UINT64_C(0);
join_2:;
    r16 = a2 + (ptrdiff_t)r1;
    r3 = *r16;
    if (!(r3 == 0u)) goto join;
    r17 = (uint64_t)(r1 + UINT64_C(1));
    if (r17 == UINT64_C(3)) goto then;
    r1 = r17;
    goto join_2;
common:;
    return;
then:;
    *a1 = 1u;
    dcc_store_64((a1 + 2), UINT64_C(0));
    dcc_store_64(a0, UINT64_C(0));
    goto common;
join:;
    r31 = *a1;
    r32 = r31;
    if (r32) goto join_3;
    dcc_store_64(a0, UINT64_C(0));
    goto common;
join_3:;
    dcc_service_packet_ServicePacket_read(r6, a2);
    r52 = *r6;
    if (!(r52 == 1u)) goto arm;
    r54 = *(r6 + 2);
    r55 = r54;
    v1 = dcc_load_16_aligned((r6 + 4));
    v2 = *(r6 + 6);
    v3 = *(r6 + 7);
    r6_2 = *(a1 + 2);
    if (!(r6_2 == 1u)) goto join_4;
    r19 = *(a1 + 4);
    switch (r19) {
    case 0u: goto arm_2;
    case 1u: goto arm_3;
    case 2u: goto arm_4;
    case 3u: goto arm_5;
    default: goto noarm;
    }
arm_2:;
    if (r54 == 0u) goto dcc_service_progress_ServiceProgress_awaits;
    goto join_4;
arm_3:;
    if (r54 == 1u) goto dcc_service_progress_ServiceProgress_awaits;
    goto join_4;
arm_4:;
    if (r54 == 2u) goto after;
    goto join_4;
arm_5:;
    if (!(r54 == 3u)) goto join_4;
after:;
    r69 = *(a1 + 9);
    r1_2 = dcc_load_16_aligned((a1 + 6));
    r13 = r1_2 == v1;
    r1_3 = *(a1 + 8);
    r19_2 = r1_3 == v2;
    r25 = r13 & r19_2;
    it = r69 == v3;
    r33 = it & r25;
    if (r33) goto then_2;
    goto join_4;
noarm:;
    DCC_UNREACHABLE();
dcc_service_progress_ServiceProgress_awaits:;
    r88 = *(a1 + 8);
    r1_4 = dcc_load_16_aligned((a1 + 6));
    r8 = r1_4 == v1;
    r12 = r88 == v2;
    spec = r12 & r8;
    if (spec) goto then_2;
    goto join_4;
arm:;
    *a1 = 0u;
    dcc_store_64((a1 + 2), UINT64_C(0));
    dcc_store_64(a0, UINT64_C(0));
    goto common;
then_2:;
    dcc_store_16(a0, 1u);
    dcc_store_16((a0 + 2), r55);
    dcc_store_16((a0 + 4), v1);
    *(a0 + 6) = v2;
    *(a0 + 7) = v3;
    goto common;
join_4:;
    dcc_store_16((a1 + 2), 1u);
    dcc_store_16((a1 + 4), r55);
    dcc_store_16((a1 + 6), v1);
    *(a1 + 8) = v2;
    *(a1 + 9) = v3;
    dcc_store_64(a0, UINT64_C(0));
    goto common;
}

/* core::cmp::slices::groups_equal::<i8,31'core::cmp::numbers::U8PartialEq{}> */
static DCC_NOINLINE uint8_t core_cmp_slices_groups_equal__i8_31_core_cmp_numbers_U8PartialE(unsigned char *a0, uint64_t a1, unsigned char *a2, uint64_t a3) {
    uint64_t r2, r2_2, r2_3, r2_4, r1_3, r2_5, r126, r1_7, r1_8, r2_6, r2_7, r23, r6, r12, r23_2, r23_3, r6_2,
        r12_2, r23_4, r12_3, r23_5, it, r34, r12_4, r12_5, r23_6, r34_2, r12_6, it_2, r80, r12_7, r23_7;
    uint8_t r1, r1_2, r1_4, r1_5, r1_6, r1_9, r1_10, common, r3, r4, r7_2, r20, r3_2, r4_2, r7_3, r20_2, r14, r51,
        r3_3, r4_3, r7_4, r20_3, r3_4, r4_4, r7_5, r20_4, r14_2, r3_5, r4_5, r7_6, r20_5, r3_6, r4_6, r7_7, r20_6,
        r3_7, r4_7, r7_8, r20_7, r22;
    unsigned char *r16, *r21, *r16_2, *r21_2, *r16_3, *r21_3, *r16_4, *r21_4, *r16_5, *r21_5, *r16_6, *r21_6,
        *r16_7, *r21_7;
    uint64_t place_0[4];
    unsigned char *const r7 = (unsigned char *)place_0;
    dcc_store_ptr(r7, a0);
    dcc_store_64_aligned((r7 + 8), a1);
    dcc_store_ptr((r7 + 16), a2);
    dcc_store_64_aligned((r7 + 24), a3);
    if (!(a1 < UINT64_C(9))) goto join;
    r1 = 0u;
    r2 = UINT64_C(0);
join_2:;
    r16 = a0 + (ptrdiff_t)r2;
    r21 = a2 + (ptrdiff_t)r2;
    r3 = *r16;
    r4 = *r21;
    r7_2 = r3 != r4;
    r20 = r1 | r7_2;
    r23 = (uint64_t)(r2 + UINT64_C(1));
    if (!(r23 == UINT64_C(4))) { r1 = r20; r2 = r23; goto join_2; }
    r6 = (uint64_t)(a1 + UINT64_C(18446744073709551612));
    r1_2 = 0u;
    r2_2 = UINT64_C(0);
join_3:;
    r12 = (uint64_t)(r6 + r2_2);
    r16_2 = a0 + (ptrdiff_t)r12;
    r21_2 = a2 + (ptrdiff_t)r12;
    r3_2 = *r16_2;
    r4_2 = *r21_2;
    r7_3 = r3_2 != r4_2;
    r20_2 = r1_2 | r7_3;
    r23_2 = (uint64_t)(r2_2 + UINT64_C(1));
    if (!(r23_2 == UINT64_C(4))) { r1_2 = r20_2; r2_2 = r23_2; goto join_3; }
    r14 = r20 | r20_2;
    common = r14;
    goto core_slice_scan_any_by_groups;
join:;
    if (!(a1 < UINT64_C(33))) goto join_4;
    r51 = core_slice_scan_any_in_quarters(r7, a1, UINT64_C(8));
    common = r51;
    goto core_slice_scan_any_by_groups;
join_4:;
    if (!(a1 < UINT64_C(65))) { r1_3 = UINT64_C(0); goto then; }
    r1_4 = 0u;
    r2_3 = UINT64_C(0);
join_5:;
    r16_3 = a0 + (ptrdiff_t)r2_3;
    r21_3 = a2 + (ptrdiff_t)r2_3;
    r3_3 = *r16_3;
    r4_3 = *r21_3;
    r7_4 = r3_3 != r4_3;
    r20_3 = r1_4 | r7_4;
    r23_3 = (uint64_t)(r2_3 + UINT64_C(1));
    if (!(r23_3 == UINT64_C(32))) { r1_4 = r20_3; r2_3 = r23_3; goto join_5; }
    r6_2 = (uint64_t)(a1 + UINT64_C(18446744073709551584));
    r1_5 = 0u;
    r2_4 = UINT64_C(0);
join_6:;
    r12_2 = (uint64_t)(r6_2 + r2_4);
    r16_4 = a0 + (ptrdiff_t)r12_2;
    r21_4 = a2 + (ptrdiff_t)r12_2;
    r3_4 = *r16_4;
    r4_4 = *r21_4;
    r7_5 = r3_4 != r4_4;
    r20_4 = r1_5 | r7_5;
    r23_4 = (uint64_t)(r2_4 + UINT64_C(1));
    if (!(r23_4 == UINT64_C(32))) { r1_5 = r20_4; r2_4 = r23_4; goto join_6; }
    r14_2 = r20_3 | r20_4;
    common = r14_2;
    goto core_slice_scan_any_by_groups;
then:;
    r1_6 = 0u;
    r2_5 = UINT64_C(0);
join_7:;
    r12_3 = (uint64_t)(r2_5 + r1_3);
    r16_5 = a0 + (ptrdiff_t)r12_3;
    r21_5 = a2 + (ptrdiff_t)r12_3;
    r3_5 = *r16_5;
    r4_5 = *r21_5;
    r7_6 = r3_5 != r4_5;
    r20_5 = r1_6 | r7_6;
    r23_5 = (uint64_t)(r2_5 + UINT64_C(1));
    if (!(r23_5 == UINT64_C(64))) { r1_6 = r20_5; r2_5 = r23_5; goto join_7; }
    if (!(r20_5)) goto join_8;
    it = (uint64_t)(a1 - r1_3);
    r126 = it;
    r1_7 = r1_3;
    goto core_slice_scan_skip_groups;
join_8:;
    r34 = (uint64_t)(r1_3 + UINT64_C(64));
    r12_4 = (uint64_t)(a1 - r34);
    if (r12_4 > UINT64_C(63)) { r1_3 = r34; goto then; }
    r126 = r12_4;
    r1_7 = r34;
core_slice_scan_skip_groups:;
    if (!(r126 > UINT64_C(31))) goto join_9;
    r1_8 = r1_7;
then_2:;
    r1_9 = 0u;
    r2_6 = UINT64_C(0);
join_10:;
    r12_5 = (uint64_t)(r2_6 + r1_8);
    r16_6 = a0 + (ptrdiff_t)r12_5;
    r21_6 = a2 + (ptrdiff_t)r12_5;
    r3_6 = *r16_6;
    r4_6 = *r21_6;
    r7_7 = r3_6 != r4_6;
    r20_6 = r1_9 | r7_7;
    r23_6 = (uint64_t)(r2_6 + UINT64_C(1));
    if (!(r23_6 == UINT64_C(32))) { r1_9 = r20_6; r2_6 = r23_6; goto join_10; }
    if (r20_6) goto core_slice_scan_skip_groups_2;
    r34_2 = (uint64_t)(r1_8 + UINT64_C(32));
    r12_6 = (uint64_t)(a1 - r34_2);
    if (r12_6 > UINT64_C(31)) { r1_8 = r34_2; goto then_2; }
    goto join_9;
core_slice_scan_skip_groups_2:;
    it_2 = (uint64_t)(a1 - r1_8);
    if (it_2 > UINT64_C(31)) { common = 1u; goto core_slice_scan_any_by_groups; }
join_9:;
    r80 = (uint64_t)(a1 + UINT64_C(18446744073709551584));
    r1_10 = 0u;
    r2_7 = UINT64_C(0);
join_11:;
    r12_7 = (uint64_t)(r80 + r2_7);
    r16_7 = a0 + (ptrdiff_t)r12_7;
    r21_7 = a2 + (ptrdiff_t)r12_7;
    r3_7 = *r16_7;
    r4_7 = *r21_7;
    r7_8 = r3_7 != r4_7;
    r20_7 = r1_10 | r7_8;
    r23_7 = (uint64_t)(r2_7 + UINT64_C(1));
    if (!(r23_7 == UINT64_C(32))) { r1_10 = r20_7; r2_7 = r23_7; goto join_11; }
    common = r20_7;
core_slice_scan_any_by_groups:;
    r22 = common ^ 1u;
    return r22;
}

/* dcc_c::service::put */
static void dcc_c_service_put(unsigned char *a0, unsigned char *a1) {
    uint8_t r2, r2_2, r2_3, r2_4, r2_5, r3, r4, r1, r1_2, r1_3, r29, r32;
    uint8_t place_0[3];
    unsigned char *const r3_2 = (unsigned char *)place_0;
    r3 = *a1;
    *a0 = r3;
    memset(r3_2, 0u, 3);
    r4 = *(a1 + 2);
    if (r4 == 0u) { r2 = 0u; r2_2 = 0u; r2_3 = 0u; r2_4 = 0u; r2_5 = 0u; goto dcc_c_service_pending_bytes; }
    dcc_service_packet_ServicePacket_bytes(r3_2, (a1 + 4));
    r1 = *r3_2;
    r1_2 = *(r3_2 + 1);
    r1_3 = *(r3_2 + 2);
    r29 = r1_2 ^ r1;
    r32 = r29 ^ r1_3;
    r2 = 4u;
    r2_2 = r1;
    r2_3 = r1_2;
    r2_4 = r1_3;
    r2_5 = r32;
dcc_c_service_pending_bytes:;
    *(a0 + 1) = r2;
    *(a0 + 2) = r2_2;
    *(a0 + 3) = r2_3;
    *(a0 + 4) = r2_4;
    *(a0 + 5) = r2_5;
    *(a0 + 6) = 0u;
    *(a0 + 7) = 0u;
    return;
}

/* dcc_service::progress::ServiceProgress::apply_with_value */
static uint8_t dcc_service_progress_ServiceProgress_apply_with_value(unsigned char *a0, unsigned char *a1, unsigned char *a2) {
    uint16_t v1, v4, v5;
    uint8_t r4, r8, r10, v2, v3, r35, r40, r48, r8_2, r45, r13, r15, r17, r4_2, r63, v6, v7, r70, v8, r76;
    uint64_t place_0[1];
    unsigned char *const r2 = (unsigned char *)place_0;
    dcc_store_64_aligned(r2, UINT64_C(0));
    dcc_service_progress_ServiceProgress_due(r2, a0, a2);
    r8 = *r2;
    if (!(r8 == 1u)) { r4 = 0u; goto join; }
    r10 = *(r2 + 2);
    v1 = dcc_load_16_aligned((r2 + 4));
    v2 = *(r2 + 6);
    v3 = *(r2 + 7);
    switch (r10) {
    case 0u: goto arm;
    case 1u: goto arm_2;
    case 2u: goto arm_3;
    case 3u: goto arm_4;
    default: goto noarm;
    }
arm:;
    v4 = (uint16_t)(v1 + 65527u);
    if (!(v4 < 65534u)) { r4 = 0u; goto join; }
    *a1 = v2;
    r4 = 1u;
    goto join;
arm_2:;
    r35 = *a1;
    r40 = r35 == v2;
    r4 = r40;
    goto join;
arm_3:;
    v5 = (uint16_t)(v1 + 65527u);
    if (!(v5 < 65534u)) { r4 = 0u; goto join; }
    r48 = v3;
    r8_2 = (uint8_t)((1u * 1u) << (v2 & 7u));
    r45 = *a1;
    r13 = r45 | r8_2;
    r15 = r8_2 ^ 255u;
    r17 = r45 & r15;
    r4_2 = r48 ? r13 : r17;
    *a1 = r4_2;
    r4 = 1u;
    goto join;
arm_4:;
    r63 = *a1;
    v6 = (uint8_t)((1u * 1u) << (v2 & 7u));
    v7 = r63 & v6;
    r70 = v3;
    v8 = v7 == 0u;
    r76 = v8 ^ r70;
    r4 = r76;
    goto join;
noarm:;
    DCC_UNREACHABLE();
join:;
    return r4;
}

/* dcc_c::track_part::TrackPart::end_service::<#d5b2391862d1837b> */
static void dcc_c_track_part_TrackPart_end_service(unsigned char *a0, unsigned char *a1) {
    uint16_t r13, r1_2, r25, r1_3, r36;
    uint8_t r6, r5, r8, v1, r19, r21, r29, r31;
    uint16_t place_0[6];
    unsigned char *const r2 = (unsigned char *)place_0;
    uint16_t place_1[5];
    unsigned char *const r0 = (unsigned char *)place_1;
    uint16_t place_2[5];
    unsigned char *const r1 = (unsigned char *)place_2;
    dcc_c_service_progress_of(r2, a0);
    r6 = *r2;
    if (r6 == 1u) goto dcc_c_track_part_TrackPart_progress;
    DCC_TRAP();
    DCC_UNREACHABLE();
dcc_c_track_part_TrackPart_progress:;
    memcpy(r1, (r2 + 2), 10);
    memcpy(r0, r1, 10);
    r5 = *r0;
    r8 = *(a0 + 8);
    v1 = r8 & r5;
    if (v1 == 0u) goto dcc_track_in_parts_end_service_in_parts;
    r13 = dcc_load_16_aligned(a1);
    if (r13 < 512u) goto dcc_c_possible_board_PossibleBoardProgrammable_restart;
    DCC_TRAP();
    DCC_UNREACHABLE();
dcc_c_possible_board_PossibleBoardProgrammable_restart:;
    r19 = *(a1 + 20);
    r21 = r19 & 7u;
    r1_2 = r21;
    r25 = (uint16_t)((1u * r1_2) << 6u);
    r29 = *(a1 + 12);
    r31 = r29 & 63u;
    r1_3 = r31;
    r36 = r25 | r1_3;
    dcc_store_16(a1, r36);
    *(a1 + 2) = 0u;
    *(a1 + 11) = 0u;
dcc_track_in_parts_end_service_in_parts:;
    memset(r0, 0u, 10);
    *(a0 + 8) = 0u;
    dcc_c_service_put(a0, r0);
    return;
}

/* dcc_c::track_part::TrackPart::end_service::<#200f1dc22a2eb7b5> */
static void dcc_c_track_part_TrackPart_end_service_2(unsigned char *a0, unsigned char *a1) {
    uint8_t r6, r5, r8, v1;
    uint16_t place_0[6];
    unsigned char *const r2 = (unsigned char *)place_0;
    uint16_t place_1[5];
    unsigned char *const r0 = (unsigned char *)place_1;
    uint16_t place_2[5];
    unsigned char *const r1 = (unsigned char *)place_2;
    dcc_c_service_progress_of(r2, a0);
    r6 = *r2;
    if (r6 == 1u) goto dcc_c_track_part_TrackPart_progress;
    DCC_TRAP();
    DCC_UNREACHABLE();
dcc_c_track_part_TrackPart_progress:;
    memcpy(r1, (r2 + 2), 10);
    memcpy(r0, r1, 10);
    r5 = *r0;
    r8 = *(a0 + 8);
    v1 = r8 & r5;
    if (v1 == 0u) goto dcc_track_in_parts_end_service_in_parts;
    dcc_c_loco_dcc_loco_power_up(a1);
dcc_track_in_parts_end_service_in_parts:;
    memset(r0, 0u, 10);
    *(a0 + 8) = 0u;
    dcc_c_service_put(a0, r0);
    return;
}

/* dcc_track::main_track::hear_on_main::<#d5b2391862d1837b> */
static struct dcc_8_16 dcc_track_main_track_hear_on_main(unsigned char *a0, unsigned char *a1) {
    struct dcc_8_16 r37, r37_2;
    uint16_t r0, r6, v0, v1, r3, it_2;
    uint64_t r1_2;
    uint8_t r0_2, r5, v2, r20, r20_2, r28, it;
    unsigned char *v4;
    uint64_t place_0[3];
    unsigned char *const r1 = (unsigned char *)place_0;
    uint64_t place_1[3];
    unsigned char *const r2 = (unsigned char *)place_1;
    dcc_packet_packet_Packet_read(r2, a1);
    r5 = *r2;
    r6 = r5;
    dcc_store_16_aligned(r1, r6);
    v0 = dcc_load_16_aligned((r2 + 2));
    dcc_store_16_aligned((r1 + 2), v0);
    v1 = dcc_load_16_aligned((r2 + 4));
    dcc_store_16_aligned((r1 + 4), v1);
    v2 = *(r2 + 6);
    *(r1 + 6) = v2;
    memcpy((r1 + 7), (r2 + 7), 17);
    if (!(r5 == 1u)) goto arm;
    switch (v2) {
    case 5u: case 7u: goto arm_2;
    case 0u: case 1u: case 2u: case 3u: case 4u: case 6u: case 8u: goto arm;
    default: goto noarm;
    }
noarm:;
    DCC_UNREACHABLE();
arm_2:;
    r3 = dcc_load_16_aligned((r1 + 8));
    r1_2 = r3;
    v4 = a0 + (ptrdiff_t)r1_2;
    r20 = *(v4 + 11);
    dcc_c_possible_board_PossibleBoardProgrammable_apply_packet(a0, r1);
    r20_2 = *(v4 + 11);
    r28 = r20_2 != r20;
    it = r28;
    it_2 = r28 ? r3 : 0u;
    r0 = it_2;
    r0_2 = it;
    goto dcc_track_main_track_apply;
arm:;
    dcc_c_possible_board_PossibleBoardProgrammable_apply_packet(a0, r1);
    r0 = 0u;
    r0_2 = 0u;
dcc_track_main_track_apply:;
    r37 = dcc_made_8_16(0u, 0u);
    r37.f0 = r0_2;
    r37_2 = r37;
    r37_2.f1 = r0;
    return r37_2;
}

/* dcc_c::possible_board::PossibleBoardProgrammable::apply_packet */
static void dcc_c_possible_board_PossibleBoardProgrammable_apply_packet(unsigned char *a0, unsigned char *a1) {
    struct dcc_8_8 r16;
    struct dcc_wide r3_2, r28, r30, r33, r36;
    uint16_t r13, r12_2;
    uint32_t r4_2, r4_3, r10, r11, r0, r5;
    uint64_t r4_4, r2_2, r38, r31, r7, r7_2, r7_3, r7_4, r7_5, r7_6, r7_7, r7_8, v0, r7_9, r33_2;
    uint8_t r3_3, r9, r7_10, r4, r35, r6, r23, r12, r12_3, v1, r17, r18, r8, r12_4, r14, r9_2, r11_2, r12_5, r1_3,
        r202, r22, v3, sext, v4, v5, v6, r7_11, r9_3, r17_2, v7, r24;
    unsigned char *r21, *r27;
    uint16_t place_0[6];
    unsigned char *const r1 = (unsigned char *)place_0;
    uint64_t place_1[1];
    unsigned char *const r1_2 = (unsigned char *)place_1;
    unsigned char *const r1_4 = (unsigned char *)place_1;
    uint64_t place_2[1];
    unsigned char *const r2 = (unsigned char *)place_2;
    uint64_t place_3[1];
    unsigned char *const r3 = (unsigned char *)place_3;
    r13 = dcc_load_16_aligned(a0);
    if (r13 < 512u) goto dcc_c_possible_board_PossibleBoard_state;
    DCC_TRAP();
    DCC_UNREACHABLE();
dcc_c_possible_board_PossibleBoard_state:;
    r35 = *(a0 + 2);
    r10 = dcc_load_32((a0 + 3));
    r11 = dcc_load_32((a0 + 7));
    dcc_store_64_aligned(r3, UINT64_C(1));
    dcc_store_16_aligned((r3 + 2), r13);
    r6 = dcc_regs_heard_hears(r3, a1);
    if (!(r6)) { r4 = r35; r4_2 = r10; r4_3 = r11; goto dcc_track_board_steps_board_after_packet; }
    dcc_store_32((r1 + 3), r10);
    dcc_store_32((r1 + 7), r11);
    *(r1 + 11) = 0u;
    r3_2 = dcc_wide_of(UINT64_C(0), UINT64_C(0));
    r4_4 = UINT64_C(0);
join:;
    r21 = (r1 + 3) + (ptrdiff_t)r4_4;
    r23 = *r21;
    r28 = dcc_wide_of(0, r23);
    r30 = dcc_wide_of(0, r4_4);
    r33 = dcc_wide_shl(r28, (unsigned)r30.low);
    r36 = dcc_wide_or(r33, r3_2);
    r38 = (uint64_t)(r4_4 + UINT64_C(1));
    if (!(r38 == UINT64_C(4))) { r3_2 = r36; r4_4 = r38; goto join; }
    r12 = r13 == 511u;
    r12_2 = r12 ? 0u : r13;
    r31 = (uint64_t)(r36.low);
    r7 = r12_2;
    r7_2 = r35;
    r7_3 = (uint64_t)((1u * r7_2) << UINT64_C(16));
    r7_4 = r7_3 | r7;
    r7_5 = (uint64_t)((1u * r31) << UINT64_C(24));
    r7_6 = r7_5 & UINT64_C(4278190080);
    r7_7 = r11;
    r7_8 = (uint64_t)((1u * r7_7) << UINT64_C(32));
    v0 = r7_8 | r7_4;
    r7_9 = r7_6 | v0;
    dcc_store_64_aligned(r2, r7_9);
    dcc_store_64_aligned(r1_2, UINT64_C(1));
    dcc_store_16_aligned((r1_2 + 2), r12_2);
    r12_3 = dcc_regs_heard_hears(r1_2, a1);
    v1 = (uint8_t)(r36.low);
    if (!(r12_3)) { r9 = v1; r7_10 = r35; goto dcc_regs_packed_board_PackedBoardDecoder_apply; }
    r16 = dcc_regs_outputs_outs_set(a1);
    r17 = r16.f0;
    r18 = r16.f1;
    r8 = r18 ^ r35;
    r12_4 = r8 & r17;
    r14 = r12_4 ^ r35;
    *(r2 + 2) = r14;
    r9_2 = *a1;
    if (!(r9_2 == 2u)) { r3_3 = v1; goto dcc_regs_outputs_positions_set; }
    r11_2 = *(a1 + 5);
    r12_5 = r11_2;
    if (!(r12_5)) { r3_3 = v1; goto dcc_regs_outputs_positions_set; }
    r1_3 = *(a1 + 4);
    r202 = r1_3 >> 1u;
    r22 = (uint8_t)((1u * 1u) << (r202 & 7u));
    v3 = r1_3 & 1u;
    sext = (uint8_t)(0u - v3);
    v4 = sext ^ v1;
    v5 = v4 & r22;
    v6 = v5 ^ v1;
    r3_3 = v6;
dcc_regs_outputs_positions_set:;
    *(r2 + 3) = r3_3;
    dcc_regs_board_set_aspects((r2 + 4), a1);
    r7_11 = *(r2 + 2);
    r9_3 = *(r2 + 3);
    r9 = r9_3;
    r7_10 = r7_11;
dcc_regs_packed_board_PackedBoardDecoder_apply:;
    dcc_store_32_aligned(r1_4, UINT32_C(0));
    r2_2 = UINT64_C(0);
join_2:;
    r17_2 = (uint8_t)r2_2;
    v7 = (uint8_t)(r9 >> (r17_2 & 7u));
    r24 = v7 & 1u;
    r27 = r1_4 + (ptrdiff_t)r2_2;
    *r27 = r24;
    r33_2 = (uint64_t)(r2_2 + UINT64_C(1));
    if (!(r33_2 == UINT64_C(4))) { r2_2 = r33_2; goto join_2; }
    r0 = dcc_load_32_aligned(r1_4);
    r5 = dcc_load_32_aligned((r2 + 4));
    r4 = r7_10;
    r4_2 = r0;
    r4_3 = r5;
dcc_track_board_steps_board_after_packet:;
    *(a0 + 2) = r4;
    dcc_store_32((a0 + 3), r4_2);
    dcc_store_32((a0 + 7), r4_3);
    *(a0 + 11) = 0u;
    return;
}

/* dcc_regs::outputs::outs_set */
static struct dcc_8_8 dcc_regs_outputs_outs_set(unsigned char *a0) {
    struct dcc_8_8 r37, r37_2;
    uint8_t r3, r3_2, r7, r9, r11, r1, r21, r23, it;
    r7 = *a0;
    switch (r7) {
    case 1u: goto arm;
    case 2u: goto arm_2;
    case 0u: case 3u: case 4u: goto after;
    default: goto noarm;
    }
arm:;
    r9 = *(a0 + 2);
    if (!(r9 == 0u)) goto after;
    r11 = *(a0 + 6);
    if (r11 == 0u) { r3 = 0u; r3_2 = 255u; goto after_2; }
    goto after;
arm_2:;
    r1 = *(a0 + 4);
    r21 = (uint8_t)((1u * 1u) << (r1 & 7u));
    r23 = *(a0 + 5);
    it = (uint8_t)(0u - r23);
    r3 = it;
    r3_2 = r21;
    goto after_2;
after:;
    r3 = 0u;
    r3_2 = 0u;
after_2:;
    r37 = dcc_made_8_8(0u, 0u);
    r37.f0 = r3_2;
    r37_2 = r37;
    r37_2.f1 = r3;
    return r37_2;
noarm:;
    DCC_UNREACHABLE();
}

/* dcc_regs::board::set_aspects */
static void dcc_regs_board_set_aspects(unsigned char *a0, unsigned char *a1) {
    uint16_t r1;
    uint64_t indvars, indvars_2;
    uint8_t r3, r3_2, r7, r5, v1, r11, r13, r2, r15, v2, v3, v4, r13_2, r34, spec;
    unsigned char *r32;
    r7 = *a1;
    if (!(r7 == 3u)) { r3 = 0u; r3_2 = 0u; goto dcc_regs_outputs_aspects_set; }
    r1 = dcc_load_16_aligned((a1 + 2));
    r5 = r1 == 2047u;
    v1 = (uint8_t)(r1);
    r11 = v1 & 3u;
    r13 = (uint8_t)((1u * 1u) << (r11 & 7u));
    r2 = r5 ? 15u : r13;
    r15 = *(a1 + 4);
    r3 = r15;
    r3_2 = r2;
dcc_regs_outputs_aspects_set:;
    indvars = UINT64_C(0);
join:;
    v2 = (uint8_t)indvars;
    v3 = (uint8_t)((1u * 1u) << (v2 & 7u));
    v4 = v3 & r3_2;
    r13_2 = v4 == 0u;
    r32 = a0 + (ptrdiff_t)indvars;
    r34 = *r32;
    spec = r13_2 ? r34 : r3;
    *r32 = spec;
    indvars_2 = (uint64_t)(indvars + UINT64_C(1));
    if (!(indvars_2 == UINT64_C(4))) { indvars = indvars_2; goto join; }
    return;
}

/* dcc_track::main_track::hear_on_main::<#200f1dc22a2eb7b5> */
static struct dcc_8_16 dcc_track_main_track_hear_on_main_2(unsigned char *a0, unsigned char *a1) {
    struct dcc_8_16 r37, r37_2;
    uint16_t r0, r6, v0, v1, r3, it_2;
    uint64_t r1_2;
    uint8_t r0_2, r5, v2, r20, r20_2, r28, it;
    unsigned char *v4;
    uint64_t place_0[3];
    unsigned char *const r1 = (unsigned char *)place_0;
    uint64_t place_1[3];
    unsigned char *const r2 = (unsigned char *)place_1;
    dcc_packet_packet_Packet_read(r2, a1);
    r5 = *r2;
    r6 = r5;
    dcc_store_16_aligned(r1, r6);
    v0 = dcc_load_16_aligned((r2 + 2));
    dcc_store_16_aligned((r1 + 2), v0);
    v1 = dcc_load_16_aligned((r2 + 4));
    dcc_store_16_aligned((r1 + 4), v1);
    v2 = *(r2 + 6);
    *(r1 + 6) = v2;
    memcpy((r1 + 7), (r2 + 7), 17);
    if (!(r5 == 1u)) goto arm;
    switch (v2) {
    case 5u: case 7u: goto arm_2;
    case 0u: case 1u: case 2u: case 3u: case 4u: case 6u: case 8u: goto arm;
    default: goto noarm;
    }
noarm:;
    DCC_UNREACHABLE();
arm_2:;
    r3 = dcc_load_16_aligned((r1 + 8));
    r1_2 = r3;
    v4 = a0 + (ptrdiff_t)r1_2;
    r20 = *(v4 + 47);
    dcc_c_possible_loco_PossibleLocoProgrammable_apply_packet(a0, r1);
    r20_2 = *(v4 + 47);
    r28 = r20_2 != r20;
    it = r28;
    it_2 = r28 ? r3 : 0u;
    r0 = it_2;
    r0_2 = it;
    goto dcc_track_main_track_apply;
arm:;
    dcc_c_possible_loco_PossibleLocoProgrammable_apply_packet(a0, r1);
    r0 = 0u;
    r0_2 = 0u;
dcc_track_main_track_apply:;
    r37 = dcc_made_8_16(0u, 0u);
    r37.f0 = r0_2;
    r37_2 = r37;
    r37_2.f1 = r0;
    return r37_2;
}

/* dcc_c::possible_loco::PossibleLocoProgrammable::apply_packet */
static void dcc_c_possible_loco_PossibleLocoProgrammable_apply_packet(unsigned char *a0, unsigned char *a1) {
    struct dcc_wide r9_2, r9_3, r3_5, r3_6, it_4, r1_2, r1_3, r42, r45_2, r48, r1_4, r57_2, r1_5, r66_2, r69_3,
        r1_6, r17_4, r1_7, r26_4, r17_5, r21_3, r23, r7_3, r9_4, r11_13, r2_3, it_6, r1_8, r17_6, r1_9, r26_5,
        r17_7, r21_4, r23_3, r81_2;
    uint16_t r5_8, r7, v9, r1, r616, r63_2;
    uint64_t r0_7, r13, r21, v8, r17_3, v21, r21_2, r7_2, v23, r13_3, r7_4, r10;
    uint8_t common, r5_7, r26_2, it, it_2, it_3, v18, r0, r0_2, r0_3, r0_4, r0_5, r0_6, r8, r15, r11, spec, r11_2,
        r5, r11_3, r5_2, r11_4, r5_3, r11_5, r5_4, r11_6, r5_5, r63, r69, r77, r83, r89, r97, r103, r109, r117,
        r123, r129, r137, r143, r149, r157, r163, r169, r177, r183, r38, r45, r57, r69_2, r81, r88, v0, v1, v2, v3,
        v4, r17, r20, r22, r13_2, r17_2, r19, r25, r27, r33, v6, v7, r49, r30, r36, r41, r47, r5_6, r26, r36_2,
        or_2, r16, r66, v11, r78, or_3, r25_2, r2_2, r3, r3_2, r3_3, r12, v13, r15_2, r11_7, spec_2, r11_8, r5_9,
        r11_9, r5_10, r11_10, r5_11, r11_11, r5_12, r11_12, r5_13, trunc, r52, r9, r3_4, spec_3, switch_2, switch_3,
        r27_2, spec_4, r36_3, r27_3, r36_4, v19, trunc_2, or_4, v20, sext, switch_5, trunc_3, v22, or_5, switch_6,
        it_5, r61, r4_2, r23_2;
    unsigned char *r26_3, *switch_4;
    uint64_t place_0[2];
    unsigned char *const r2 = (unsigned char *)place_0;
    uint16_t place_1[6];
    unsigned char *const r4 = (unsigned char *)place_1;
    memset(DCC_ALIGNED(r2), 0u, 16);
    dcc_packet_packet_Packet_frame(r2, a1);
    r0 = *r2;
    r0_2 = *(r2 + 1);
    r0_3 = *(r2 + 2);
    r0_4 = *(r2 + 3);
    r0_5 = *(r2 + 4);
    r0_6 = *(r2 + 5);
    r0_7 = dcc_load_64_aligned((r2 + 8));
    r8 = *(a0 + 6);
    if (r8 == 0u) goto then;
    r15 = (uint8_t)(r0_7);
    r11 = r0_7 == UINT64_C(0);
    spec = r11 ? 0u : r0;
    r11_2 = r0_7 > UINT64_C(1);
    r5 = r11_2 ? r0_2 : 0u;
    r11_3 = r0_7 > UINT64_C(2);
    r5_2 = r11_3 ? r0_3 : 0u;
    r11_4 = r0_7 > UINT64_C(3);
    r5_3 = r11_4 ? r0_4 : 0u;
    r11_5 = r0_7 > UINT64_C(4);
    r5_4 = r11_5 ? r0_5 : 0u;
    r11_6 = r0_7 > UINT64_C(5);
    r5_5 = r11_6 ? r0_6 : 0u;
    r63 = r8 == r15;
    r69 = *(a0 + 7);
    r77 = r69 == spec;
    r83 = r63 & r77;
    r89 = *(a0 + 8);
    r97 = r89 == r5;
    r103 = r83 & r97;
    r109 = *(a0 + 9);
    r117 = r109 == r5_2;
    r123 = r103 & r117;
    r129 = *(a0 + 10);
    r137 = r129 == r5_3;
    r143 = r123 & r137;
    r149 = *(a0 + 11);
    r157 = r149 == r5_4;
    r163 = r143 & r157;
    r169 = *(a0 + 12);
    r177 = r169 == r5_5;
    r183 = r163 & r177;
    if (!(r183)) goto dcc_c_loco_numbers_has_pending;
    (void)dcc_c_loco_apply_pending(a0, r2, r0_7);
    goto dcc_c_loco_apply;
then:;
    r38 = *(a0 + 7);
    r45 = *(a0 + 8);
    r57 = *(a0 + 9);
    r69_2 = *(a0 + 10);
    r81 = *(a0 + 11);
    r88 = *(a0 + 12);
    v0 = r45 | r38;
    v1 = v0 | r57;
    v2 = v1 | r69_2;
    v3 = v2 | r81;
    v4 = v3 | r88;
    if (v4 == 0u) goto join;
    goto dcc_c_loco_apply;
dcc_c_loco_numbers_has_pending:;
    r17 = dcc_c_loco_numbers_has_pending_write(a0);
    if (!(r17)) goto dcc_c_loco_apply;
join:;
    r13 = dcc_load_64_aligned((a0 + 24));
    r21 = dcc_load_64_aligned((a0 + 32));
    r20 = *(a0 + 1);
    r22 = *(a0 + 2);
    if (!(r20 < 2u)) goto join_2;
    r13_2 = r22 == 0u;
    common = r13_2;
    goto dcc_c_loco_numbers_are_possible;
join_2:;
    r17_2 = r20 == 14u;
    r19 = r20 == 28u;
    r25 = r17_2 | r19;
    r27 = r20 == 126u;
    r33 = r27 | r25;
    v6 = (uint8_t)(r22 + 255u);
    v7 = v6 < r20;
    r49 = r33 & v7;
    common = r49;
dcc_c_loco_numbers_are_possible:;
    r30 = r13 < UINT64_C(32);
    r36 = r30 & common;
    v8 = r21 & UINT64_C(1);
    r41 = v8 == UINT64_C(0);
    r47 = r41 & r36;
    if (!(r47)) goto dcc_c_loco_apply;
    r5_6 = *a0;
    r7 = dcc_load_16_aligned((a0 + 4));
    switch (r5_6) {
    case 0u: goto arm;
    case 1u: goto arm_2;
    case 2u: goto arm_3;
    default: goto dcc_c_loco_apply;
    }
arm:;
    r26 = r7 == 0u;
    r36_2 = r0 == 0u;
    or_2 = r26 ? r36_2 : 0u;
    if (or_2) { r26_2 = 0u; goto join_3; }
    goto dcc_c_loco_apply;
arm_2:;
    r16 = (uint8_t)r7;
    v9 = (uint16_t)(r7 + 65535u);
    if (v9 < 127u) { r5_7 = r16; r5_8 = 0u; goto arm_4; }
    goto dcc_c_loco_apply;
arm_3:;
    if (!(r7 < 10240u)) goto dcc_c_loco_apply;
    r5_7 = 0u;
    r5_8 = r7;
arm_4:;
    if (r0 == 0u) { r26_2 = 0u; goto join_3; }
    if (r5_6 == 2u) goto arm_5;
    if (r0 == r5_7) { r26_2 = r0; goto join_3; }
    goto dcc_c_loco_apply;
arm_5:;
    r1 = r0;
    r616 = r5_8 >> 8u;
    r63_2 = r616 | 192u;
    r66 = r63_2 == r1;
    v11 = (uint8_t)(r5_8);
    r78 = r0_2 == v11;
    or_3 = r66 & r78;
    if (!(or_3)) goto dcc_c_loco_apply;
    r26_2 = r0;
join_3:;
    memset(r4, 0u, 12);
    r17_3 = (uint64_t)(r0_7 + UINT64_C(18446744073709551615));
    dcc_packet_from_frame_read_loco(r4, r2, r17_3);
    r25_2 = *r4;
    if (!(r25_2 == 1u)) goto dcc_packet_frame_laws_each_frame_is_a_packet;
    r2_2 = *(r4 + 2);
    r3 = *(r4 + 6);
    r3_2 = *(r4 + 7);
    r3_3 = *(r4 + 8);
    r12 = *(a0 + 76);
    v13 = r12 >> 1u;
    switch (r3) {
    case 5u: case 7u: goto dcc_regs_writes_is_own_write;
    case 0u: case 1u: case 2u: case 3u: case 4u: case 6u: case 8u: goto else_2;
    default: goto noarm;
    }
noarm:;
    DCC_UNREACHABLE();
dcc_regs_writes_is_own_write:;
    if (r2_2 == 0u) goto else_2;
    r15_2 = (uint8_t)(r0_7);
    r11_7 = r0_7 == UINT64_C(0);
    spec_2 = r11_7 ? 0u : r26_2;
    r11_8 = r0_7 > UINT64_C(1);
    r5_9 = r11_8 ? r0_2 : 0u;
    r11_9 = r0_7 > UINT64_C(2);
    r5_10 = r11_9 ? r0_3 : 0u;
    r11_10 = r0_7 > UINT64_C(3);
    r5_11 = r11_10 ? r0_4 : 0u;
    r11_11 = r0_7 > UINT64_C(4);
    r5_12 = r11_11 ? r0_5 : 0u;
    r11_12 = r0_7 > UINT64_C(5);
    r5_13 = r11_12 ? r0_6 : 0u;
    *(a0 + 6) = r15_2;
    *(a0 + 7) = spec_2;
    *(a0 + 8) = r5_9;
    *(a0 + 9) = r5_10;
    *(a0 + 10) = r5_11;
    *(a0 + 11) = r5_12;
    *(a0 + 12) = r5_13;
    goto arm_6;
else_2:;
    memset((a0 + 6), 0u, 7);
arm_6:;
    switch (r3) {
    case 0u: goto arm_7;
    case 1u: goto arm_8;
    case 2u: goto arm_9;
    case 3u: case 4u: case 5u: case 6u: case 7u: case 8u: goto arm_10;
    default: goto noarm_2;
    }
arm_8:;
    if (!(r2_2 == 0u)) goto arm_11;
    if (r3_3 < 2u) { it = 0u; goto arm_12; }
    goto dcc_regs_speeds_speed_set;
arm_11:;
    trunc = (uint8_t)((v13) & 1u);
    if (!(trunc)) goto arm_13;
    if (r3_3 < 2u) { it = 0u; goto arm_12; }
    goto arm_14;
arm_13:;
    r52 = r3_3 >> 1u;
    switch (r52) {
    case 0u: it = r52; goto arm_12;
    case 1u: goto arm_15;
    default: goto arm_16;
    }
arm_16:;
    r9 = (uint8_t)(r52 + 255u);
    it_2 = 14u;
    it_3 = r9;
    goto it;
arm_9:;
    switch (r3_3) {
    case 0u: it_2 = r3_3; it_3 = r3_3; goto it;
    case 1u: goto arm_17;
    default: goto arm_18;
    }
arm_18:;
    r3_4 = (uint8_t)(r3_3 + 255u);
    it_2 = 126u;
    it_3 = r3_4;
    goto it;
noarm_2:;
    DCC_UNREACHABLE();
dcc_regs_speeds_speed_set:;
    if (r3_3 < 4u) goto arm_15;
    goto arm_19;
arm_14:;
    spec_3 = dcc_usub_sat_8(r3_3, 3u);
    if (r3_3 > 3u) { it_2 = 28u; it_3 = spec_3; goto it; }
arm_15:;
    it = 1u;
    goto arm_12;
arm_17:;
    it_2 = r3_3;
    it_3 = 0u;
    goto it;
arm_7:;
    *(a0 + 1) = 0u;
    *(a0 + 2) = 0u;
    *(a0 + 3) = 1u;
    r9_2 = dcc_wide_of(UINT64_C(31), UINT64_C(18446744073709551615));
    r9_3 = dcc_wide_of(UINT64_C(0), UINT64_C(0));
    goto dcc_regs_masked_Masked_over;
arm_12:;
    *(a0 + 1) = it;
    *(a0 + 2) = 0u;
    if (!(r2_2 == 0u)) goto v16;
arm_19:;
    switch_2 = r3_3 & 253u;
    switch_3 = switch_2 == 0u;
    r27_2 = *(a0 + 3);
    spec_4 = switch_3 ? r3_2 : r27_2;
    r36_3 = spec_4 & 1u;
    *(a0 + 3) = r36_3;
    goto dcc_c_loco_hear;
arm_10:;
    r27_3 = *(a0 + 3);
    r26_3 = (a0 + 3);
    v18 = r27_3;
    goto v17;
it:;
    *(a0 + 1) = it_2;
    *(a0 + 2) = it_3;
v16:;
    r26_3 = (a0 + 3);
    v18 = r3_2;
v17:;
    r36_4 = v18 & 1u;
    *r26_3 = r36_4;
    switch (r3) {
    case 3u: goto switch_2;
    case 1u: goto arm_20;
    case 4u: goto arm_21;
    case 2u: case 5u: case 6u: case 7u: case 8u: goto dcc_c_loco_hear;
    default: goto noarm_3;
    }
arm_20:;
    v19 = r2_2 == 0u;
    trunc_2 = (uint8_t)((v13) & 1u);
    or_4 = v19 | trunc_2;
    if (or_4) goto dcc_c_loco_hear;
    v20 = r3_3 & 1u;
    sext = (uint8_t)(0u - v20);
    it_4 = dcc_wide_sext(sext, UINT64_C(128));
    r9_2 = dcc_wide_of(UINT64_C(0), UINT64_C(1));
    r9_3 = it_4;
    goto dcc_regs_masked_Masked_over;
switch_2:;
    v21 = r3_2;
    switch_4 = ((unsigned char *)switch_table_dcc_loco_apply) + (ptrdiff_t)v21;
    switch_5 = *switch_4;
    trunc_3 = (uint8_t)((v13) & 1u);
    v22 = r3_2 == 0u;
    or_5 = v22 & trunc_3;
    r1_2 = dcc_wide_of(0, or_5);
    switch_6 = r3_2 < 3u;
    it_5 = switch_6 ? 15u : 255u;
    r1_3 = dcc_wide_of(0, it_5);
    r42 = dcc_wide_of(0, switch_5);
    r45_2 = dcc_wide_shl(r1_3, (unsigned)r42.low);
    r48 = dcc_wide_or(r45_2, r1_2);
    r1_4 = dcc_wide_of(0, r3_3);
    r57_2 = dcc_wide_shl(r1_4, (unsigned)r42.low);
    r61 = r3_3 >> 4u;
    r1_5 = dcc_wide_of(0, r61);
    r66_2 = dcc_wide_and(r1_2, r1_5);
    r69_3 = dcc_wide_or(r57_2, r66_2);
    r9_2 = r48;
    r9_3 = r69_3;
    goto dcc_regs_masked_Masked_over;
noarm_3:;
    DCC_UNREACHABLE();
dcc_regs_masked_Masked_over:;
    r1_6 = dcc_wide_of(0, r13);
    r17_4 = dcc_wide_shl(r1_6, 64u);
    r21_2 = dcc_load_64_aligned((a0 + 16));
    r1_7 = dcc_wide_of(0, r21_2);
    r26_4 = dcc_wide_or(r17_4, r1_7);
    r17_5 = dcc_wide_xor(r26_4, r9_3);
    r21_3 = dcc_wide_and(r17_5, r9_2);
    r23 = dcc_wide_xor(r21_3, r26_4);
    r7_2 = (uint64_t)(r23.low);
    r7_3 = dcc_wide_lshr(r23, 64u);
    v23 = (uint64_t)(r7_3.low);
    dcc_store_64_aligned((a0 + 16), r7_2);
    dcc_store_64_aligned((a0 + 24), v23);
    switch (r3) {
    case 0u: r3_5 = dcc_wide_of(UINT64_C(0), UINT64_C(0)); r3_6 = dcc_wide_of(UINT64_C(18446744073709551615), UINT64_C(18446744073709551614)); goto dcc_regs_masked_Masked_over_2;
    case 4u: goto arm_21;
    case 1u: case 2u: case 3u: case 5u: case 6u: case 7u: case 8u: goto dcc_c_loco_hear;
    default: goto noarm_4;
    }
arm_21:;
    r4_2 = r3_2 == 0u;
    r9_4 = dcc_wide_of(0, r3_2);
    r11_13 = dcc_wide_shl(dcc_wide_of(UINT64_C(0), UINT64_C(1)), (unsigned)r9_4.low);
    r2_3 = r4_2 ? dcc_wide_of(UINT64_C(18446744073709551615), UINT64_C(18446744073709551614)) : r11_13;
    r23_2 = r3_3;
    it_6 = dcc_wide_sext(r23_2, UINT64_C(1));
    r3_5 = it_6;
    r3_6 = r2_3;
    goto dcc_regs_masked_Masked_over_2;
noarm_4:;
    DCC_UNREACHABLE();
dcc_regs_masked_Masked_over_2:;
    r13_3 = dcc_load_64_aligned((a0 + 40));
    r1_8 = dcc_wide_of(0, r13_3);
    r17_6 = dcc_wide_shl(r1_8, 64u);
    r1_9 = dcc_wide_of(0, r21);
    r26_5 = dcc_wide_or(r17_6, r1_9);
    r17_7 = dcc_wide_xor(r26_5, r3_5);
    r21_4 = dcc_wide_and(r17_7, r3_6);
    r23_3 = dcc_wide_xor(r21_4, r26_5);
    r7_4 = (uint64_t)(r23_3.low);
    r81_2 = dcc_wide_lshr(r23_3, 64u);
    r10 = (uint64_t)(r81_2.low);
    dcc_store_64_aligned((a0 + 32), r7_4);
    dcc_store_64_aligned((a0 + 40), r10);
    goto dcc_c_loco_hear;
dcc_packet_frame_laws_each_frame_is_a_packet:;
    memset((a0 + 6), 0u, 7);
dcc_c_loco_hear:;
dcc_c_loco_apply:;
    return;
}

/* dcc_c::loco::apply_pending */
static DCC_NOINLINE uint8_t dcc_c_loco_apply_pending(unsigned char *a0, unsigned char *a1, uint64_t a2) {
    uint16_t r5_3, r7, v3, r5_4, r1, r616, r63, v11, v13;
    uint64_t r13_2, r21, v2, r51, r1_2, r1_3;
    uint8_t common, common_2, v4, r5_2, r3, common_3, r20, r22, r13_3, r17, r19, r25, r27, r33, v0, v1, r49, r30,
        r36, r41, r47, r5, r16, r59, v6, v7, v8, r4, v9, r26, r31, r52, v10, r78, r101, r42, r8, r20_2, r13_4, r15,
        r17_2, r4_2;
    unsigned char *v12, *v14;
    uint16_t place_0[6];
    unsigned char *const r13 = (unsigned char *)place_0;
    memset(r13, 0u, 12);
    r13_2 = dcc_load_64_aligned((a0 + 24));
    r21 = dcc_load_64_aligned((a0 + 32));
    r20 = *(a0 + 1);
    r22 = *(a0 + 2);
    if (!(r20 < 2u)) goto join;
    r13_3 = r22 == 0u;
    common = r13_3;
    goto dcc_c_loco_numbers_has_speed;
join:;
    r17 = r20 == 14u;
    r19 = r20 == 28u;
    r25 = r17 | r19;
    r27 = r20 == 126u;
    r33 = r27 | r25;
    v0 = (uint8_t)(r22 + 255u);
    v1 = v0 < r20;
    r49 = r33 & v1;
    common = r49;
dcc_c_loco_numbers_has_speed:;
    r30 = r13_2 < UINT64_C(32);
    r36 = r30 & common;
    v2 = r21 & UINT64_C(1);
    r41 = v2 == UINT64_C(0);
    r47 = r41 & r36;
    if (r47) goto join_2;
    common_2 = 0u;
common:;
    return common_2;
join_2:;
    r5 = *a0;
    r7 = dcc_load_16_aligned((a0 + 4));
    switch (r5) {
    case 0u: goto arm;
    case 1u: goto arm_2;
    case 2u: goto arm_3;
    default: common_2 = 0u; goto common;
    }
arm:;
    if (r7 == 0u) { v4 = 1u; r5_2 = 0u; r5_3 = 0u; goto arm_4; }
    common_2 = 0u;
    goto common;
arm_2:;
    r16 = (uint8_t)r7;
    v3 = (uint16_t)(r7 + 65535u);
    if (v3 < 127u) { v4 = 0u; r5_2 = r16; r5_3 = 0u; goto arm_4; }
    common_2 = 0u;
    goto common;
arm_3:;
    if (!(r7 < 10240u)) { common_2 = 0u; goto common; }
    v4 = 0u;
    r5_2 = 0u;
    r5_3 = r7;
arm_4:;
    r51 = (uint64_t)(a2 + UINT64_C(18446744073709551615));
    dcc_packet_from_frame_read_loco(r13, a1, r51);
    r59 = *r13;
    if (!(r59 == 1u)) { common_2 = 0u; goto common; }
    v6 = *(r13 + 6);
    r5_4 = dcc_load_16_aligned((r13 + 8));
    v7 = *(r13 + 10);
    v8 = *(r13 + 11);
    switch (v6) {
    case 5u: case 7u: goto then;
    case 0u: case 1u: case 2u: case 3u: case 4u: case 6u: case 8u: r3 = 0u; goto dcc_regs_writes_is_own_write;
    default: goto noarm;
    }
noarm:;
    DCC_UNREACHABLE();
then:;
    r4 = *(r13 + 2);
    v9 = r4 != 0u;
    r3 = v9;
dcc_regs_writes_is_own_write:;
    r26 = *a1;
    r31 = *(a1 + 1);
    if (r26 == 0u) { common_3 = 1u; goto dcc_regs_hears_frame_loco_hears_frame; }
    if (v4) { common_2 = 0u; goto common; }
    switch (r5) {
    case 0u: common_2 = 0u; goto common;
    case 1u: goto arm_5;
    case 2u: goto arm_6;
    default: goto default_2;
    }
arm_5:;
    r52 = r26 == r5_2;
    common_3 = r52;
    goto dcc_regs_hears_frame_loco_hears_frame;
arm_6:;
    r1 = r26;
    r616 = r5_3 >> 8u;
    r63 = r616 | 192u;
    if (!(r63 == r1)) { common_2 = 0u; goto common; }
    v10 = (uint8_t)(r5_3);
    r78 = r31 == v10;
    common_3 = r78;
    goto dcc_regs_hears_frame_loco_hears_frame;
default_2:;
    DCC_UNREACHABLE();
dcc_regs_hears_frame_loco_hears_frame:;
    r101 = r3 & common_3;
    if (!(r101)) { common_2 = 0u; goto common; }
    switch (v6) {
    case 5u: goto arm_7;
    case 7u: goto arm_8;
    case 0u: case 1u: case 2u: case 3u: case 4u: case 6u: case 8u: common_2 = 1u; goto common;
    default: goto noarm_2;
    }
arm_7:;
    v11 = (uint16_t)(r5_4 + 65527u);
    if (!(v11 < 65534u)) { common_2 = 1u; goto common; }
    r1_2 = r5_4;
    v12 = (a0 + 48) + (ptrdiff_t)r1_2;
    *(v12 - 1) = v7;
    common_2 = 1u;
    goto common;
arm_8:;
    v13 = (uint16_t)(r5_4 + 65527u);
    if (!(v13 < 65534u)) { common_2 = 1u; goto common; }
    r42 = v8;
    r8 = (uint8_t)((1u * 1u) << (v7 & 7u));
    r1_3 = r5_4;
    v14 = (a0 + 48) + (ptrdiff_t)r1_3;
    r20_2 = *(v14 - 1);
    r13_4 = r20_2 | r8;
    r15 = r8 ^ 255u;
    r17_2 = r20_2 & r15;
    r4_2 = r42 ? r13_4 : r17_2;
    *(v14 - 1) = r4_2;
    common_2 = 1u;
    goto common;
noarm_2:;
    DCC_UNREACHABLE();
}

/* dcc_c::loco_numbers::has_pending_write */
static DCC_NOINLINE uint8_t dcc_c_loco_numbers_has_pending_write(unsigned char *a0) {
    uint16_t r5_3, r7, v0, r1, r616, r63;
    uint64_t r4, a1, r23, r10;
    uint8_t v1, r5_2, r6, r26, common, r10_2, r129_2, r5_6, r149, r129_3, r169, r3, r5, r16, r5_4, v2, r2, r4_3,
        r34, r41, cond, or_2, r31, r52, v3, r78, r25, r4_4, r3_2, v5, r40, r129, v6, r18, r169_2, v7, r149_2, v8,
        r63_2, r143, r163, r183, r52_2;
    unsigned char *r4_2;
    uint16_t place_0[6];
    unsigned char *const r5_5 = (unsigned char *)place_0;
    r5 = *a0;
    r7 = dcc_load_16_aligned((a0 + 4));
    switch (r5) {
    case 0u: goto arm;
    case 1u: goto arm_2;
    case 2u: goto arm_3;
    default: r3 = 0u; goto join;
    }
arm:;
    if (r7 == 0u) { v1 = 1u; r5_2 = 0u; r5_3 = 0u; goto arm_4; }
    r3 = 0u;
    goto join;
arm_2:;
    r16 = (uint8_t)r7;
    v0 = (uint16_t)(r7 + 65535u);
    if (v0 < 127u) { v1 = 0u; r5_2 = r16; r5_3 = 0u; goto arm_4; }
    r3 = 0u;
    goto join;
arm_3:;
    if (!(r7 < 10240u)) { r3 = 0u; goto join; }
    v1 = 0u;
    r5_2 = 0u;
    r5_3 = r7;
arm_4:;
    r5_4 = *(a0 + 6);
    v2 = dcc_umin_8(r5_4, 6u);
    a1 = v2;
    if (r5_4 < 3u) { r3 = 0u; goto join; }
    r6 = 0u;
    r4 = a1;
    r4_2 = (a0 + 7);
arm_5:;
    r23 = (uint64_t)(r4 + UINT64_C(18446744073709551615));
    r2 = *r4_2;
    r4_3 = r2 ^ r6;
    if (!(r23 == UINT64_C(0))) { r6 = r4_3; r4 = r23; r4_2 = (r4_2 + 1); goto arm_5; }
    if (!(r2 == r6)) { r3 = 0u; goto join; }
    r10 = (uint64_t)(a1 + UINT64_C(18446744073709551615));
    r34 = r10 == UINT64_C(2);
    r41 = *(a0 + 7);
    cond = r41 == 255u;
    or_2 = r34 ? cond : 0u;
    r31 = *(a0 + 8);
    if (or_2) { r26 = 255u; goto join_2; }
    if (r41 == 0u) { common = 1u; goto dcc_regs_hears_frame_loco_hears_frame; }
    r26 = r41;
join_2:;
    if (v1) { common = 0u; goto dcc_regs_hears_frame_loco_hears_frame; }
    switch (r5) {
    case 0u: common = 0u; goto dcc_regs_hears_frame_loco_hears_frame;
    case 1u: goto arm_6;
    case 2u: goto arm_7;
    default: goto default_2;
    }
arm_6:;
    r52 = r26 == r5_2;
    common = r52;
    goto dcc_regs_hears_frame_loco_hears_frame;
arm_7:;
    r1 = r26;
    r616 = r5_3 >> 8u;
    r63 = r616 | 192u;
    if (!(r63 == r1)) { common = 0u; goto dcc_regs_hears_frame_loco_hears_frame; }
    v3 = (uint8_t)(r5_3);
    r78 = r31 == v3;
    common = r78;
    goto dcc_regs_hears_frame_loco_hears_frame;
default_2:;
    DCC_UNREACHABLE();
dcc_regs_hears_frame_loco_hears_frame:;
    memset(r5_5, 0u, 12);
    dcc_packet_from_frame_read_loco(r5_5, (a0 + 7), r10);
    r25 = *r5_5;
    if (!(r25 == 1u)) { r10_2 = 0u; goto dcc_c_loco_numbers_is_write; }
    r4_4 = *(r5_5 + 6);
    switch (r4_4) {
    case 5u: case 7u: goto then;
    case 0u: case 1u: case 2u: case 3u: case 4u: case 6u: case 8u: r10_2 = 0u; goto dcc_c_loco_numbers_is_write;
    default: goto noarm;
    }
noarm:;
    DCC_UNREACHABLE();
then:;
    r3_2 = *(r5_5 + 2);
    v5 = r3_2 != 0u;
    r10_2 = v5;
dcc_c_loco_numbers_is_write:;
    r40 = common & r10_2;
    if (!(r5_4 == 3u)) goto dcc_c_frame_byte_or_zero;
    r129 = *(a0 + 10);
    v6 = r129 == 0u;
    r129_2 = v6;
    r5_6 = 0u;
    goto dcc_c_frame_byte_or_zero_2;
dcc_c_frame_byte_or_zero:;
    if (!(r5_4 > 4u)) { r129_2 = 1u; r5_6 = 0u; goto dcc_c_frame_byte_or_zero_2; }
    r18 = *(a0 + 11);
    if (!(r5_4 == 5u)) { r149 = 1u; r129_3 = 1u; r169 = 1u; goto dcc_c_frame_byte_or_zero_3; }
    r129_2 = 1u;
    r5_6 = r18;
dcc_c_frame_byte_or_zero_2:;
    r169_2 = *(a0 + 12);
    v7 = r169_2 == 0u;
    r149_2 = *(a0 + 11);
    v8 = r149_2 == r5_6;
    r149 = v8;
    r129_3 = r129_2;
    r169 = v7;
dcc_c_frame_byte_or_zero_3:;
    r63_2 = r5_4 < 7u;
    r143 = r63_2 & r129_3;
    r163 = r143 & r149;
    r183 = r169 & r163;
    r52_2 = r40 & r183;
    r3 = r52_2;
join:;
    return r3;
}

/* dcc_c::station_ring::DccRingPacketRing::front */
static void dcc_c_station_ring_DccRingPacketRing_front(unsigned char *a0, unsigned char *a1) {
    uint16_t r43, r0, r0_2, r43_2, r0_4, r0_5;
    uint64_t it, r1, r35;
    uint8_t r0_3, r10, r31, r42, r0_6;
    unsigned char *r38;
    uint64_t place_0[3];
    unsigned char *const r3 = (unsigned char *)place_0;
    memset(DCC_ALIGNED(r3), 0u, 24);
    r10 = *(a1 + 897);
    if (r10 == 0u) goto then;
    goto join;
common:;
    dcc_store_64(a0, it);
    dcc_store_16((a0 + 8), r43);
    dcc_store_16((a0 + 10), r0);
    dcc_store_16((a0 + 12), r0_2);
    *(a0 + 14) = r0_3;
    return;
then:;
    memset((a0 + 15), 0u, 17);
    it = UINT64_C(0);
    r43 = 0u;
    r0 = 0u;
    r0_2 = 0u;
    r0_3 = 0u;
    goto common;
join:;
    r31 = *(a1 + 896);
    r1 = r31;
    r35 = (uint64_t)(1u * r1 * UINT64_C(7));
    r38 = a1 + (ptrdiff_t)r35;
    dcc_c_kept_packet_KeptPacket_packet(r3, r38);
    r42 = *r3;
    r43_2 = r42;
    r0_4 = dcc_load_16_aligned((r3 + 2));
    r0_5 = dcc_load_16_aligned((r3 + 4));
    r0_6 = *(r3 + 6);
    memcpy((a0 + 15), (r3 + 7), 17);
    it = UINT64_C(1);
    r43 = r43_2;
    r0 = r0_4;
    r0_2 = r0_5;
    r0_3 = r0_6;
    goto common;
}

/* dcc_c::kept_packet::KeptPacket::packet */
static void dcc_c_kept_packet_KeptPacket_packet(unsigned char *a0, unsigned char *a1) {
    uint16_t r37, r0, r0_2;
    uint64_t a1_2;
    uint8_t r9, v0, r33, r36, r0_3;
    uint64_t place_0[3];
    unsigned char *const r4 = (unsigned char *)place_0;
    uint64_t place_1[3];
    unsigned char *const r7 = (unsigned char *)place_1;
    memset(DCC_ALIGNED(r4), 0u, 24);
    r9 = *a1;
    if (r9 == 0u) goto then;
    goto join;
common:;
    return;
then:;
    memset(a0, 0u, 24);
    goto common;
join:;
    v0 = dcc_umin_8(r9, 6u);
    a1_2 = v0;
    dcc_wire_frame_Frame_of(r4, (a1 + 1), a1_2);
    r33 = *r4;
    if (!(r33 == 0u)) goto arm;
    dcc_packet_packet_Packet_read(r7, (r4 + 8));
    r36 = *r7;
    r37 = r36;
    r0 = dcc_load_16_aligned((r7 + 2));
    r0_2 = dcc_load_16_aligned((r7 + 4));
    r0_3 = *(r7 + 6);
    dcc_store_16(a0, r37);
    dcc_store_16((a0 + 2), r0);
    dcc_store_16((a0 + 4), r0_2);
    *(a0 + 6) = r0_3;
    memcpy((a0 + 7), (r7 + 7), 17);
    goto common;
arm:;
    DCC_TRAP();
    DCC_UNREACHABLE();
}

/* dcc_c::kept_packet::KeptPacket::is_displaced_by_instruction */
static DCC_NOINLINE uint8_t dcc_c_kept_packet_KeptPacket_is_displaced_by_instruction(unsigned char *a0, unsigned char *a1) {
    uint16_t v2, v4, v6, r40_2, r1_9;
    uint64_t a1_2, r22;
    uint8_t common, r0, r3, r5, v0, r27, v3, v5, v7, v8, v9, v10, r5_2, switch_2, or_2, r14, r5_3, r12, r16, r17,
        r32, r33, r1, r40, r1_2, r18, r19, v13, spec, narrow, r5_4, r293, r1_3, r266, r36, v14, v15, v16, r1_4, r59,
        trunc, v17, v18, r1_5, r33_2, r1_6, r266_2, r36_2, v19, r1_7, r59_2, v20, r48, r26, r11, r16_2, r17_2,
        r32_2, r33_3, r1_8, r40_3, r20, r45, v25, r55, r47;
    uint64_t place_0[3];
    unsigned char *const r7 = (unsigned char *)place_0;
    uint16_t place_1[6];
    unsigned char *const r8 = (unsigned char *)place_1;
    uint16_t place_2[3];
    unsigned char *const r4 = (unsigned char *)place_2;
    memset(r8, 0u, 12);
    r5 = *a0;
    if (r5 == 0u) goto join;
    v0 = dcc_umin_8(r5, 6u);
    a1_2 = v0;
    r22 = (uint64_t)(a1_2 + UINT64_C(18446744073709551615));
    dcc_packet_from_frame_read_loco(r8, (a0 + 1), r22);
    r27 = *r8;
    if (r27 == 1u) goto arm;
    goto join;
common:;
    return common;
arm:;
    v2 = dcc_load_16_aligned((r8 + 2));
    v3 = (uint8_t)(v2);
    v4 = v2 >> 8u;
    v5 = (uint8_t)v4;
    v6 = dcc_load_16_aligned((r8 + 4));
    v7 = *(r8 + 6);
    *r4 = v7;
    memcpy((r4 + 1), (r8 + 7), 3);
    v8 = *(r8 + 10);
    *(r4 + 4) = v8;
    v9 = *(r8 + 11);
    *(r4 + 5) = v9;
    v10 = v3 != 0u;
    r5_2 = (uint8_t)(v7 + 255u);
    switch_2 = r5_2 < 3u;
    or_2 = v10 ? switch_2 : 0u;
    if (!(or_2)) goto arm_2;
    r14 = *a1;
    if (!(r14 == 1u)) { r0 = 1u; goto arm_3; }
    r5_3 = *(a1 + 2);
    if (!(r5_3 == 0u)) goto after;
    r12 = *(a1 + 6);
    switch (r12) {
    case 0u: goto arm_4;
    case 1u: goto arm_5;
    case 2u: goto arm_6;
    case 3u: goto arm_7;
    case 4u: case 5u: case 6u: case 7u: case 8u: r0 = 1u; goto arm_3;
    default: goto noarm;
    }
arm_4:;
    switch (v7) {
    case 1u: goto arm_8;
    case 2u: goto arm_9;
    case 3u: goto join_2;
    default: goto noarm_2;
    }
arm_8:;
    r16 = *(r4 + 1);
    r17 = r16;
    if (r17) goto join_2;
    r0 = 0u;
    goto arm_3;
arm_9:;
    r32 = *(r4 + 1);
    r33 = r32;
    if (!(r33)) { r0 = 0u; goto arm_3; }
join_2:;
    r1 = *(r4 + 2);
    r40 = r1 == 0u;
    r0 = r40;
    goto arm_3;
noarm_2:;
    DCC_UNREACHABLE();
arm_5:;
    r1_2 = *(a1 + 8);
    if (r1_2 > 3u) { r0 = 1u; goto arm_3; }
    r18 = *(a1 + 7);
    r19 = r18;
    v13 = r1_2 & 1u;
    spec = v13 == 0u;
    narrow = spec & r19;
    r5_4 = narrow;
    r293 = r1_2 >> 1u;
    switch (v7) {
    case 1u: goto join_3;
    case 2u: goto arm_10;
    case 3u: r0 = 1u; goto arm_3;
    default: goto noarm_3;
    }
join_3:;
    r1_3 = *(r4 + 2);
    r266 = r1_3 >> 1u;
    if (!(r266 == r293)) { r0 = 0u; goto arm_3; }
    r36 = *(r4 + 1);
    v14 = (uint8_t)((r1_2) & 1u);
    v15 = r36 == r5_4;
    v16 = v15 | v14;
    r0 = v16;
    goto arm_3;
arm_10:;
    r1_4 = *(r4 + 2);
    if (!(r1_4 == r293)) { r0 = 0u; goto arm_3; }
    r59 = *(r4 + 1);
    trunc = v13 != 0u;
    v17 = r59 == r5_4;
    v18 = trunc | v17;
    r0 = v18;
    goto arm_3;
noarm_3:;
    DCC_UNREACHABLE();
arm_6:;
    r1_5 = *(a1 + 8);
    r33_2 = *(a1 + 7);
    switch (v7) {
    case 1u: goto arm_11;
    case 2u: goto arm_12;
    case 3u: r0 = 1u; goto arm_3;
    default: goto noarm_4;
    }
arm_11:;
    if (!(r1_5 < 2u)) { r0 = 0u; goto arm_3; }
    r1_6 = *(r4 + 2);
    r266_2 = r1_6 >> 1u;
    if (!(r266_2 == r1_5)) { r0 = 0u; goto arm_3; }
    r36_2 = *(r4 + 1);
    v19 = r36_2 == r33_2;
    r0 = v19;
    goto arm_3;
arm_12:;
    r1_7 = *(r4 + 2);
    if (!(r1_7 == r1_5)) { r0 = 0u; goto arm_3; }
    r59_2 = *(r4 + 1);
    v20 = r59_2 == r33_2;
    r0 = v20;
    goto arm_3;
noarm_4:;
    DCC_UNREACHABLE();
arm_7:;
    r48 = dcc_station_left_is_left_by_group(0u, (a1 + 7), r4);
    r0 = r48;
    goto arm_3;
noarm:;
    DCC_UNREACHABLE();
after:;
    if (v3 == 2u) goto arm_13;
    if (r5_3 == 1u) goto dcc_packet_address_Address_is;
    r0 = 1u;
    goto arm_3;
arm_13:;
    if (!(r5_3 == 2u)) { r0 = 1u; goto arm_3; }
    r40_2 = dcc_load_16_aligned((a1 + 4));
    if (v6 == r40_2) goto then;
    r0 = 1u;
    goto arm_3;
dcc_packet_address_Address_is:;
    r26 = *(a1 + 3);
    if (!(r26 == v5)) { r0 = 1u; goto arm_3; }
then:;
    r11 = *(a1 + 6);
    switch (r11) {
    case 0u: goto arm_14;
    case 3u: goto arm_15;
    case 1u: case 2u: goto dcc_station_left_is_left;
    case 5u: case 7u: goto after_2;
    case 4u: case 6u: case 8u: r0 = 1u; goto arm_3;
    default: goto noarm_5;
    }
arm_14:;
    switch (v7) {
    case 1u: goto arm_16;
    case 2u: goto arm_17;
    case 3u: goto join_4;
    default: goto noarm_6;
    }
arm_16:;
    r16_2 = *(r4 + 1);
    r17_2 = r16_2;
    if (r17_2) goto join_4;
    r0 = 0u;
    goto arm_3;
arm_17:;
    r32_2 = *(r4 + 1);
    r33_3 = r32_2;
    if (!(r33_3)) { r0 = 0u; goto arm_3; }
join_4:;
    r1_8 = *(r4 + 2);
    r40_3 = r1_8 == 0u;
    r0 = r40_3;
    goto arm_3;
noarm_6:;
    DCC_UNREACHABLE();
arm_15:;
    r20 = dcc_station_left_is_left_by_group(1u, (a1 + 7), r4);
    r0 = r20;
    goto arm_3;
after_2:;
    r1_9 = dcc_load_16_aligned((a1 + 8));
    r45 = r1_9 != 29u;
    r0 = r45;
    goto arm_3;
noarm_5:;
    DCC_UNREACHABLE();
dcc_station_left_is_left:;
    if (!(v7 == 3u)) goto arm_2;
    r0 = 1u;
arm_3:;
    v25 = r0 ^ 1u;
    r3 = v25;
    goto dcc_station_entries_displaces_loco;
arm_2:;
    dcc_store_16_aligned(r7, 1u);
    dcc_store_16_aligned((r7 + 2), v2);
    dcc_store_16_aligned((r7 + 4), v6);
    *(r7 + 6) = v7;
    memcpy((r7 + 7), (r8 + 7), 3);
    *(r7 + 10) = v8;
    *(r7 + 11) = v9;
    memset(DCC_ALIGNED((r7 + 12)), 0u, 12);
    r55 = dcc_station_entries_displaces_by_registers(a1, r7);
    r3 = r55;
dcc_station_entries_displaces_loco:;
    common = r3;
    goto common;
join:;
    r47 = dcc_c_kept_packet_KeptPacket_is_displaced_as_read(a0, a1);
    common = r47;
    goto common;
}

/* dcc_station::left::is_left_by_group */
static uint8_t dcc_station_left_is_left_by_group(uint8_t a0, unsigned char *a1, unsigned char *a2) {
    uint64_t v1, v2;
    uint8_t r2, r11, r0, switch_3, r0_2, switch_5, r22, brmerge, r2_2, r2_3, r35;
    unsigned char *switch_2, *switch_4;
    r11 = *a2;
    if (!(r11 == 3u)) { r2 = 1u; goto join; }
    r0 = *a1;
    v1 = r0;
    switch_2 = ((unsigned char *)switch_table_dcc_loco_apply) + (ptrdiff_t)v1;
    switch_3 = *switch_2;
    r0_2 = *(a2 + 1);
    v2 = r0_2;
    switch_4 = ((unsigned char *)switch_table_dcc_loco_apply) + (ptrdiff_t)v2;
    switch_5 = *switch_4;
    r22 = switch_3 != switch_5;
    brmerge = a0 | r22;
    if (brmerge) { r2 = r22; goto join; }
    r2_2 = *(a1 + 1);
    r2_3 = *(a2 + 2);
    r35 = r2_2 == r2_3;
    r2 = r35;
join:;
    return r2;
}

/* dcc_station::entries::displaces_by_registers */
static uint8_t dcc_station_entries_displaces_by_registers(unsigned char *a0, unsigned char *a1) {
    struct dcc_8_16 r8_2, r13;
    uint16_t v3, v6, r15, r10, r1, v18, v21;
    uint8_t common, r5_3, r5, r8, v0, r9, v1, or_2, v2, v4, v5, v8, v9, r43, spec, v10, r29, spec_2, r9_2, v11, r14,
        v12, or_3, r26, r31, spec_3, r39, r6, r5_2, r10_2, r4_2, r6_2, r8_3, r9_3, v16, v17, v19, v20, r29_2, r43_2;
    uint16_t place_0[3];
    unsigned char *const r3_2 = (unsigned char *)place_0;
    unsigned char *const r3 = (unsigned char *)place_0;
    uint16_t place_1[3];
    unsigned char *const r4_3 = (unsigned char *)place_1;
    unsigned char *const r4 = (unsigned char *)place_1;
    r5 = dcc_packet_packet_Packet_is(a1, a0);
    if (!(r5)) goto join;
    common = 1u;
common:;
    return common;
join:;
    memset(r3, 0u, 6);
    memset(r4, 0u, 6);
    dcc_regs_heard_address_of(r3, a0);
    dcc_regs_heard_address_of(r4, a1);
    r8 = *r3;
    v0 = r8 == 1u;
    r9 = *r4;
    v1 = r9 == 1u;
    or_2 = v0 ? v1 : 0u;
    if (or_2) goto arm;
    goto else_2;
arm:;
    v2 = *(r3 + 3);
    v3 = dcc_load_16_aligned((r3 + 4));
    v4 = *(r4 + 2);
    v5 = *(r4 + 3);
    v6 = dcc_load_16_aligned((r4 + 4));
    if (v4 == 0u) goto dcc_regs_hearers_some_loco_hears;
    v8 = *(r3 + 2);
    switch (v8) {
    case 0u: goto dcc_regs_hearers_some_loco_hears;
    case 1u: goto dcc_regs_hearers_some_loco_hears_2;
    case 2u: goto arm_2;
    default: goto noarm;
    }
arm_2:;
    v9 = v4 == 2u;
    r43 = v6 == v3;
    spec = v9 ? r43 : 0u;
    if (spec) goto then;
    goto else_2;
noarm:;
    DCC_UNREACHABLE();
dcc_regs_hearers_some_loco_hears:;
    goto then;
dcc_regs_hearers_some_loco_hears_2:;
    v10 = v4 == 1u;
    r29 = v5 == v2;
    spec_2 = v10 ? r29 : 0u;
    if (spec_2) goto then;
else_2:;
    r8_2 = dcc_regs_hearers_board_number(a0);
    r9_2 = r8_2.f0;
    r13 = dcc_regs_hearers_board_number(a1);
    v11 = r9_2 == 1u;
    r14 = r13.f0;
    v12 = r14 == 1u;
    or_3 = v11 ? v12 : 0u;
    if (!(or_3)) goto join_2;
    r15 = r13.f1;
    r10 = r8_2.f1;
    r26 = r10 == r15;
    r31 = r10 == 511u;
    spec_3 = r31 | r26;
    r39 = r15 == 511u;
    r6 = r39 | spec_3;
    if (!(r6)) goto join_2;
then:;
    r5_2 = dcc_regs_conflicts_differ_in(1u, a0, a1);
    if (r5_2) { common = 1u; goto common; }
    r10_2 = dcc_regs_conflicts_differ_in(0u, a0, a1);
    if (r10_2) { common = 1u; goto common; }
join_2:;
    r4_2 = *a0;
    if (!(r4_2 == 1u)) { common = 0u; goto common; }
    r6_2 = *(a0 + 6);
    switch (r6_2) {
    case 5u: case 7u: goto dcc_station_commands_writes_cv29;
    case 0u: case 1u: case 2u: case 3u: case 4u: case 6u: case 8u: common = 0u; goto common;
    default: goto noarm_2;
    }
noarm_2:;
    DCC_UNREACHABLE();
dcc_station_commands_writes_cv29:;
    r1 = dcc_load_16_aligned((a0 + 8));
    if (!(r1 == 29u)) { common = 0u; goto common; }
    memset(r3_2, 0u, 6);
    memset(r4_3, 0u, 6);
    dcc_regs_heard_address_of(r3_2, a1);
    dcc_regs_heard_address_of(r4_3, a0);
    r8_3 = *r3_2;
    r9_3 = *r4_3;
    if (!(r8_3 == 1u)) goto arm_3;
    if (!(r9_3 == 1u)) goto after;
    v16 = *(r3_2 + 2);
    v17 = *(r3_2 + 3);
    v18 = dcc_load_16_aligned((r3_2 + 4));
    v19 = *(r4_3 + 2);
    v20 = *(r4_3 + 3);
    v21 = dcc_load_16_aligned((r4_3 + 4));
    switch (v16) {
    case 0u: goto arm_4;
    case 1u: goto arm_5;
    case 2u: goto arm_6;
    default: goto noarm_3;
    }
arm_4:;
    if (v19 == 0u) { r5_3 = 1u; goto dcc_station_entries_has_address_of; }
    goto after_2;
arm_5:;
    if (!(v19 == 1u)) goto after_2;
    r29_2 = v17 == v20;
    r5_3 = r29_2;
    goto dcc_station_entries_has_address_of;
arm_6:;
    if (!(v19 == 2u)) goto after_2;
    r43_2 = v18 == v21;
    r5_3 = r43_2;
    goto dcc_station_entries_has_address_of;
after_2:;
    r5_3 = 0u;
    goto dcc_station_entries_has_address_of;
noarm_3:;
    DCC_UNREACHABLE();
arm_3:;
    if (r9_3 == 0u) { r5_3 = 1u; goto dcc_station_entries_has_address_of; }
after:;
    r5_3 = 0u;
dcc_station_entries_has_address_of:;
    common = r5_3;
    goto common;
}

/* dcc_packet::packet::Packet::is */
static DCC_NOINLINE uint8_t dcc_packet_packet_Packet_is(unsigned char *a0, unsigned char *a1) {
    uint64_t r1_3, common_2, r2_2, r4, r4_2, r17, r23;
    uint8_t r1_2, common, r3_2, r4_3, v0, r3_3, r4_4, r7, r20, r83;
    unsigned char *r16, *r21, *r16_2, *r21_2;
    uint64_t place_0[2];
    unsigned char *const r1 = (unsigned char *)place_0;
    uint64_t place_1[2];
    unsigned char *const r2 = (unsigned char *)place_1;
    uint64_t place_2[2];
    unsigned char *const r3 = (unsigned char *)place_2;
    memset(DCC_ALIGNED(r3), 0u, 16);
    dcc_packet_packet_Packet_frame(r3, a0);
    memcpy(DCC_ALIGNED(r1), DCC_ALIGNED(r3), 16);
    dcc_packet_packet_Packet_frame(r3, a1);
    memcpy(DCC_ALIGNED(r2), DCC_ALIGNED(r3), 16);
    r4 = dcc_load_64_aligned((r1 + 8));
    r4_2 = dcc_load_64_aligned((r2 + 8));
    if (!(r4 == r4_2)) { common = 0u; goto dcc_wire_frame_Frame_is; }
    if (!(r4 < UINT64_C(4))) { r1_2 = 0u; r2_2 = UINT64_C(0); goto join; }
    if (r4 == UINT64_C(0)) { common = 1u; goto dcc_wire_frame_Frame_is; }
    r1_3 = UINT64_C(0);
join_2:;
    r16 = r1 + (ptrdiff_t)r1_3;
    r21 = r2 + (ptrdiff_t)r1_3;
    r3_2 = *r16;
    r4_3 = *r21;
    if (!(r3_2 == r4_3)) { common_2 = r1_3; goto core_slice_scan_first_by_one; }
    r17 = (uint64_t)(r1_3 + UINT64_C(1));
    if (!(r17 == r4)) { r1_3 = r17; goto join_2; }
    common_2 = r4;
core_slice_scan_first_by_one:;
    v0 = common_2 >= r4;
    common = v0;
    goto dcc_wire_frame_Frame_is;
join:;
    r16_2 = r1 + (ptrdiff_t)r2_2;
    r21_2 = r2 + (ptrdiff_t)r2_2;
    r3_3 = *r16_2;
    r4_4 = *r21_2;
    r7 = r3_3 != r4_4;
    r20 = r1_2 | r7;
    r23 = (uint64_t)(r2_2 + UINT64_C(1));
    if (!(r23 == UINT64_C(4))) { r1_2 = r20; r2_2 = r23; goto join; }
    if (r20) { common = 0u; goto dcc_wire_frame_Frame_is; }
    r83 = core_cmp_slices_groups_equal__i8_31_core_cmp_numbers_U8PartialE(r1, r4, r2, r4);
    common = r83;
dcc_wire_frame_Frame_is:;
    return common;
}

/* dcc_regs::hearers::board_number */
static struct dcc_8_16 dcc_regs_hearers_board_number(unsigned char *a0) {
    struct dcc_8_16 r61, r61_2;
    uint16_t r6, r1, r1_2, r507, r12_3;
    uint8_t r6_2, r14, r4, r12, r37, r42, spec, r12_2;
    r14 = *a0;
    switch (r14) {
    case 1u: goto arm;
    case 2u: goto arm_2;
    case 3u: goto arm_3;
    case 0u: case 4u: r6 = 0u; r6_2 = 0u; goto join;
    default: goto noarm;
    }
arm:;
    r4 = *(a0 + 2);
    if (!(r4 == 0u)) goto it;
    r12 = *(a0 + 6);
    if (r12 == 0u) { r6 = 511u; r6_2 = 1u; goto join; }
it:;
    r6 = 0u;
    r6_2 = 0u;
    goto join;
arm_2:;
    r1 = dcc_load_16_aligned((a0 + 2));
    r6 = r1;
    r6_2 = 1u;
    goto join;
arm_3:;
    r1_2 = dcc_load_16_aligned((a0 + 2));
    r37 = r1_2 == 2047u;
    r42 = r1_2 < 2044u;
    spec = r37 | r42;
    r507 = r1_2 >> 2u;
    r12_2 = spec;
    r12_3 = spec ? r507 : 0u;
    r6 = r12_3;
    r6_2 = r12_2;
join:;
    r61 = dcc_made_8_16(0u, 0u);
    r61.f0 = r6_2;
    r61_2 = r61;
    r61_2.f1 = r6;
    return r61_2;
noarm:;
    DCC_UNREACHABLE();
}

/* dcc_regs::conflicts::differ_in */
static uint8_t dcc_regs_conflicts_differ_in(uint8_t a0, unsigned char *a1, unsigned char *a2) {
    struct dcc_wide r3_6, r3_7, r3_8, r3_9, r6_5, r6_6, r6_7, r6_8, r12, r19, r22, r12_2, r19_2, r22_2;
    uint8_t r1, r3, r3_2, r3_3, r3_4, r3_5, r3_10, r3_11, r3_12, r3_13, r3_14, r3_15, r6, r6_2, r6_3, r6_4, r6_9,
        r6_10, r6_11, r6_12, r6_13, r6_14, v0, v1, or_2, r6_15, v2, switch_2, r7, spec, v3, v4, or_3, r281, v5,
        or_4, r24, r24_2, r12_3, r19_3, r22_3, r12_4, r19_4, r22_4, r11, r13, r23, spec_2;
    uint64_t place_0[12];
    unsigned char *const r2 = (unsigned char *)place_0;
    uint64_t place_1[12];
    unsigned char *const r5 = (unsigned char *)place_1;
    memset(DCC_ALIGNED(r2), 0u, 96);
    memset(DCC_ALIGNED(r5), 0u, 96);
    dcc_regs_effects_Effects_of(r2, a1, a0);
    r3 = *r2;
    r3_2 = *(r2 + 1);
    r3_3 = *(r2 + 2);
    r3_4 = *(r2 + 3);
    r3_5 = *(r2 + 4);
    r3_6 = dcc_wide_of(dcc_load_64_aligned(((r2 + 16) + 8)), dcc_load_64_aligned((r2 + 16)));
    r3_7 = dcc_wide_of(dcc_load_64_aligned(((r2 + 32) + 8)), dcc_load_64_aligned((r2 + 32)));
    r3_8 = dcc_wide_of(dcc_load_64_aligned(((r2 + 48) + 8)), dcc_load_64_aligned((r2 + 48)));
    r3_9 = dcc_wide_of(dcc_load_64_aligned(((r2 + 64) + 8)), dcc_load_64_aligned((r2 + 64)));
    r3_10 = *(r2 + 80);
    r3_11 = *(r2 + 81);
    r3_12 = *(r2 + 82);
    r3_13 = *(r2 + 83);
    r3_14 = *(r2 + 84);
    r3_15 = *(r2 + 85);
    dcc_regs_effects_Effects_of(r5, a2, a0);
    r6 = *r5;
    r6_2 = *(r5 + 2);
    r6_3 = *(r5 + 3);
    r6_4 = *(r5 + 4);
    r6_5 = dcc_wide_of(dcc_load_64_aligned(((r5 + 16) + 8)), dcc_load_64_aligned((r5 + 16)));
    r6_6 = dcc_wide_of(dcc_load_64_aligned(((r5 + 32) + 8)), dcc_load_64_aligned((r5 + 32)));
    r6_7 = dcc_wide_of(dcc_load_64_aligned(((r5 + 48) + 8)), dcc_load_64_aligned((r5 + 48)));
    r6_8 = dcc_wide_of(dcc_load_64_aligned(((r5 + 64) + 8)), dcc_load_64_aligned((r5 + 64)));
    r6_9 = *(r5 + 80);
    r6_10 = *(r5 + 81);
    r6_11 = *(r5 + 82);
    r6_12 = *(r5 + 83);
    r6_13 = *(r5 + 84);
    r6_14 = *(r5 + 85);
    v0 = r3 == 1u;
    v1 = r6 == 1u;
    or_2 = v0 ? v1 : 0u;
    if (!(or_2)) goto else_2;
    r6_15 = *(r5 + 1);
    if (!(r3_2 == r6_15)) { r1 = 1u; goto dcc_regs_effects_Effects_differs_from; }
    v2 = (uint8_t)(r3_2 + 254u);
    switch_2 = v2 < 3u;
    r7 = r3_3 != r6_2;
    spec = switch_2 ? r7 : 0u;
    if (spec) { r1 = 1u; goto dcc_regs_effects_Effects_differs_from; }
else_2:;
    v3 = r3_4 == 1u;
    v4 = r6_3 == 1u;
    or_3 = v3 & v4;
    r281 = r6_4 ^ r3_5;
    v5 = (uint8_t)((r281) & 1u);
    or_4 = or_3 ? v5 : 0u;
    if (or_4) { r1 = 1u; goto dcc_regs_effects_Effects_differs_from; }
    r12 = dcc_wide_and(r6_5, r3_6);
    r19 = dcc_wide_xor(r6_6, r3_7);
    r22 = dcc_wide_and(r12, r19);
    r24 = dcc_wide_eq(r22, dcc_wide_of(UINT64_C(0), UINT64_C(0)));
    if (!(r24)) { r1 = 1u; goto dcc_regs_effects_Effects_differs_from; }
    r12_2 = dcc_wide_and(r6_7, r3_8);
    r19_2 = dcc_wide_xor(r6_8, r3_9);
    r22_2 = dcc_wide_and(r12_2, r19_2);
    r24_2 = dcc_wide_eq(r22_2, dcc_wide_of(UINT64_C(0), UINT64_C(0)));
    if (!(r24_2)) { r1 = 1u; goto dcc_regs_effects_Effects_differs_from; }
    r12_3 = r6_9 & r3_10;
    r19_3 = r6_10 ^ r3_11;
    r22_3 = r12_3 & r19_3;
    if (!(r22_3 == 0u)) { r1 = 1u; goto dcc_regs_effects_Effects_differs_from; }
    r12_4 = r6_11 & r3_12;
    r19_4 = r6_12 ^ r3_13;
    r22_4 = r12_4 & r19_4;
    if (!(r22_4 == 0u)) { r1 = 1u; goto dcc_regs_effects_Effects_differs_from; }
    r11 = r6_13 & r3_14;
    r13 = r11 != 0u;
    r23 = r3_15 != r6_14;
    spec_2 = r13 ? r23 : 0u;
    r1 = spec_2;
dcc_regs_effects_Effects_differs_from:;
    return r1;
}

/* dcc_regs::effects::Effects::of */
static void dcc_regs_effects_Effects_of(unsigned char *a0, unsigned char *a1, uint8_t a2) {
    struct dcc_8_8 r15_3, r10, r1561, r15_4;
    struct dcc_wide r4, r4_2, r3, r3_2, r4_4, r4_5, r3_5, r3_6, it, r1_2, r1_3, r42, r45, r48, r1_4, r57, r1_5, r66,
        r69, r9, r11, r2_2, it_3;
    uint16_t r1_8;
    uint64_t v3;
    uint8_t r3_3, r3_4, r3_7, r3_8, r16, r22, r28, v1, trunc, or_2, r1, v2, sext, r15, r15_2, switch_3, trunc_2, v4,
        or_3, switch_4, it_2, r61, r1_6, r4_3, r22_2, r23, r11_2, r12, r1_7, r202, r22_3, v5, sext_2, r5, v6, r11_3,
        r13, r2_3, r15_5, r176980, r166881, r12_2, r11_4, v7, v8, v9;
    unsigned char *switch_2;
    uint8_t place_0[3];
    unsigned char *const r2 = (unsigned char *)place_0;
    memset(r2, 0u, 3);
    dcc_regs_effects_effect_on_speed(r2, a2, a1);
    r10 = dcc_regs_effects_effect_on_direction(a1);
    r16 = *a1;
    if (!(r16 == 1u)) goto dcc_regs_states_states_set;
    r22 = *(a1 + 6);
    switch (r22) {
    case 0u: r4 = dcc_wide_of(UINT64_C(0), UINT64_C(0)); r4_2 = dcc_wide_of(UINT64_C(31), UINT64_C(18446744073709551615)); r3 = dcc_wide_of(UINT64_C(18446744073709551615), UINT64_C(18446744073709551614)); r3_2 = dcc_wide_of(UINT64_C(0), UINT64_C(0)); goto dcc_regs_states_states_set_2;
    case 1u: goto arm;
    case 3u: goto arm_2;
    case 8u: case 7u: case 2u: case 5u: case 6u: goto after;
    case 4u: goto arm_3;
    default: goto noarm;
    }
arm:;
    r28 = *(a1 + 2);
    v1 = r28 == 0u;
    trunc = a2;
    or_2 = v1 ? 1u : trunc;
    if (or_2) { r4 = dcc_wide_of(UINT64_C(0), UINT64_C(0)); r4_2 = dcc_wide_of(UINT64_C(0), UINT64_C(0)); r3 = dcc_wide_of(UINT64_C(0), UINT64_C(0)); r3_2 = dcc_wide_of(UINT64_C(0), UINT64_C(0)); goto dcc_regs_states_states_set_2; }
    r1 = *(a1 + 8);
    v2 = r1 & 1u;
    sext = (uint8_t)(0u - v2);
    it = dcc_wide_sext(sext, UINT64_C(128));
    r4 = it;
    r4_2 = dcc_wide_of(UINT64_C(0), UINT64_C(1));
    r3 = dcc_wide_of(UINT64_C(0), UINT64_C(0));
    r3_2 = dcc_wide_of(UINT64_C(0), UINT64_C(0));
    goto dcc_regs_states_states_set_2;
arm_2:;
    r15 = *(a1 + 7);
    r15_2 = *(a1 + 8);
    v3 = r15;
    switch_2 = ((unsigned char *)switch_table_dcc_loco_apply) + (ptrdiff_t)v3;
    switch_3 = *switch_2;
    trunc_2 = a2;
    v4 = r15 == 0u;
    or_3 = v4 & trunc_2;
    r1_2 = dcc_wide_of(0, or_3);
    switch_4 = r15 < 3u;
    it_2 = switch_4 ? 15u : 255u;
    r1_3 = dcc_wide_of(0, it_2);
    r42 = dcc_wide_of(0, switch_3);
    r45 = dcc_wide_shl(r1_3, (unsigned)r42.low);
    r48 = dcc_wide_or(r45, r1_2);
    r1_4 = dcc_wide_of(0, r15_2);
    r57 = dcc_wide_shl(r1_4, (unsigned)r42.low);
    r61 = r15_2 >> 4u;
    r1_5 = dcc_wide_of(0, r61);
    r66 = dcc_wide_and(r1_5, r1_2);
    r69 = dcc_wide_or(r57, r66);
    r4 = r69;
    r4_2 = r48;
    r3 = dcc_wide_of(UINT64_C(0), UINT64_C(0));
    r3_2 = dcc_wide_of(UINT64_C(0), UINT64_C(0));
    goto dcc_regs_states_states_set_2;
noarm:;
    DCC_UNREACHABLE();
arm_3:;
    r1_6 = *(a1 + 7);
    r4_3 = r1_6 == 0u;
    r9 = dcc_wide_of(0, r1_6);
    r11 = dcc_wide_shl(dcc_wide_of(UINT64_C(0), UINT64_C(1)), (unsigned)r9.low);
    r2_2 = r4_3 ? dcc_wide_of(UINT64_C(18446744073709551615), UINT64_C(18446744073709551614)) : r11;
    r22_2 = *(a1 + 8);
    r23 = r22_2;
    it_3 = dcc_wide_sext(r23, UINT64_C(1));
    r4 = dcc_wide_of(UINT64_C(0), UINT64_C(0));
    r4_2 = dcc_wide_of(UINT64_C(0), UINT64_C(0));
    r3 = r2_2;
    r3_2 = it_3;
    goto dcc_regs_states_states_set_2;
after:;
    r4 = dcc_wide_of(UINT64_C(0), UINT64_C(0));
    r4_2 = dcc_wide_of(UINT64_C(0), UINT64_C(0));
    r3 = dcc_wide_of(UINT64_C(0), UINT64_C(0));
    r3_2 = dcc_wide_of(UINT64_C(0), UINT64_C(0));
dcc_regs_states_states_set_2:;
    r1561 = dcc_regs_outputs_outs_set(a1);
    r3_3 = 0u;
    r3_4 = 0u;
    r4_4 = r4;
    r4_5 = r4_2;
    r3_5 = r3;
    r3_6 = r3_2;
    r15_3 = r1561;
    r3_7 = 0u;
    r3_8 = 0u;
    goto dcc_regs_outputs_aspects_set;
dcc_regs_states_states_set:;
    r15_4 = dcc_regs_outputs_outs_set(a1);
    switch (r16) {
    case 2u: goto arm_4;
    case 3u: goto arm_5;
    default: r3_3 = 0u; r3_4 = 0u; r4_4 = dcc_wide_of(UINT64_C(0), UINT64_C(0)); r4_5 = dcc_wide_of(UINT64_C(0), UINT64_C(0)); r3_5 = dcc_wide_of(UINT64_C(0), UINT64_C(0)); r3_6 = dcc_wide_of(UINT64_C(0), UINT64_C(0)); r15_3 = r15_4; r3_7 = 0u; r3_8 = 0u; goto dcc_regs_outputs_aspects_set;
    }
arm_4:;
    r11_2 = *(a1 + 5);
    r12 = r11_2;
    if (!(r12)) { r3_3 = 0u; r3_4 = 0u; r4_4 = dcc_wide_of(UINT64_C(0), UINT64_C(0)); r4_5 = dcc_wide_of(UINT64_C(0), UINT64_C(0)); r3_5 = dcc_wide_of(UINT64_C(0), UINT64_C(0)); r3_6 = dcc_wide_of(UINT64_C(0), UINT64_C(0)); r15_3 = r15_4; r3_7 = 0u; r3_8 = 0u; goto dcc_regs_outputs_aspects_set; }
    r1_7 = *(a1 + 4);
    r202 = r1_7 >> 1u;
    r22_3 = (uint8_t)((1u * 1u) << (r202 & 7u));
    v5 = r1_7 & 1u;
    sext_2 = (uint8_t)(0u - v5);
    r3_3 = r22_3;
    r3_4 = sext_2;
    r4_4 = dcc_wide_of(UINT64_C(0), UINT64_C(0));
    r4_5 = dcc_wide_of(UINT64_C(0), UINT64_C(0));
    r3_5 = dcc_wide_of(UINT64_C(0), UINT64_C(0));
    r3_6 = dcc_wide_of(UINT64_C(0), UINT64_C(0));
    r15_3 = r15_4;
    r3_7 = 0u;
    r3_8 = 0u;
    goto dcc_regs_outputs_aspects_set;
arm_5:;
    r1_8 = dcc_load_16_aligned((a1 + 2));
    r5 = r1_8 == 2047u;
    v6 = (uint8_t)(r1_8);
    r11_3 = v6 & 3u;
    r13 = (uint8_t)((1u * 1u) << (r11_3 & 7u));
    r2_3 = r5 ? 15u : r13;
    r15_5 = *(a1 + 4);
    r3_3 = 0u;
    r3_4 = 0u;
    r4_4 = dcc_wide_of(UINT64_C(0), UINT64_C(0));
    r4_5 = dcc_wide_of(UINT64_C(0), UINT64_C(0));
    r3_5 = dcc_wide_of(UINT64_C(0), UINT64_C(0));
    r3_6 = dcc_wide_of(UINT64_C(0), UINT64_C(0));
    r15_3 = r15_4;
    r3_7 = r15_5;
    r3_8 = r2_3;
dcc_regs_outputs_aspects_set:;
    r176980 = r15_3.f1;
    r166881 = r15_3.f0;
    r12_2 = r10.f1;
    r11_4 = r10.f0;
    v7 = *r2;
    v8 = *(r2 + 1);
    v9 = *(r2 + 2);
    *a0 = v7;
    *(a0 + 1) = v8;
    *(a0 + 2) = v9;
    *(a0 + 3) = r11_4;
    *(a0 + 4) = r12_2;
    memset((a0 + 5), 0u, 11);
    dcc_store_64((a0 + 16), r4_5.low); dcc_store_64(((a0 + 16) + 8), r4_5.high);
    dcc_store_64((a0 + 32), r4_4.low); dcc_store_64(((a0 + 32) + 8), r4_4.high);
    dcc_store_64((a0 + 48), r3_5.low); dcc_store_64(((a0 + 48) + 8), r3_5.high);
    dcc_store_64((a0 + 64), r3_6.low); dcc_store_64(((a0 + 64) + 8), r3_6.high);
    *(a0 + 80) = r166881;
    *(a0 + 81) = r176980;
    *(a0 + 82) = r3_3;
    *(a0 + 83) = r3_4;
    *(a0 + 84) = r3_8;
    *(a0 + 85) = r3_7;
    memset((a0 + 86), 0u, 10);
    return;
}

/* dcc_regs::effects::effect_on_speed */
static DCC_NOINLINE void dcc_regs_effects_effect_on_speed(unsigned char *a0, uint8_t a1, unsigned char *a2) {
    uint8_t r0, r0_2, r0_3, r20, r30, r35, r1, r5, r12, it, r1_2, r1_3, trunc, r1_4, r4, r8, spec, spec_2, r1_5,
        r1_6, r52, r9, r1_7, r3;
    r20 = *a2;
    if (!(r20 == 1u)) { r0 = 0u; r0_2 = 0u; r0_3 = 0u; goto dcc_regs_speeds_speed_set; }
    r30 = *(a2 + 6);
    switch (r30) {
    case 0u: r0 = 1u; r0_2 = r30; r0_3 = r30; goto dcc_regs_speeds_speed_set;
    case 1u: goto arm;
    case 2u: goto arm_2;
    case 3u: case 4u: case 5u: case 6u: case 7u: case 8u: goto arm_3;
    default: goto noarm;
    }
arm:;
    r35 = *(a2 + 2);
    if (!(r35 == 0u)) goto arm_4;
    r1 = *(a2 + 8);
    r5 = r1 < 2u;
    r12 = r1 < 4u;
    it = r12;
    r1_2 = r5 ? 1u : it;
    r1_3 = r5 ? 0u : it;
    r0 = r1_2;
    r0_2 = r1_3;
    r0_3 = 0u;
    goto dcc_regs_speeds_speed_set;
arm_4:;
    trunc = a1;
    r1_4 = *(a2 + 8);
    if (!(trunc)) goto arm_5;
    r4 = r1_4 < 2u;
    r8 = r1_4 > 3u;
    spec = r8 ? 3u : 1u;
    spec_2 = dcc_usub_sat_8(r1_4, 3u);
    r1_5 = r4 ? 0u : spec;
    r1_6 = r4 ? 0u : spec_2;
    r0 = 1u;
    r0_2 = r1_5;
    r0_3 = r1_6;
    goto dcc_regs_speeds_speed_set;
arm_5:;
    r52 = r1_4 >> 1u;
    switch (r52) {
    case 0u: r0 = 1u; r0_2 = r52; r0_3 = r52; goto dcc_regs_speeds_speed_set;
    case 1u: goto arm_6;
    default: goto default_2;
    }
arm_6:;
    r0 = 1u;
    r0_2 = 1u;
    r0_3 = 0u;
    goto dcc_regs_speeds_speed_set;
default_2:;
    r9 = (uint8_t)(r52 + 255u);
    r0 = 1u;
    r0_2 = 2u;
    r0_3 = r9;
    goto dcc_regs_speeds_speed_set;
arm_2:;
    r1_7 = *(a2 + 8);
    switch (r1_7) {
    case 0u: r0 = 1u; r0_2 = r1_7; r0_3 = r1_7; goto dcc_regs_speeds_speed_set;
    case 1u: goto arm_7;
    default: goto default_3;
    }
arm_7:;
    r0 = 1u;
    r0_2 = 1u;
    r0_3 = 0u;
    goto dcc_regs_speeds_speed_set;
default_3:;
    r3 = (uint8_t)(r1_7 + 255u);
    r0 = 1u;
    r0_2 = 4u;
    r0_3 = r3;
    goto dcc_regs_speeds_speed_set;
arm_3:;
    r0 = 0u;
    r0_2 = 0u;
    r0_3 = 0u;
    goto dcc_regs_speeds_speed_set;
noarm:;
    DCC_UNREACHABLE();
dcc_regs_speeds_speed_set:;
    *a0 = r0;
    *(a0 + 1) = r0_2;
    *(a0 + 2) = r0_3;
    return;
}

/* dcc_regs::effects::effect_on_direction */
static DCC_NOINLINE struct dcc_8_8 dcc_regs_effects_effect_on_direction(unsigned char *a0) {
    struct dcc_8_8 r64, r64_2;
    uint8_t r0, r0_2, r15, r21, r25, r1, switch_2, r41, r55;
    r15 = *a0;
    if (!(r15 == 1u)) { r0 = 0u; r0_2 = 0u; goto dcc_regs_speeds_direction_set; }
    r21 = *(a0 + 6);
    switch (r21) {
    case 0u: r0 = 1u; r0_2 = 1u; goto dcc_regs_speeds_direction_set;
    case 1u: goto arm;
    case 2u: goto after;
    case 3u: case 4u: case 5u: case 6u: case 7u: case 8u: goto arm_2;
    default: goto noarm;
    }
arm:;
    r25 = *(a0 + 2);
    if (!(r25 == 0u)) goto after;
    r1 = *(a0 + 8);
    switch_2 = r1 & 253u;
    if (!(switch_2 == 0u)) { r0 = 0u; r0_2 = 0u; goto dcc_regs_speeds_direction_set; }
    r41 = *(a0 + 7);
    r0 = r41;
    r0_2 = 1u;
    goto dcc_regs_speeds_direction_set;
arm_2:;
    r0 = 0u;
    r0_2 = 0u;
    goto dcc_regs_speeds_direction_set;
after:;
    r55 = *(a0 + 7);
    r0 = r55;
    r0_2 = 1u;
    goto dcc_regs_speeds_direction_set;
noarm:;
    DCC_UNREACHABLE();
dcc_regs_speeds_direction_set:;
    r64 = dcc_made_8_8(0u, 0u);
    r64.f0 = r0_2;
    r64_2 = r64;
    r64_2.f1 = r0;
    return r64_2;
}

/* dcc_c::kept_packet::KeptPacket::is_displaced_as_read */
static DCC_NOINLINE uint8_t dcc_c_kept_packet_KeptPacket_is_displaced_as_read(unsigned char *a0, unsigned char *a1) {
    uint16_t r5, v0, v1;
    uint8_t r4, v2, r15;
    uint64_t place_0[3];
    unsigned char *const r1 = (unsigned char *)place_0;
    uint64_t place_1[3];
    unsigned char *const r2 = (unsigned char *)place_1;
    memset(DCC_ALIGNED(r1), 0u, 24);
    dcc_c_kept_packet_KeptPacket_packet(r1, a0);
    r4 = *r1;
    r5 = r4;
    dcc_store_16_aligned(r2, r5);
    v0 = dcc_load_16_aligned((r1 + 2));
    dcc_store_16_aligned((r2 + 2), v0);
    v1 = dcc_load_16_aligned((r1 + 4));
    dcc_store_16_aligned((r2 + 4), v1);
    v2 = *(r1 + 6);
    *(r2 + 6) = v2;
    memcpy((r2 + 7), (r1 + 7), 17);
    r15 = dcc_station_entries_displaces_by_registers(a1, r2);
    return r15;
}

/* dcc_c::station::put_frame */
static DCC_NOINLINE void dcc_c_station_put_frame(unsigned char *a0, unsigned char *a1) {
    uint64_t r2, r2_2, r2_3;
    uint8_t r12;
    uint64_t place_0[2];
    unsigned char *const r1 = (unsigned char *)place_0;
    memset(DCC_ALIGNED(r1), 0u, 16);
    dcc_packet_packet_Packet_frame(r1, a0);
    r2 = dcc_load_64_aligned(r1);
    r2_2 = dcc_load_64_aligned((r1 + 8));
    r12 = (uint8_t)(r2_2);
    r2_3 = (uint64_t)((r2) & UINT64_C(281474976710655));
    *a1 = r12;
    dcc_store_48((a1 + 1), r2_3);
    return;
}

/* dcc_packet::to_line_word::put_digits */
static void dcc_packet_to_line_word_put_digits(unsigned char *a0, uint16_t a1) {
    uint16_t a1_2, r10, r13;
    uint64_t r8, r25;
    uint8_t r4, r6;
    unsigned char *r24;
    if (!(a1 < 10u)) goto else_2;
    a1_2 = a1;
common:;
    r4 = (uint8_t)a1_2;
    r6 = r4 | 48u;
    r8 = dcc_load_64_aligned((a0 + 40));
    r24 = a0 + (ptrdiff_t)r8;
    *r24 = r6;
    r25 = (uint64_t)(r8 + UINT64_C(1));
    dcc_store_64_aligned((a0 + 40), r25);
    return;
else_2:;
    r10 = a1 / 10u;
    dcc_packet_to_line_word_put_digits(a0, r10);
    r13 = a1 % 10u;
    a1_2 = r13;
    goto common;
}

/* dcc_packet::form::put_form::<#bb385ef73226a019> */
static void dcc_packet_form_put_form(unsigned char *a0, unsigned char *a1, uint64_t a2, unsigned char *a3) {
    uint16_t r2, r1;
    uint64_t r0, r8, r25, r8_2, r9, r10, r30, r25_2, r25_3, r8_3, r25_4;
    uint8_t r26, r3;
    unsigned char *r24, *r24_2, *r20, *r24_3, *r24_4, *r24_5;
    r8 = dcc_load_64_aligned((a0 + 40));
    r24 = a0 + (ptrdiff_t)r8;
    *r24 = 32u;
    r25 = (uint64_t)(r8 + UINT64_C(1));
    dcc_store_64_aligned((a0 + 40), r25);
    r24_2 = a0 + (ptrdiff_t)r25;
    r8_2 = (uintptr_t)r24_2;
    r9 = (uintptr_t)a1;
    r10 = (uint64_t)(r8_2 - r9);
    if (r10 < a2) { r0 = UINT64_C(0); goto join; }
    memmove(r24_2, a1, (size_t)a2);
    goto dcc_packet_to_line_word_put_word;
join:;
    r20 = r24_2 + (ptrdiff_t)r0;
    r24_3 = a1 + (ptrdiff_t)r0;
    r26 = *r24_3;
    *r20 = r26;
    r30 = (uint64_t)(r0 + UINT64_C(1));
    if (!(r30 == a2)) { r0 = r30; goto join; }
dcc_packet_to_line_word_put_word:;
    r25_2 = (uint64_t)(r25 + a2);
    dcc_store_64_aligned((a0 + 40), r25_2);
    r2 = dcc_load_16_aligned(a3);
    r24_4 = a0 + (ptrdiff_t)r25_2;
    *r24_4 = 32u;
    r25_3 = (uint64_t)(r25_2 + UINT64_C(1));
    dcc_store_64_aligned((a0 + 40), r25_3);
    dcc_packet_to_line_word_put_digits(a0, r2);
    r3 = *(a3 + 2);
    r1 = r3;
    r8_3 = dcc_load_64_aligned((a0 + 40));
    r24_5 = a0 + (ptrdiff_t)r8_3;
    *r24_5 = 32u;
    r25_4 = (uint64_t)(r8_3 + UINT64_C(1));
    dcc_store_64_aligned((a0 + 40), r25_4);
    dcc_packet_to_line_word_put_digits(a0, r1);
    return;
}

/* dcc_packet::form::put_form::<#9b97a47d72a01c9c> */
static void dcc_packet_form_put_form_2(unsigned char *a0, unsigned char *a1, uint64_t a2, unsigned char *a3) {
    uint16_t r2, r1;
    uint64_t r0, r8, r25, r8_2, r9, r10, r30, r25_2, r25_3, r8_3, r25_4, r8_4, r25_5;
    uint8_t r26, r3, r3_2, storemerge;
    unsigned char *r24, *r24_2, *r20, *r24_3, *r24_4, *r24_5, *r24_6;
    r8 = dcc_load_64_aligned((a0 + 40));
    r24 = a0 + (ptrdiff_t)r8;
    *r24 = 32u;
    r25 = (uint64_t)(r8 + UINT64_C(1));
    dcc_store_64_aligned((a0 + 40), r25);
    r24_2 = a0 + (ptrdiff_t)r25;
    r8_2 = (uintptr_t)r24_2;
    r9 = (uintptr_t)a1;
    r10 = (uint64_t)(r8_2 - r9);
    if (r10 < a2) { r0 = UINT64_C(0); goto join; }
    memmove(r24_2, a1, (size_t)a2);
    goto dcc_packet_to_line_word_put_word;
join:;
    r20 = r24_2 + (ptrdiff_t)r0;
    r24_3 = a1 + (ptrdiff_t)r0;
    r26 = *r24_3;
    *r20 = r26;
    r30 = (uint64_t)(r0 + UINT64_C(1));
    if (!(r30 == a2)) { r0 = r30; goto join; }
dcc_packet_to_line_word_put_word:;
    r25_2 = (uint64_t)(r25 + a2);
    dcc_store_64_aligned((a0 + 40), r25_2);
    r2 = dcc_load_16_aligned(a3);
    r24_4 = a0 + (ptrdiff_t)r25_2;
    *r24_4 = 32u;
    r25_3 = (uint64_t)(r25_2 + UINT64_C(1));
    dcc_store_64_aligned((a0 + 40), r25_3);
    dcc_packet_to_line_word_put_digits(a0, r2);
    r3 = *(a3 + 2);
    r1 = r3;
    r8_3 = dcc_load_64_aligned((a0 + 40));
    r24_5 = a0 + (ptrdiff_t)r8_3;
    *r24_5 = 32u;
    r25_4 = (uint64_t)(r8_3 + UINT64_C(1));
    dcc_store_64_aligned((a0 + 40), r25_4);
    dcc_packet_to_line_word_put_digits(a0, r1);
    r3_2 = *(a3 + 3);
    r8_4 = dcc_load_64_aligned((a0 + 40));
    r24_6 = a0 + (ptrdiff_t)r8_4;
    *r24_6 = 32u;
    storemerge = r3_2 | 48u;
    *(r24_6 + 1) = storemerge;
    r25_5 = (uint64_t)(r8_4 + UINT64_C(2));
    dcc_store_64_aligned((a0 + 40), r25_5);
    return;
}

/* core::slice::words::skip_far::<#52f9edcae2f82f51> */
static DCC_NOINLINE uint64_t core_slice_words_skip_far(unsigned char *a0, uint64_t a1, uint64_t a2) {
    uint64_t r1_3, r1, r65, r30, r30_2, r30_3, r30_4, r30_5, r30_6, r30_7, r30_8, r9, r4242, r4843, r9_2, r2139,
        r2740, r3344, v0, r21, r6;
    unsigned char *r1_2, *r28;
    r65 = (uint64_t)(a2 - a1);
    if (!(r65 > UINT64_C(63))) { r1 = a1; goto after; }
    r1_2 = dcc_load_ptr(a0);
    r1_3 = a1;
then:;
    r28 = r1_2 + (ptrdiff_t)r1_3;
    r30 = dcc_load_64(r28);
    r30_2 = dcc_load_64((r28 + 16));
    r30_3 = dcc_load_64((r28 + 32));
    r30_4 = dcc_load_64((r28 + 48));
    r30_5 = dcc_load_64((r28 + 8));
    r30_6 = dcc_load_64((r28 + 24));
    r30_7 = dcc_load_64((r28 + 40));
    r30_8 = dcc_load_64((r28 + 56));
    r9 = r30_2 | r30;
    r4242 = r9 | r30_3;
    r4843 = r4242 | r30_4;
    r9_2 = r4843 | r30_5;
    r2139 = r9_2 | r30_6;
    r2740 = r2139 | r30_7;
    r3344 = r2740 | r30_8;
    v0 = r3344 & UINT64_C(9259542123273814144);
    if (!(v0 == UINT64_C(0))) { r1 = r1_3; goto after; }
    r21 = (uint64_t)(r1_3 + UINT64_C(64));
    r6 = (uint64_t)(a2 - r21);
    if (r6 > UINT64_C(63)) { r1_3 = r21; goto then; }
    r1 = r21;
after:;
    return r1;
}

/* dcc_plain::packet_from_bytes::standard_read */
static void dcc_plain_packet_from_bytes_standard_read(unsigned char *a0, unsigned char *a1, uint64_t a2) {
    uint16_t r13_4, r13_5, r0_5, r1, r20, r1_2, r26, r10, r1_3, r14, r11_2, r1_4, r146, r1_5, r152, r1_10, r13,
        r1_11, r17_2, v3, v4, v5, r16_29, r16_30, r16_31, r16_32, v26;
    uint32_t r0_2, r1_8, r1_13, r10_2, r1_14, r13_10, r1_15, r16_11, r20_3, r22, r16_13, r16_15, r16_17, r16_19,
        r16_20, r16_21, r16_22, r16_23, r16_24, r16_25, r16_26, r16_27, r16_28, v27;
    uint64_t r13_3, r13_11, r13_14, r7_2, r16_2, r108, r139_2, r164, r161, r7_3, r7_4, r7_5, r7_6, v12, v13, v14,
        v15, v16, v17, v18, v19, v20, v21, v22, v23, r193;
    uint8_t r71, r71_2, r146_2, r13_12, r13_13, r20070, r13_6, r13_7, r13_8, r13_9, r7, r16_3, r16_4, r16_5, r16_6,
        r16_7, r16_8, r16_9, r16_10, r0_3, r0_4, r85, r107, v0, r122, r16, r21, r4217, r44, r45, r47, r11, r11_3,
        r127, r132, r139, r141, r171, r176, r185, r187, r189, r227, r229, r231, r233, r2, r1_6, r1_7, r1_9, r57,
        r71_3, v2, r118, r72, r83, r94, r24, r25, r43, r44_2, r63_2, r64, v6, r79, r80, r106, cond1, r20068, r120,
        r122_2, r19, r20_2, a2_2, r1_12, v7, v8, r43_2, r44_3, v9, r173, r175, r177, r20_4, r61_2, v10, it, v11,
        r69, r98, r100, r133, r135, r137, r13_15, r200, r69_2, r98_2, r100_2, r133_2, r135_2, r137_2, r13_16, a1_2,
        r25_2, r16_12, r16_14, r16_16, r16_18, r278, v24, v25;
    unsigned char *r13_2;
    uint32_t place_0[7];
    unsigned char *const r17 = (unsigned char *)place_0;
    uint32_t place_1[5];
    unsigned char *const r0 = (unsigned char *)place_1;
    uint16_t place_2[4];
    unsigned char *const r63 = (unsigned char *)place_2;
    uint16_t place_3[3];
    unsigned char *const r61 = (unsigned char *)place_3;
    memset(DCC_ALIGNED(r17), 0u, 28);
    if (a2 < UINT64_C(2)) goto after;
    if (!(a2 == UINT64_C(2))) goto join;
    r85 = *a1;
    if (!((r85 ^ 128u) < (192u ^ 128u))) { r71 = r85; goto join_2; }
    r107 = *(a1 + 1);
    v0 = r107 & 136u;
    if (!(v0 == 8u)) goto after_2;
    r122 = r107 >> 4u;
    r16 = r122 ^ 7u;
    r1 = r16;
    r20 = (uint16_t)((1u * r1) << 6u);
    r21 = r85 & 63u;
    r1_2 = r21;
    r26 = r20 | r1_2;
    r4217 = r107 >> 1u;
    r44 = r4217 & 3u;
    r45 = r107 & 1u;
    r47 = r45 == 0u;
    r10 = (uint16_t)((1u * r26) << 2u);
    r1_3 = r44;
    r14 = r10 | r1_3;
    r11 = r45 | 4u;
    r11_2 = r47 ? r26 : r14;
    r11_3 = r47 ? r44 : 0u;
    memset((r17 + 9), 0u, 19);
    dcc_store_32_aligned(r17, UINT32_C(1));
    *(r17 + 4) = r11;
    dcc_store_16_aligned((r17 + 6), r11_2);
    *(r17 + 8) = r11_3;
    goto after_2;
join:;
    if (a2 < UINT64_C(4)) goto join_3;
    if (!(a2 == UINT64_C(4))) goto join_4;
    r127 = *a1;
    if (!(r127 == 0u)) { r71_2 = r127; goto default_2; }
    r132 = *(a1 + 1);
    if (!(r132 == 194u)) goto join_3;
    r139 = *(a1 + 2);
    r141 = *(a1 + 3);
    r1_4 = r139;
    r146 = (uint16_t)((1u * r1_4) << 8u);
    r1_5 = r141;
    r152 = r146 | r1_5;
    dcc_store_32_aligned(r17, UINT32_C(1));
    *(r17 + 4) = 3u;
    dcc_store_16_aligned((r17 + 6), r152);
    memset(DCC_ALIGNED((r17 + 8)), 0u, 20);
    goto after_2;
join_4:;
    if (!(a2 < UINT64_C(6))) goto after;
    r171 = *a1;
    if (!(r171 == 0u)) goto default_3;
    r176 = *(a1 + 1);
    if (!(r176 == 193u)) goto join_3;
    r185 = *(a1 + 2);
    r187 = *(a1 + 3);
    r189 = *(a1 + 4);
    dcc_plain_packet_from_bytes_clock_row(r17, r185, r187, r189);
    goto after_2;
default_3:;
    if (!((r171 ^ 128u) < (192u ^ 128u))) goto join_3;
    r227 = *(a1 + 1);
    r229 = *(a1 + 2);
    r231 = *(a1 + 3);
    r233 = *(a1 + 4);
    dcc_plain_packet_from_bytes_cv_access(r63, r229, r231, r233);
    r2 = *r63;
    if (!(r2 == 1u)) goto arm;
    r1_6 = *(r63 + 7);
    r1_7 = *(r63 + 6);
    r1_8 = dcc_load_24((r63 + 3));
    r1_9 = *(r63 + 2);
    *r61 = r1_9;
    dcc_store_24((r61 + 1), r1_8);
    *(r61 + 4) = r1_7;
    *(r61 + 5) = r1_6;
    dcc_plain_packet_from_bytes_cv_row(r17, r171, r227, r61);
    goto after_2;
arm:;
    memset(DCC_ALIGNED(r0), 0u, 20);
    r0_2 = UINT32_C(0);
    r0_3 = 0u;
    r0_4 = 0u;
    r0_5 = 0u;
    goto dcc_plain_packet_from_bytes_standard_row;
after:;
    switch (a2) {
    case UINT64_C(0): goto after_2;
    case UINT64_C(1): goto then;
    default: goto join_3;
    }
then:;
    r57 = *a1;
    if (r57 == 0u) goto after_3;
    if ((r57 ^ 128u) > (255u ^ 128u)) { r146_2 = r57; goto dcc_plain_packet_from_bytes_short_address; }
    goto after_2;
join_3:;
    r71_3 = *a1;
    r71 = r71_3;
join_2:;
    if (r71 == 0u) goto after_3;
    r71_2 = r71;
default_2:;
    if ((r71_2 ^ 128u) > (255u ^ 128u)) { r146_2 = r71_2; goto dcc_plain_packet_from_bytes_short_address; }
    v2 = (uint8_t)(r71_2 + 64u);
    if (!(v2 < 40u)) goto after_2;
    r108 = (uint64_t)(a2 + UINT64_C(18446744073709551614));
    r118 = *(a1 + 1);
    r1_10 = v2;
    r13 = (uint16_t)((1u * r1_10) << 8u);
    r1_11 = r118;
    r17_2 = r13 | r1_11;
    r13_2 = (a1 + 2);
    r13_3 = r108;
    r13_4 = 2u;
    r13_5 = r17_2;
    goto arm_2;
dcc_plain_packet_from_bytes_short_address:;
    r139_2 = (uint64_t)(a2 + UINT64_C(18446744073709551615));
    v3 = r146_2;
    v4 = (uint16_t)((1u * v3) << 8u);
    v5 = v4 | 1u;
    r13_2 = (a1 + 1);
    r13_3 = r139_2;
    r13_4 = v5;
    r13_5 = 0u;
    goto arm_2;
after_3:;
    r164 = (uint64_t)(a2 + UINT64_C(18446744073709551615));
    r13_2 = (a1 + 1);
    r13_3 = r164;
    r13_4 = 0u;
    r13_5 = 0u;
arm_2:;
    switch (r13_3) {
    case UINT64_C(0): goto after_2;
    case UINT64_C(1): goto then_2;
    default: goto join_5;
    }
then_2:;
    r72 = *r13_2;
    switch (r72) {
    case 1u: r16_2 = UINT64_C(0); r16_3 = 0u; r16_4 = 0u; r16_5 = 0u; r16_6 = 0u; r16_7 = 0u; r16_8 = 0u; r16_9 = 0u; r16_10 = 0u; goto arm_3;
    case 10u: goto arm_4;
    case 11u: goto arm_5;
    case 15u: goto arm_6;
    default: goto after_2;
    }
arm_4:;
    r16_2 = UINT64_C(0);
    r16_3 = 0u;
    r16_4 = 0u;
    r16_5 = 0u;
    r16_6 = 0u;
    r16_7 = 0u;
    r16_8 = 0u;
    r16_9 = 0u;
    r16_10 = 3u;
    goto arm_3;
arm_5:;
    r16_2 = UINT64_C(0);
    r16_3 = 0u;
    r16_4 = 0u;
    r16_5 = 0u;
    r16_6 = 0u;
    r16_7 = 0u;
    r16_8 = 0u;
    r16_9 = 1u;
    r16_10 = 3u;
    goto arm_3;
arm_6:;
    r16_2 = UINT64_C(0);
    r16_3 = 0u;
    r16_4 = 0u;
    r16_5 = 0u;
    r16_6 = 0u;
    r16_7 = 0u;
    r16_8 = 0u;
    r16_9 = 0u;
    r16_10 = 4u;
    goto arm_3;
join_5:;
    if (!(r13_3 < UINT64_C(3))) goto join_6;
    r83 = *r13_2;
    if (r83 == 60u) goto after_2;
    r94 = *(r13_2 + 1);
    if (r83 == 62u) { r16_2 = UINT64_C(0); r16_3 = 0u; r16_4 = 0u; r16_5 = 0u; r16_6 = 0u; r16_7 = 0u; r16_8 = 0u; r16_9 = r94; r16_10 = 8u; goto arm_3; }
    if (r83 < 2u) goto after_2;
    if (!(r83 < 4u)) goto join_7;
    r24 = r83 == 3u;
    r25 = r24;
    r16_2 = UINT64_C(0);
    r16_3 = 0u;
    r16_4 = 0u;
    r16_5 = 0u;
    r16_6 = 0u;
    r16_7 = 0u;
    r16_8 = r94;
    r16_9 = r25;
    r16_10 = 1u;
    goto arm_3;
join_7:;
    if (r83 < 6u) goto after_2;
    if (!(r83 < 8u)) goto join_8;
    r43 = r83 == 7u;
    r44_2 = r43;
    r16_2 = UINT64_C(0);
    r16_3 = 0u;
    r16_4 = 0u;
    r16_5 = 0u;
    r16_6 = 0u;
    r16_7 = 0u;
    r16_8 = r94;
    r16_9 = r44_2;
    r16_10 = 2u;
    goto arm_3;
join_8:;
    if (r83 < 18u) goto after_2;
    if (!(r83 < 20u)) goto join_9;
    if (!((r94 ^ 128u) > (255u ^ 128u))) goto after_2;
    r63_2 = r83 == 19u;
    r64 = r63_2;
    r16_2 = UINT64_C(0);
    r16_3 = 0u;
    r16_4 = 0u;
    r16_5 = 0u;
    r16_6 = 0u;
    r16_7 = 0u;
    r16_8 = r64;
    r16_9 = r94;
    r16_10 = 5u;
    goto arm_3;
join_9:;
    v6 = r83 & 254u;
    if (!(v6 == 242u)) goto after_2;
    r79 = r83 == 243u;
    r80 = r79;
    r16_2 = UINT64_C(0);
    r16_3 = 0u;
    r16_4 = 0u;
    r16_5 = 0u;
    r16_6 = 0u;
    r16_7 = 0u;
    r16_8 = r94;
    r16_9 = r80;
    r16_10 = 10u;
    goto arm_3;
join_6:;
    r106 = *r13_2;
    cond1 = r106 == 60u;
    if (!(r13_3 == UINT64_C(3))) goto join_10;
    if (!(cond1)) goto default_4;
    r20068 = *(r13_2 + 1);
    r20070 = r20068;
    r13_6 = 0u;
    r13_7 = 0u;
    r13_8 = 0u;
    r13_9 = 0u;
    goto arm_7;
default_4:;
    r120 = *(r13_2 + 1);
    r122_2 = *(r13_2 + 2);
    switch (r106) {
    case 61u: r16_2 = UINT64_C(0); r16_3 = 0u; r16_4 = 0u; r16_5 = 0u; r16_6 = 0u; r16_7 = 0u; r16_8 = r122_2; r16_9 = r120; r16_10 = 7u; goto arm_3;
    case 192u: goto arm_8;
    default: goto default_5;
    }
arm_8:;
    r19 = (uint8_t)((1u * r122_2) << 7u);
    r20_2 = r120 & 127u;
    a2_2 = r120 >> 7u;
    r1_12 = r19 | r20_2;
    v7 = r122_2 >> 1u;
    r16_2 = UINT64_C(0);
    r16_3 = 0u;
    r16_4 = 0u;
    r16_5 = 0u;
    r16_6 = a2_2;
    r16_7 = v7;
    r16_8 = r1_12;
    r16_9 = 0u;
    r16_10 = 9u;
    goto arm_3;
default_5:;
    v8 = r106 & 254u;
    if (!(v8 == 2u)) goto after_2;
    r43_2 = r106 == 3u;
    r44_3 = r43_2;
    r16_2 = UINT64_C(0);
    r16_3 = 0u;
    r16_4 = 0u;
    r16_5 = 0u;
    r16_6 = r122_2;
    r16_7 = 1u;
    r16_8 = r120;
    r16_9 = r44_3;
    r16_10 = 1u;
    goto arm_3;
join_10:;
    if (cond1) goto after_4;
    v9 = (uint8_t)(r106 + 28u);
    if (!(v9 < 12u)) goto after_2;
    r161 = (uint64_t)(r13_3 + UINT64_C(18446744073709551612));
    r173 = *(r13_2 + 1);
    r175 = *(r13_2 + 2);
    r177 = *(r13_2 + 3);
    r1_13 = r173;
    r10_2 = (uint32_t)((1u * r1_13) << UINT32_C(16));
    r1_14 = r175;
    r13_10 = (uint32_t)((1u * r1_14) << UINT32_C(8));
    r1_15 = r177;
    r16_11 = r10_2 | UINT32_C(1);
    r20_3 = (uint32_t)(r16_11 + r1_15);
    r22 = (uint32_t)(r20_3 + r13_10);
    r20_4 = r106 & 3u;
    if (!(r106 < 232u)) goto join_11;
    if (r161 == UINT64_C(0)) { r7 = 11u; r7_2 = UINT64_C(0); goto dcc_plain_what_from_bytes_standard_what; }
    goto after_2;
join_11:;
    if (!(r106 < 236u)) goto then_3;
    if (!(r161 == UINT64_C(1))) goto after_2;
    r61_2 = *(r13_2 + 4);
    if (r61_2 < 240u) goto after_2;
    v10 = r61_2 >> 3u;
    it = v10 & 1u;
    r7_3 = it;
    r7_4 = (uint64_t)((1u * r7_3) << UINT64_C(8));
    v11 = r61_2 & 7u;
    r7_5 = v11;
    r7_6 = r7_4 | r7_5;
    r7 = 13u;
    r7_2 = r7_6;
    goto dcc_plain_what_from_bytes_standard_what;
then_3:;
    switch (r13_3) {
    case UINT64_C(4): goto after_2;
    case UINT64_C(5): r13_11 = UINT64_C(0); r13_12 = 0u; r13_13 = 0u; r13_14 = UINT64_C(0); goto arm_9;
    default: goto join_12;
    }
join_12:;
    if (!(r161 < UINT64_C(3))) goto join_13;
    r69 = *(r13_2 + 5);
    r13_11 = UINT64_C(0);
    r13_12 = 0u;
    r13_13 = r69;
    r13_14 = UINT64_C(1);
    goto arm_9;
join_13:;
    if (!(r161 == UINT64_C(3))) goto join_14;
    r98 = *(r13_2 + 5);
    r100 = *(r13_2 + 6);
    r13_11 = UINT64_C(0);
    r13_12 = r100;
    r13_13 = r98;
    r13_14 = UINT64_C(2);
    goto arm_9;
join_14:;
    if (!(r161 < UINT64_C(5))) goto after_2;
    r133 = *(r13_2 + 5);
    r135 = *(r13_2 + 6);
    r137 = *(r13_2 + 7);
    v12 = r137;
    v13 = (uint64_t)((1u * v12) << UINT64_C(32));
    r13_11 = v13;
    r13_12 = r135;
    r13_13 = r133;
    r13_14 = UINT64_C(3);
arm_9:;
    r13_15 = *(r13_2 + 4);
    v14 = r13_15;
    v15 = (uint64_t)((1u * v14) << UINT64_C(8));
    v16 = v15 | r13_14;
    v17 = r13_13;
    v18 = (uint64_t)((1u * v17) << UINT64_C(16));
    v19 = v16 | v18;
    v20 = r13_12;
    v21 = (uint64_t)((1u * v20) << UINT64_C(24));
    v22 = v19 | v21;
    v23 = v22 | r13_11;
    r7 = 12u;
    r7_2 = v23;
    goto dcc_plain_what_from_bytes_standard_what;
after_4:;
    r193 = (uint64_t)(r13_3 + UINT64_C(18446744073709551614));
    r200 = *(r13_2 + 1);
    if (!(r193 < UINT64_C(3))) goto join_15;
    r69_2 = *(r13_2 + 3);
    r20070 = r200;
    r13_6 = 0u;
    r13_7 = 0u;
    r13_8 = r69_2;
    r13_9 = 1u;
    goto arm_7;
join_15:;
    if (!(r193 == UINT64_C(3))) goto join_16;
    r98_2 = *(r13_2 + 3);
    r100_2 = *(r13_2 + 4);
    r20070 = r200;
    r13_6 = 0u;
    r13_7 = r100_2;
    r13_8 = r98_2;
    r13_9 = 2u;
    goto arm_7;
join_16:;
    if (!(r193 < UINT64_C(5))) goto after_2;
    r133_2 = *(r13_2 + 3);
    r135_2 = *(r13_2 + 4);
    r137_2 = *(r13_2 + 5);
    r20070 = r200;
    r13_6 = r137_2;
    r13_7 = r135_2;
    r13_8 = r133_2;
    r13_9 = 3u;
arm_7:;
    r13_16 = *(r13_2 + 2);
    a1_2 = r20070 >> 7u;
    r25_2 = r20070 & 127u;
    r16_2 = UINT64_C(0);
    r16_3 = r13_6;
    r16_4 = r13_7;
    r16_5 = r13_8;
    r16_6 = r13_16;
    r16_7 = r13_9;
    r16_8 = r25_2;
    r16_9 = a1_2;
    r16_10 = 6u;
    goto arm_3;
dcc_plain_what_from_bytes_standard_what:;
    r16_12 = (uint8_t)(r20_3);
    r16_13 = r22 >> UINT32_C(8);
    r16_14 = (uint8_t)(r16_13);
    r16_15 = r22 >> UINT32_C(16);
    r16_16 = (uint8_t)(r16_15);
    r16_17 = r22 >> UINT32_C(24);
    r16_18 = (uint8_t)r16_17;
    r16_2 = r7_2;
    r16_3 = r16_18;
    r16_4 = r16_16;
    r16_5 = r16_14;
    r16_6 = r16_12;
    r16_7 = 0u;
    r16_8 = 0u;
    r16_9 = r20_4;
    r16_10 = r7;
arm_3:;
    r16_19 = r16_3;
    r16_20 = (uint32_t)((1u * r16_19) << UINT32_C(24));
    r16_21 = r16_4;
    r16_22 = (uint32_t)((1u * r16_21) << UINT32_C(16));
    r16_23 = r16_22 | r16_20;
    r16_24 = r16_5;
    r16_25 = (uint32_t)((1u * r16_24) << UINT32_C(8));
    r16_26 = r16_23 | r16_25;
    r16_27 = r16_6;
    r16_28 = r16_26 | r16_27;
    r16_29 = r16_7;
    r16_30 = (uint16_t)((1u * r16_29) << 8u);
    r16_31 = r16_8;
    r16_32 = r16_30 | r16_31;
    dcc_store_32_aligned(r17, UINT32_C(1));
    dcc_store_16_aligned((r17 + 6), r13_4);
    dcc_store_16_aligned((r17 + 8), r13_5);
    *(r17 + 12) = r16_10;
    *(r17 + 13) = r16_9;
    dcc_store_16_aligned((r17 + 14), r16_32);
    dcc_store_32_aligned((r17 + 16), r16_28);
    dcc_store_64_aligned((r17 + 20), r16_2);
after_2:;
    r278 = *r17;
    v24 = *(r17 + 4);
    v25 = *(r17 + 5);
    v26 = dcc_load_16_aligned((r17 + 6));
    memcpy(DCC_ALIGNED(r0), DCC_ALIGNED((r17 + 8)), 20);
    v27 = r278;
    r0_2 = v27;
    r0_3 = v24;
    r0_4 = v25;
    r0_5 = v26;
dcc_plain_packet_from_bytes_standard_row:;
    dcc_store_32(a0, r0_2);
    *(a0 + 4) = r0_3;
    *(a0 + 5) = r0_4;
    dcc_store_16((a0 + 6), r0_5);
    memcpy((a0 + 8), DCC_ALIGNED(r0), 20);
    return;
}

/* dcc_plain::packet_from_bytes::clock_row */
static void dcc_plain_packet_from_bytes_clock_row(unsigned char *a0, uint8_t a1, uint8_t a2, uint8_t a3) {
    uint16_t r1_9, r1_10, r1_11, r1_12;
    uint32_t r1_8;
    uint8_t r1_2, r1_3, r1_4, r1_5, r1_6, r1_7, r26, r32, r417, a3_2, v0, or_2, v1, v2, or_3, r83, r846, r85;
    uint16_t place_0[9];
    unsigned char *const r1 = (unsigned char *)place_0;
    memset(r1, 0u, 18);
    if (!(a1 < 60u)) goto join;
    r26 = a2 & 31u;
    if (!(r26 < 24u)) { r1_2 = 0u; r1_3 = 0u; r1_4 = 0u; r1_5 = 0u; r1_6 = 0u; r1_7 = 0u; r1_8 = UINT32_C(0); goto after; }
    r32 = a3 & 127u;
    if (!(r32 < 64u)) { r1_2 = 0u; r1_3 = 0u; r1_4 = 0u; r1_5 = 0u; r1_6 = 0u; r1_7 = 0u; r1_8 = UINT32_C(0); goto after; }
    r417 = a2 >> 5u;
    a3_2 = a3 >> 7u;
    r1_2 = r32;
    r1_3 = a3_2;
    r1_4 = r26;
    r1_5 = r417;
    r1_6 = a1;
    r1_7 = 1u;
    r1_8 = UINT32_C(1);
    goto after;
join:;
    v0 = (uint8_t)(a1 + 191u);
    or_2 = v0 < 31u;
    v1 = (uint8_t)(a2 + 240u);
    v2 = v1 < 192u;
    or_3 = or_2 & v2;
    if (!(or_3)) { r1_2 = 0u; r1_3 = 0u; r1_4 = 0u; r1_5 = 0u; r1_6 = 0u; r1_7 = 0u; r1_8 = UINT32_C(0); goto after; }
    r83 = (uint8_t)(a1 + 192u);
    r846 = a2 >> 4u;
    r85 = a2 & 15u;
    r1_2 = r85;
    r1_3 = a3;
    r1_4 = 0u;
    r1_5 = r846;
    r1_6 = r83;
    r1_7 = 2u;
    r1_8 = UINT32_C(1);
after:;
    r1_9 = r1_2;
    r1_10 = (uint16_t)((1u * r1_9) << 8u);
    r1_11 = r1_3;
    r1_12 = r1_10 | r1_11;
    dcc_store_32(a0, r1_8);
    *(a0 + 4) = r1_7;
    *(a0 + 5) = r1_6;
    *(a0 + 6) = r1_5;
    *(a0 + 7) = r1_4;
    dcc_store_16((a0 + 8), r1_12);
    memcpy((a0 + 10), r1, 18);
    return;
}

/* dcc_plain::packet_from_bytes::cv_access */
static void dcc_plain_packet_from_bytes_cv_access(unsigned char *a0, uint8_t a1, uint8_t a2, uint8_t a3) {
    uint16_t r32;
    uint8_t r6_2, r6_3, r6_4, r15, r1, r1_2, r1_3;
    uint16_t place_0[6];
    unsigned char *const r2 = (unsigned char *)place_0;
    uint32_t place_1[1];
    unsigned char *const r3 = (unsigned char *)place_1;
    uint8_t place_2[3];
    unsigned char *const r6 = (unsigned char *)place_2;
    memset(r2, 0u, 12);
    dcc_store_32_aligned(r3, UINT32_C(0));
    memset(r6, 0u, 3);
    *(r3 + 1) = a1;
    *(r3 + 2) = a2;
    *(r3 + 3) = a3;
    dcc_packet_from_frame_read_loco(r2, r3, UINT64_C(4));
    r15 = *r2;
    if (!(r15 == 1u)) { r6_2 = 0u; r6_3 = 0u; r6_4 = 0u; goto join; }
    r1 = *(r2 + 6);
    r1_2 = *(r2 + 10);
    r1_3 = *(r2 + 11);
    memcpy(r6, (r2 + 7), 3);
    r6_2 = r1;
    r6_3 = r1_2;
    r6_4 = r1_3;
join:;
    r32 = r15;
    dcc_store_16(a0, r32);
    *(a0 + 2) = r6_2;
    memcpy((a0 + 3), r6, 3);
    *(a0 + 6) = r6_3;
    *(a0 + 7) = r6_4;
    return;
}

/* dcc_plain::packet_from_bytes::cv_row */
static void dcc_plain_packet_from_bytes_cv_row(unsigned char *a0, uint8_t a1, uint8_t a2, unsigned char *a3) {
    uint16_t r12_7, r1_7, r20, r1_8, r26, r10, r1_9, r14_2;
    uint32_t r12_5;
    uint8_t r12_2, r12_3, r12_4, r12_6, r12_8, r12_9, r12_10, r12_11, r12_12, r1, r1_2, r1_3, r1_4, r1_5, r1_6,
        r122, r14, r16, r21, r29, r3239, r34, r82;
    uint32_t place_0[3];
    unsigned char *const r12 = (unsigned char *)place_0;
    r1 = *a3;
    r1_2 = *(a3 + 1);
    r1_3 = *(a3 + 2);
    r1_4 = *(a3 + 3);
    r1_5 = *(a3 + 4);
    r1_6 = *(a3 + 5);
    memset(DCC_ALIGNED(r12), 0u, 12);
    r122 = a2 >> 4u;
    r14 = r122 & 7u;
    r16 = r14 ^ 7u;
    r1_7 = r16;
    r20 = (uint16_t)((1u * r1_7) << 6u);
    r21 = a1 & 63u;
    r1_8 = r21;
    r26 = r20 | r1_8;
    r29 = a2 & 15u;
    if (!((a2 ^ 128u) > (255u ^ 128u))) goto arm;
    switch (r29) {
    case 1u: case 3u: case 5u: case 7u: goto arm_2;
    default: r12_2 = 0u; r12_3 = 0u; r12_4 = 0u; r12_5 = UINT32_C(0); r12_6 = 0u; r12_7 = 0u; r12_8 = 0u; r12_9 = 0u; r12_10 = 0u; r12_11 = 0u; r12_12 = 0u; goto after;
    }
arm_2:;
    r3239 = a2 >> 1u;
    r34 = r3239 & 3u;
    r10 = (uint16_t)((1u * r26) << 2u);
    r1_9 = r34;
    r14_2 = r10 | r1_9;
    r12_2 = r1_4;
    r12_3 = r1_5;
    r12_4 = r1_6;
    r12_5 = UINT32_C(1);
    r12_6 = 7u;
    r12_7 = r14_2;
    r12_8 = r1;
    r12_9 = r1_2;
    r12_10 = r1_3;
    r12_11 = 0u;
    r12_12 = 0u;
    goto after;
arm:;
    if (r29 == 0u) { r12_2 = r1_2; r12_3 = r1_3; r12_4 = r1_4; r12_5 = UINT32_C(1); r12_6 = 6u; r12_7 = r26; r12_8 = 0u; r12_9 = 0u; r12_10 = r1; r12_11 = r1_5; r12_12 = r1_6; goto after; }
    if (r29 < 8u) { r12_2 = 0u; r12_3 = 0u; r12_4 = 0u; r12_5 = UINT32_C(0); r12_6 = 0u; r12_7 = 0u; r12_8 = 0u; r12_9 = 0u; r12_10 = 0u; r12_11 = 0u; r12_12 = 0u; goto after; }
    r82 = a2 & 7u;
    r12_2 = r1_2;
    r12_3 = r1_3;
    r12_4 = r1_4;
    r12_5 = UINT32_C(1);
    r12_6 = 6u;
    r12_7 = r26;
    r12_8 = 1u;
    r12_9 = r82;
    r12_10 = r1;
    r12_11 = r1_5;
    r12_12 = r1_6;
after:;
    dcc_store_32(a0, r12_5);
    *(a0 + 4) = r12_6;
    *(a0 + 5) = 0u;
    dcc_store_16((a0 + 6), r12_7);
    *(a0 + 8) = r12_8;
    *(a0 + 9) = r12_9;
    *(a0 + 10) = r12_10;
    *(a0 + 11) = r12_2;
    *(a0 + 12) = r12_3;
    *(a0 + 13) = r12_4;
    *(a0 + 14) = r12_11;
    *(a0 + 15) = r12_12;
    memcpy((a0 + 16), DCC_ALIGNED(r12), 12);
    return;
}

/* dcc_plain::words::append_address */
static void dcc_plain_words_append_address(unsigned char *a0, unsigned char *a1) {
    uint16_t r1_3;
    uint32_t r1_2, r1_4;
    uint8_t r22, r1;
    r22 = *a1;
    switch (r22) {
    case 0u: goto arm;
    case 1u: goto arm_2;
    case 2u: goto arm_3;
    default: goto noarm;
    }
arm:;
    dcc_plain_text_append(a0, ((unsigned char *)constant_9758e8b5), UINT64_C(15));
    goto join;
arm_2:;
    dcc_plain_text_append(a0, ((unsigned char *)constant_63cee0ff), UINT64_C(11));
    r1 = *(a1 + 1);
    r1_2 = r1;
    dcc_plain_text_append_digits(a0, r1_2);
    goto join;
arm_3:;
    dcc_plain_text_append(a0, ((unsigned char *)constant_63cee0ff), UINT64_C(11));
    r1_3 = dcc_load_16_aligned((a1 + 2));
    r1_4 = r1_3;
    dcc_plain_text_append_digits(a0, r1_4);
    dcc_plain_text_append(a0, ((unsigned char *)constant_dba50b5e), UINT64_C(7));
join:;
    return;
noarm:;
    DCC_UNREACHABLE();
}

/* dcc_plain::text::append_digits */
static DCC_NOINLINE void dcc_plain_text_append_digits(unsigned char *a0, uint32_t a1) {
    uint32_t r21, r18, r21_2;
    uint64_t r7, r19;
    uint8_t r23, r25;
    unsigned char *r12;
    if (!(a1 < UINT32_C(10))) goto join;
    r21 = a1;
common:;
    r23 = (uint8_t)r21;
    r25 = r23 | 48u;
    r7 = dcc_load_64_aligned((a0 + 256));
    r12 = a0 + (ptrdiff_t)r7;
    *r12 = r25;
    r19 = (uint64_t)(r7 + UINT64_C(1));
    dcc_store_64_aligned((a0 + 256), r19);
    return;
join:;
    r18 = a1 / UINT32_C(10);
    dcc_plain_text_append_digits(a0, r18);
    r21_2 = a1 % UINT32_C(10);
    r21 = r21_2;
    goto common;
}

/* dcc_plain::text::append */
static DCC_NOINLINE void dcc_plain_text_append(unsigned char *a0, unsigned char *a1, uint64_t a2) {
    uint64_t r0, r3, r5, r8, r9, r10, r30, r32;
    uint8_t r26;
    unsigned char *r24, *r20, *r24_2;
    r3 = dcc_load_64_aligned((a0 + 256));
    r5 = (uint64_t)(UINT64_C(255) - r3);
    if (r5 < a2) goto arrayvec_array_vec_ArrayVec_try_extend_from_slice;
    r24 = a0 + (ptrdiff_t)r3;
    r8 = (uintptr_t)r24;
    r9 = (uintptr_t)a1;
    r10 = (uint64_t)(r8 - r9);
    if (r10 < a2) { r0 = UINT64_C(0); goto join; }
    memmove(r24, a1, (size_t)a2);
    goto arrayvec_cells_Cells_copy_in__i8_255_20_core_clone_U8Clone;
join:;
    r20 = r24 + (ptrdiff_t)r0;
    r24_2 = a1 + (ptrdiff_t)r0;
    r26 = *r24_2;
    *r20 = r26;
    r30 = (uint64_t)(r0 + UINT64_C(1));
    if (!(r30 == a2)) { r0 = r30; goto join; }
arrayvec_cells_Cells_copy_in__i8_255_20_core_clone_U8Clone:;
    r32 = (uint64_t)(r3 + a2);
    dcc_store_64_aligned((a0 + 256), r32);
arrayvec_array_vec_ArrayVec_try_extend_from_slice:;
    return;
}

/* dcc_plain::words::append_instruction */
static void dcc_plain_words_append_instruction(unsigned char *a0, unsigned char *a1, unsigned char *a2) {
    uint16_t r1_5;
    uint32_t r1_3;
    uint64_t v1, v2;
    uint8_t r40, r51, r52, r1, r3, r63, r64, r1_2, r0, switch_3, switch_5, r2, v3, r11, r13, r153, r18, r3_2, r1_4,
        r82, r83, r92, r99, r107, r108, r119, r120;
    unsigned char *static_2, *static_3, *static_4, *switch_2, *switch_4;
    r40 = *a2;
    switch (r40) {
    case 0u: goto arm;
    case 1u: goto arm_2;
    case 2u: goto arm_3;
    case 3u: goto arm_4;
    case 4u: goto arm_5;
    case 5u: goto arm_6;
    case 6u: goto arm_7;
    case 7u: goto arm_8;
    case 8u: goto arm_9;
    default: goto noarm;
    }
arm:;
    dcc_plain_text_append(a0, ((unsigned char *)constant_8db76964), UINT64_C(20));
    goto join;
arm_2:;
    r51 = *(a2 + 1);
    r52 = r51;
    r1 = *(a2 + 2);
    r3 = *a1;
    if (!(r3 == 0u)) goto arm_10;
    switch (r1) {
    case 1u: case 3u: goto arm_11;
    case 0u: case 2u: goto arm_12;
    default: goto default_2;
    }
arm_11:;
    dcc_plain_words_append_step28(a0, r1);
    goto join;
arm_12:;
    dcc_plain_words_append_step28(a0, r1);
    static_2 = r52 ? ((unsigned char *)constant_eaad7221) : ((unsigned char *)constant_268ee5a1);
    dcc_plain_text_append(a0, static_2, UINT64_C(9));
    goto join;
default_2:;
    dcc_plain_text_append(a0, ((unsigned char *)constant_a74fa2ec), UINT64_C(13));
    goto join;
arm_10:;
    dcc_plain_words_append_step28(a0, r1);
    static_3 = r52 ? ((unsigned char *)constant_eaad7221) : ((unsigned char *)constant_268ee5a1);
    dcc_plain_text_append(a0, static_3, UINT64_C(9));
    goto join;
arm_3:;
    r63 = *(a2 + 1);
    r64 = r63;
    r1_2 = *(a2 + 2);
    dcc_plain_words_append_step128(a0, r1_2);
    static_4 = r64 ? ((unsigned char *)constant_eaad7221) : ((unsigned char *)constant_268ee5a1);
    dcc_plain_text_append(a0, static_4, UINT64_C(9));
    goto join;
arm_4:;
    r0 = *(a2 + 1);
    v1 = r0;
    switch_2 = ((unsigned char *)switch_table_dcc_read) + (ptrdiff_t)v1;
    switch_3 = *switch_2;
    v2 = r0;
    switch_4 = ((unsigned char *)switch_table_dcc_plain_words_append_instruction_2) + (ptrdiff_t)v2;
    switch_5 = *switch_4;
    r2 = *(a2 + 2);
    v3 = r0 == 0u;
    r11 = (uint8_t)((1u * r2) << 1u);
    r13 = r11 & 30u;
    r153 = r2 >> 4u;
    r18 = (uint8_t)(r13 + r153);
    r3_2 = v3 ? r18 : r2;
    r1_3 = r3_2;
    dcc_plain_functions_append_functions(a0, switch_3, switch_5, r1_3);
    goto join;
arm_5:;
    r1_4 = *(a2 + 1);
    r1_5 = r1_4;
    r82 = *(a2 + 2);
    r83 = r82;
    dcc_plain_words_append_state(a0, r1_5, r83);
    goto join;
arm_6:;
    r92 = *(a2 + 4);
    dcc_plain_words_append_cv_write(a0, (a2 + 2), r92);
    goto join;
arm_7:;
    r99 = *(a2 + 4);
    dcc_plain_words_append_cv_verify(a0, (a2 + 2), r99);
    goto join;
arm_8:;
    r107 = *(a2 + 5);
    r108 = r107;
    dcc_plain_words_append_cv_bit_write(a0, (a2 + 2), (a2 + 4), r108);
    goto join;
arm_9:;
    r119 = *(a2 + 5);
    r120 = r119;
    dcc_plain_words_append_cv_bit_verify(a0, (a2 + 2), (a2 + 4), r120);
join:;
    return;
noarm:;
    DCC_UNREACHABLE();
}

/* dcc_plain::words::append_step28 */
static void dcc_plain_words_append_step28(unsigned char *a0, uint8_t a1) {
    uint32_t r1;
    uint8_t r48;
    if (!(a1 < 2u)) goto join;
    dcc_plain_text_append(a0, ((unsigned char *)constant_f5091d74), UINT64_C(4));
    goto after;
join:;
    if (!(a1 < 4u)) goto join_2;
    dcc_plain_text_append(a0, ((unsigned char *)constant_d241a507), UINT64_C(14));
    goto after;
join_2:;
    dcc_plain_text_append(a0, ((unsigned char *)constant_a9678de8), UINT64_C(5));
    r48 = (uint8_t)(a1 + 253u);
    r1 = r48;
    dcc_plain_text_append_digits(a0, r1);
    dcc_plain_text_append(a0, ((unsigned char *)constant_a15b1204), UINT64_C(6));
after:;
    return;
}

/* dcc_plain::words::append_step128 */
static void dcc_plain_words_append_step128(unsigned char *a0, uint8_t a1) {
    uint32_t r1;
    uint8_t r39;
    switch (a1) {
    case 0u: goto arm;
    case 1u: goto arm_2;
    default: goto default_2;
    }
arm:;
    dcc_plain_text_append(a0, ((unsigned char *)constant_f5091d74), UINT64_C(4));
    goto join;
arm_2:;
    dcc_plain_text_append(a0, ((unsigned char *)constant_d241a507), UINT64_C(14));
    goto join;
default_2:;
    dcc_plain_text_append(a0, ((unsigned char *)constant_a9678de8), UINT64_C(5));
    r39 = (uint8_t)(a1 + 255u);
    r1 = r39;
    dcc_plain_text_append_digits(a0, r1);
    dcc_plain_text_append(a0, ((unsigned char *)constant_19eb2479), UINT64_C(7));
join:;
    return;
}

/* dcc_plain::functions::append_functions */
static void dcc_plain_functions_append_functions(unsigned char *a0, uint8_t a1, uint8_t a2, uint32_t a3) {
    uint32_t indvars, v0, wide, v1, v2, v3, indvars_2;
    uint64_t r1, r18, r19, r21;
    uint8_t r0, r0_2, r26, r32;
    r1 = a3;
    r18 = (uint64_t)(r1 + UINT64_C(1));
    r19 = a2;
    r21 = (uint64_t)((1u * UINT64_C(1)) << (r19 & UINT64_C(63)));
    if (!(r18 == r21)) goto else_2;
    dcc_plain_functions_append_range(a0, a1, a2);
    dcc_plain_text_append(a0, ((unsigned char *)constant_5c87d6ac), UINT64_C(3));
    goto join;
else_2:;
    v0 = a1;
    wide = a2;
    indvars = UINT32_C(0);
    r0 = 0u;
join_3:;
    v1 = (uint32_t)((1u * UINT32_C(1)) << (indvars & UINT32_C(31)));
    v2 = v1 & a3;
    if (v2 == UINT32_C(0)) { r0_2 = r0; goto join_2; }
    v3 = (uint32_t)(indvars + v0);
    r26 = r0;
    if (!(r26)) goto dcc_plain_functions_append_next_name;
    dcc_plain_text_append(a0, ((unsigned char *)constant_e395cdce), UINT64_C(2));
dcc_plain_functions_append_next_name:;
    dcc_plain_text_append(a0, ((unsigned char *)constant_472cb4ef), UINT64_C(1));
    dcc_plain_text_append_digits(a0, v3);
    r0_2 = 1u;
join_2:;
    indvars_2 = (uint32_t)(indvars + UINT32_C(1));
    if (!(indvars_2 == wide)) { indvars = indvars_2; r0 = r0_2; goto join_3; }
    r32 = r0_2;
    if (!(r32)) goto dcc_plain_functions_append_functions_on;
    dcc_plain_text_append(a0, ((unsigned char *)constant_8dcf3d35), UINT64_C(17));
dcc_plain_functions_append_functions_on:;
    dcc_plain_functions_append_range(a0, a1, a2);
    dcc_plain_text_append(a0, ((unsigned char *)constant_eecb2a21), UINT64_C(4));
join:;
    return;
}

/* dcc_plain::functions::append_range */
static void dcc_plain_functions_append_range(unsigned char *a0, uint8_t a1, uint8_t a2) {
    uint32_t r1, r1_2;
    uint8_t r16, r18;
    dcc_plain_text_append(a0, ((unsigned char *)constant_472cb4ef), UINT64_C(1));
    r1 = a1;
    dcc_plain_text_append_digits(a0, r1);
    dcc_plain_text_append(a0, ((unsigned char *)constant_71d0b96f), UINT64_C(4));
    r16 = (uint8_t)(a1 + 255u);
    r18 = (uint8_t)(r16 + a2);
    dcc_plain_text_append(a0, ((unsigned char *)constant_472cb4ef), UINT64_C(1));
    r1_2 = r18;
    dcc_plain_text_append_digits(a0, r1_2);
    return;
}

/* dcc_plain::words::append_state */
static void dcc_plain_words_append_state(unsigned char *a0, uint16_t a1, uint8_t a2) {
    uint32_t r1;
    if (!(a1 == 0u)) goto else_2;
    dcc_plain_text_append(a0, ((unsigned char *)constant_713bac87), UINT64_C(17));
    goto join;
else_2:;
    dcc_plain_text_append(a0, ((unsigned char *)constant_0a30d724), UINT64_C(13));
    r1 = a1;
    dcc_plain_text_append_digits(a0, r1);
join:;
    dcc_plain_words_append_switch(a0, a2);
    return;
}

/* dcc_plain::words::append_switch */
static void dcc_plain_words_append_switch(unsigned char *a0, uint8_t a1) {
    if (!(a1)) goto else_2;
    dcc_plain_text_append(a0, ((unsigned char *)constant_5c87d6ac), UINT64_C(3));
    goto join;
else_2:;
    dcc_plain_text_append(a0, ((unsigned char *)constant_eecb2a21), UINT64_C(4));
join:;
    return;
}

/* dcc_plain::words::append_cv_write */
static void dcc_plain_words_append_cv_write(unsigned char *a0, unsigned char *a1, uint8_t a2) {
    uint16_t r1;
    uint32_t r1_2, r1_3;
    dcc_plain_text_append(a0, ((unsigned char *)constant_0c1dd72b), UINT64_C(2));
    r1 = dcc_load_16_aligned(a1);
    r1_2 = r1;
    dcc_plain_text_append_digits(a0, r1_2);
    dcc_plain_text_append(a0, ((unsigned char *)constant_da5a848b), UINT64_C(4));
    r1_3 = a2;
    dcc_plain_text_append_digits(a0, r1_3);
    return;
}

/* dcc_plain::words::append_cv_verify */
static void dcc_plain_words_append_cv_verify(unsigned char *a0, unsigned char *a1, uint8_t a2) {
    uint16_t r1;
    uint32_t r1_2, r1_3;
    dcc_plain_text_append(a0, ((unsigned char *)constant_86a5e7fc), UINT64_C(3));
    dcc_plain_text_append(a0, ((unsigned char *)constant_0c1dd72b), UINT64_C(2));
    r1 = dcc_load_16_aligned(a1);
    r1_2 = r1;
    dcc_plain_text_append_digits(a0, r1_2);
    dcc_plain_text_append(a0, ((unsigned char *)constant_90c14424), UINT64_C(1));
    r1_3 = a2;
    dcc_plain_text_append_digits(a0, r1_3);
    dcc_plain_text_append(a0, ((unsigned char *)constant_6cd1856d), UINT64_C(1));
    return;
}

/* dcc_plain::words::append_cv_bit_write */
static void dcc_plain_words_append_cv_bit_write(unsigned char *a0, unsigned char *a1, unsigned char *a2, uint8_t a3) {
    unsigned char *static_2;
    dcc_plain_words_append_cv_bit(a0, a1, a2);
    dcc_plain_text_append(a0, ((unsigned char *)constant_da5a848b), UINT64_C(4));
    static_2 = a3 ? ((unsigned char *)constant_9be45b36) : ((unsigned char *)constant_3c1ceb00);
    dcc_plain_text_append(a0, static_2, UINT64_C(1));
    return;
}

/* dcc_plain::words::append_cv_bit */
static void dcc_plain_words_append_cv_bit(unsigned char *a0, unsigned char *a1, unsigned char *a2) {
    uint16_t r1_3;
    uint32_t r1_2, r1_4;
    uint8_t r1;
    dcc_plain_text_append(a0, ((unsigned char *)constant_7e63207b), UINT64_C(4));
    r1 = *a2;
    r1_2 = r1;
    dcc_plain_text_append_digits(a0, r1_2);
    dcc_plain_text_append(a0, ((unsigned char *)constant_16eb9872), UINT64_C(4));
    dcc_plain_text_append(a0, ((unsigned char *)constant_0c1dd72b), UINT64_C(2));
    r1_3 = dcc_load_16_aligned(a1);
    r1_4 = r1_3;
    dcc_plain_text_append_digits(a0, r1_4);
    return;
}

/* dcc_plain::words::append_cv_bit_verify */
static void dcc_plain_words_append_cv_bit_verify(unsigned char *a0, unsigned char *a1, unsigned char *a2, uint8_t a3) {
    unsigned char *static_2;
    dcc_plain_text_append(a0, ((unsigned char *)constant_86a5e7fc), UINT64_C(3));
    dcc_plain_words_append_cv_bit(a0, a1, a2);
    dcc_plain_text_append(a0, ((unsigned char *)constant_90c14424), UINT64_C(1));
    static_2 = a3 ? ((unsigned char *)constant_9be45b36) : ((unsigned char *)constant_3c1ceb00);
    dcc_plain_text_append(a0, static_2, UINT64_C(1));
    dcc_plain_text_append(a0, ((unsigned char *)constant_6cd1856d), UINT64_C(1));
    return;
}

/* dcc_plain::words::append_signal_name */
static void dcc_plain_words_append_signal_name(unsigned char *a0, unsigned char *a1) {
    uint16_t r1, r1_2;
    uint32_t r1_3;
    r1 = dcc_load_16_aligned(a1);
    if (!(r1 == 2047u)) goto else_2;
    dcc_plain_text_append(a0, ((unsigned char *)constant_a6154aae), UINT64_C(11));
    goto join;
else_2:;
    dcc_plain_text_append(a0, ((unsigned char *)constant_a291ae8a), UINT64_C(7));
    r1_2 = dcc_load_16_aligned(a1);
    r1_3 = r1_2;
    dcc_plain_text_append_digits(a0, r1_3);
join:;
    return;
}

/* dcc_plain::words::append_other */
static void dcc_plain_words_append_other(unsigned char *a0, unsigned char *a1, uint64_t a2, unsigned char *a3) {
    uint16_t r49, r65_2, r157, r122_2, r136, r1_26, r1_29;
    uint32_t r11, r1, r1_3, v2, v3, r1_4, r82, r85, r91, r1_5, r1_6, r1_7, r187, r193, r1_8, r1_9, r1_10, r1_11,
        r1_12, r1_13, r1_14, r201, r1_16, r1_19, r1_20, r1_21, r1_22, r1_23, r1_24, r1_25, r1_27, r1_28, r1_30,
        r1_32;
    uint64_t r1_17, v5, switch_5, v6, r61, r89;
    uint8_t r72, r39, r7, r20, r76, r67, r79, r83, r25, r29, r31, r44, r92, r96, r19, r103, r104, r119, r121, r122,
        r132, r133, r1_2, r2, r43, r78, switch_2, switch_3, r143, r145, r151, r159, r160, r169, r170, r173, r24,
        r27, r33, r37, r44_2, r48, r52, r60, r64, r68, r72_2, r203, r204, r1_15, r96_2, r98, r100, r102, r103_2,
        r106, r3, r6_2, r3_2, r6_3, r118, r120, r151_2, r25_2, r1_31, r39_2;
    unsigned char *r1_18, *static_2, *static_3, *static_4, *switch_4, *switch_6, *switch_7;
    uint32_t place_0[1];
    unsigned char *const r65 = (unsigned char *)place_0;
    uint32_t place_1[1];
    unsigned char *const r74 = (unsigned char *)place_1;
    uint8_t place_2[3];
    unsigned char *const r6 = (unsigned char *)place_2;
    unsigned char *const r5 = (unsigned char *)place_2;
    unsigned char *const r5_2 = (unsigned char *)place_2;
    uint8_t place_3[2];
    unsigned char *const r13 = (unsigned char *)place_3;
    r7 = *a3;
    if (!(r7 == 1u)) goto after;
    if (!(a2 == UINT64_C(3))) goto then;
    r20 = *a1;
    if ((r20 ^ 128u) > (111u ^ 128u)) { r39 = r20; goto after_2; }
then:;
    dcc_store_32_aligned(r65, UINT32_C(0));
    dcc_store_32_aligned(r74, UINT32_C(0));
    r76 = *(a3 + 4);
    switch (r76) {
    case 0u: goto arm;
    case 1u: goto arm_2;
    case 2u: goto arm_3;
    case 3u: goto arm_4;
    case 4u: goto arm_5;
    case 5u: goto arm_6;
    case 6u: goto arm_7;
    case 7u: goto arm_8;
    default: goto noarm;
    }
arm:;
    dcc_plain_words_append_address(a0, (a3 + 6));
    dcc_plain_text_append(a0, ((unsigned char *)constant_36dfff28), UINT64_C(2));
    r67 = *(a3 + 12);
    switch (r67) {
    case 0u: goto arm_9;
    case 1u: goto arm_10;
    case 2u: goto arm_11;
    case 3u: goto arm_12;
    case 4u: goto arm_13;
    case 5u: goto arm_14;
    case 6u: goto arm_15;
    case 7u: goto arm_16;
    case 8u: goto arm_17;
    case 9u: goto arm_18;
    case 10u: goto arm_19;
    case 11u: goto arm_20;
    case 12u: goto arm_21;
    case 13u: goto arm_22;
    default: goto noarm_2;
    }
arm_9:;
    dcc_plain_text_append(a0, ((unsigned char *)constant_26f195b5), UINT64_C(10));
    goto dcc_plain_standard_words_append_standard;
arm_10:;
    r79 = *(a3 + 13);
    r83 = *(a3 + 14);
    dcc_plain_text_append(a0, ((unsigned char *)constant_d9a430b6), UINT64_C(12));
    r25 = *(a3 + 15);
    if (!(r25 == 1u)) goto arm_23;
    r29 = r79 | 2u;
    r31 = *(a3 + 16);
    *r6 = r29;
    *(r6 + 1) = r83;
    *(r6 + 2) = r31;
    dcc_plain_text_append_hex_words(a0, r6, UINT64_C(3));
    goto dcc_plain_standard_words_append_factory_test;
arm_23:;
    r44 = r79 | 2u;
    *r13 = r44;
    *(r13 + 1) = r83;
    dcc_plain_text_append_hex_words(a0, r13, UINT64_C(2));
dcc_plain_standard_words_append_factory_test:;
    goto dcc_plain_standard_words_append_standard;
arm_11:;
    r92 = *(a3 + 13);
    r96 = *(a3 + 14);
    dcc_plain_text_append(a0, ((unsigned char *)constant_6927d41b), UINT64_C(13));
    r19 = r92 | 6u;
    *r5 = r19;
    *(r5 + 1) = r96;
    dcc_plain_text_append_hex_words(a0, r5, UINT64_C(2));
    goto dcc_plain_standard_words_append_standard;
arm_12:;
    r103 = *(a3 + 13);
    r104 = r103;
    if (!(r104)) goto else_2;
    dcc_plain_text_append(a0, ((unsigned char *)constant_94bac48c), UINT64_C(33));
    goto dcc_plain_standard_words_append_standard;
else_2:;
    dcc_plain_text_append(a0, ((unsigned char *)constant_92371067), UINT64_C(34));
    goto dcc_plain_standard_words_append_standard;
arm_13:;
    dcc_plain_text_append(a0, ((unsigned char *)constant_a8952f36), UINT64_C(11));
    goto dcc_plain_standard_words_append_standard;
arm_14:;
    r119 = *(a3 + 13);
    if (!(r119 == 0u)) goto else_3;
    dcc_plain_text_append(a0, ((unsigned char *)constant_977f30bb), UINT64_C(17));
    goto dcc_plain_standard_words_append_standard;
else_3:;
    r121 = *(a3 + 14);
    r122 = r121;
    dcc_plain_text_append(a0, ((unsigned char *)constant_a2ae59ea), UINT64_C(13));
    r1 = r119;
    dcc_plain_text_append_digits(a0, r1);
    if (!(r122)) goto dcc_plain_standard_words_append_standard;
    dcc_plain_text_append(a0, ((unsigned char *)constant_e0ea1ce6), UINT64_C(10));
    goto dcc_plain_standard_words_append_standard;
arm_15:;
    r132 = *(a3 + 13);
    r133 = r132;
    r1_2 = *(a3 + 14);
    dcc_plain_words_append_step128(a0, r1_2);
    static_2 = r133 ? ((unsigned char *)constant_eaad7221) : ((unsigned char *)constant_268ee5a1);
    dcc_plain_text_append(a0, static_2, UINT64_C(9));
    dcc_plain_text_append(a0, ((unsigned char *)constant_81665693), UINT64_C(2));
    r2 = *(a3 + 15);
    switch (r2) {
    case 0u: goto arm_24;
    case 1u: goto arm_25;
    case 2u: goto arm_26;
    case 3u: goto arm_27;
    default: goto noarm_3;
    }
arm_24:;
    r43 = *(a3 + 16);
    r1_3 = r43;
    r11 = r1_3;
    goto dcc_plain_standard_words_append_combined;
arm_25:;
    r49 = dcc_load_16((a3 + 16));
    v2 = r49;
    r11 = v2;
    goto dcc_plain_standard_words_append_combined;
arm_26:;
    r65_2 = dcc_load_16((a3 + 16));
    v3 = r65_2;
    r78 = *(a3 + 18);
    r1_4 = r78;
    r82 = (uint32_t)((1u * r1_4) << UINT32_C(16));
    r85 = r82 | v3;
    r11 = r85;
    goto dcc_plain_standard_words_append_combined;
arm_27:;
    r91 = dcc_load_32((a3 + 16));
    r11 = r91;
    goto dcc_plain_standard_words_append_combined;
noarm_3:;
    DCC_UNREACHABLE();
dcc_plain_standard_words_append_combined:;
    switch_2 = (uint8_t)((1u * r2) << 3u);
    switch_3 = (uint8_t)(switch_2 + 8u);
    dcc_plain_functions_append_functions(a0, 0u, switch_3, r11);
    goto dcc_plain_standard_words_append_standard;
arm_16:;
    r143 = *(a3 + 13);
    r145 = *(a3 + 14);
    dcc_plain_text_append(a0, ((unsigned char *)constant_be826d68), UINT64_C(14));
    r1_5 = r143;
    dcc_plain_text_append_digits(a0, r1_5);
    dcc_plain_text_append(a0, ((unsigned char *)constant_7d2c9635), UINT64_C(4));
    r1_6 = r145;
    dcc_plain_text_append_digits(a0, r1_6);
    goto dcc_plain_standard_words_append_standard;
arm_17:;
    r151 = *(a3 + 13);
    dcc_plain_text_append(a0, ((unsigned char *)constant_ad251c6d), UINT64_C(15));
    *r5_2 = r151;
    dcc_plain_text_append_hex_words(a0, r5_2, UINT64_C(1));
    goto dcc_plain_standard_words_append_standard;
arm_18:;
    r157 = dcc_load_16_aligned((a3 + 14));
    r159 = *(a3 + 16);
    r160 = r159;
    dcc_plain_words_append_state(a0, r157, r160);
    goto dcc_plain_standard_words_append_standard;
arm_19:;
    r169 = *(a3 + 13);
    r170 = r169;
    r173 = *(a3 + 14);
    static_3 = r170 ? ((unsigned char *)constant_f557dc23) : ((unsigned char *)constant_2d993f39);
    dcc_plain_text_append(a0, static_3, UINT64_C(8));
    r1_7 = r173;
    dcc_plain_text_append_digits(a0, r1_7);
    goto dcc_plain_standard_words_append_standard;
arm_20:;
    dcc_plain_text_append(a0, ((unsigned char *)constant_1f9496b5), UINT64_C(19));
    r187 = dcc_load_32_aligned((a3 + 16));
    dcc_plain_text_append_digits(a0, r187);
    goto dcc_plain_standard_words_append_standard;
arm_21:;
    r193 = dcc_load_32_aligned((a3 + 16));
    dcc_plain_text_append(a0, ((unsigned char *)constant_1766d49a), UINT64_C(20));
    dcc_plain_text_append_digits(a0, r193);
    dcc_plain_text_append(a0, ((unsigned char *)constant_36dfff28), UINT64_C(2));
    r24 = *(a3 + 20);
    switch (r24) {
    case 0u: goto arm_28;
    case 1u: goto arm_29;
    case 2u: goto arm_30;
    case 3u: goto arm_31;
    default: goto noarm_4;
    }
arm_28:;
    r27 = *(a3 + 21);
    r72 = r27;
    goto dcc_plain_standard_words_append_extended_write;
arm_29:;
    r33 = *(a3 + 21);
    r1_8 = r33;
    dcc_plain_text_append_digits(a0, r1_8);
    r37 = *(a3 + 22);
    dcc_plain_text_append(a0, ((unsigned char *)constant_e395cdce), UINT64_C(2));
    r72 = r37;
    goto dcc_plain_standard_words_append_extended_write;
arm_30:;
    r44_2 = *(a3 + 21);
    r1_9 = r44_2;
    dcc_plain_text_append_digits(a0, r1_9);
    r48 = *(a3 + 22);
    dcc_plain_text_append(a0, ((unsigned char *)constant_e395cdce), UINT64_C(2));
    r1_10 = r48;
    dcc_plain_text_append_digits(a0, r1_10);
    r52 = *(a3 + 23);
    dcc_plain_text_append(a0, ((unsigned char *)constant_e395cdce), UINT64_C(2));
    r72 = r52;
    goto dcc_plain_standard_words_append_extended_write;
arm_31:;
    r60 = *(a3 + 21);
    r1_11 = r60;
    dcc_plain_text_append_digits(a0, r1_11);
    r64 = *(a3 + 22);
    dcc_plain_text_append(a0, ((unsigned char *)constant_e395cdce), UINT64_C(2));
    r1_12 = r64;
    dcc_plain_text_append_digits(a0, r1_12);
    r68 = *(a3 + 23);
    dcc_plain_text_append(a0, ((unsigned char *)constant_e395cdce), UINT64_C(2));
    r1_13 = r68;
    dcc_plain_text_append_digits(a0, r1_13);
    r72_2 = *(a3 + 24);
    dcc_plain_text_append(a0, ((unsigned char *)constant_e395cdce), UINT64_C(2));
    r72 = r72_2;
    goto dcc_plain_standard_words_append_extended_write;
noarm_4:;
    DCC_UNREACHABLE();
dcc_plain_standard_words_append_extended_write:;
    r1_14 = r72;
    dcc_plain_text_append_digits(a0, r1_14);
    goto dcc_plain_standard_words_append_standard;
arm_22:;
    r201 = dcc_load_32_aligned((a3 + 16));
    r203 = *(a3 + 21);
    r204 = r203;
    dcc_plain_text_append(a0, ((unsigned char *)constant_10a80c67), UINT64_C(24));
    r1_15 = *(a3 + 20);
    r1_16 = r1_15;
    dcc_plain_text_append_digits(a0, r1_16);
    dcc_plain_text_append(a0, ((unsigned char *)constant_e887c43c), UINT64_C(6));
    dcc_plain_text_append_digits(a0, r201);
    dcc_plain_text_append(a0, ((unsigned char *)constant_da5a848b), UINT64_C(4));
    static_4 = r204 ? ((unsigned char *)constant_9be45b36) : ((unsigned char *)constant_3c1ceb00);
    dcc_plain_text_append(a0, static_4, UINT64_C(1));
    goto dcc_plain_standard_words_append_standard;
noarm_2:;
    DCC_UNREACHABLE();
arm_2:;
    r96_2 = *(a3 + 5);
    r98 = *(a3 + 6);
    r100 = *(a3 + 7);
    r102 = *(a3 + 8);
    r103_2 = r102;
    r106 = *(a3 + 9);
    dcc_plain_text_append(a0, ((unsigned char *)constant_fe7f451c), UINT64_C(12));
    if (!(r98 < 7u)) { r1_17 = UINT64_C(0); r1_18 = ((unsigned char *)constant_2c14b2e0); goto dcc_plain_standard_words_weekday_words; }
    v5 = r98;
    switch_4 = ((unsigned char *)switch_table_dcc_plain_words_append_other) + (ptrdiff_t)v5 * 8;
    switch_5 = dcc_load_64_aligned(switch_4);
    v6 = r98;
    switch_6 = ((unsigned char *)switch_table_dcc_plain_words_append_other_3) + (ptrdiff_t)v6 * 8;
    switch_7 = dcc_load_ptr(switch_6);
    r1_17 = switch_5;
    r1_18 = switch_7;
dcc_plain_standard_words_weekday_words:;
    dcc_plain_text_append(a0, r1_18, r1_17);
    r3 = r100 / 10u;
    r1_19 = r3;
    dcc_plain_text_append_digits(a0, r1_19);
    r6_2 = r100 % 10u;
    r1_20 = r6_2;
    dcc_plain_text_append_digits(a0, r1_20);
    dcc_plain_text_append(a0, ((unsigned char *)constant_0087fa8d), UINT64_C(1));
    r3_2 = r96_2 / 10u;
    r1_21 = r3_2;
    dcc_plain_text_append_digits(a0, r1_21);
    r6_3 = r96_2 % 10u;
    r1_22 = r6_3;
    dcc_plain_text_append_digits(a0, r1_22);
    dcc_plain_text_append(a0, ((unsigned char *)constant_b2851826), UINT64_C(9));
    r1_23 = r106;
    dcc_plain_text_append_digits(a0, r1_23);
    if (!(r103_2)) goto dcc_plain_standard_words_append_standard;
    dcc_plain_text_append(a0, ((unsigned char *)constant_43ef828e), UINT64_C(5));
    goto dcc_plain_standard_words_append_standard;
arm_3:;
    r118 = *(a3 + 5);
    r120 = *(a3 + 6);
    r122_2 = dcc_load_16_aligned((a3 + 8));
    dcc_plain_text_append(a0, ((unsigned char *)constant_e10a4cbc), UINT64_C(12));
    r1_24 = r122_2;
    dcc_plain_text_append_digits(a0, r1_24);
    dcc_plain_standard_words_append_dashed(a0, r120);
    dcc_plain_standard_words_append_dashed(a0, r118);
    goto dcc_plain_standard_words_append_standard;
arm_4:;
    dcc_plain_text_append(a0, ((unsigned char *)constant_4a16d971), UINT64_C(13));
    r136 = dcc_load_16_aligned((a3 + 6));
    r1_25 = r136;
    dcc_plain_text_append_digits(a0, r1_25);
    dcc_plain_text_append(a0, ((unsigned char *)constant_863630dd), UINT64_C(3));
    goto dcc_plain_standard_words_append_standard;
arm_5:;
    r1_26 = dcc_load_16_aligned((a3 + 6));
    r151_2 = *(a3 + 8);
    dcc_plain_text_append(a0, ((unsigned char *)constant_4df15fd7), UINT64_C(6));
    r1_27 = r1_26;
    dcc_plain_text_append_digits(a0, r1_27);
    dcc_plain_text_append(a0, ((unsigned char *)constant_3aa78beb), UINT64_C(7));
    r1_28 = r151_2;
    dcc_plain_text_append_digits(a0, r1_28);
    if (!(r1_26 == 511u)) goto dcc_plain_standard_words_append_pair;
    dcc_plain_text_append(a0, ((unsigned char *)constant_bff2eb0d), UINT64_C(12));
dcc_plain_standard_words_append_pair:;
    dcc_plain_text_append(a0, ((unsigned char *)constant_a363ab27), UINT64_C(15));
    goto dcc_plain_standard_words_append_standard;
arm_6:;
    dcc_plain_words_append_signal_name(a0, (a3 + 6));
    dcc_plain_text_append(a0, ((unsigned char *)constant_a363ab27), UINT64_C(15));
    goto dcc_plain_standard_words_append_standard;
arm_7:;
    r1_29 = dcc_load_16_aligned((a3 + 6));
    dcc_plain_text_append(a0, ((unsigned char *)constant_4df15fd7), UINT64_C(6));
    r1_30 = r1_29;
    dcc_plain_text_append_digits(a0, r1_30);
    r25_2 = *(a3 + 8);
    if (!(r25_2 == 1u)) goto join;
    dcc_plain_text_append(a0, ((unsigned char *)constant_aee597a4), UINT64_C(9));
    r1_31 = *(a3 + 9);
    r1_32 = r1_31;
    dcc_plain_text_append_digits(a0, r1_32);
join:;
    if (!(r1_29 == 511u)) goto dcc_plain_standard_words_append_output;
    dcc_plain_text_append(a0, ((unsigned char *)constant_bff2eb0d), UINT64_C(12));
dcc_plain_standard_words_append_output:;
    dcc_plain_text_append(a0, ((unsigned char *)constant_36dfff28), UINT64_C(2));
    *r65 = 0u;
    *(r65 + 1) = 0u;
    dcc_store_16_aligned((r65 + 2), 0u);
    dcc_plain_words_append_instruction(a0, r65, (a3 + 10));
    goto dcc_plain_standard_words_append_standard;
arm_8:;
    dcc_plain_words_append_signal_name(a0, (a3 + 6));
    dcc_plain_text_append(a0, ((unsigned char *)constant_36dfff28), UINT64_C(2));
    *r74 = 0u;
    *(r74 + 1) = 0u;
    dcc_store_16_aligned((r74 + 2), 0u);
    dcc_plain_words_append_instruction(a0, r74, (a3 + 8));
    goto dcc_plain_standard_words_append_standard;
noarm:;
    DCC_UNREACHABLE();
dcc_plain_standard_words_append_standard:;
    goto after_3;
after:;
    r39_2 = *a1;
    r39 = r39_2;
after_2:;
    switch (r39) {
    case 254u: goto arm_32;
    case 253u: goto arm_33;
    default: goto default_2;
    }
arm_32:;
    dcc_plain_text_append(a0, ((unsigned char *)constant_71145e61), UINT64_C(6));
    r61 = (uint64_t)(a2 + UINT64_C(18446744073709551614));
    dcc_plain_text_append_hex_words(a0, (a1 + 1), r61);
    goto after_3;
arm_33:;
    dcc_plain_text_append(a0, ((unsigned char *)constant_702635a5), UINT64_C(9));
    r89 = (uint64_t)(a2 + UINT64_C(18446744073709551614));
    dcc_plain_text_append_hex_words(a0, (a1 + 1), r89);
    goto after_3;
default_2:;
    dcc_plain_text_append(a0, ((unsigned char *)constant_4943e2a3), UINT64_C(6));
    dcc_plain_text_append_hex(a0, a1, a2);
after_3:;
    return;
}

/* dcc_plain::text::append_hex_words */
static void dcc_plain_text_append_hex_words(unsigned char *a0, unsigned char *a1, uint64_t a2) {
    uint64_t r2, r45;
    uint8_t r36;
    unsigned char *r26;
    uint8_t place_0[1];
    unsigned char *const r12 = (unsigned char *)place_0;
    if (a2 == UINT64_C(0)) goto after;
    r2 = UINT64_C(0);
join:;
    r26 = a1 + (ptrdiff_t)r2;
    dcc_plain_text_append(a0, ((unsigned char *)constant_90c14424), UINT64_C(1));
    r36 = *r26;
    *r12 = r36;
    dcc_plain_text_append_hex(a0, r12, UINT64_C(1));
    r45 = (uint64_t)(r2 + UINT64_C(1));
    if (!(r45 == a2)) { r2 = r45; goto join; }
after:;
    return;
}

/* dcc_plain::text::append_hex */
static DCC_NOINLINE void dcc_plain_text_append_hex(unsigned char *a0, unsigned char *a1, uint64_t a2) {
    uint64_t r4, r37, r44, r53, r69, r15;
    uint8_t r32, r35, r42, r51, r58;
    unsigned char *r30, *r40, *r47, *r56;
    uint8_t place_0[30];
    unsigned char *const r2 = (unsigned char *)place_0;
    memset(r2, 0u, 30);
    if ((a2 ^ UINT64_C(9223372036854775808)) < (UINT64_C(1) ^ UINT64_C(9223372036854775808))) goto hex_encode_to_slice;
    r4 = UINT64_C(0);
join:;
    r30 = a1 + (ptrdiff_t)r4;
    r32 = *r30;
    r35 = r32 >> 4u;
    r37 = r35;
    r40 = ((unsigned char *)constant_2ee17754) + (ptrdiff_t)r37;
    r42 = *r40;
    r44 = (uint64_t)((1u * r4) << UINT64_C(1));
    r47 = r2 + (ptrdiff_t)r44;
    *r47 = r42;
    r51 = r32 & 15u;
    r53 = r51;
    r56 = ((unsigned char *)constant_2ee17754) + (ptrdiff_t)r53;
    r58 = *r56;
    *(r47 + 1) = r58;
    r69 = (uint64_t)(r4 + UINT64_C(1));
    if (!(r69 == a2)) { r4 = r69; goto join; }
hex_encode_to_slice:;
    r15 = (uint64_t)((1u * a2) << UINT64_C(1));
    dcc_plain_text_append(a0, r2, r15);
    return;
}

/* dcc_plain::standard_words::append_dashed */
static void dcc_plain_standard_words_append_dashed(unsigned char *a0, uint8_t a1) {
    uint32_t r1, r1_2;
    uint8_t r3, r6;
    dcc_plain_text_append(a0, ((unsigned char *)constant_dd30e0ba), UINT64_C(1));
    r3 = a1 / 10u;
    r1 = r3;
    dcc_plain_text_append_digits(a0, r1);
    r6 = a1 % 10u;
    r1_2 = r6;
    dcc_plain_text_append_digits(a0, r1_2);
    return;
}

/* dcc_c::framer::push_apart */
static DCC_NOINLINE void dcc_c_framer_push_apart(unsigned char *a0, uint16_t a1, unsigned char *a2) {
    uint16_t v0;
    uint64_t r3, r3_2, r3_5, r4, r9, r0_2, extract, r0_4, r0_5;
    uint8_t it, r3_3, r3_4, r3_6, r3_7, r7, or_2, or_3, r12, r19, r38, brmerge, it_2, r68, r0, r10, r10_2, r0_3;
    if (a1 < 52u) { it = 0u; r3 = UINT64_C(0); r3_2 = UINT64_C(0); r3_3 = 0u; goto arm; }
    r7 = a1 < 65u;
    v0 = (uint16_t)(a1 + 65446u);
    or_2 = v0 < 9911u;
    or_3 = r7 | or_2;
    if (!(or_3)) { it = 0u; r3 = UINT64_C(0); r3_2 = UINT64_C(0); r3_3 = 0u; goto arm; }
    r12 = *(a0 + 3);
    r19 = r7;
    r38 = r12 == r19;
    brmerge = r38 & r7;
    it_2 = r38 ? 3u : 1u;
    if (!(brmerge)) { it = 0u; r3 = UINT64_C(0); r3_2 = UINT64_C(0); r3_3 = it_2; goto arm; }
    r4 = dcc_load_64_aligned((a0 + 16));
    if (r4 < UINT64_C(3)) { it = 2u; r3 = UINT64_C(0); r3_2 = UINT64_C(0); r3_3 = 2u; goto arm; }
    r68 = *(a0 + 4);
    r9 = dcc_load_64((a0 + 8));
    if (!(r68 == 0u)) { it = 2u; r3 = r9; r3_2 = r4; r3_3 = 4u; goto arm; }
    r0 = (uint8_t)(r9);
    r0_2 = r9 >> UINT64_C(8);
    *a0 = 0u;
    extract = (uint64_t)((r0_2) & UINT64_C(1099511627775));
    *(a0 + 1) = 2u;
    r10 = (uint8_t)(r4);
    r3_4 = r0;
    r3_5 = extract;
    r3_6 = r10;
    r3_7 = 0u;
    goto dcc_c_outcome_outcome_of;
arm:;
    *a0 = 0u;
    *(a0 + 1) = it;
    switch (r3_3) {
    case 4u: goto arm_2;
    case 0u: r3_4 = r3_3; r3_5 = UINT64_C(0); r3_6 = r3_3; r3_7 = 1u; goto dcc_c_outcome_outcome_of;
    case 1u: goto arm_3;
    case 2u: goto arm_4;
    case 3u: goto arm_5;
    default: goto noarm;
    }
arm_2:;
    r10_2 = (uint8_t)(r3_2);
    r0_3 = (uint8_t)(r3);
    r0_4 = r3 >> UINT64_C(8);
    r0_5 = (uint64_t)((r0_4) & UINT64_C(1099511627775));
    r3_4 = r0_3;
    r3_5 = r0_5;
    r3_6 = r10_2;
    r3_7 = 5u;
    goto dcc_c_outcome_outcome_of;
arm_3:;
    r3_4 = 0u;
    r3_5 = UINT64_C(0);
    r3_6 = 0u;
    r3_7 = 2u;
    goto dcc_c_outcome_outcome_of;
arm_4:;
    r3_4 = 0u;
    r3_5 = UINT64_C(0);
    r3_6 = 0u;
    r3_7 = 3u;
    goto dcc_c_outcome_outcome_of;
arm_5:;
    r3_4 = 0u;
    r3_5 = UINT64_C(0);
    r3_6 = 0u;
    r3_7 = 4u;
    goto dcc_c_outcome_outcome_of;
noarm:;
    DCC_UNREACHABLE();
dcc_c_outcome_outcome_of:;
    dcc_store_32(a2, UINT32_C(1));
    *(a2 + 4) = r3_7;
    *(a2 + 5) = r3_6;
    *(a2 + 6) = r3_4;
    dcc_store_40((a2 + 7), r3_5);
    return;
}

/* dcc_c::loco::registers_hear */
static uint8_t dcc_c_loco_registers_hear(unsigned char *a0, unsigned char *a1, uint64_t a2, unsigned char *a3) {
    uint16_t r5_3, r7_2, v1, r1, r616, r63;
    uint64_t r4, v0, r23;
    uint8_t r6, v2, r5_2, common, r7, r2, r4_3, r5, r16, r41, r31, r36, brmerge, r52, v3, r78, r39;
    unsigned char *r4_2;
    v0 = (uint64_t)(a2 + UINT64_C(18446744073709551609));
    if (v0 < UINT64_C(18446744073709551612)) { r7 = 1u; goto join; }
    r6 = 0u;
    r4 = a2;
    r4_2 = a1;
arm:;
    r23 = (uint64_t)(r4 + UINT64_C(18446744073709551615));
    r2 = *r4_2;
    r4_3 = r2 ^ r6;
    if (!(r23 == UINT64_C(0))) { r6 = r4_3; r4 = r23; r4_2 = (r4_2 + 1); goto arm; }
    if (!(r2 == r6)) { r7 = 2u; goto join; }
    r5 = *a0;
    r7_2 = dcc_load_16_aligned((a0 + 4));
    switch (r5) {
    case 0u: goto arm_2;
    case 1u: goto arm_3;
    case 2u: goto arm_4;
    default: r7 = 13u; goto join;
    }
arm_2:;
    if (r7_2 == 0u) { v2 = 1u; r5_2 = 0u; r5_3 = 0u; goto join_2; }
    r7 = 13u;
    goto join;
arm_3:;
    r16 = (uint8_t)r7_2;
    v1 = (uint16_t)(r7_2 + 65535u);
    if (v1 < 127u) { v2 = 0u; r5_2 = r16; r5_3 = 0u; goto join_2; }
    r7 = 13u;
    goto join;
arm_4:;
    if (!(r7_2 < 10240u)) { r7 = 13u; goto join; }
    v2 = 0u;
    r5_2 = 0u;
    r5_3 = r7_2;
join_2:;
    r41 = *a1;
    r31 = *(a1 + 1);
    r36 = r41 == 0u;
    brmerge = v2 | r36;
    if (brmerge) { common = r36; goto dcc_regs_hears_frame_loco_hears_frame; }
    switch (r5) {
    case 0u: common = 0u; goto dcc_regs_hears_frame_loco_hears_frame;
    case 1u: goto arm_5;
    case 2u: goto arm_6;
    default: goto default_2;
    }
arm_5:;
    r52 = r41 == r5_2;
    common = r52;
    goto dcc_regs_hears_frame_loco_hears_frame;
arm_6:;
    r1 = r41;
    r616 = r5_3 >> 8u;
    r63 = r616 | 192u;
    if (!(r63 == r1)) { common = 0u; goto dcc_regs_hears_frame_loco_hears_frame; }
    v3 = (uint8_t)(r5_3);
    r78 = r31 == v3;
    common = r78;
    goto dcc_regs_hears_frame_loco_hears_frame;
default_2:;
    DCC_UNREACHABLE();
dcc_regs_hears_frame_loco_hears_frame:;
    r39 = common;
    *a3 = r39;
    r7 = 0u;
join:;
    return r7;
}

/* dcc_c::packet_fields::address_of */
static void dcc_c_packet_fields_address_of(unsigned char *a0, uint8_t a1, uint16_t a2) {
    uint16_t r1_5, v0, v1, a1_2;
    uint8_t r1, r1_2, r1_3, r1_4, r4, r17, narrow, it, narrow6, it_2, r17_2, r5, it_3, it_4;
    switch (a1) {
    case 0u: r1 = a1; r1_2 = a1; r1_3 = a1; r1_4 = a1; r1_5 = 0u; goto join;
    case 1u: goto arm;
    case 2u: goto arm_2;
    default: goto default_2;
    }
arm:;
    r4 = a2 < 128u;
    r17 = (uint8_t)a2;
    v0 = (uint16_t)(a2 + 65408u);
    narrow = v0 < 65409u;
    it = narrow;
    v1 = (uint16_t)(a2 + 65535u);
    narrow6 = v1 < 127u;
    it_2 = narrow6;
    r17_2 = r4 ? r17 : 0u;
    r1 = it;
    r1_2 = 0u;
    r1_3 = it_2;
    r1_4 = r17_2;
    r1_5 = 0u;
    goto join;
arm_2:;
    r5 = a2 > 10239u;
    it_3 = r5;
    it_4 = r5 ? 0u : 2u;
    a1_2 = r5 ? 0u : a2;
    r1 = it_3;
    r1_2 = it_3;
    r1_3 = it_4;
    r1_4 = 0u;
    r1_5 = a1_2;
    goto join;
default_2:;
    r1 = 1u;
    r1_2 = 9u;
    r1_3 = 0u;
    r1_4 = 0u;
    r1_5 = 0u;
join:;
    *a0 = r1;
    *(a0 + 1) = r1_2;
    *(a0 + 2) = r1_3;
    *(a0 + 3) = r1_4;
    dcc_store_16((a0 + 4), r1_5);
    return;
}

/* dcc_lost::finder::LostFinder::packet_at_end */
static DCC_NOINLINE void dcc_lost_finder_LostFinder_packet_at_end(unsigned char *a0, unsigned char *a1) {
    uint16_t r10_3, r10_4, r10_6, r10_7, r10, r20, v0, r27, v1, r20_2, v3, r27_2, v4, r20_3, v6, r27_3, v7, r20_4,
        v9, r27_4, v10, r33_2, v13, r29, v14, r3_12, r3_14, r3_16, r3_18, a1_2, a0_2, v16, r4_16, r4_18, r4_20,
        r4_22, a1_3, a0_3, r10_8, r17;
    uint32_t r3_7, r4_11, r4_7, r4_9, v18, v19;
    uint64_t r3, common, r3_2, common_2, r3_3, common_3, r3_4, common_4, r2_3, r2_4, r3_6, r3_5, r5, r4_13, r3_9,
        r10_2, r10_5, r3_8, r4_12, r4_30, r4, r4_2, r4_8, r4_10, r1, r2, r16, r22, r21, r40, r41, r0_2, r0_3, r2_5,
        r16_2, r22_2, r21_2, r40_2, r41_2, r0_5, r0_6, r2_6, r16_3, r22_3, r21_3, r40_3, r41_3, r0_8, r0_9, r2_7,
        r16_4, r22_4, r21_4, r40_4, r41_4, r0_11, r0_12, r33, r35, r38, r2_9, r16_5, r22_5, r2_10, v12, r26, r28,
        r46, r61, r2_11, r16_6, r22_6, r23, r3_11, r3_13, r3_15, r3_17, r44, r3_19, r3_20, r3_21, r3_22, r3_23,
        r3_24, r3_25, r4_15, r4_17, r4_19, r4_21, r44_2, r4_23, r4_24, r4_25, r4_26, r4_27, r4_28, r4_29, r49_5,
        r1_2, r2_12, r16_7, v20, a1_4, r12;
    uint8_t r2_2, r4_14, r3_10, it, it_2, r2_13, r2_14, r2_8, r4_3, r4_4, r4_5, r4_6, r49, r49_2, r49_3, r49_4, r7,
        or_2, or_3, r7_2, or_4, or_5, r5_2, r6, r11, r37, r42, a3, a4;
    unsigned char *r19, *r24, *r19_2, *r24_2, *r19_3, *r24_3, *r19_4, *r24_4, *r19_5, *r31, *r19_6, *r26_2, *r19_7;
    uint64_t place_0[3];
    unsigned char *const r0_10 = (unsigned char *)place_0;
    unsigned char *const r0_7 = (unsigned char *)place_0;
    unsigned char *const r0_4 = (unsigned char *)place_0;
    unsigned char *const r0 = (unsigned char *)place_0;
    r10 = dcc_load_16_aligned((a1 + 416));
    r1 = r10;
    r2 = dcc_usub_sat_64(r1, UINT64_C(118));
    r16 = (uint64_t)((1u * r2) << UINT64_C(1));
    r19 = (a1 + 32) + (ptrdiff_t)r16;
    r22 = (uint64_t)(r1 - r2);
    memset(DCC_ALIGNED(r0), 0u, 24);
    if (!(r22 > UINT64_C(8))) goto dcc_lost_bodies_frame_after_ones;
    r20 = dcc_load_16_aligned((r19 + 16));
    v0 = (uint16_t)(r20 + 65459u);
    if (!(v0 < 19924u)) goto dcc_lost_bodies_frame_after_ones;
    r3 = UINT64_C(0);
join:;
    r21 = (uint64_t)((1u * r3) << UINT64_C(1));
    r24 = r19 + (ptrdiff_t)r21;
    r27 = dcc_load_16_aligned(r24);
    v1 = (uint16_t)(r27 + 65510u);
    if (!(v1 < 51u)) { common = r3; goto dcc_lost_nearest_ones_before; }
    r40 = (uint64_t)(r3 + UINT64_C(1));
    if (!(r40 == r22)) { r3 = r40; goto join; }
    common = r22;
dcc_lost_nearest_ones_before:;
    if (!(common < UINT64_C(8))) goto dcc_lost_bodies_frame_after_ones_2;
dcc_lost_bodies_frame_after_ones:;
    goto join_2;
dcc_lost_bodies_frame_after_ones_2:;
    r41 = (uint64_t)(r22 + UINT64_C(18446744073709551608));
    dcc_lost_bodies_frame_of_body(r0, (r19 + 16), r41, UINT64_C(6));
    r49 = *r0;
    r0_2 = dcc_load_64_aligned((r0 + 8));
    r0_3 = dcc_load_64_aligned((r0 + 16));
    if (r49 == 1u) { r2_2 = 1u; r2_3 = r0_3; r2_4 = r0_2; goto arm; }
join_2:;
    r2_5 = dcc_usub_sat_64(r1, UINT64_C(100));
    r16_2 = (uint64_t)((1u * r2_5) << UINT64_C(1));
    r19_2 = (a1 + 32) + (ptrdiff_t)r16_2;
    r22_2 = (uint64_t)(r1 - r2_5);
    memset(DCC_ALIGNED(r0_4), 0u, 24);
    if (!(r22_2 > UINT64_C(8))) goto dcc_lost_bodies_frame_after_ones_3;
    r20_2 = dcc_load_16_aligned((r19_2 + 16));
    v3 = (uint16_t)(r20_2 + 65459u);
    if (!(v3 < 19924u)) goto dcc_lost_bodies_frame_after_ones_3;
    r3_2 = UINT64_C(0);
join_3:;
    r21_2 = (uint64_t)((1u * r3_2) << UINT64_C(1));
    r24_2 = r19_2 + (ptrdiff_t)r21_2;
    r27_2 = dcc_load_16_aligned(r24_2);
    v4 = (uint16_t)(r27_2 + 65510u);
    if (!(v4 < 51u)) { common_2 = r3_2; goto dcc_lost_nearest_ones_before_2; }
    r40_2 = (uint64_t)(r3_2 + UINT64_C(1));
    if (!(r40_2 == r22_2)) { r3_2 = r40_2; goto join_3; }
    common_2 = r22_2;
dcc_lost_nearest_ones_before_2:;
    if (!(common_2 < UINT64_C(8))) goto dcc_lost_bodies_frame_after_ones_4;
dcc_lost_bodies_frame_after_ones_3:;
    goto join_4;
dcc_lost_bodies_frame_after_ones_4:;
    r41_2 = (uint64_t)(r22_2 + UINT64_C(18446744073709551608));
    dcc_lost_bodies_frame_of_body(r0_4, (r19_2 + 16), r41_2, UINT64_C(5));
    r49_2 = *r0_4;
    r0_5 = dcc_load_64_aligned((r0_4 + 8));
    r0_6 = dcc_load_64_aligned((r0_4 + 16));
    if (r49_2 == 1u) { r2_2 = 1u; r2_3 = r0_6; r2_4 = r0_5; goto arm; }
join_4:;
    r2_6 = dcc_usub_sat_64(r1, UINT64_C(82));
    r16_3 = (uint64_t)((1u * r2_6) << UINT64_C(1));
    r19_3 = (a1 + 32) + (ptrdiff_t)r16_3;
    r22_3 = (uint64_t)(r1 - r2_6);
    memset(DCC_ALIGNED(r0_7), 0u, 24);
    if (!(r22_3 > UINT64_C(8))) goto dcc_lost_bodies_frame_after_ones_5;
    r20_3 = dcc_load_16_aligned((r19_3 + 16));
    v6 = (uint16_t)(r20_3 + 65459u);
    if (!(v6 < 19924u)) goto dcc_lost_bodies_frame_after_ones_5;
    r3_3 = UINT64_C(0);
join_5:;
    r21_3 = (uint64_t)((1u * r3_3) << UINT64_C(1));
    r24_3 = r19_3 + (ptrdiff_t)r21_3;
    r27_3 = dcc_load_16_aligned(r24_3);
    v7 = (uint16_t)(r27_3 + 65510u);
    if (!(v7 < 51u)) { common_3 = r3_3; goto dcc_lost_nearest_ones_before_3; }
    r40_3 = (uint64_t)(r3_3 + UINT64_C(1));
    if (!(r40_3 == r22_3)) { r3_3 = r40_3; goto join_5; }
    common_3 = r22_3;
dcc_lost_nearest_ones_before_3:;
    if (!(common_3 < UINT64_C(8))) goto dcc_lost_bodies_frame_after_ones_6;
dcc_lost_bodies_frame_after_ones_5:;
    goto join_6;
dcc_lost_bodies_frame_after_ones_6:;
    r41_3 = (uint64_t)(r22_3 + UINT64_C(18446744073709551608));
    dcc_lost_bodies_frame_of_body(r0_7, (r19_3 + 16), r41_3, UINT64_C(4));
    r49_3 = *r0_7;
    r0_8 = dcc_load_64_aligned((r0_7 + 8));
    r0_9 = dcc_load_64_aligned((r0_7 + 16));
    if (r49_3 == 1u) { r2_2 = 1u; r2_3 = r0_9; r2_4 = r0_8; goto arm; }
join_6:;
    r2_7 = dcc_usub_sat_64(r1, UINT64_C(64));
    r16_4 = (uint64_t)((1u * r2_7) << UINT64_C(1));
    r19_4 = (a1 + 32) + (ptrdiff_t)r16_4;
    r22_4 = (uint64_t)(r1 - r2_7);
    memset(DCC_ALIGNED(r0_10), 0u, 24);
    if (!(r22_4 > UINT64_C(8))) goto dcc_lost_finder_longest_frame_at_end;
    r20_4 = dcc_load_16_aligned((r19_4 + 16));
    v9 = (uint16_t)(r20_4 + 65459u);
    if (!(v9 < 19924u)) goto dcc_lost_finder_longest_frame_at_end;
    r3_4 = UINT64_C(0);
join_7:;
    r21_4 = (uint64_t)((1u * r3_4) << UINT64_C(1));
    r24_4 = r19_4 + (ptrdiff_t)r21_4;
    r27_4 = dcc_load_16_aligned(r24_4);
    v10 = (uint16_t)(r27_4 + 65510u);
    if (!(v10 < 51u)) { common_4 = r3_4; goto dcc_lost_nearest_ones_before_4; }
    r40_4 = (uint64_t)(r3_4 + UINT64_C(1));
    if (!(r40_4 == r22_4)) { r3_4 = r40_4; goto join_7; }
    common_4 = r22_4;
dcc_lost_nearest_ones_before_4:;
    if (!(common_4 < UINT64_C(8))) goto dcc_lost_finder_longest_frame_at_end_2;
dcc_lost_finder_longest_frame_at_end:;
    r2_8 = 0u;
    r4 = UINT64_C(0);
    r4_2 = UINT64_C(0);
    r4_3 = 0u;
    r4_4 = 0u;
    r4_5 = 0u;
    r4_6 = 0u;
    r4_7 = UINT32_C(0);
    r4_8 = UINT64_C(0);
    r4_9 = UINT32_C(0);
    r4_10 = UINT64_C(0);
    goto join_8;
dcc_lost_finder_longest_frame_at_end_2:;
    r41_4 = (uint64_t)(r22_4 + UINT64_C(18446744073709551608));
    dcc_lost_bodies_frame_of_body(r0_10, (r19_4 + 16), r41_4, UINT64_C(3));
    r49_4 = *r0_10;
    r0_11 = dcc_load_64_aligned((r0_10 + 8));
    r0_12 = dcc_load_64_aligned((r0_10 + 16));
    if (r49_4 == 0u) { r2_8 = 0u; r4 = UINT64_C(0); r4_2 = UINT64_C(0); r4_3 = 0u; r4_4 = 0u; r4_5 = 0u; r4_6 = 0u; r4_7 = UINT32_C(0); r4_8 = UINT64_C(0); r4_9 = UINT32_C(0); r4_10 = UINT64_C(0); goto join_8; }
    r2_2 = r49_4;
    r2_3 = r0_12;
    r2_4 = r0_11;
arm:;
    r33 = (uint64_t)(1u * r2_3 * UINT64_C(18));
    r35 = (uint64_t)(r33 + UINT64_C(2));
    r38 = (uint64_t)(r33 + UINT64_C(22));
    r2_9 = dcc_usub_sat_64(r1, r38);
    r16_5 = (uint64_t)((1u * r2_9) << UINT64_C(1));
    r19_5 = (a1 + 32) + (ptrdiff_t)r16_5;
    r22_5 = (uint64_t)(r1 - r2_9);
    r2_10 = dcc_usub_sat_64(r22_5, r35);
    if (!(r22_5 > r35)) { r3_5 = UINT64_C(0); goto dcc_lost_causes_ones_at_end; }
    r3_6 = UINT64_C(0);
join_9:;
    v12 = r3_6 ^ UINT64_C(18446744073709551615);
    r26 = (uint64_t)(r2_10 + v12);
    r28 = (uint64_t)((1u * r26) << UINT64_C(1));
    r31 = r19_5 + (ptrdiff_t)r28;
    r33_2 = dcc_load_16_aligned(r31);
    v13 = (uint16_t)(r33_2 + 65510u);
    if (!(v13 < 51u)) { r3_5 = r3_6; goto dcc_lost_causes_ones_at_end; }
    r46 = (uint64_t)(r3_6 + UINT64_C(1));
    if (!(r46 == r2_10)) { r3_6 = r46; goto join_9; }
    r3_5 = r2_10;
dcc_lost_causes_ones_at_end:;
    r61 = (uint64_t)(r3_5 + r35);
    r2_11 = dcc_usub_sat_64(r1, r61);
    r16_6 = (uint64_t)((1u * r2_11) << UINT64_C(1));
    r19_6 = (a1 + 32) + (ptrdiff_t)r16_6;
    r22_6 = (uint64_t)(r1 - r2_11);
    if (r2_11 == r1) { r3_7 = UINT32_C(0); r3_8 = UINT64_C(0); r4_11 = UINT32_C(0); r4_12 = UINT64_C(0); goto dcc_lost_causes_off_limits; }
    r5 = UINT64_C(0);
    r4_13 = UINT64_C(0);
    r4_14 = 0u;
    r3_9 = UINT64_C(0);
    r3_10 = 0u;
join_12:;
    r23 = (uint64_t)((1u * r5) << UINT64_C(1));
    r26_2 = r19_6 + (ptrdiff_t)r23;
    r29 = dcc_load_16_aligned(r26_2);
    if (r29 < 26u) goto then;
    r7 = r29 < 52u;
    v14 = (uint16_t)(r29 + 65471u);
    or_2 = v14 < 12u;
    or_3 = r7 | or_2;
    if (or_3) goto join_10;
then:;
    r3_11 = r3_9 >> UINT64_C(32);
    r3_12 = (uint16_t)(r3_11);
    r3_13 = r3_9 >> UINT64_C(48);
    r3_14 = (uint16_t)r3_13;
    it = r3_10;
    r10_2 = r3_9;
    r10_3 = r3_12;
    r10_4 = r3_14;
    goto dcc_lost_causes_noted;
join_10:;
    if (r3_10 == 0u) { it = 1u; r10_2 = UINT64_C(1); r10_3 = r29; r10_4 = r29; goto dcc_lost_causes_noted; }
    r3_15 = r3_9 >> UINT64_C(48);
    r3_16 = (uint16_t)r3_15;
    r3_17 = r3_9 >> UINT64_C(32);
    r3_18 = (uint16_t)(r3_17);
    r44 = (uint64_t)(r3_9 + UINT64_C(1));
    a1_2 = dcc_umin_16(r29, r3_18);
    a0_2 = dcc_umax_16(r29, r3_16);
    it = 1u;
    r10_2 = r44;
    r10_3 = a1_2;
    r10_4 = a0_2;
dcc_lost_causes_noted:;
    r3_19 = r10_2 & UINT64_C(4294967295);
    r3_20 = r10_3;
    r3_21 = (uint64_t)((1u * r3_20) << UINT64_C(32));
    r3_22 = r3_21 | r3_19;
    r3_23 = r10_4;
    r3_24 = (uint64_t)((1u * r3_23) << UINT64_C(48));
    r3_25 = r3_22 | r3_24;
    if (r29 < 77u) goto then_2;
    r7_2 = r29 < 90u;
    v16 = (uint16_t)(r29 + 55535u);
    or_4 = v16 < 10000u;
    or_5 = r7_2 | or_4;
    if (or_5) goto join_11;
then_2:;
    r4_15 = r4_13 >> UINT64_C(32);
    r4_16 = (uint16_t)(r4_15);
    r4_17 = r4_13 >> UINT64_C(48);
    r4_18 = (uint16_t)r4_17;
    it_2 = r4_14;
    r10_5 = r4_13;
    r10_6 = r4_16;
    r10_7 = r4_18;
    goto dcc_lost_causes_noted_2;
join_11:;
    if (r4_14 == 0u) { it_2 = 1u; r10_5 = UINT64_C(1); r10_6 = r29; r10_7 = r29; goto dcc_lost_causes_noted_2; }
    r4_19 = r4_13 >> UINT64_C(48);
    r4_20 = (uint16_t)r4_19;
    r4_21 = r4_13 >> UINT64_C(32);
    r4_22 = (uint16_t)(r4_21);
    r44_2 = (uint64_t)(r4_13 + UINT64_C(1));
    a1_3 = dcc_umin_16(r29, r4_22);
    a0_3 = dcc_umax_16(r29, r4_20);
    it_2 = 1u;
    r10_5 = r44_2;
    r10_6 = a1_3;
    r10_7 = a0_3;
dcc_lost_causes_noted_2:;
    r4_23 = r10_5 & UINT64_C(4294967295);
    r4_24 = r10_6;
    r4_25 = (uint64_t)((1u * r4_24) << UINT64_C(32));
    r4_26 = r4_25 | r4_23;
    r4_27 = r10_7;
    r4_28 = (uint64_t)((1u * r4_27) << UINT64_C(48));
    r4_29 = r4_26 | r4_28;
    r49_5 = (uint64_t)(r5 + UINT64_C(1));
    if (!(r49_5 == r22_6)) { r5 = r49_5; r4_13 = r4_29; r4_14 = it_2; r3_9 = r3_25; r3_10 = it; goto join_12; }
    v18 = it;
    v19 = it_2;
    r3_7 = v18;
    r3_8 = r3_25;
    r4_11 = v19;
    r4_12 = r4_29;
dcc_lost_causes_off_limits:;
    r10_8 = dcc_load_16_aligned((a1 + 802));
    r1_2 = r10_8;
    r2_12 = dcc_usub_sat_64(r1_2, r35);
    if (r2_12 == r1_2) { r4_30 = UINT64_C(0); goto dcc_lost_causes_first_or_zero; }
    r16_7 = (uint64_t)((1u * r2_12) << UINT64_C(1));
    r19_7 = (a1 + 418) + (ptrdiff_t)r16_7;
    r17 = dcc_load_16_aligned(r19_7);
    v20 = r17;
    r4_30 = v20;
dcc_lost_causes_first_or_zero:;
    r5_2 = *(a1 + 25);
    r6 = r5_2;
    if (!(r6)) { r2_13 = 0u; r2_14 = 0u; goto dcc_lost_heard_Heard_since_refusal; }
    r11 = *(a1 + 26);
    r2_13 = 1u;
    r2_14 = r11;
dcc_lost_heard_Heard_since_refusal:;
    a1_4 = dcc_umin_64(r4_30, r3_5);
    if (a1_4 > UINT64_C(19)) { r2_8 = r2_2; r4 = r2_4; r4_2 = r2_3; r4_3 = 0u; r4_4 = 0u; r4_5 = 0u; r4_6 = 0u; r4_7 = r3_7; r4_8 = r3_8; r4_9 = r4_11; r4_10 = r4_12; goto join_8; }
    r37 = (uint8_t)a1_4;
    r42 = r3_5 > r4_30;
    a3 = r42 ? r2_13 : 0u;
    a4 = r42 ? r2_14 : 0u;
    r2_8 = r2_2;
    r4 = r2_4;
    r4_2 = r2_3;
    r4_3 = 1u;
    r4_4 = r37;
    r4_5 = a3;
    r4_6 = a4;
    r4_7 = r3_7;
    r4_8 = r3_8;
    r4_9 = r4_11;
    r4_10 = r4_12;
join_8:;
    r12 = r2_8;
    dcc_store_64(a0, r12);
    dcc_store_64((a0 + 8), r4);
    dcc_store_64((a0 + 16), r4_2);
    *(a0 + 24) = r4_3;
    *(a0 + 25) = r4_4;
    *(a0 + 26) = r4_5;
    *(a0 + 27) = r4_6;
    dcc_store_32((a0 + 28), r4_7);
    dcc_store_64((a0 + 32), r4_8);
    dcc_store_32((a0 + 40), r4_9);
    dcc_store_64((a0 + 44), r4_10);
    dcc_store_32((a0 + 52), UINT32_C(0));
    return;
}

/* dcc_c::lost_packet::lost_numbers */
static void dcc_c_lost_packet_lost_numbers(unsigned char *a0, unsigned char *a1) {
    uint32_t r8, r8_2, r8_3, r8_4, r8_5, r8_6, r8_7, r8_8, r8_9, r8_10;
    uint64_t r4, v6, v8, r10, r12;
    uint8_t r22, v0, v1, v2, v3, v4, r30, v5, spec, r9, r9_2, r9_3, r34, v7, r39, v9;
    uint8_t place_0[6];
    unsigned char *const r0 = (unsigned char *)place_0;
    r4 = dcc_load_64_aligned((a1 + 8));
    r22 = (uint8_t)(r4);
    memcpy(r0, a1, 6);
    v0 = *(a1 + 16);
    v1 = *(a1 + 17);
    v2 = *(a1 + 18);
    v3 = *(a1 + 19);
    v4 = v0 == 0u;
    r30 = v2 & 1u;
    v5 = v2 == 1u;
    spec = v5 ? v3 : 0u;
    r9 = v4 ? 0u : v1;
    r9_2 = v4 ? 0u : r30;
    r9_3 = v4 ? 0u : spec;
    r34 = *(a1 + 20);
    v6 = dcc_load_64_aligned((a1 + 24));
    v7 = r34 == 0u;
    r39 = *(a1 + 32);
    v8 = dcc_load_64_aligned((a1 + 36));
    v9 = r39 == 0u;
    r8 = r9_3;
    r8_2 = (uint32_t)((1u * r8) << UINT32_C(24));
    r8_3 = r9_2;
    r8_4 = (uint32_t)((1u * r8_3) << UINT32_C(16));
    r8_5 = r8_2 | r8_4;
    r8_6 = r9;
    r8_7 = (uint32_t)((1u * r8_6) << UINT32_C(8));
    r8_8 = r8_5 | r8_7;
    r8_9 = v0;
    r8_10 = r8_8 | r8_9;
    r10 = v7 ? UINT64_C(0) : v6;
    r12 = v9 ? UINT64_C(0) : v8;
    *a0 = r22;
    memcpy((a0 + 1), r0, 6);
    dcc_store_32((a0 + 7), r8_10);
    *(a0 + 11) = 0u;
    dcc_store_64((a0 + 12), r10);
    dcc_store_64((a0 + 20), r12);
    return;
}

/* dcc_c::small_loco::take_up_small */
static DCC_NOINLINE uint8_t dcc_c_small_loco_take_up_small(unsigned char *a0, unsigned char *a1) {
    struct dcc_wide r1_3, r17, r1_4, r26, r1_5, r17_2, r1_6, r26_2;
    uint16_t r5, r5_3, r16, v0;
    uint64_t r13, r21, r13_2, r21_2;
    uint8_t r5_2, r1_2, r1, r14, r16_2, r33, r35, r58, r78, r10;
    r14 = *a0;
    r16 = dcc_load_16_aligned((a0 + 4));
    switch (r14) {
    case 0u: goto arm;
    case 1u: goto arm_2;
    case 2u: goto arm_3;
    default: r1 = 0u; goto dcc_c_loco_numbers_take_up;
    }
arm:;
    if (r16 == 0u) { r5 = 0u; r5_2 = 0u; r5_3 = 0u; goto arm_4; }
    r1 = 0u;
    goto dcc_c_loco_numbers_take_up;
arm_2:;
    r16_2 = (uint8_t)r16;
    v0 = (uint16_t)(r16 + 65535u);
    if (v0 < 127u) { r5 = 1u; r5_2 = r16_2; r5_3 = 0u; goto arm_4; }
    r1 = 0u;
    goto dcc_c_loco_numbers_take_up;
arm_3:;
    if (!(r16 < 10240u)) { r1 = 0u; goto dcc_c_loco_numbers_take_up; }
    r5 = 1u;
    r5_2 = 0u;
    r5_3 = r16;
arm_4:;
    r33 = *(a0 + 1);
    r35 = *(a0 + 2);
    switch (r33) {
    case 0u: goto arm_5;
    case 1u: goto arm_6;
    case 14u: r1_2 = 2u; goto dcc_c_loco_numbers_read;
    case 28u: goto arm_7;
    case 126u: goto arm_8;
    default: r1 = 0u; goto dcc_c_loco_numbers_take_up;
    }
arm_5:;
    if (r35 == 0u) { r1_2 = 0u; goto dcc_c_loco_numbers_read; }
    r1 = 0u;
    goto dcc_c_loco_numbers_take_up;
arm_6:;
    if (r35 == 0u) { r1_2 = 1u; goto dcc_c_loco_numbers_read; }
    r1 = 0u;
    goto dcc_c_loco_numbers_take_up;
arm_7:;
    r1_2 = 3u;
    goto dcc_c_loco_numbers_read;
arm_8:;
    r1_2 = 4u;
dcc_c_loco_numbers_read:;
    dcc_store_16((a1 + 64), r5);
    *(a1 + 66) = r14;
    *(a1 + 67) = r5_2;
    dcc_store_16((a1 + 68), r5_3);
    *(a1 + 70) = r1_2;
    *(a1 + 71) = r35;
    r58 = *(a0 + 3);
    *(a1 + 72) = r58;
    r13 = dcc_load_64_aligned((a0 + 24));
    r1_3 = dcc_wide_of(0, r13);
    r17 = dcc_wide_shl(r1_3, 64u);
    r21 = dcc_load_64_aligned((a0 + 16));
    r1_4 = dcc_wide_of(0, r21);
    r26 = dcc_wide_or(r17, r1_4);
    dcc_store_64_aligned(a1, r26.low); dcc_store_64_aligned((a1 + 8), r26.high);
    r13_2 = dcc_load_64_aligned((a0 + 40));
    r1_5 = dcc_wide_of(0, r13_2);
    r17_2 = dcc_wide_shl(r1_5, 64u);
    r21_2 = dcc_load_64_aligned((a0 + 32));
    r1_6 = dcc_wide_of(0, r21_2);
    r26_2 = dcc_wide_or(r17_2, r1_6);
    dcc_store_64_aligned((a1 + 16), r26_2.low); dcc_store_64_aligned(((a1 + 16) + 8), r26_2.high);
    r78 = dcc_c_loco_numbers_read_pending((a0 + 6), (a1 + 32));
    if (!(r78)) { r1 = 0u; goto dcc_c_loco_numbers_take_up; }
    r10 = dcc_regs_loco_registers_LocoRegisters_is_possible(a1);
    r1 = r10;
dcc_c_loco_numbers_take_up:;
    return r1;
}

/* dcc_c::loco_numbers::read_pending */
static DCC_NOINLINE uint8_t dcc_c_loco_numbers_read_pending(unsigned char *a0, unsigned char *a1) {
    uint16_t r51, r10, r10_2;
    uint64_t a1_2, r1_7;
    uint8_t common, r15, r38, r45, r57, r69, r81, r88, r96, v0, v1, v2, v3, v4, v5, r116, v6, r46, r1, r1_2, r1_3,
        r1_4, r1_5, r1_6, r50, r10_3, r12, r59, r63, r69_2, r77, r83, r89, r97, r103, r109, r117, r123, r129, r137,
        r143, r149, r157, r163, r169, r177, r183;
    uint64_t place_0[3];
    unsigned char *const r5 = (unsigned char *)place_0;
    uint64_t place_1[3];
    unsigned char *const r8 = (unsigned char *)place_1;
    memset(DCC_ALIGNED(r5), 0u, 24);
    r15 = *a0;
    if (r15 == 0u) goto then;
    goto join;
common:;
    return common;
then:;
    memset(a1, 0u, 32);
    r38 = *(a0 + 1);
    r45 = *(a0 + 2);
    r57 = *(a0 + 3);
    r69 = *(a0 + 4);
    r81 = *(a0 + 5);
    r88 = *(a0 + 6);
    r96 = *a0;
    v0 = r45 | r38;
    v1 = v0 | r57;
    v2 = v1 | r69;
    v3 = v2 | r81;
    v4 = v3 | r88;
    v5 = r96 | v4;
    r116 = v5 == 0u;
    common = r116;
    goto common;
join:;
    v6 = dcc_umin_8(r15, 6u);
    a1_2 = v6;
    dcc_wire_frame_Frame_of(r5, (a0 + 1), a1_2);
    r46 = *r5;
    if (!(r46 == 0u)) { common = 0u; goto common; }
    r1 = *(r5 + 8);
    r1_2 = *(r5 + 9);
    r1_3 = *(r5 + 10);
    r1_4 = *(r5 + 11);
    r1_5 = *(r5 + 12);
    r1_6 = *(r5 + 13);
    r1_7 = dcc_load_64_aligned((r5 + 16));
    dcc_packet_packet_Packet_read(r8, (r5 + 8));
    r50 = *r8;
    r51 = r50;
    r10 = dcc_load_16_aligned((r8 + 2));
    r10_2 = dcc_load_16_aligned((r8 + 4));
    r10_3 = *(r8 + 6);
    dcc_store_64(a1, UINT64_C(1));
    dcc_store_16((a1 + 8), r51);
    dcc_store_16((a1 + 10), r10);
    dcc_store_16((a1 + 12), r10_2);
    *(a1 + 14) = r10_3;
    memcpy((a1 + 15), (r8 + 7), 17);
    r12 = (uint8_t)(r1_7);
    r59 = *a0;
    r63 = r59 == r12;
    r69_2 = *(a0 + 1);
    r77 = r69_2 == r1;
    r83 = r63 & r77;
    r89 = *(a0 + 2);
    r97 = r89 == r1_2;
    r103 = r83 & r97;
    r109 = *(a0 + 3);
    r117 = r109 == r1_3;
    r123 = r103 & r117;
    r129 = *(a0 + 4);
    r137 = r129 == r1_4;
    r143 = r123 & r137;
    r149 = *(a0 + 5);
    r157 = r149 == r1_5;
    r163 = r143 & r157;
    r169 = *(a0 + 6);
    r177 = r169 == r1_6;
    r183 = r163 & r177;
    common = r183;
    goto common;
}

/* dcc_regs::loco_registers::LocoRegisters::is_possible */
static DCC_NOINLINE uint8_t dcc_regs_loco_registers_LocoRegisters_is_possible(unsigned char *a0) {
    struct dcc_wide r32, r44;
    uint16_t r15, r4_4;
    uint8_t r2, r1, r3, r5, r6, r6_2, v2, v3, v4, r36, v5, r6_3, r8, r4, r18, r4_2, r4_3, r32_2;
    uint64_t place_0[1];
    unsigned char *const r5_2 = (unsigned char *)place_0;
    r3 = *(a0 + 64);
    if (!(r3 == 1u)) goto then;
    r5 = *(a0 + 66);
    if (r5 == 0u) { r1 = 0u; goto join; }
then:;
    r6 = *(a0 + 70);
    r6_2 = *(a0 + 71);
    switch (r6) {
    case 0u: case 1u: goto join_2;
    case 2u: goto arm;
    case 3u: goto arm_2;
    case 4u: goto join_3;
    default: goto noarm;
    }
arm:;
    v2 = (uint8_t)(r6_2 + 255u);
    if (v2 < 14u) goto join_2;
    r1 = 0u;
    goto join;
arm_2:;
    v3 = (uint8_t)(r6_2 + 255u);
    if (v3 < 28u) goto join_2;
    r1 = 0u;
    goto join;
noarm:;
    DCC_UNREACHABLE();
join_3:;
    v4 = (uint8_t)(r6_2 + 255u);
    if (!(v4 < 126u)) { r1 = 0u; goto join; }
join_2:;
    r32 = dcc_wide_of(dcc_load_64_aligned((a0 + 8)), dcc_load_64_aligned(a0));
    r36 = dcc_wide_ult(r32, dcc_wide_of(UINT64_C(32), UINT64_C(0)));
    if (!(r36)) { r1 = 0u; goto join; }
    r44 = dcc_wide_of(dcc_load_64_aligned(((a0 + 16) + 8)), dcc_load_64_aligned((a0 + 16)));
    v5 = (uint8_t)((r44.low) & 1u);
    if (v5) { r1 = 0u; goto join; }
    dcc_store_64_aligned(r5_2, UINT64_C(0));
    r6_3 = *(a0 + 32);
    if (r6_3 == 0u) { r2 = 1u; goto dcc_regs_loco_registers_is_pending_for; }
    r8 = *(a0 + 40);
    if (!(r8 == 1u)) { r2 = 0u; goto dcc_regs_loco_registers_is_pending_for; }
    r4 = *(a0 + 46);
    switch (r4) {
    case 5u: case 7u: goto dcc_regs_writes_is_own_write;
    case 0u: case 1u: case 2u: case 3u: case 4u: case 6u: case 8u: r2 = 0u; goto dcc_regs_loco_registers_is_pending_for;
    default: goto noarm_2;
    }
noarm_2:;
    DCC_UNREACHABLE();
dcc_regs_writes_is_own_write:;
    r18 = *(a0 + 42);
    if (r18 == 0u) { r2 = 0u; goto dcc_regs_loco_registers_is_pending_for; }
    r15 = r3;
    r4_2 = *(a0 + 66);
    r4_3 = *(a0 + 67);
    r4_4 = dcc_load_16((a0 + 68));
    dcc_store_16_aligned((r5_2 + 2), r15);
    *(r5_2 + 4) = r4_2;
    *(r5_2 + 5) = r4_3;
    dcc_store_16_aligned((r5_2 + 6), r4_4);
    r32_2 = dcc_regs_heard_hears(r5_2, (a0 + 40));
    r2 = r32_2;
dcc_regs_loco_registers_is_pending_for:;
    r1 = r2;
join:;
    return r1;
}

/* dcc_regs::writes::is_repeated_write */
static uint8_t dcc_regs_writes_is_repeated_write(unsigned char *a0, unsigned char *a1) {
    uint16_t r38, r40, r1, r1_2, r1_3, r1_4;
    uint8_t r2, r4, r8, r4_2, r18, r10, r15, r24, r26, r28, r50, r52, r55, r1_5, r1_6, r98, r102, r109;
    r4 = *a0;
    if (!(r4 == 1u)) { r2 = 0u; goto join; }
    r8 = *a1;
    if (!(r8 == 1u)) { r2 = 0u; goto join; }
    r4_2 = *(a1 + 6);
    switch (r4_2) {
    case 5u: case 7u: goto dcc_regs_writes_is_own_write;
    case 0u: case 1u: case 2u: case 3u: case 4u: case 6u: case 8u: r2 = 0u; goto join;
    default: goto noarm;
    }
noarm:;
    DCC_UNREACHABLE();
dcc_regs_writes_is_own_write:;
    r18 = *(a1 + 2);
    if (r18 == 0u) { r2 = 0u; goto join; }
    r10 = *(a0 + 8);
    if (!(r10 == 1u)) { r2 = 0u; goto join; }
    r15 = *(a0 + 10);
    if (r18 == 2u) goto arm;
    if (r15 == 1u) goto dcc_packet_address_Address_is;
    r2 = 0u;
    goto join;
arm:;
    if (!(r15 == 2u)) { r2 = 0u; goto join; }
    r38 = dcc_load_16_aligned((a1 + 4));
    r40 = dcc_load_16_aligned((a0 + 12));
    if (r38 == r40) goto then;
    r2 = 0u;
    goto join;
dcc_packet_address_Address_is:;
    r24 = *(a1 + 3);
    r26 = *(a0 + 11);
    if (!(r24 == r26)) { r2 = 0u; goto join; }
then:;
    r28 = *(a0 + 14);
    switch (r28) {
    case 5u: goto arm_2;
    case 7u: goto arm_3;
    case 0u: case 1u: case 2u: case 3u: case 4u: case 6u: case 8u: r2 = 0u; goto join;
    default: goto noarm_2;
    }
arm_2:;
    if (!(r4_2 == 5u)) { r2 = 0u; goto join; }
    r1 = dcc_load_16_aligned((a0 + 16));
    r1_2 = dcc_load_16_aligned((a1 + 8));
    if (!(r1 == r1_2)) { r2 = 0u; goto join; }
    r50 = *(a0 + 18);
    r52 = *(a1 + 10);
    r55 = r50 == r52;
    r2 = r55;
    goto join;
arm_3:;
    if (!(r4_2 == 7u)) { r2 = 0u; goto join; }
    r1_3 = dcc_load_16_aligned((a0 + 16));
    r1_4 = dcc_load_16_aligned((a1 + 8));
    if (!(r1_3 == r1_4)) { r2 = 0u; goto join; }
    r1_5 = *(a0 + 18);
    r1_6 = *(a1 + 10);
    if (!(r1_5 == r1_6)) { r2 = 0u; goto join; }
    r98 = *(a0 + 19);
    r102 = *(a1 + 11);
    r109 = r98 == r102;
    r2 = r109;
    goto join;
noarm_2:;
    DCC_UNREACHABLE();
join:;
    return r2;
}

/* dcc_c::loco::dcc_loco_power_up */
static void dcc_c_loco_dcc_loco_power_up(unsigned char *a0) {
    uint16_t r3_3, r3_4, r2, r38, r40, r42, r43, r46, v4;
    uint8_t r3, r3_2, r20, r28, v0, r23, v1, v2, or_2, r24, r16, or_3, a1, it, v3;
    r20 = *(a0 + 64);
    r28 = *(a0 + 76);
    v0 = r28 & 32u;
    r23 = v0 != 0u;
    v1 = (uint8_t)(r20 + 64u);
    v2 = v1 < 40u;
    or_2 = v2 & r23;
    if (!(or_2)) goto join;
    r24 = *(a0 + 65);
    r38 = r20;
    r40 = (uint16_t)((1u * r38) << 8u);
    r42 = (uint16_t)(r40 + 16384u);
    r43 = r24;
    r46 = r42 | r43;
    r3 = 0u;
    r3_2 = 2u;
    r3_3 = 0u;
    r3_4 = r46;
    goto dcc_regs_loco_registers_LocoRegisters_new;
join:;
    r16 = *(a0 + 48);
    or_3 = (r16 ^ 128u) > (0u ^ 128u);
    a1 = dcc_smax_8(r16, 0u);
    it = or_3;
    v3 = or_3 ^ 1u;
    v4 = a1;
    r3 = v3;
    r3_2 = it;
    r3_3 = v4;
    r3_4 = 0u;
dcc_regs_loco_registers_LocoRegisters_new:;
    if (!(r3)) goto arm;
    *a0 = 0u;
    r2 = 0u;
    goto dcc_c_loco_numbers_speed_mode;
arm:;
    *a0 = r3_2;
    switch (r3_2) {
    case 0u: r2 = 0u; goto dcc_c_loco_numbers_speed_mode;
    case 1u: goto arm_2;
    case 2u: goto arm_3;
    default: goto default_2;
    }
arm_2:;
    r2 = r3_3;
    goto dcc_c_loco_numbers_speed_mode;
arm_3:;
    r2 = r3_4;
    goto dcc_c_loco_numbers_speed_mode;
default_2:;
    DCC_UNREACHABLE();
dcc_c_loco_numbers_speed_mode:;
    dcc_store_16_aligned((a0 + 4), r2);
    *(a0 + 1) = 0u;
    *(a0 + 2) = 0u;
    *(a0 + 3) = 1u;
    memset((a0 + 16), 0u, 32);
    memset((a0 + 6), 0u, 7);
    return;
}

/* dcc_regs::loco_registers::LocoRegisters::apply_with_value */
static DCC_NOINLINE uint8_t dcc_regs_loco_registers_LocoRegisters_apply_with_value(unsigned char *a0, unsigned char *a1, unsigned char *a2, unsigned char *a3) {
    struct dcc_wide r9_11, r9_12, r3_8, r3_9, r3_10, r3_11, it, r1_8, r1_9, r42, r45, r48, r1_10, r57, r1_11, r66,
        r69, r50, r50_2, r17_5, r21_2, r23, r7, r9_13, r11_3, r2_4, it_3, r58, r58_2, r17_6, r21_3, r23_3;
    uint16_t r11, r9_3, r2_7, r2_8, r13, r3_3, r9, v2, r14, v3, r3_4, spec, r1_2, r2, r2_2, r2_3, spec_3, r9_4,
        r9_5, r9_6, r9_7, r9_9, r3_12, r3_13, r6_4;
    uint64_t v16, r2_10;
    uint8_t r4_2, r6, r20_2, r11_2, r0, v12, r2_6, r2_9, r12, r3, r3_2, r29, r40, v0, r5, r20, r17, r24, r38, r39,
        r6_2, r8, r36, r13_2, r15, r17_2, r4_3, r4_4, r6_3, r14_2, r20_3, r30, r35, trunc, r1, r4_5, r8_2, spec_2,
        r1_3, r52, r9_2, r1_4, r3_5, r1_5, v7, narrow, r3_6, r3_7, r9_8, r9_10, r15_2, r21, r25, r1_6, switch_2,
        r35_2, r55, r16, r22, r28, v14, trunc_2, or_2, r1_7, v15, sext, r15_3, r15_4, switch_4, trunc_3, v17, or_3,
        switch_5, it_2, r61, r8_3, r10, r1_12, r4_6, r22_2, r23_2, r8_4, r4_7, r18;
    unsigned char *r19, *r17_3, *r19_2, *r17_4, *r34, *r57_2, *switch_3;
    uint8_t place_0[17];
    unsigned char *const r2_5 = (unsigned char *)place_0;
    uint8_t place_1[17];
    unsigned char *const r0_2 = (unsigned char *)place_1;
    uint64_t place_2[1];
    unsigned char *const r4 = (unsigned char *)place_2;
    dcc_store_64_aligned(r4, UINT64_C(0));
    r12 = *(a0 + 64);
    r13 = r12;
    r3 = *(a0 + 66);
    r3_2 = *(a0 + 67);
    r3_3 = dcc_load_16((a0 + 68));
    dcc_store_16_aligned((r4 + 2), r13);
    *(r4 + 4) = r3;
    *(r4 + 5) = r3_2;
    dcc_store_16_aligned((r4 + 6), r3_3);
    r29 = dcc_regs_heard_hears(r4, a3);
    if (r29) goto join;
common:;
    return r29;
join:;
    r40 = *a1;
    v0 = r40 >> 1u;
    r5 = dcc_regs_writes_is_repeated_write((a0 + 32), a3);
    r20 = *a3;
    if (!(r5)) { r20_2 = r20; goto dcc_regs_stored_cvs_hear; }
    if (!(r20 == 1u)) goto dcc_regs_speeds_speed_set;
    r17 = *(a3 + 6);
    switch (r17) {
    case 5u: goto arm;
    case 7u: goto arm_2;
    case 0u: case 1u: case 2u: case 3u: case 4u: case 6u: case 8u: r6 = r17; goto arm_3;
    default: goto noarm;
    }
arm:;
    r9 = dcc_load_16((a3 + 8));
    v2 = (uint16_t)(r9 + 65527u);
    if (!(v2 < 65534u)) goto dcc_regs_stored_cvs_writes_cv29;
    r24 = *(a3 + 10);
    r4_2 = r24;
    goto dcc_regs_stored_cvs_write_to;
arm_2:;
    r14 = dcc_load_16((a3 + 8));
    v3 = (uint16_t)(r14 + 65527u);
    if (!(v3 < 65534u)) goto dcc_regs_stored_cvs_writes_cv29;
    r38 = *(a3 + 11);
    r39 = r38;
    r6_2 = *(a3 + 10);
    r8 = (uint8_t)((1u * 1u) << (r6_2 & 7u));
    r36 = *a2;
    r13_2 = r8 | r36;
    r15 = r8 ^ 255u;
    r17_2 = r36 & r15;
    r4_3 = r39 ? r13_2 : r17_2;
    r4_2 = r4_3;
    goto dcc_regs_stored_cvs_write_to;
noarm:;
    DCC_UNREACHABLE();
dcc_regs_stored_cvs_write_to:;
    *a2 = r4_2;
    r4_4 = *a3;
    if (!(r4_4 == 1u)) goto dcc_regs_speeds_speed_set;
    r6_3 = *(a3 + 6);
    r6 = r6_3;
arm_3:;
    switch (r6) {
    case 5u: case 7u: goto dcc_regs_stored_cvs_writes_cv29;
    case 0u: case 1u: case 2u: case 3u: case 4u: case 6u: case 8u: goto arm_4;
    default: goto noarm_2;
    }
noarm_2:;
    DCC_UNREACHABLE();
dcc_regs_stored_cvs_writes_cv29:;
    r3_4 = dcc_load_16((a3 + 8));
    if (!(r3_4 == 29u)) goto arm_4;
    r14_2 = *a2;
    *a1 = r14_2;
    r20_3 = *a3;
    r20_2 = r20_3;
dcc_regs_stored_cvs_hear:;
    if (!(r20_2 == 1u)) goto dcc_regs_speeds_speed_set;
arm_4:;
    r30 = *(a3 + 6);
    switch (r30) {
    case 0u: r11 = 0u; r11_2 = r30; goto dcc_regs_speeds_speed_set_2;
    case 1u: goto arm_5;
    case 2u: goto arm_6;
    case 3u: case 4u: case 5u: case 6u: case 7u: case 8u: goto dcc_regs_speeds_speed_set_3;
    default: goto noarm_3;
    }
arm_5:;
    r35 = *(a3 + 2);
    if (r35 == 0u) goto dcc_regs_speeds_speed_set_4;
    trunc = (uint8_t)((v0) & 1u);
    r1 = *(a3 + 8);
    if (!(trunc)) goto arm_7;
    r4_5 = r1 < 2u;
    r8_2 = r1 > 3u;
    spec = r8_2 ? 3u : 1u;
    spec_2 = dcc_usub_sat_8(r1, 3u);
    r1_2 = r4_5 ? 0u : spec;
    r1_3 = r4_5 ? 0u : spec_2;
    r11 = r1_2;
    r11_2 = r1_3;
    goto dcc_regs_speeds_speed_set_2;
arm_7:;
    r52 = r1 >> 1u;
    switch (r52) {
    case 0u: r11 = 0u; r11_2 = r52; goto dcc_regs_speeds_speed_set_2;
    case 1u: goto arm_8;
    default: goto default_2;
    }
arm_8:;
    r11 = 1u;
    r11_2 = 0u;
    goto dcc_regs_speeds_speed_set_2;
default_2:;
    r9_2 = (uint8_t)(r52 + 255u);
    r11 = 2u;
    r11_2 = r9_2;
    goto dcc_regs_speeds_speed_set_2;
arm_6:;
    r1_4 = *(a3 + 8);
    switch (r1_4) {
    case 0u: r11 = 0u; r11_2 = r1_4; goto dcc_regs_speeds_speed_set_2;
    case 1u: goto arm_9;
    default: goto default_3;
    }
arm_9:;
    r11 = 1u;
    r11_2 = 0u;
    goto dcc_regs_speeds_speed_set_2;
default_3:;
    r3_5 = (uint8_t)(r1_4 + 255u);
    r11 = 4u;
    r11_2 = r3_5;
    goto dcc_regs_speeds_speed_set_2;
dcc_regs_speeds_speed_set_3:;
    r19 = (a0 + 71);
    r17_3 = (a0 + 70);
    goto arm_10;
noarm_3:;
    DCC_UNREACHABLE();
dcc_regs_speeds_speed_set:;
    r19 = (a0 + 71);
    r17_3 = (a0 + 70);
    goto arm_10;
dcc_regs_speeds_speed_set_2:;
    r2 = r11_2;
    r2_2 = (uint16_t)((1u * r2) << 8u);
    r2_3 = (uint16_t)(r2_2 + r11);
    r19_2 = (a0 + 71);
    r17_4 = (a0 + 70);
    r9_3 = r2_3;
    goto core_option_Option_unwrap_or;
dcc_regs_speeds_speed_set_4:;
    r1_5 = *(a3 + 8);
    v7 = r1_5 & 254u;
    narrow = v7 == 2u;
    spec_3 = narrow;
    if (r1_5 < 4u) { r19_2 = (a0 + 71); r17_4 = (a0 + 70); r9_3 = spec_3; goto core_option_Option_unwrap_or; }
    r19 = (a0 + 71);
    r17_3 = (a0 + 70);
arm_10:;
    r3_6 = *r17_3;
    r3_7 = *r19;
    r9_4 = r3_6;
    r9_5 = r3_7;
    r9_6 = (uint16_t)((1u * r9_5) << 8u);
    r9_7 = r9_6 | r9_4;
    r19_2 = r19;
    r17_4 = r17_3;
    r9_3 = r9_7;
core_option_Option_unwrap_or:;
    r9_8 = (uint8_t)(r9_3);
    r9_9 = r9_3 >> 8u;
    r9_10 = (uint8_t)r9_9;
    *r17_4 = r9_8;
    *r19_2 = r9_10;
    r15_2 = *a3;
    if (!(r15_2 == 1u)) goto dcc_regs_speeds_direction_set;
    r21 = *(a3 + 6);
    switch (r21) {
    case 0u: r0 = 1u; goto v10;
    case 1u: goto arm_11;
    case 2u: goto it;
    case 3u: case 4u: case 5u: case 6u: case 7u: case 8u: goto dcc_regs_speeds_direction_set;
    default: goto noarm_4;
    }
arm_11:;
    r25 = *(a3 + 2);
    if (!(r25 == 0u)) goto it;
    r1_6 = *(a3 + 8);
    switch_2 = r1_6 & 253u;
    if (switch_2 == 0u) goto it;
    goto dcc_regs_speeds_direction_set;
noarm_4:;
    DCC_UNREACHABLE();
dcc_regs_speeds_direction_set:;
    r35_2 = *(a0 + 72);
    r34 = (a0 + 72);
    v12 = r35_2;
    goto v11;
it:;
    r55 = *(a3 + 7);
    r0 = r55;
v10:;
    r34 = (a0 + 72);
    v12 = r0;
v11:;
    *r34 = v12;
    r16 = *a3;
    if (!(r16 == 1u)) goto dcc_regs_function_bits_functions_set;
    r22 = *(a3 + 6);
    switch (r22) {
    case 0u: r9_11 = dcc_wide_of(UINT64_C(31), UINT64_C(18446744073709551615)); r9_12 = dcc_wide_of(UINT64_C(0), UINT64_C(0)); goto else_2;
    case 1u: goto arm_12;
    case 3u: goto arm_13;
    case 2u: case 4u: case 5u: case 6u: case 7u: case 8u: goto dcc_regs_function_bits_functions_set;
    default: goto noarm_5;
    }
arm_12:;
    r28 = *(a3 + 2);
    v14 = r28 == 0u;
    trunc_2 = (uint8_t)((v0) & 1u);
    or_2 = v14 | trunc_2;
    if (or_2) goto dcc_regs_function_bits_functions_set;
    r1_7 = *(a3 + 8);
    v15 = r1_7 & 1u;
    sext = (uint8_t)(0u - v15);
    it = dcc_wide_sext(sext, UINT64_C(128));
    r9_11 = dcc_wide_of(UINT64_C(0), UINT64_C(1));
    r9_12 = it;
    goto else_2;
arm_13:;
    r15_3 = *(a3 + 7);
    r15_4 = *(a3 + 8);
    v16 = r15_3;
    switch_3 = ((unsigned char *)switch_table_dcc_loco_apply) + (ptrdiff_t)v16;
    switch_4 = *switch_3;
    trunc_3 = (uint8_t)((v0) & 1u);
    v17 = r15_3 == 0u;
    or_3 = v17 & trunc_3;
    r1_8 = dcc_wide_of(0, or_3);
    switch_5 = r15_3 < 3u;
    it_2 = switch_5 ? 15u : 255u;
    r1_9 = dcc_wide_of(0, it_2);
    r42 = dcc_wide_of(0, switch_4);
    r45 = dcc_wide_shl(r1_9, (unsigned)r42.low);
    r48 = dcc_wide_or(r45, r1_8);
    r1_10 = dcc_wide_of(0, r15_4);
    r57 = dcc_wide_shl(r1_10, (unsigned)r42.low);
    r61 = r15_4 >> 4u;
    r1_11 = dcc_wide_of(0, r61);
    r66 = dcc_wide_and(r1_11, r1_8);
    r69 = dcc_wide_or(r57, r66);
    r9_11 = r48;
    r9_12 = r69;
    goto else_2;
noarm_5:;
    DCC_UNREACHABLE();
dcc_regs_function_bits_functions_set:;
    r50 = dcc_wide_of(dcc_load_64_aligned((a0 + 8)), dcc_load_64_aligned(a0));
    r3_8 = r50;
    goto dcc_regs_masked_Masked_over;
else_2:;
    r50_2 = dcc_wide_of(dcc_load_64_aligned((a0 + 8)), dcc_load_64_aligned(a0));
    r17_5 = dcc_wide_xor(r50_2, r9_12);
    r21_2 = dcc_wide_and(r17_5, r9_11);
    r23 = dcc_wide_xor(r21_2, r50_2);
    r3_8 = r23;
dcc_regs_masked_Masked_over:;
    r7 = dcc_wide_and(r3_8, dcc_wide_of(UINT64_C(31), UINT64_C(18446744073709551615)));
    dcc_store_64_aligned(a0, r7.low); dcc_store_64_aligned((a0 + 8), r7.high);
    r8_3 = *a3;
    if (!(r8_3 == 1u)) goto dcc_regs_states_states_set;
    r10 = *(a3 + 6);
    switch (r10) {
    case 0u: r3_9 = dcc_wide_of(UINT64_C(18446744073709551615), UINT64_C(18446744073709551614)); r3_10 = dcc_wide_of(UINT64_C(0), UINT64_C(0)); goto else_3;
    case 4u: goto arm_14;
    case 1u: case 2u: case 3u: case 5u: case 6u: case 7u: case 8u: goto dcc_regs_states_states_set;
    default: goto noarm_6;
    }
arm_14:;
    r1_12 = *(a3 + 7);
    r4_6 = r1_12 == 0u;
    r9_13 = dcc_wide_of(0, r1_12);
    r11_3 = dcc_wide_shl(dcc_wide_of(UINT64_C(0), UINT64_C(1)), (unsigned)r9_13.low);
    r2_4 = r4_6 ? dcc_wide_of(UINT64_C(18446744073709551615), UINT64_C(18446744073709551614)) : r11_3;
    r22_2 = *(a3 + 8);
    r23_2 = r22_2;
    it_3 = dcc_wide_sext(r23_2, UINT64_C(1));
    r3_9 = r2_4;
    r3_10 = it_3;
    goto else_3;
noarm_6:;
    DCC_UNREACHABLE();
dcc_regs_states_states_set:;
    r58 = dcc_wide_of(dcc_load_64_aligned(((a0 + 16) + 8)), dcc_load_64_aligned((a0 + 16)));
    r57_2 = (a0 + 16);
    r3_11 = r58;
    goto dcc_regs_loco_registers_LocoRegisters_obey;
else_3:;
    r58_2 = dcc_wide_of(dcc_load_64_aligned(((a0 + 16) + 8)), dcc_load_64_aligned((a0 + 16)));
    r17_6 = dcc_wide_xor(r58_2, r3_10);
    r21_3 = dcc_wide_and(r17_6, r3_9);
    r23_3 = dcc_wide_xor(r21_3, r58_2);
    r57_2 = (a0 + 16);
    r3_11 = r23_3;
dcc_regs_loco_registers_LocoRegisters_obey:;
    dcc_store_64_aligned(r57_2, r3_11.low); dcc_store_64_aligned((r57_2 + 8), r3_11.high);
    memset(r2_5, 0u, 17);
    r8_4 = *a3;
    if (!(r8_4 == 1u)) { r2_6 = 0u; r2_7 = 0u; r2_8 = 0u; r2_9 = 0u; goto dcc_regs_writes_leave_pending; }
    r4_7 = *(a3 + 6);
    switch (r4_7) {
    case 5u: case 7u: goto dcc_regs_writes_is_own_write;
    case 0u: case 1u: case 2u: case 3u: case 4u: case 6u: case 8u: r2_6 = 0u; r2_7 = 0u; r2_8 = 0u; r2_9 = 0u; goto dcc_regs_writes_leave_pending;
    default: goto noarm_7;
    }
noarm_7:;
    DCC_UNREACHABLE();
dcc_regs_writes_is_own_write:;
    r18 = *(a3 + 2);
    if (r18 == 0u) { r2_6 = 0u; r2_7 = 0u; r2_8 = 0u; r2_9 = 0u; goto dcc_regs_writes_leave_pending; }
    r3_12 = dcc_load_16((a3 + 2));
    r3_13 = dcc_load_16((a3 + 4));
    memcpy(r2_5, (a3 + 7), 17);
    r2_6 = 1u;
    r2_7 = r3_12;
    r2_8 = r3_13;
    r2_9 = r4_7;
dcc_regs_writes_leave_pending:;
    memcpy(r0_2, r2_5, 17);
    r2_10 = r2_6;
    dcc_store_64((a0 + 32), r2_10);
    r6_4 = r2_6;
    dcc_store_16((a0 + 40), r6_4);
    dcc_store_16((a0 + 42), r2_7);
    dcc_store_16((a0 + 44), r2_8);
    *(a0 + 46) = r2_9;
    memcpy((a0 + 47), r0_2, 17);
    goto common;
}

/* dcc_c::lost::write_packet_at_end */
static DCC_NOINLINE uint8_t dcc_c_lost_write_packet_at_end(unsigned char *a0, unsigned char *a1) {
    uint8_t r6;
    uint64_t place_0[7];
    unsigned char *const r2 = (unsigned char *)place_0;
    uint32_t place_1[7];
    unsigned char *const r4 = (unsigned char *)place_1;
    memset(DCC_ALIGNED(r2), 0u, 56);
    dcc_lost_finder_LostFinder_packet_at_end(r2, a0);
    r6 = *r2;
    if (r6 == 0u) goto join;
    dcc_c_lost_packet_lost_numbers(r4, (r2 + 8));
    memcpy(a1, DCC_ALIGNED(r4), 28);
join:;
    return r6;
}

/* dcc_framer_new */
dcc_framer dcc_framer_new(void) {
    dcc_framer answer;
    unsigned char *const a0 = (unsigned char *)&answer;
    memset(a0, 0u, 24);
    return answer;
}

/* dcc_functions_is_on */
uint8_t dcc_functions_is_on(const dcc_functions *functions, uint8_t function) {
    unsigned char *a0 = (unsigned char *)functions;
    uint8_t a1 = function;
    struct dcc_wide r1, r17, r1_2, r26, r11, v0;
    uint64_t r13, r21;
    uint8_t r6, v1, v2, r1_3;
    r13 = dcc_load_64_aligned((a0 + 8));
    r1 = dcc_wide_of(0, r13);
    r17 = dcc_wide_shl(r1, 64u);
    r21 = dcc_load_64_aligned(a0);
    r1_2 = dcc_wide_of(0, r21);
    r26 = dcc_wide_or(r17, r1_2);
    r6 = a1 < 69u;
    r11 = dcc_wide_of(0, a1);
    v0 = dcc_wide_lshr(r26, (unsigned)r11.low);
    v1 = (uint8_t)(v0.low);
    v2 = v1 & 1u;
    r1_3 = r6 ? v2 : 0u;
    return r1_3;
}

/* dcc_lost_new */
void dcc_lost_new(dcc_lost *finder) {
    unsigned char *a0 = (unsigned char *)finder;
    memset(a0, 0u, 32);
    dcc_store_16_aligned((a0 + 416), 0u);
    dcc_store_16_aligned((a0 + 802), 0u);
    return;
}

/* dcc_meter_new */
void dcc_meter_new(dcc_meter *meter) {
    unsigned char *a0 = (unsigned char *)meter;
    dcc_store_32_aligned(a0, UINT32_C(0));
    dcc_store_16_aligned((a0 + 696), 0u);
    dcc_store_64_aligned((a0 + 704), UINT64_C(0));
    dcc_store_16_aligned((a0 + 712), 0u);
    dcc_store_16_aligned((a0 + 714), 0u);
    dcc_store_16_aligned((a0 + 1100), 0u);
    memset(DCC_ALIGNED((a0 + 8)), 0u, 304);
    return;
}

/* dcc_meter_push_many */
uint8_t dcc_meter_push_many(dcc_meter *meter, const uint16_t *halves, uint64_t len) {
    unsigned char *a0 = (unsigned char *)meter;
    unsigned char *a1 = (unsigned char *)halves;
    uint64_t a2 = len;
    uint16_t r48;
    uint32_t r1_2, r24;
    uint64_t r3_2, r3, r26, r43, r54;
    uint8_t common, r1;
    unsigned char *r4, *r46;
    r1 = a1 == (unsigned char *)0;
    r3 = r1 ? UINT64_C(4096) : UINT64_C(0);
    r4 = a1 + (ptrdiff_t)r3;
    r1_2 = dcc_load_32_aligned(a0);
    r24 = r1_2 ^ UINT32_C(4294967295);
    r26 = r24;
    if (a2 > r26) { common = 0u; goto dcc_c_meter_dcc_meter_push_many; }
    if (a2 == UINT64_C(0)) { common = 1u; goto dcc_c_meter_dcc_meter_push_many; }
    r3_2 = UINT64_C(0);
join:;
    r43 = (uint64_t)((1u * r3_2) << UINT64_C(1));
    r46 = r4 + (ptrdiff_t)r43;
    r48 = dcc_load_16_aligned(r46);
    (void)dcc_lost_figures_TrackFigures_try_push_run(a0, r48, UINT32_C(1));
    r54 = (uint64_t)(r3_2 + UINT64_C(1));
    if (!(r54 == a2)) { r3_2 = r54; goto join; }
    common = 1u;
dcc_c_meter_dcc_meter_push_many:;
    return common;
}

/* dcc_meter_push_run */
uint8_t dcc_meter_push_run(dcc_meter *meter, uint16_t us, uint32_t n) {
    unsigned char *a0 = (unsigned char *)meter;
    uint16_t a1 = us;
    uint32_t a2 = n;
    uint8_t r5, it;
    r5 = dcc_lost_figures_TrackFigures_try_push_run(a0, a1, a2);
    it = r5;
    return it;
}

/* dcc_meter_read */
void dcc_meter_read(const dcc_meter *meter, dcc_statistics *statistics) {
    unsigned char *a0 = (unsigned char *)meter;
    unsigned char *a1 = (unsigned char *)statistics;
    uint16_t spec_2, r13;
    uint32_t r1, r2_2;
    uint64_t spec, r3, r10, r2;
    uint8_t r5, r6, r7, r76;
    uint64_t place_0[20];
    unsigned char *const r20 = (unsigned char *)place_0;
    uint64_t place_1[8];
    unsigned char *const r20_2 = (unsigned char *)place_1;
    uint64_t place_2[3];
    unsigned char *const r20_3 = (unsigned char *)place_2;
    r3 = dcc_load_64_aligned((a0 + 264));
    r5 = r3 > UINT64_C(1);
    if (!(r5)) { spec = UINT64_C(0); goto dcc_timing_timings_Timings_longest_gap; }
    r10 = dcc_load_64_aligned((a0 + 280));
    spec = r10;
dcc_timing_timings_Timings_longest_gap:;
    r6 = *(a0 + 708);
    r7 = r6;
    if (!(r7)) { spec_2 = 0u; goto dcc_c_meter_dcc_meter_read; }
    r13 = dcc_load_16_aligned((a0 + 710));
    spec_2 = r13;
dcc_c_meter_dcc_meter_read:;
    r2 = dcc_load_64_aligned((a0 + 8));
    r1 = dcc_load_32_aligned(a0);
    r2_2 = dcc_load_32_aligned((a0 + 704));
    r76 = r5;
    memcpy(DCC_ALIGNED(r20), (a0 + 16), 160);
    memcpy(DCC_ALIGNED(r20_2), (a0 + 200), 64);
    memcpy(DCC_ALIGNED(r20_3), (a0 + 176), 24);
    dcc_store_64(a1, r2);
    dcc_store_64((a1 + 8), spec);
    memcpy((a1 + 16), DCC_ALIGNED(r20), 160);
    memcpy((a1 + 176), DCC_ALIGNED(r20_2), 64);
    memcpy((a1 + 240), DCC_ALIGNED(r20_3), 24);
    dcc_store_32((a1 + 264), r1);
    dcc_store_32((a1 + 268), r2_2);
    dcc_store_16((a1 + 272), spec_2);
    *(a1 + 274) = r6;
    *(a1 + 275) = r76;
    dcc_store_32((a1 + 276), UINT32_C(0));
    return;
}

/* dcc_sender_half */
uint16_t dcc_sender_half(dcc_sender *sender) {
    unsigned char *a0 = (unsigned char *)sender;
    uint16_t v0, r18_4;
    uint64_t r18, r48, r18_2, r83, r23;
    uint8_t r25, r34, r42, r52, r57, r63;
    unsigned char *r18_3;
    r25 = *(a0 + 14);
    if (r25 == 0u) goto join;
    r34 = (uint8_t)(r25 + 255u);
    *(a0 + 14) = r34;
    r18 = UINT64_C(8);
    goto dcc_wire_halves_Halves_take_half;
join:;
    r42 = *(a0 + 15);
    if (r42 == 0u) { v0 = 0u; goto dcc_c_sender_dcc_sender_half; }
    r48 = dcc_load_64_aligned(a0);
    r52 = (r48 ^ UINT64_C(9223372036854775808)) > (UINT64_C(18446744073709551615) ^ UINT64_C(9223372036854775808));
    r57 = (uint8_t)(r42 + 255u);
    *(a0 + 15) = r57;
    r63 = r57 & 1u;
    if (r63 == 0u) goto join_2;
    r18_2 = r52 ? UINT64_C(10) : UINT64_C(8);
    r18 = r18_2;
    goto dcc_wire_halves_Halves_take_half;
join_2:;
    r83 = (uint64_t)((1u * r48) << UINT64_C(1));
    dcc_store_64_aligned(a0, r83);
    r23 = r52 ? UINT64_C(12) : UINT64_C(8);
    r18 = r23;
dcc_wire_halves_Halves_take_half:;
    r18_3 = a0 + (ptrdiff_t)r18;
    r18_4 = dcc_load_16_aligned(r18_3);
    v0 = r18_4;
dcc_c_sender_dcc_sender_half:;
    return v0;
}

/* dcc_station_entries */
uint8_t dcc_station_entries(const dcc_station *station) {
    unsigned char *a0 = (unsigned char *)station;
    uint8_t r3;
    r3 = *(a0 + 1796);
    return r3;
}

/* dcc_station_stop */
uint8_t dcc_station_stop(dcc_station *station) {
    unsigned char *a0 = (unsigned char *)station;
    uint64_t r2, r1, r1_2, r21, a1, r22, r1_3, r18, r18_2;
    uint8_t r10, it, r10_2, r3_2, r3, r17, r5, v0, r28, r4, r4_2, r3_3, r2_2, r4_3, r11, r2_3, r4_4, r2_4, r4_5,
        r23;
    unsigned char *r24, *r21_2;
    uint16_t place_0[6];
    unsigned char *const r8 = (unsigned char *)place_0;
    unsigned char *const r0 = (unsigned char *)place_0;
    *(a0 + 1798) = 1u;
    *(a0 + 1799) = 0u;
    r3 = *(a0 + 897);
    r1 = r3;
    if (r3 == 0u) { r3_2 = 0u; goto dcc_c_station_dcc_station_stop; }
    r10 = r3;
    r2 = UINT64_C(0);
join_2:;
    if (r10 == 0u) goto else_2;
    r17 = *(a0 + 896);
    r1_2 = r17;
    r21 = (uint64_t)(1u * r1_2 * UINT64_C(7));
    r24 = a0 + (ptrdiff_t)r21;
    memset(r8, 0u, 12);
    r5 = *r24;
    if (r5 == 0u) goto dcc_c_station_ring_DccRingPacketRing_front_can_move;
    v0 = dcc_umin_8(r5, 6u);
    a1 = v0;
    r22 = (uint64_t)(a1 + UINT64_C(18446744073709551615));
    dcc_packet_from_frame_read_loco(r8, (r24 + 1), r22);
    r28 = *r8;
    if (!(r28 == 1u)) goto dcc_c_station_ring_DccRingPacketRing_front_can_move;
    r4 = *(r8 + 6);
    r4_2 = *(r8 + 8);
    switch (r4) {
    case 1u: goto arm;
    case 2u: it = 1u; goto dcc_c_station_ring_DccRingPacketRing_front_can_move_2;
    case 0u: case 3u: case 4u: case 5u: case 6u: case 7u: case 8u: goto dcc_c_station_ring_DccRingPacketRing_front_can_move;
    default: goto noarm;
    }
arm:;
    r3_3 = *(r8 + 2);
    if (r3_3 == 0u) goto dcc_c_station_ring_DccRingPacketRing_front_can_move;
    it = 3u;
    goto dcc_c_station_ring_DccRingPacketRing_front_can_move_2;
noarm:;
    DCC_UNREACHABLE();
dcc_c_station_ring_DccRingPacketRing_front_can_move:;
    goto join;
dcc_c_station_ring_DccRingPacketRing_front_can_move_2:;
    if (!(r4_2 > it)) goto join;
    r2_2 = (uint8_t)(r17 + 1u);
    r4_3 = r2_2 & 127u;
    *(a0 + 896) = r4_3;
    r11 = (uint8_t)(r10 + 255u);
    *(a0 + 897) = r11;
    r10_2 = r11;
    goto dcc_station_stop_pass_first;
else_2:;
    goto dcc_c_station_ring_DccRingPacketRing_rotate;
join:;
    memcpy(r0, r24, 7);
    r2_3 = (uint8_t)(r17 + 1u);
    r4_4 = r2_3 & 127u;
    *(a0 + 896) = r4_4;
    r2_4 = (uint8_t)(r17 + r10);
    r4_5 = r2_4 & 127u;
    r1_3 = r4_5;
    r18 = (uint64_t)(1u * r1_3 * UINT64_C(7));
    r21_2 = a0 + (ptrdiff_t)r18;
    memcpy(r21_2, r0, 7);
dcc_c_station_ring_DccRingPacketRing_rotate:;
    r10_2 = r10;
dcc_station_stop_pass_first:;
    r18_2 = (uint64_t)(r2 + UINT64_C(1));
    if (!(r18_2 == r1)) { r10 = r10_2; r2 = r18_2; goto join_2; }
    r3_2 = r10_2;
dcc_c_station_dcc_station_stop:;
    r23 = (uint8_t)(r3 - r3_2);
    return r23;
}

/* dcc_station_waiting */
uint8_t dcc_station_waiting(const dcc_station *station) {
    unsigned char *a0 = (unsigned char *)station;
    uint8_t r3;
    r3 = *(a0 + 897);
    return r3;
}

/* dcc_station_command */
uint8_t dcc_station_command(dcc_station *station, const uint8_t *frame, uint64_t len) {
    unsigned char *a0 = (unsigned char *)station;
    unsigned char *a1 = (unsigned char *)frame;
    uint64_t a2 = len;
    uint16_t r3_2, v1, v2, v4;
    uint64_t r3;
    uint8_t r6, r1, r13, r2, v3, v5, switch_2, or_2, r3_3, r3_4, r19;
    unsigned char *r4;
    uint64_t place_0[3];
    unsigned char *const r0 = (unsigned char *)place_0;
    uint64_t place_1[3];
    unsigned char *const r5 = (unsigned char *)place_1;
    uint64_t place_2[3];
    unsigned char *const r8 = (unsigned char *)place_2;
    r1 = a1 == (unsigned char *)0;
    r3 = r1 ? UINT64_C(4096) : UINT64_C(0);
    r4 = a1 + (ptrdiff_t)r3;
    memset(DCC_ALIGNED(r5), 0u, 24);
    dcc_c_frame_frame_of(r5, r4, a2);
    r13 = *r5;
    if (!(r13 == 0u)) goto arm;
    dcc_packet_packet_Packet_read(r8, (r5 + 8));
    r2 = *r8;
    r3_2 = r2;
    v1 = dcc_load_16_aligned((r8 + 2));
    v2 = dcc_load_16_aligned((r8 + 4));
    v3 = *(r8 + 6);
    switch (r2) {
    case 0u: case 4u: r6 = 3u; goto dcc_c_station_dcc_station_command;
    case 1u: goto arm_2;
    case 2u: case 3u: goto join;
    default: goto noarm;
    }
arm_2:;
    v4 = v1 & 255u;
    v5 = v4 != 0u;
    switch_2 = v3 < 5u;
    or_2 = v5 ? 1u : switch_2;
    if (or_2) goto join;
    r6 = 3u;
    goto dcc_c_station_dcc_station_command;
noarm:;
    DCC_UNREACHABLE();
join:;
    r3_3 = *(a0 + 898);
    r3_4 = *(a0 + 897);
    if (r3_3 == r3_4) { r6 = 4u; goto dcc_c_station_dcc_station_command; }
    dcc_store_16_aligned(r0, r3_2);
    dcc_store_16_aligned((r0 + 2), v1);
    dcc_store_16_aligned((r0 + 4), v2);
    *(r0 + 6) = v3;
    memcpy((r0 + 7), (r8 + 7), 17);
    dcc_c_station_ring_DccRingPacketRing_push_back(a0, r0);
    r6 = 0u;
    goto dcc_c_station_dcc_station_command;
arm:;
    r19 = *(r5 + 1);
    r6 = r19;
dcc_c_station_dcc_station_command:;
    return r6;
}

/* dcc_board_decoder_power_up */
void dcc_board_decoder_power_up(dcc_board_decoder *decoder) {
    unsigned char *a0 = (unsigned char *)decoder;
    uint16_t r13, r1, r25, r1_2, r36;
    uint8_t r19, r21, r29, r31;
    r13 = dcc_load_16_aligned(a0);
    if (r13 < 512u) goto dcc_c_board_decoder_dcc_board_decoder_power_up;
    DCC_TRAP();
    DCC_UNREACHABLE();
dcc_c_board_decoder_dcc_board_decoder_power_up:;
    r19 = *(a0 + 20);
    r21 = r19 & 7u;
    r1 = r21;
    r25 = (uint16_t)((1u * r1) << 6u);
    r29 = *(a0 + 12);
    r31 = r29 & 63u;
    r1_2 = r31;
    r36 = r25 | r1_2;
    dcc_store_16(a0, r36);
    *(a0 + 2) = 0u;
    *(a0 + 11) = 0u;
    memset((a0 + 1036), 0u, 10);
    return;
}

/* dcc_service_power_up */
void dcc_service_power_up(dcc_service *service) {
    unsigned char *a0 = (unsigned char *)service;
    dcc_store_64(a0, UINT64_C(0));
    return;
}

/* dcc_service_new */
void dcc_service_new(dcc_service *service, const uint8_t cvs[DCC_CVS]) {
    unsigned char *a0 = (unsigned char *)service;
    unsigned char *a1 = (unsigned char *)cvs;
    uint64_t r0, r8, r9, r10, r30;
    uint8_t r26;
    unsigned char *r20, *r24;
    r8 = (uintptr_t)(a0 + 8);
    r9 = (uintptr_t)a1;
    r10 = (uint64_t)(r8 - r9);
    if (r10 < UINT64_C(1024)) { r0 = UINT64_C(0); goto join; }
    memmove((a0 + 8), a1, 1024);
    goto dcc_c_service_dcc_service_new;
join:;
    r20 = (a0 + 8) + (ptrdiff_t)r0;
    r24 = a1 + (ptrdiff_t)r0;
    r26 = *r24;
    *r20 = r26;
    r30 = (uint64_t)(r0 + UINT64_C(1));
    if (!(r30 == UINT64_C(1024))) { r0 = r30; goto join; }
dcc_c_service_dcc_service_new:;
    dcc_store_64(a0, UINT64_C(0));
    return;
}

/* dcc_small_service_new */
void dcc_small_service_new(dcc_small_service *service) {
    unsigned char *a0 = (unsigned char *)service;
    dcc_store_64(a0, UINT64_C(0));
    return;
}

/* dcc_board_new */
uint8_t dcc_board_new(dcc_board *board, uint16_t number) {
    unsigned char *a0 = (unsigned char *)board;
    uint16_t a1 = number;
    uint8_t r4;
    if (a1 > 510u) { r4 = 3u; goto dcc_c_board_dcc_board_new; }
    dcc_store_16(a0, a1);
    memset((a0 + 2), 0u, 10);
    r4 = 0u;
dcc_c_board_dcc_board_new:;
    return r4;
}

/* dcc_reader_new */
uint8_t dcc_reader_new(dcc_reader *reader, uint16_t cv) {
    unsigned char *a0 = (unsigned char *)reader;
    uint16_t a1 = cv;
    uint16_t v0;
    uint32_t r6;
    uint8_t r4;
    v0 = (uint16_t)(a1 + 65535u);
    if (!(v0 < 1024u)) { r4 = 6u; goto dcc_c_reader_dcc_reader_new; }
    r6 = a1;
    dcc_store_32(a0, r6);
    r4 = 0u;
dcc_c_reader_dcc_reader_new:;
    return r4;
}

/* dcc_service_read */
uint8_t dcc_service_read(const uint8_t *frame, uint64_t len, dcc_service_packet *packet) {
    unsigned char *a0 = (unsigned char *)frame;
    uint64_t a1 = len;
    unsigned char *a2 = (unsigned char *)packet;
    uint16_t v2;
    uint64_t r3;
    uint8_t r11, r11_2, r11_3, r11_4, r7, r1, r17, r20, r22, v3, v4, r35;
    unsigned char *r4;
    uint64_t place_0[3];
    unsigned char *const r6 = (unsigned char *)place_0;
    uint16_t place_1[4];
    unsigned char *const r8 = (unsigned char *)place_1;
    r1 = a0 == (unsigned char *)0;
    r3 = r1 ? UINT64_C(4096) : UINT64_C(0);
    r4 = a0 + (ptrdiff_t)r3;
    memset(DCC_ALIGNED(r6), 0u, 24);
    dcc_c_frame_frame_of(r6, r4, a1);
    r17 = *r6;
    if (!(r17 == 0u)) goto arm;
    dcc_service_packet_ServicePacket_read(r8, (r6 + 8));
    r20 = *r8;
    if (!(r20 == 1u)) { r7 = 10u; goto dcc_c_service_packet_dcc_service_read; }
    r22 = *(r8 + 2);
    v2 = dcc_load_16_aligned((r8 + 4));
    v3 = *(r8 + 6);
    v4 = *(r8 + 7);
    switch (r22) {
    case 0u: r11 = 6u; r11_2 = v3; r11_3 = r22; r11_4 = r22; goto dcc_c_service_packet_numbers;
    case 1u: goto arm_2;
    case 2u: goto arm_3;
    case 3u: goto arm_4;
    default: goto noarm;
    }
arm_2:;
    r11 = 7u;
    r11_2 = v3;
    r11_3 = 0u;
    r11_4 = 0u;
    goto dcc_c_service_packet_numbers;
arm_3:;
    r11 = 8u;
    r11_2 = 0u;
    r11_3 = v3;
    r11_4 = v4;
    goto dcc_c_service_packet_numbers;
arm_4:;
    r11 = 9u;
    r11_2 = 0u;
    r11_3 = v3;
    r11_4 = v4;
    goto dcc_c_service_packet_numbers;
noarm:;
    DCC_UNREACHABLE();
dcc_c_service_packet_numbers:;
    dcc_store_16(a2, v2);
    *(a2 + 2) = r11;
    *(a2 + 3) = r11_2;
    *(a2 + 4) = r11_3;
    *(a2 + 5) = r11_4;
    r7 = 0u;
    goto dcc_c_service_packet_dcc_service_read;
arm:;
    r35 = *(r6 + 1);
    r7 = r35;
dcc_c_service_packet_dcc_service_read:;
    return r7;
}

/* dcc_writer_new */
uint8_t dcc_writer_new(dcc_writer *writer, uint16_t cv, uint8_t value) {
    unsigned char *a0 = (unsigned char *)writer;
    uint16_t a1 = cv;
    uint8_t a2 = value;
    uint16_t v0;
    uint32_t r5, r5_2, r5_3, r5_4;
    uint8_t r4;
    v0 = (uint16_t)(a1 + 65535u);
    if (!(v0 < 1024u)) { r4 = 6u; goto dcc_c_writer_dcc_writer_new; }
    r5 = a2;
    r5_2 = (uint32_t)((1u * r5) << UINT32_C(16));
    r5_3 = a1;
    r5_4 = r5_2 | r5_3;
    dcc_store_32(a0, r5_4);
    r4 = 0u;
dcc_c_writer_dcc_writer_new:;
    return r4;
}

/* dcc_frame_of_line */
uint8_t dcc_frame_of_line(const char *line, uint64_t len, dcc_frame *frame) {
    unsigned char *a0 = (unsigned char *)line;
    uint64_t a1 = len;
    unsigned char *a2 = (unsigned char *)frame;
    struct dcc_8_8 r94, r19_3, r4_15, r19_4, r4_17, r35, r4_21, r37_2, r4_28, r37_4, r28_4;
    uint16_t r12, r12_3, r14_2, r26_6, r26_7, r26_8, r20_2, r20_3, r16_5, r16_6, r36, r31_7, r31_8, r31_9, r31_10,
        r32_2, r32_3, r32_4, r26, r1_20, r17_2, r186, r1_24, r49, r26_10, r26_11, r26_12, v35, v36, r19_5;
    uint32_t r3_3, r12_6, r26_2, r20_6, r16_10, r57, r1_4, r66, r1_6, r1_9, r1_12, v22, r1_15, v25, r12_8, v27,
        r14_6, r14_7, r14_8, r14_9, r16_11;
    uint64_t r5_4, r4_7, r0_4, r4_12, r3, r4_3, r4_5, r1910, r40, r98, r153, v4, r23, r4_11, r86, v9, v10, r68,
        r4_14, r4_20, r4_26, r10, r10_2, r10_3;
    uint8_t it, it_2, r6, r0, r0_2, r0_3, r12_2, r3_5, r2_7, r12_4, r12_5, r12_7, r31, r31_2, r31_3, r31_4, r31_5,
        r31_6, r14, r14_3, r14_4, r14_5, r26_3, r26_4, r26_5, r26_9, r19_2, r20, r20_4, r20_5, r18_9, r16_2, r16_4,
        r16_7, r16_8, r16_9, r5_3, r6_8, r1, r7_2, r24, r7_3, r42, r9270, or_2, r103, r113, v2, r18, v3, r53, r18_2,
        r88, r2_3, r4_9, r18_3, r18_4, r18_5, r18_6, r18_7, r18_8, r6_2, v6, it_3, r24_2, r24_3, r7_4, r60, r65,
        r70, r80, r102, r103_2, r3_4, v11, r7_5, r24_4, r24_5, r27, r28, r5_5, r6_3, trunc, r4_16, narrow, it_4,
        it_5, r149_2, r24_6, r27_2, r28_2, r5_6, r6_4, trunc_2, r4_18, it_6, it_7, it_8, r193, r51, r7_6, r47, r61,
        r66_2, r72, r79, r85, r91, r97, r43, r44, r24_7, r5_7, r6_5, trunc_3, r4_22, it_9, r45_2, r46, it_10, it_11,
        r273, r4_23, r7_7, r4_24, r7_8, r17, r7_9, r24_8, r1_5, r1_7, r24_9, r1_8, r1_10, r24_10, r1_11, v23, r182,
        r1_13, r51_2, r1_14, v26, r226, r1_16, r12_9, r92, r92_2, r51_3, r1_18, r1_19, v28, r4_27, it_12, r5_8,
        r6_6, trunc_4, r4_29, narrow_2, r45_3, r46_2, it_13, it_14, it_15, r8_2, v30, r24_11, r1_22, r1_23, v31,
        r4_30, it_16, r36_2, r37_5, it_17, r8_3, r6_7, v34, it_18, r66_3, v37, r16_12, r16_13, r12_10, switch_2;
    unsigned char *r4_8, *r37_3, *r16_3, *r4, *r4_2, *r4_4, *r101, *r149, *r4_10, *r45, *r4_13, *r4_19, *r4_25;
    uint64_t place_0[4];
    unsigned char *const r9_3 = (unsigned char *)place_0;
    unsigned char *const r9_2 = (unsigned char *)place_0;
    unsigned char *const r9 = (unsigned char *)place_0;
    unsigned char *const r1_25 = (unsigned char *)place_0;
    unsigned char *const r2_8 = (unsigned char *)place_0;
    unsigned char *const r2_6 = (unsigned char *)place_0;
    unsigned char *const r2_5 = (unsigned char *)place_0;
    unsigned char *const r2_4 = (unsigned char *)place_0;
    unsigned char *const r1_3 = (unsigned char *)place_0;
    unsigned char *const r2_2 = (unsigned char *)place_0;
    unsigned char *const r2 = (unsigned char *)place_0;
    unsigned char *const r4_6 = (unsigned char *)place_0;
    unsigned char *const r1_21 = (unsigned char *)place_0;
    unsigned char *const r1_17 = (unsigned char *)place_0;
    uint64_t place_1[3];
    unsigned char *const r13 = (unsigned char *)place_1;
    unsigned char *const r32 = (unsigned char *)place_1;
    uint64_t place_2[3];
    unsigned char *const r3_2 = (unsigned char *)place_2;
    uint64_t place_3[2];
    unsigned char *const r1_2 = (unsigned char *)place_3;
    unsigned char *const r37 = (unsigned char *)place_3;
    uint64_t place_4[2];
    unsigned char *const r7 = (unsigned char *)place_4;
    uint64_t place_5[2];
    unsigned char *const r8 = (unsigned char *)place_5;
    uint8_t place_6[12];
    unsigned char *const r16 = (unsigned char *)place_6;
    uint32_t place_7[3];
    unsigned char *const r19 = (unsigned char *)place_7;
    uint32_t place_8[3];
    unsigned char *const r5_2 = (unsigned char *)place_8;
    uint32_t place_9[3];
    unsigned char *const r5 = (unsigned char *)place_9;
    uint16_t place_10[3];
    unsigned char *const r28_3 = (unsigned char *)place_10;
    uint16_t place_11[3];
    unsigned char *const r39 = (unsigned char *)place_11;
    uint16_t place_12[3];
    unsigned char *const r50 = (unsigned char *)place_12;
    uint16_t place_13[3];
    unsigned char *const r61_2 = (unsigned char *)place_13;
    r1 = a0 == (unsigned char *)0;
    r3 = r1 ? UINT64_C(4096) : UINT64_C(0);
    r4 = a0 + (ptrdiff_t)r3;
    memset(DCC_ALIGNED(r3_2), 0u, 24);
    memset(DCC_ALIGNED(r5), 0u, 12);
    memset(DCC_ALIGNED(r8), 0u, 16);
    memset(DCC_ALIGNED(r5_2), 0u, 12);
    dcc_store_ptr(r7, r4);
    dcc_store_64_aligned((r7 + 8), a1);
    memset(r16, 0u, 12);
    memset(DCC_ALIGNED(r19), 0u, 12);
    memset(DCC_ALIGNED(r2), 0u, 24);
    dcc_packet_words_Words_next(r2, r7);
    r7_2 = *r2;
    if (!(r7_2 == 1u)) goto arm;
    r4_2 = dcc_load_ptr((r2 + 8));
    r4_3 = dcc_load_64_aligned((r2 + 16));
    if (!(r4_3 == UINT64_C(5))) goto else_2;
    r24 = core_slice_reads_slice_T_starts_with__i8_31_core_cmp_numbers_U8(r4_2, UINT64_C(5), ((unsigned char *)constant_32480031), UINT64_C(5));
    if (r24) goto then;
    goto dcc_packet_packet_forms_packet;
arm:;
    r5_3 = 9u;
    goto arm_2;
then:;
    memset(DCC_ALIGNED(r13), 0u, 24);
    memset(DCC_ALIGNED(r2_2), 0u, 24);
    dcc_packet_words_Words_next(r2_2, r7);
    r7_3 = *r2_2;
    if (r7_3 == 1u) goto arm_3;
    r16_2 = 9u;
    goto dcc_packet_packet_Packet_from_line_bytes;
arm_3:;
    r4_4 = dcc_load_ptr((r2_2 + 8));
    r4_5 = dcc_load_64_aligned((r2_2 + 16));
    r1910 = r4_5 >> UINT64_C(1);
    if (r4_5 > UINT64_C(13)) goto core_result_Result_and_then;
    memset(r4_6, 0u, 6);
    r40 = r4_5 & UINT64_C(1);
    r42 = r40 != UINT64_C(0);
    r9270 = r1910 == UINT64_C(0);
    or_2 = r42 | r9270;
    if (or_2) goto core_result_Result_and_then;
    r5_4 = UINT64_C(0);
join:;
    r98 = (uint64_t)((1u * r5_4) << UINT64_C(1));
    r101 = r4_4 + (ptrdiff_t)r98;
    r103 = *r101;
    r113 = *(r101 + 1);
    if (r103 < 48u) goto core_result_Result_and_then;
    if (r103 < 58u) { it = 208u; goto arm_4; }
    if (r103 < 65u) goto core_result_Result_and_then;
    if (r103 < 71u) { it = 201u; goto arm_4; }
    v2 = (uint8_t)(r103 + 159u);
    if (!(v2 < 6u)) goto core_result_Result_and_then;
    it = 169u;
arm_4:;
    r18 = (uint8_t)(it + r103);
    if (r113 < 48u) goto core_result_Result_and_then;
    if (r113 < 58u) { it_2 = 208u; goto arm_5; }
    if (r113 < 65u) goto core_result_Result_and_then;
    if (r113 < 71u) { it_2 = 201u; goto arm_5; }
    v3 = (uint8_t)(r113 + 159u);
    if (!(v3 < 6u)) goto core_result_Result_and_then;
    it_2 = 169u;
arm_5:;
    r53 = (uint8_t)((1u * r18) << 4u);
    r18_2 = (uint8_t)(r53 + r113);
    r88 = (uint8_t)(r18_2 + it_2);
    r149 = r4_6 + (ptrdiff_t)r5_4;
    *r149 = r88;
    r153 = (uint64_t)(r5_4 + UINT64_C(1));
    if (!(r153 == r1910)) { r5_4 = r153; goto join; }
    v4 = (uint64_t)(r1910 + UINT64_C(18446744073709551609));
    if (v4 < UINT64_C(18446744073709551612)) goto core_result_Result_and_then;
    r6 = 0u;
    r4_7 = r1910;
    r4_8 = r4_6;
arm_6:;
    r23 = (uint64_t)(r4_7 + UINT64_C(18446744073709551615));
    r2_3 = *r4_8;
    r4_9 = r2_3 ^ r6;
    if (!(r23 == UINT64_C(0))) { r6 = r4_9; r4_7 = r23; r4_8 = (r4_8 + 1); goto arm_6; }
    if (!(r2_3 == r6)) goto core_result_Result_and_then;
    r18_3 = *r4_6;
    r18_4 = *(r4_6 + 1);
    r18_5 = *(r4_6 + 2);
    if (r1910 == UINT64_C(3)) { r0 = 0u; r0_2 = 0u; r0_3 = 0u; r0_4 = UINT64_C(3); goto arm_7; }
    r18_6 = *(r4_6 + 3);
    if (!(r4_5 > UINT64_C(9))) { r0 = r18_6; r0_2 = 0u; r0_3 = 0u; r0_4 = UINT64_C(4); goto arm_7; }
    r18_7 = *(r4_6 + 4);
    if (r1910 == UINT64_C(5)) { r0 = r18_6; r0_2 = r18_7; r0_3 = 0u; r0_4 = UINT64_C(5); goto arm_7; }
    r18_8 = *(r4_6 + 5);
    r0 = r18_6;
    r0_2 = r18_7;
    r0_3 = r18_8;
    r0_4 = UINT64_C(6);
    goto arm_7;
core_result_Result_and_then:;
    r16_2 = 11u;
    goto dcc_packet_packet_Packet_from_line_bytes;
arm_7:;
    *r1_2 = r18_3;
    *(r1_2 + 1) = r18_4;
    *(r1_2 + 2) = r18_5;
    *(r1_2 + 3) = r0;
    *(r1_2 + 4) = r0_2;
    *(r1_2 + 5) = r0_3;
    dcc_store_16_aligned((r1_2 + 6), 0u);
    dcc_store_64_aligned((r1_2 + 8), r0_4);
    memset(DCC_ALIGNED(r1_3), 0u, 24);
    dcc_packet_words_Words_next(r1_3, r7);
    r6_2 = *r1_3;
    if (r6_2 == 0u) goto dcc_packet_packet_Packet_from_line_bytes_2;
    v6 = r6_2 == 1u;
    it_3 = v6 ? 9u : 0u;
    r16_2 = it_3;
    goto dcc_packet_packet_Packet_from_line_bytes;
else_2:;
    memset(r32, 0u, 12);
    memset(r37, 0u, 12);
    switch (r4_3) {
    case UINT64_C(4): goto dcc_packet_words_is_word;
    case UINT64_C(9): goto core_slice_reads_slice_T_starts_with__i8_31_core_cmp_numbers_U8;
    case UINT64_C(6): goto then_2;
    default: r18_9 = 9u; goto arm_8;
    }
dcc_packet_words_is_word:;
    r24_2 = core_slice_reads_slice_T_starts_with__i8_31_core_cmp_numbers_U8(r4_2, UINT64_C(4), ((unsigned char *)constant_992c05ee), UINT64_C(4));
    if (!(r24_2)) goto dcc_packet_words_is_word_2;
    memset(DCC_ALIGNED(r19), 0u, 12);
    r19_2 = 0u;
    r20 = 0u;
    r20_2 = 0u;
    r20_3 = 0u;
    r20_4 = 0u;
    r20_5 = 0u;
    r20_6 = UINT32_C(0);
    goto arm_9;
dcc_packet_words_is_word_2:;
    r24_3 = core_slice_reads_slice_T_starts_with__i8_31_core_cmp_numbers_U8(r4_2, UINT64_C(4), ((unsigned char *)constant_609f5100), UINT64_C(4));
    if (!(r24_3)) { r18_9 = 9u; goto arm_8; }
    memset(DCC_ALIGNED(r2_4), 0u, 24);
    dcc_packet_words_Words_next(r2_4, r7);
    r7_4 = *r2_4;
    if (r7_4 == 1u) goto arm_10;
    r18_9 = 9u;
    goto arm_8;
arm_10:;
    r4_10 = dcc_load_ptr((r2_4 + 8));
    r4_11 = dcc_load_64_aligned((r2_4 + 16));
    switch (r4_11) {
    case UINT64_C(0): r18_9 = 9u; goto arm_8;
    case UINT64_C(3): goto then_3;
    default: goto after;
    }
then_3:;
    r60 = *r4_10;
    switch (r60) {
    case 97u: goto arm_11;
    case 115u: goto after_2;
    case 108u: goto join_2;
    default: r18_9 = 9u; goto arm_8;
    }
arm_11:;
    r65 = *(r4_10 + 1);
    if (!(r65 == 108u)) { r18_9 = 9u; goto arm_8; }
    r70 = *(r4_10 + 2);
    if (r70 == 108u) { r12 = 0u; r12_2 = 0u; r12_3 = 0u; goto arm_12; }
    r18_9 = 9u;
    goto arm_8;
after:;
    r80 = *r4_10;
    switch (r80) {
    case 115u: goto after_2;
    case 108u: goto after_3;
    default: r18_9 = 9u; goto arm_8;
    }
after_2:;
    r86 = (uint64_t)(r4_11 + UINT64_C(18446744073709551615));
    r94 = dcc_packet_numeral_small_number((r4_10 + 1), r86);
    r102 = r94.f0;
    r103_2 = r94.f1;
    if (!(r102 == 0u)) { r18_9 = r103_2; goto arm_8; }
    if ((r103_2 ^ 128u) > (0u ^ 128u)) { r12 = 1u; r12_2 = r103_2; r12_3 = 0u; goto arm_12; }
    r18_9 = 0u;
    goto arm_8;
after_3:;
    v9 = (uint64_t)(r4_11 + UINT64_C(18446744073709551609));
    if (v9 < UINT64_C(18446744073709551611)) { r18_9 = 10u; goto arm_8; }
join_2:;
    v10 = (uint64_t)(r4_11 + UINT64_C(18446744073709551614));
    r3_3 = UINT32_C(0);
    r4_12 = UINT64_C(0);
join_3:;
    r45 = (r4_10 + 1) + (ptrdiff_t)r4_12;
    r3_4 = *r45;
    v11 = (uint8_t)(r3_4 + 208u);
    if (!(v11 < 10u)) { r18_9 = 10u; goto arm_8; }
    r57 = (uint32_t)(1u * r3_3 * UINT32_C(10));
    r1_4 = v11;
    r66 = (uint32_t)(r57 + r1_4);
    r68 = (uint64_t)(r4_12 + UINT64_C(1));
    if (!(r4_12 == v10)) { r3_3 = r66; r4_12 = r68; goto join_3; }
    if (r66 > UINT32_C(65535)) { r18_9 = 10u; goto arm_8; }
    r36 = (uint16_t)r66;
    if (r66 > UINT32_C(10239)) { r18_9 = 1u; goto arm_8; }
    r12 = 2u;
    r12_2 = 0u;
    r12_3 = r36;
arm_12:;
    memset(DCC_ALIGNED(r2_5), 0u, 24);
    dcc_packet_words_Words_next(r2_5, r7);
    r7_5 = *r2_5;
    if (!(r7_5 == 1u)) goto arm_13;
    r4_13 = dcc_load_ptr((r2_5 + 8));
    r4_14 = dcc_load_64_aligned((r2_5 + 16));
    switch (r4_14) {
    case UINT64_C(5): goto dcc_packet_words_is_word_3;
    case UINT64_C(7): goto then_4;
    case UINT64_C(8): goto then_5;
    case UINT64_C(9): goto core_slice_reads_slice_T_starts_with__i8_31_core_cmp_numbers__2;
    case UINT64_C(2): goto then_6;
    default: r18_9 = 9u; goto arm_8;
    }
dcc_packet_words_is_word_3:;
    r24_4 = core_slice_reads_slice_T_starts_with__i8_31_core_cmp_numbers_U8(r4_13, UINT64_C(5), ((unsigned char *)constant_213e1f56), UINT64_C(5));
    if (r24_4) { r14 = 0u; r14_2 = 0u; r14_3 = 0u; r14_4 = 0u; r14_5 = 0u; goto arm_14; }
    goto dcc_packet_words_is_word_4;
then_4:;
    r24_5 = core_slice_reads_slice_T_starts_with__i8_31_core_cmp_numbers_U8(r4_13, UINT64_C(7), ((unsigned char *)constant_d9b981af), UINT64_C(7));
    if (!(r24_5)) { r18_9 = 9u; goto arm_8; }
    r19_3 = dcc_packet_fields_DirectionField_take(r7);
    r27 = r19_3.f0;
    r28 = r19_3.f1;
    if (!(r27 == 0u)) { r18_9 = r28; goto arm_8; }
    r4_15 = dcc_packet_fields_U8Field_take(r7);
    r5_5 = r4_15.f0;
    r6_3 = r4_15.f1;
    trunc = r5_5;
    r4_16 = r6_3 > 31u;
    narrow = trunc ? 1u : r4_16;
    if (!(narrow)) goto arm_15;
    it_4 = r4_16 ? 7u : r6_3;
    it_5 = trunc ? r6_3 : it_4;
    r18_9 = it_5;
    goto arm_8;
arm_15:;
    r149_2 = r28 & 1u;
    r31 = 1u;
    r31_2 = r149_2;
    r31_3 = r6_3;
    r31_4 = 0u;
    r31_5 = 0u;
    r31_6 = 0u;
    goto dcc_packet_instruction_forms_instruction;
then_5:;
    r24_6 = core_slice_reads_slice_T_starts_with__i8_31_core_cmp_numbers_U8(r4_13, UINT64_C(8), ((unsigned char *)constant_9ab52f84), UINT64_C(8));
    if (!(r24_6)) { r18_9 = 9u; goto arm_8; }
    r19_4 = dcc_packet_fields_DirectionField_take(r7);
    r27_2 = r19_4.f0;
    r28_2 = r19_4.f1;
    if (!(r27_2 == 0u)) { r18_9 = r28_2; goto arm_8; }
    r4_17 = dcc_packet_fields_U8Field_take(r7);
    r5_6 = r4_17.f0;
    r6_4 = r4_17.f1;
    trunc_2 = r5_6;
    r4_18 = (r6_4 ^ 128u) < (0u ^ 128u);
    it_6 = trunc_2 ? 1u : r4_18;
    if (!(it_6)) goto arm_16;
    it_7 = r4_18 ? 7u : r6_4;
    it_8 = trunc_2 ? r6_4 : it_7;
    r18_9 = it_8;
    goto arm_8;
arm_16:;
    r193 = r28_2 & 1u;
    r31 = 2u;
    r31_2 = r193;
    r31_3 = r6_4;
    r31_4 = 0u;
    r31_5 = 0u;
    r31_6 = 0u;
    goto dcc_packet_instruction_forms_instruction;
core_slice_reads_slice_T_starts_with__i8_31_core_cmp_numbers__2:;
    dcc_store_ptr(r9, ((unsigned char *)constant_b9673404));
    dcc_store_64_aligned((r9 + 8), UINT64_C(9));
    dcc_store_ptr((r9 + 16), r4_13);
    dcc_store_64_aligned((r9 + 24), UINT64_C(9));
    r51 = core_slice_scan_any_in_quarters(r9, UINT64_C(9), UINT64_C(8));
    if (r51) { r18_9 = 9u; goto arm_8; }
    memset(DCC_ALIGNED(r2_6), 0u, 24);
    dcc_packet_words_Words_next(r2_6, r7);
    r7_6 = *r2_6;
    if (!(r7_6 == 1u)) goto arm_17;
    r4_19 = dcc_load_ptr((r2_6 + 8));
    r4_20 = dcc_load_64_aligned((r2_6 + 16));
    switch (r4_20) {
    case UINT64_C(0): r18_9 = 9u; goto arm_8;
    case UINT64_C(1): goto then_7;
    default: goto join_4;
    }
then_7:;
    r47 = *r4_19;
    switch (r47) {
    case 48u: r3_5 = 0u; goto arm_18;
    case 53u: goto arm_19;
    case 57u: goto arm_20;
    default: r18_9 = 9u; goto arm_8;
    }
arm_19:;
    r3_5 = 1u;
    goto arm_18;
arm_20:;
    r3_5 = 2u;
    goto arm_18;
join_4:;
    if (!(r4_20 < UINT64_C(3))) { r18_9 = 9u; goto arm_8; }
    r61 = *r4_19;
    switch (r61) {
    case 49u: goto arm_21;
    case 50u: goto arm_22;
    case 51u: goto arm_23;
    case 52u: goto arm_24;
    case 53u: goto arm_25;
    case 54u: goto arm_26;
    default: r18_9 = 9u; goto arm_8;
    }
arm_21:;
    r66_2 = *(r4_19 + 1);
    if (r66_2 == 51u) { r3_5 = 3u; goto arm_18; }
    r18_9 = 9u;
    goto arm_8;
arm_22:;
    r72 = *(r4_19 + 1);
    switch (r72) {
    case 49u: r3_5 = 4u; goto arm_18;
    case 57u: goto arm_27;
    default: r18_9 = 9u; goto arm_8;
    }
arm_27:;
    r3_5 = 5u;
    goto arm_18;
arm_23:;
    r79 = *(r4_19 + 1);
    if (r79 == 55u) { r3_5 = 6u; goto arm_18; }
    r18_9 = 9u;
    goto arm_8;
arm_24:;
    r85 = *(r4_19 + 1);
    if (r85 == 53u) { r3_5 = 7u; goto arm_18; }
    r18_9 = 9u;
    goto arm_8;
arm_25:;
    r91 = *(r4_19 + 1);
    if (r91 == 51u) { r3_5 = 8u; goto arm_18; }
    r18_9 = 9u;
    goto arm_8;
arm_26:;
    r97 = *(r4_19 + 1);
    if (r97 == 49u) { r3_5 = 9u; goto arm_18; }
    r18_9 = 9u;
    goto arm_8;
arm_17:;
    r18_9 = 9u;
    goto arm_8;
arm_18:;
    r35 = dcc_packet_fields_U8Field_take(r7);
    r43 = r35.f0;
    r44 = r35.f1;
    if (!(r43 == 0u)) { r18_9 = r44; goto arm_8; }
    switch (r3_5) {
    case 0u: r2_7 = 31u; goto dcc_packet_functions_max;
    case 1u: case 2u: goto arm_28;
    case 3u: case 4u: case 5u: case 6u: case 7u: case 8u: case 9u: r31 = 3u; r31_2 = r3_5; r31_3 = r44; r31_4 = 0u; r31_5 = 0u; r31_6 = 0u; goto dcc_packet_instruction_forms_instruction;
    default: goto default_2;
    }
arm_28:;
    r2_7 = 15u;
    goto dcc_packet_functions_max;
default_2:;
    DCC_UNREACHABLE();
dcc_packet_functions_max:;
    if (r2_7 < r44) { r18_9 = 8u; goto arm_8; }
    r31 = 3u;
    r31_2 = r3_5;
    r31_3 = r44;
    r31_4 = 0u;
    r31_5 = 0u;
    r31_6 = 0u;
    goto dcc_packet_instruction_forms_instruction;
dcc_packet_words_is_word_4:;
    r24_7 = core_slice_reads_slice_T_starts_with__i8_31_core_cmp_numbers_U8(r4_13, UINT64_C(5), ((unsigned char *)constant_daef56db), UINT64_C(5));
    if (!(r24_7)) { r18_9 = 9u; goto arm_8; }
    r4_21 = dcc_packet_fields_U8Field_take(r7);
    r5_7 = r4_21.f0;
    r6_5 = r4_21.f1;
    trunc_3 = r5_7;
    r4_22 = (r6_5 ^ 128u) < (0u ^ 128u);
    it_9 = trunc_3 ? 1u : r4_22;
    if (it_9) goto arm_29;
    r37_2 = dcc_packet_fields_SwitchField_take(r7);
    r45_2 = r37_2.f0;
    r46 = r37_2.f1;
    if (r45_2 == 0u) goto arm_30;
    r18_9 = r46;
    goto arm_8;
arm_29:;
    it_10 = r4_22 ? 13u : r6_5;
    it_11 = trunc_3 ? r6_5 : it_10;
    r18_9 = it_11;
    goto arm_8;
arm_30:;
    r273 = r46 & 1u;
    r31 = 4u;
    r31_2 = r6_5;
    r31_3 = r273;
    r31_4 = 0u;
    r31_5 = 0u;
    r31_6 = 0u;
    goto dcc_packet_instruction_forms_instruction;
then_6:;
    r4_23 = *r4_13;
    r7_7 = r4_23 == 99u;
    r4_24 = *(r4_13 + 1);
    r7_8 = r4_24 == 118u;
    r17 = r7_7 & r7_8;
    if (!(r17)) { r18_9 = 9u; goto arm_8; }
    memset(DCC_ALIGNED(r2_8), 0u, 24);
    dcc_packet_words_Words_next(r2_8, r7);
    r7_9 = *r2_8;
    if (!(r7_9 == 1u)) goto arm_31;
    r4_25 = dcc_load_ptr((r2_8 + 8));
    r4_26 = dcc_load_64_aligned((r2_8 + 16));
    switch (r4_26) {
    case UINT64_C(5): goto dcc_packet_words_is_word_5;
    case UINT64_C(6): goto then_8;
    case UINT64_C(8): goto then_9;
    case UINT64_C(9): goto core_slice_reads_slice_T_starts_with__i8_31_core_cmp_numbers__3;
    default: r12_4 = 9u; goto arm_32;
    }
dcc_packet_words_is_word_5:;
    r24_8 = core_slice_reads_slice_T_starts_with__i8_31_core_cmp_numbers_U8(r4_25, UINT64_C(5), ((unsigned char *)constant_8de69593), UINT64_C(5));
    if (!(r24_8)) { r12_4 = 9u; goto arm_32; }
    dcc_packet_field_Tuple2Field_take(r28_3, r7);
    r1_5 = *r28_3;
    if (!(r1_5 == 0u)) goto arm_33;
    r1_6 = dcc_load_32((r28_3 + 2));
    r12_5 = 5u;
    r12_6 = r1_6;
    r12_7 = 0u;
    goto arm_34;
arm_33:;
    r1_7 = *(r28_3 + 1);
    r12_4 = r1_7;
    goto arm_32;
then_8:;
    r24_9 = core_slice_reads_slice_T_starts_with__i8_31_core_cmp_numbers_U8(r4_25, UINT64_C(6), ((unsigned char *)constant_34c0f21c), UINT64_C(6));
    if (!(r24_9)) { r12_4 = 9u; goto arm_32; }
    dcc_packet_field_Tuple2Field_take(r39, r7);
    r1_8 = *r39;
    if (!(r1_8 == 0u)) goto arm_35;
    r1_9 = dcc_load_32((r39 + 2));
    r12_5 = 6u;
    r12_6 = r1_9;
    r12_7 = 0u;
    goto arm_34;
arm_35:;
    r1_10 = *(r39 + 1);
    r12_4 = r1_10;
    goto arm_32;
then_9:;
    r24_10 = core_slice_reads_slice_T_starts_with__i8_31_core_cmp_numbers_U8(r4_25, UINT64_C(8), ((unsigned char *)constant_2f0e2531), UINT64_C(8));
    if (!(r24_10)) { r12_4 = 9u; goto arm_32; }
    dcc_packet_field_Tuple2Field_take_2(r50, r7);
    r1_11 = *r50;
    if (!(r1_11 == 0u)) goto arm_36;
    r1_12 = dcc_load_32((r50 + 2));
    v22 = r1_12 >> UINT32_C(24);
    v23 = (uint8_t)v22;
    r182 = v23 & 1u;
    r12_5 = 7u;
    r12_6 = r1_12;
    r12_7 = r182;
    goto arm_34;
arm_36:;
    r1_13 = *(r50 + 1);
    r12_4 = r1_13;
    goto arm_32;
core_slice_reads_slice_T_starts_with__i8_31_core_cmp_numbers__3:;
    dcc_store_ptr(r9_2, ((unsigned char *)constant_802c3e52));
    dcc_store_64_aligned((r9_2 + 8), UINT64_C(9));
    dcc_store_ptr((r9_2 + 16), r4_25);
    dcc_store_64_aligned((r9_2 + 24), UINT64_C(9));
    r51_2 = core_slice_scan_any_in_quarters(r9_2, UINT64_C(9), UINT64_C(8));
    if (r51_2) { r12_4 = 9u; goto arm_32; }
    dcc_packet_field_Tuple2Field_take_2(r61_2, r7);
    r1_14 = *r61_2;
    if (!(r1_14 == 0u)) goto arm_37;
    r1_15 = dcc_load_32((r61_2 + 2));
    v25 = r1_15 >> UINT32_C(24);
    v26 = (uint8_t)v25;
    r226 = v26 & 1u;
    r12_5 = 8u;
    r12_6 = r1_15;
    r12_7 = r226;
    goto arm_34;
arm_37:;
    r1_16 = *(r61_2 + 1);
    r12_4 = r1_16;
    goto arm_32;
arm_31:;
    r18_9 = 9u;
    goto arm_8;
arm_32:;
    r18_9 = r12_4;
    goto arm_8;
arm_34:;
    r12_8 = r12_6 >> UINT32_C(16);
    r12_9 = (uint8_t)(r12_8);
    r92 = (uint8_t)(r12_6);
    v27 = r12_6 >> UINT32_C(8);
    r92_2 = (uint8_t)(v27);
    r31 = r12_5;
    r31_2 = 0u;
    r31_3 = r92;
    r31_4 = r92_2;
    r31_5 = r12_9;
    r31_6 = r12_7;
dcc_packet_instruction_forms_instruction:;
    r31_7 = r31_3;
    r31_8 = (uint16_t)((1u * r31_7) << 8u);
    r31_9 = r31_2;
    r31_10 = r31_8 | r31_9;
    r14 = r31_4;
    r14_2 = r31_10;
    r14_3 = r31;
    r14_4 = r31_5;
    r14_5 = r31_6;
    goto arm_14;
arm_13:;
    r18_9 = 9u;
    goto arm_8;
arm_14:;
    r14_6 = r14;
    r14_7 = (uint32_t)(((1u * r14_6) << UINT32_C(16)) & UINT32_C(16777215));
    r14_8 = r14_2;
    r14_9 = r14_7 | r14_8;
    r32_2 = r12_2;
    r32_3 = (uint16_t)((1u * r32_2) << 8u);
    r32_4 = r32_3 | r12;
    r26 = r12_3 >> 8u;
    r37_3 = r32;
    r26_2 = r14_9;
    r26_3 = r14_4;
    r26_4 = r14_5;
    r26_5 = 1u;
    r26_6 = r32_4;
    r26_7 = r12_3;
    r26_8 = r26;
    r26_9 = r14_3;
    goto dcc_packet_packet_forms_packet_2;
core_slice_reads_slice_T_starts_with__i8_31_core_cmp_numbers_U8:;
    dcc_store_ptr(r9_3, ((unsigned char *)constant_04bd89e6));
    dcc_store_64_aligned((r9_3 + 8), UINT64_C(9));
    dcc_store_ptr((r9_3 + 16), r4_2);
    dcc_store_64_aligned((r9_3 + 24), UINT64_C(9));
    r51_3 = core_slice_scan_any_in_quarters(r9_3, UINT64_C(9), UINT64_C(8));
    if (r51_3) { r18_9 = 9u; goto arm_8; }
    dcc_store_32_aligned(r1_17, UINT32_C(0));
    dcc_packet_fields_U16Field_take(r1_17, r7);
    r1_18 = *r1_17;
    r1_19 = *(r1_17 + 1);
    r1_20 = dcc_load_16_aligned((r1_17 + 2));
    v28 = r1_18 == 0u;
    r4_27 = r1_20 < 512u;
    it_12 = v28 ? r4_27 : 0u;
    if (!(it_12)) goto arm_38;
    r4_28 = dcc_packet_fields_U8Field_take(r7);
    r5_8 = r4_28.f0;
    r6_6 = r4_28.f1;
    trunc_4 = r5_8;
    r4_29 = r6_6 > 7u;
    narrow_2 = trunc_4 ? 1u : r4_29;
    if (narrow_2) goto arm_39;
    r37_4 = dcc_packet_fields_SwitchField_take(r7);
    r45_3 = r37_4.f0;
    r46_2 = r37_4.f1;
    if (r45_3 == 0u) goto arm_40;
    r18_9 = r46_2;
    goto arm_8;
arm_39:;
    it_13 = r4_29 ? 3u : r6_6;
    it_14 = trunc_4 ? r6_6 : it_13;
    r18_9 = it_14;
    goto arm_8;
arm_38:;
    it_15 = r4_27 ? 0u : 2u;
    r8_2 = v28 ? it_15 : r1_19;
    r18_9 = r8_2;
    goto arm_8;
arm_40:;
    r17_2 = r6_6;
    v30 = r46_2 & 1u;
    r186 = v30;
    memset(r37, 0u, 12);
    r37_3 = r37;
    r26_2 = UINT32_C(0);
    r26_3 = 0u;
    r26_4 = 0u;
    r26_5 = 2u;
    r26_6 = r1_20;
    r26_7 = r17_2;
    r26_8 = r186;
    r26_9 = 0u;
    goto dcc_packet_packet_forms_packet_2;
then_2:;
    r24_11 = core_slice_reads_slice_T_starts_with__i8_31_core_cmp_numbers_U8(r4_2, UINT64_C(6), ((unsigned char *)constant_59382055), UINT64_C(6));
    if (!(r24_11)) { r18_9 = 9u; goto arm_8; }
    dcc_store_32_aligned(r1_21, UINT32_C(0));
    dcc_packet_fields_U16Field_take(r1_21, r7);
    r1_22 = *r1_21;
    r1_23 = *(r1_21 + 1);
    r1_24 = dcc_load_16_aligned((r1_21 + 2));
    v31 = r1_22 == 0u;
    r4_30 = r1_24 < 2048u;
    it_16 = v31 ? r4_30 : 0u;
    if (!(it_16)) goto arm_41;
    r28_4 = dcc_packet_fields_U8Field_take(r7);
    r36_2 = r28_4.f0;
    r37_5 = r28_4.f1;
    if (r36_2 == 0u) goto dcc_packet_packet_forms_packet_3;
    r18_9 = r37_5;
    goto arm_8;
arm_41:;
    it_17 = r4_30 ? 0u : 4u;
    r8_3 = v31 ? it_17 : r1_23;
    r18_9 = r8_3;
    goto arm_8;
dcc_packet_packet_forms_packet_3:;
    r49 = r37_5;
    memset(DCC_ALIGNED(r19), 0u, 12);
    r19_2 = 3u;
    r20 = 0u;
    r20_2 = r49;
    r20_3 = r1_24;
    r20_4 = 0u;
    r20_5 = 0u;
    r20_6 = UINT32_C(0);
    goto arm_9;
dcc_packet_packet_forms_packet_2:;
    r26_10 = (uint16_t)((1u * r26_8) << 8u);
    r26_11 = r26_7 & 255u;
    r26_12 = r26_10 | r26_11;
    memcpy(DCC_ALIGNED(r19), r37_3, 12);
    r19_2 = r26_5;
    r20 = r26_9;
    r20_2 = r26_12;
    r20_3 = r26_6;
    r20_4 = r26_4;
    r20_5 = r26_3;
    r20_6 = r26_2;
    goto arm_9;
dcc_packet_packet_forms_packet:;
    r18_9 = 9u;
    goto arm_8;
arm_9:;
    memset(DCC_ALIGNED(r1_25), 0u, 24);
    dcc_packet_words_Words_next(r1_25, r7);
    r6_7 = *r1_25;
    if (r6_7 == 0u) { r16_3 = r19; r16_4 = r20; r16_5 = r20_2; r16_6 = r20_3; r16_7 = r19_2; r16_8 = r20_4; r16_9 = r20_5; r16_10 = r20_6; goto arm_42; }
    goto arm_43;
arm_8:;
    r5_3 = r18_9;
    goto arm_2;
arm_43:;
    v34 = r6_7 == 1u;
    it_18 = v34 ? 9u : 0u;
    r5_3 = it_18;
    goto arm_2;
dcc_packet_packet_Packet_from_line_bytes:;
    r5_3 = r16_2;
    goto arm_2;
dcc_packet_packet_Packet_from_line_bytes_2:;
    dcc_packet_packet_Packet_read(r13, r1_2);
    r66_3 = *r13;
    v35 = dcc_load_16_aligned((r13 + 2));
    v36 = dcc_load_16_aligned((r13 + 4));
    v37 = *(r13 + 6);
    r16_11 = dcc_load_24((r13 + 7));
    r16_12 = *(r13 + 10);
    r16_13 = *(r13 + 11);
    memcpy(r16, DCC_ALIGNED((r13 + 12)), 12);
    r16_3 = r16;
    r16_4 = v37;
    r16_5 = v36;
    r16_6 = v35;
    r16_7 = r66_3;
    r16_8 = r16_13;
    r16_9 = r16_12;
    r16_10 = r16_11;
arm_42:;
    memcpy(DCC_ALIGNED(r5_2), r16_3, 12);
    memcpy(DCC_ALIGNED(r5), DCC_ALIGNED(r5_2), 12);
    r19_5 = r16_7;
    dcc_store_16_aligned(r3_2, r19_5);
    dcc_store_16_aligned((r3_2 + 2), r16_6);
    dcc_store_16_aligned((r3_2 + 4), r16_5);
    *(r3_2 + 6) = r16_4;
    dcc_store_24((r3_2 + 7), r16_10);
    *(r3_2 + 10) = r16_9;
    *(r3_2 + 11) = r16_8;
    memcpy(DCC_ALIGNED((r3_2 + 12)), DCC_ALIGNED(r5), 12);
    dcc_packet_packet_Packet_frame(r8, r3_2);
    r10 = dcc_load_64_aligned(r8);
    r10_2 = dcc_load_64_aligned((r8 + 8));
    r12_10 = (uint8_t)(r10_2);
    r10_3 = (uint64_t)((r10) & UINT64_C(281474976710655));
    *a2 = r12_10;
    dcc_store_48((a2 + 1), r10_3);
    r6_8 = 0u;
    goto dcc_c_line_dcc_frame_of_line;
arm_2:;
    switch_2 = (uint8_t)(r5_3 + 1u);
    r6_8 = switch_2;
dcc_c_line_dcc_frame_of_line:;
    return r6_8;
}

/* dcc_board_hears */
uint8_t dcc_board_hears(const dcc_board *board, const uint8_t *frame, uint64_t len, bool *heard) {
    unsigned char *a0 = (unsigned char *)board;
    unsigned char *a1 = (unsigned char *)frame;
    uint64_t a2 = len;
    unsigned char *a3 = (unsigned char *)heard;
    uint16_t r49, it_7, r6_6, r6_7, r8_3, r4_5, r1_2, r43, r1_3, r49_2, r1_4, v3, v5, r67, r1_5, r75, r3_2, r3_3,
        r8_10, r8_12, r8_13, r8_14, r8_15, r134;
    uint64_t r4_2, r3, v0, r23, r10;
    uint8_t r6, it, it_2, r51, it_3, it_5, it_6, it_8, r6_4, r6_5, r6_8, r8, r8_2, r8_4, r8_5, r8_6, r8_7, r8_8,
        r6_9, r7, r1, r2, r4_4, r41, r46, r84, r35, r37, r39, r44, r51_2, v1, it_4, r96, r120, v2, r122, r51_3, r55,
        v4, r68, r70, r11, r4_6, r4_7, r4_8, r8_9, r8_11, r26, v8;
    unsigned char *r4_3, *r4;
    uint64_t place_0[3];
    unsigned char *const r4_9 = (unsigned char *)place_0;
    uint16_t place_1[6];
    unsigned char *const r5 = (unsigned char *)place_1;
    uint32_t place_2[3];
    unsigned char *const r6_3 = (unsigned char *)place_2;
    uint64_t place_3[1];
    unsigned char *const r7_2 = (unsigned char *)place_3;
    uint8_t place_4[3];
    unsigned char *const r6_2 = (unsigned char *)place_4;
    r1 = a1 == (unsigned char *)0;
    r3 = r1 ? UINT64_C(4096) : UINT64_C(0);
    r4 = a1 + (ptrdiff_t)r3;
    v0 = (uint64_t)(a2 + UINT64_C(18446744073709551609));
    if (v0 < UINT64_C(18446744073709551612)) { r7 = 1u; goto dcc_c_board_dcc_board_hears; }
    r6 = 0u;
    r4_2 = a2;
    r4_3 = r4;
arm:;
    r23 = (uint64_t)(r4_2 + UINT64_C(18446744073709551615));
    r2 = *r4_3;
    r4_4 = r2 ^ r6;
    if (!(r23 == UINT64_C(0))) { r6 = r4_4; r4_2 = r23; r4_3 = (r4_3 + 1); goto arm; }
    if (!(r2 == r6)) { r7 = 2u; goto dcc_c_board_dcc_board_hears; }
    r4_5 = dcc_load_16_aligned(a0);
    if (!(r4_5 < 512u)) { r7 = 13u; goto dcc_c_board_dcc_board_hears; }
    dcc_store_64_aligned(r7_2, UINT64_C(1));
    r10 = (uint64_t)(a2 + UINT64_C(18446744073709551615));
    if (!(r10 == UINT64_C(2))) goto join;
    r41 = *r4;
    if (!(r41 == 255u)) goto default_2;
    r46 = *(r4 + 1);
    if (!(r46 == 0u)) goto after;
    memset(r6_2, 0u, 3);
    memset(DCC_ALIGNED(r6_3), 0u, 12);
    r8 = 1u;
    r8_2 = 0u;
    r8_3 = 0u;
    r8_4 = 0u;
    r8_5 = 0u;
    r8_6 = 0u;
    r8_7 = 0u;
    r8_8 = 0u;
    goto dcc_packet_packet_Packet_of_row;
default_2:;
    if (!((r41 ^ 128u) < (192u ^ 128u))) goto after;
    r84 = *(r4 + 1);
    if ((r84 ^ 128u) > (255u ^ 128u)) { it = 0u; it_2 = 0u; r49 = 0u; r51 = 0u; it_3 = 0u; goto dcc_packet_from_frame_accessory_row; }
    r35 = r84 >> 4u;
    r37 = r35 & 7u;
    r39 = r37 ^ 7u;
    r1_2 = r39;
    r43 = (uint16_t)((1u * r1_2) << 6u);
    r44 = r41 & 63u;
    r1_3 = r44;
    r49_2 = r43 | r1_3;
    r51_2 = r84 & 7u;
    v1 = r84 >> 3u;
    it_4 = v1 & 1u;
    it = 1u;
    it_2 = 2u;
    r49 = r49_2;
    r51 = r51_2;
    it_3 = it_4;
dcc_packet_from_frame_accessory_row:;
    memset(r6_2, 0u, 3);
    memset(DCC_ALIGNED(r6_3), 0u, 12);
    r8 = it;
    r8_2 = it_2;
    r8_3 = r49;
    r8_4 = r51;
    r8_5 = it_3;
    r8_6 = 0u;
    r8_7 = 0u;
    r8_8 = 0u;
    goto dcc_packet_packet_Packet_of_row;
join:;
    if (!(a2 < UINT64_C(5))) goto after;
    r96 = *r4;
    if (!((r96 ^ 128u) < (192u ^ 128u))) goto after;
    r120 = *(r4 + 1);
    v2 = r120 & 137u;
    if (!(v2 == 1u)) { it_5 = 0u; it_6 = 0u; it_7 = 0u; it_8 = 0u; goto dcc_packet_from_frame_signal_row; }
    r122 = *(r4 + 2);
    r51_3 = r120 >> 4u;
    r55 = r51_3 ^ 7u;
    r1_4 = r55;
    v3 = (uint16_t)((1u * r1_4) << 8u);
    v4 = (uint8_t)((1u * r96) << 2u);
    v5 = v4;
    r67 = v3 | v5;
    r68 = r120 >> 1u;
    r70 = r68 & 3u;
    r1_5 = r70;
    r75 = r67 | r1_5;
    it_5 = 1u;
    it_6 = 3u;
    it_7 = r75;
    it_8 = r122;
dcc_packet_from_frame_signal_row:;
    memset(r6_2, 0u, 3);
    memset(DCC_ALIGNED(r6_3), 0u, 12);
    r8 = it_5;
    r8_2 = it_6;
    r8_3 = it_7;
    r8_4 = it_8;
    r8_5 = 0u;
    r8_6 = 0u;
    r8_7 = 0u;
    r8_8 = 0u;
    goto dcc_packet_packet_Packet_of_row;
after:;
    memset(r5, 0u, 12);
    memset(r6_2, 0u, 3);
    memset(DCC_ALIGNED(r6_3), 0u, 12);
    dcc_packet_from_frame_read_loco(r5, r4, r10);
    r11 = *r5;
    if (!(r11 == 1u)) { r6_4 = 0u; r6_5 = 0u; r6_6 = 0u; r6_7 = 0u; r6_8 = 0u; goto dcc_packet_from_frame_loco_row; }
    r3_2 = dcc_load_16_aligned((r5 + 2));
    r3_3 = dcc_load_16_aligned((r5 + 4));
    r4_6 = *(r5 + 6);
    r4_7 = *(r5 + 10);
    r4_8 = *(r5 + 11);
    memcpy(r6_2, (r5 + 7), 3);
    memset(DCC_ALIGNED(r6_3), 0u, 12);
    r6_4 = r4_7;
    r6_5 = r4_8;
    r6_6 = r3_2;
    r6_7 = r3_3;
    r6_8 = r4_6;
dcc_packet_from_frame_loco_row:;
    r8_9 = (uint8_t)(r6_7);
    r8_10 = r6_7 >> 8u;
    r8_11 = (uint8_t)r8_10;
    r8 = r11;
    r8_2 = r11;
    r8_3 = r6_6;
    r8_4 = r8_9;
    r8_5 = r8_11;
    r8_6 = r6_8;
    r8_7 = r6_4;
    r8_8 = r6_5;
dcc_packet_packet_Packet_of_row:;
    if (!(r8 == 1u)) { r6_9 = 0u; goto dcc_c_board_hears_frame; }
    r8_12 = r8_5;
    r8_13 = (uint16_t)((1u * r8_12) << 8u);
    r8_14 = r8_4;
    r8_15 = r8_13 | r8_14;
    r134 = r8_2;
    dcc_store_16_aligned(r4_9, r134);
    dcc_store_16_aligned((r4_9 + 2), r8_3);
    dcc_store_16_aligned((r4_9 + 4), r8_15);
    *(r4_9 + 6) = r8_6;
    memcpy((r4_9 + 7), r6_2, 3);
    *(r4_9 + 10) = r8_7;
    *(r4_9 + 11) = r8_8;
    memcpy(DCC_ALIGNED((r4_9 + 12)), DCC_ALIGNED(r6_3), 12);
    dcc_store_16_aligned((r7_2 + 2), r4_5);
    r26 = dcc_regs_heard_hears(r7_2, r4_9);
    v8 = r26;
    r6_9 = v8;
dcc_c_board_hears_frame:;
    *a3 = r6_9;
    r7 = 0u;
dcc_c_board_dcc_board_hears:;
    return r7;
}

/* dcc_service_frame */
uint8_t dcc_service_frame(const dcc_service_packet *packet, dcc_frame *frame) {
    unsigned char *a0 = (unsigned char *)packet;
    unsigned char *a1 = (unsigned char *)frame;
    uint16_t r8, r14, v0, r19, v1, it, r10;
    uint8_t it_2, r11, r4, r6, r16, r21, v2, v3, r13, r21_2, spec, r45, r60, r12, r14_2, r11_2, r29, r32;
    r6 = *(a0 + 2);
    if (r6 < 6u) { r4 = 10u; goto dcc_c_service_packet_dcc_service_frame; }
    if (!(r6 < 8u)) goto join;
    r14 = dcc_load_16_aligned(a0);
    v0 = (uint16_t)(r14 + 64511u);
    if (v0 < 64512u) { r4 = 6u; goto dcc_c_service_packet_dcc_service_frame; }
    goto arm;
join:;
    if (!(r6 < 10u)) { r4 = 10u; goto dcc_c_service_packet_dcc_service_frame; }
    r16 = *(a0 + 5);
    r19 = dcc_load_16_aligned(a0);
    v1 = (uint16_t)(r19 + 65535u);
    if (!(v1 < 1024u)) { r4 = 6u; goto dcc_c_service_packet_dcc_service_frame; }
    r21 = *(a0 + 4);
    if (!(r21 < 8u)) { r4 = 7u; goto dcc_c_service_packet_dcc_service_frame; }
    v2 = (uint8_t)((1u * r16) << 3u);
    v3 = r21 | v2;
    if (r6 == 8u) goto arm_2;
    goto arm_3;
arm:;
    r13 = *(a0 + 3);
    r21_2 = r6 == 6u;
    spec = r21_2 ? 124u : 116u;
    it = (uint16_t)(r14 + 65535u);
    r8 = it;
    it_2 = spec;
    r11 = r13;
    goto dcc_service_packet_ServicePacket_bytes;
arm_2:;
    r45 = v3 | 240u;
    r8 = v1;
    it_2 = 120u;
    r11 = r45;
    goto dcc_service_packet_ServicePacket_bytes;
arm_3:;
    r60 = v3 | 224u;
    r8 = v1;
    it_2 = 120u;
    r11 = r60;
dcc_service_packet_ServicePacket_bytes:;
    r10 = r8 >> 8u;
    r12 = (uint8_t)r10;
    r14_2 = (uint8_t)(it_2 + r12);
    r11_2 = (uint8_t)(r8);
    r29 = r11 ^ r11_2;
    r32 = r29 ^ r14_2;
    *a1 = 4u;
    *(a1 + 1) = r14_2;
    *(a1 + 2) = r11_2;
    *(a1 + 3) = r11;
    *(a1 + 4) = r32;
    *(a1 + 5) = 0u;
    *(a1 + 6) = 0u;
    r4 = 0u;
dcc_c_service_packet_dcc_service_frame:;
    return r4;
}

/* dcc_small_service_cv */
uint8_t dcc_small_service_cv(const dcc_small_service *service, const uint8_t *frame, uint64_t len, uint16_t *cv) {
    unsigned char *a0 = (unsigned char *)service;
    unsigned char *a1 = (unsigned char *)frame;
    uint64_t a2 = len;
    unsigned char *a3 = (unsigned char *)cv;
    uint16_t v3, spec;
    uint64_t r3;
    uint8_t r7, r1, r20, r22, r10, v2, r42;
    unsigned char *r4;
    uint64_t place_0[3];
    unsigned char *const r6 = (unsigned char *)place_0;
    uint16_t place_1[6];
    unsigned char *const r8 = (unsigned char *)place_1;
    uint16_t place_2[5];
    unsigned char *const r1_2 = (unsigned char *)place_2;
    uint64_t place_3[1];
    unsigned char *const r4_2 = (unsigned char *)place_3;
    r1 = a1 == (unsigned char *)0;
    r3 = r1 ? UINT64_C(4096) : UINT64_C(0);
    r4 = a1 + (ptrdiff_t)r3;
    memset(DCC_ALIGNED(r6), 0u, 24);
    dcc_c_frame_frame_of(r6, r4, a2);
    r20 = *r6;
    if (!(r20 == 0u)) goto arm;
    dcc_c_service_progress_of(r8, a0);
    r22 = *r8;
    if (!(r22 == 1u)) { r7 = 13u; goto dcc_c_small_service_dcc_small_service_cv; }
    dcc_store_64_aligned(r4_2, UINT64_C(0));
    memcpy(r1_2, (r8 + 2), 10);
    dcc_service_progress_ServiceProgress_due(r4_2, r1_2, (r6 + 8));
    r10 = *r4_2;
    v2 = r10 == 1u;
    v3 = dcc_load_16_aligned((r4_2 + 4));
    spec = v2 ? v3 : 0u;
    dcc_store_16_aligned(a3, spec);
    r7 = 0u;
    goto dcc_c_small_service_dcc_small_service_cv;
arm:;
    r42 = *(r6 + 1);
    r7 = r42;
dcc_c_small_service_dcc_small_service_cv:;
    return r7;
}

/* dcc_service_apply */
uint8_t dcc_service_apply(dcc_service *service, const uint8_t *frame, uint64_t len, bool *acknowledged) {
    unsigned char *a0 = (unsigned char *)service;
    unsigned char *a1 = (unsigned char *)frame;
    uint64_t a2 = len;
    unsigned char *a3 = (unsigned char *)acknowledged;
    uint16_t v3, v6, v9;
    uint64_t r3, r1_2, r1_3, r1_4, r1_5;
    uint8_t r4_3, r7, r1, r22, r25, r8_2, r10, v4, v5, r20, r51, r62, r8_3, r20_2, r13, r15, r17, r4_4, r20_3, v12,
        v13, r88, v14, r94, r32, v15, v16, it;
    unsigned char *r4, *v7, *v8, *v10, *v11;
    uint64_t place_0[3];
    unsigned char *const r6 = (unsigned char *)place_0;
    uint16_t place_1[6];
    unsigned char *const r8 = (unsigned char *)place_1;
    uint16_t place_2[5];
    unsigned char *const r4_2 = (unsigned char *)place_2;
    uint64_t place_3[1];
    unsigned char *const r2 = (unsigned char *)place_3;
    r1 = a1 == (unsigned char *)0;
    r3 = r1 ? UINT64_C(4096) : UINT64_C(0);
    r4 = a1 + (ptrdiff_t)r3;
    memset(DCC_ALIGNED(r6), 0u, 24);
    dcc_wire_frame_Frame_of(r6, r4, a2);
    r22 = *r6;
    if (!(r22 == 0u)) goto arm;
    dcc_c_service_progress_of(r8, a0);
    r25 = *r8;
    if (!(r25 == 1u)) { r7 = 13u; goto dcc_c_service_dcc_service_apply; }
    memcpy(r4_2, (r8 + 2), 10);
    dcc_store_64_aligned(r2, UINT64_C(0));
    dcc_service_progress_ServiceProgress_due(r2, r4_2, (r6 + 8));
    r8_2 = *r2;
    if (!(r8_2 == 1u)) { r4_3 = 0u; goto dcc_service_progress_ServiceProgress_apply; }
    r10 = *(r2 + 2);
    v3 = dcc_load_16_aligned((r2 + 4));
    v4 = *(r2 + 6);
    v5 = *(r2 + 7);
    switch (r10) {
    case 0u: goto arm_2;
    case 1u: goto arm_3;
    case 2u: goto arm_4;
    case 3u: goto arm_5;
    default: goto noarm;
    }
arm_2:;
    v6 = (uint16_t)(v3 + 65527u);
    if (!(v6 < 65534u)) { r4_3 = 0u; goto dcc_service_progress_ServiceProgress_apply; }
    r1_2 = v3;
    v7 = (a0 + 8) + (ptrdiff_t)r1_2;
    *(v7 - 1) = v4;
    r4_3 = 1u;
    goto dcc_service_progress_ServiceProgress_apply;
arm_3:;
    r1_3 = v3;
    v8 = (a0 + 8) + (ptrdiff_t)r1_3;
    r20 = *(v8 - 1);
    r51 = r20 == v4;
    r4_3 = r51;
    goto dcc_service_progress_ServiceProgress_apply;
arm_4:;
    v9 = (uint16_t)(v3 + 65527u);
    if (!(v9 < 65534u)) { r4_3 = 0u; goto dcc_service_progress_ServiceProgress_apply; }
    r62 = v5;
    r8_3 = (uint8_t)((1u * 1u) << (v4 & 7u));
    r1_4 = v3;
    v10 = (a0 + 8) + (ptrdiff_t)r1_4;
    r20_2 = *(v10 - 1);
    r13 = r20_2 | r8_3;
    r15 = r8_3 ^ 255u;
    r17 = r20_2 & r15;
    r4_4 = r62 ? r13 : r17;
    *(v10 - 1) = r4_4;
    r4_3 = 1u;
    goto dcc_service_progress_ServiceProgress_apply;
arm_5:;
    r1_5 = v3;
    v11 = (a0 + 8) + (ptrdiff_t)r1_5;
    r20_3 = *(v11 - 1);
    v12 = (uint8_t)((1u * 1u) << (v4 & 7u));
    v13 = r20_3 & v12;
    r88 = v5;
    v14 = v13 == 0u;
    r94 = v14 ^ r88;
    r4_3 = r94;
    goto dcc_service_progress_ServiceProgress_apply;
noarm:;
    DCC_UNREACHABLE();
dcc_service_progress_ServiceProgress_apply:;
    r32 = r4_3;
    *a3 = r32;
    dcc_c_service_put(a0, r4_2);
    r7 = 0u;
    goto dcc_c_service_dcc_service_apply;
arm:;
    v15 = *(r6 + 1);
    v16 = v15 == 0u;
    it = v16 ? 1u : 2u;
    r7 = it;
dcc_c_service_dcc_service_apply:;
    return r7;
}

/* dcc_small_service_apply */
uint8_t dcc_small_service_apply(dcc_small_service *service, const uint8_t *frame, uint64_t len, uint8_t *value,
    bool *changed, bool *acknowledged) {
    unsigned char *a0 = (unsigned char *)service;
    unsigned char *a1 = (unsigned char *)frame;
    uint64_t a2 = len;
    unsigned char *a3 = (unsigned char *)value;
    unsigned char *a4 = (unsigned char *)changed;
    unsigned char *a5 = (unsigned char *)acknowledged;
    uint64_t r3;
    uint8_t r8, r1, r20, r24, r27, r32, r33, r37, r40, r41, r51;
    unsigned char *r4;
    uint64_t place_0[3];
    unsigned char *const r7 = (unsigned char *)place_0;
    uint16_t place_1[6];
    unsigned char *const r9 = (unsigned char *)place_1;
    uint16_t place_2[5];
    unsigned char *const r5 = (unsigned char *)place_2;
    r1 = a1 == (unsigned char *)0;
    r3 = r1 ? UINT64_C(4096) : UINT64_C(0);
    r4 = a1 + (ptrdiff_t)r3;
    memset(DCC_ALIGNED(r7), 0u, 24);
    r20 = *a3;
    dcc_c_frame_frame_of(r7, r4, a2);
    r24 = *r7;
    if (!(r24 == 0u)) goto arm;
    dcc_c_service_progress_of(r9, a0);
    r27 = *r9;
    if (!(r27 == 1u)) { r8 = 13u; goto dcc_c_small_service_dcc_small_service_apply; }
    memcpy(r5, (r9 + 2), 10);
    r32 = dcc_service_progress_ServiceProgress_apply_with_value(r5, a3, (r7 + 8));
    r33 = r32;
    *a5 = r33;
    r37 = *a3;
    r40 = r37 != r20;
    r41 = r40;
    *a4 = r41;
    dcc_c_service_put(a0, r5);
    r8 = 0u;
    goto dcc_c_small_service_dcc_small_service_apply;
arm:;
    r51 = *(r7 + 1);
    r8 = r51;
dcc_c_small_service_dcc_small_service_apply:;
    return r8;
}

/* dcc_board_decoder_end_service */
void dcc_board_decoder_end_service(dcc_board_decoder *decoder) {
    unsigned char *a0 = (unsigned char *)decoder;
    dcc_c_track_part_TrackPart_end_service((a0 + 1036), a0);
    return;
}

/* dcc_decoder_end_service */
void dcc_decoder_end_service(dcc_decoder *decoder) {
    unsigned char *a0 = (unsigned char *)decoder;
    dcc_c_track_part_TrackPart_end_service_2((a0 + 1072), a0);
    return;
}

/* dcc_board_decoder_hear */
uint8_t dcc_board_decoder_hear(dcc_board_decoder *decoder, const uint8_t *frame, uint64_t len, dcc_answer *answer) {
    unsigned char *a0 = (unsigned char *)decoder;
    unsigned char *a1 = (unsigned char *)frame;
    uint64_t a2 = len;
    unsigned char *a3 = (unsigned char *)answer;
    struct dcc_8_16 r11, r50, r113;
    uint16_t r0, r6_5, r115_2, r115, r13, r13_2, v4, r52, r1_6, r25, r1_7, r36, r115_3, spec;
    uint64_t r1_5, r3, r1_4, r4_4, r17_3;
    uint8_t r0_2, r6_3, r6_4, r116_2, r6_2, r116, r6_7, r1, r14, r6, r15, r16, r12, r19, r22, v2, r10, r20, r17,
        r19_2, r28, r3_4, r51, r69, r70, r74, v7, r103, r19_3, r21, r29, r31, r114, r6_6, v8, r25_2;
    unsigned char *r4, *v5, *r17_2, *r16_2;
    uint64_t place_0[3];
    unsigned char *const r5 = (unsigned char *)place_0;
    uint64_t place_1[2];
    unsigned char *const r3_2 = (unsigned char *)place_1;
    uint16_t place_2[6];
    unsigned char *const r2 = (unsigned char *)place_2;
    unsigned char *const r1_3 = (unsigned char *)place_2;
    unsigned char *const r3_3 = (unsigned char *)place_2;
    uint16_t place_3[5];
    unsigned char *const r1_2 = (unsigned char *)place_3;
    uint16_t place_4[5];
    unsigned char *const r4_2 = (unsigned char *)place_4;
    uint64_t place_5[1];
    unsigned char *const r4_3 = (unsigned char *)place_5;
    uint8_t place_6[1];
    unsigned char *const r11_2 = (unsigned char *)place_6;
    r1 = a1 == (unsigned char *)0;
    r3 = r1 ? UINT64_C(4096) : UINT64_C(0);
    r4 = a1 + (ptrdiff_t)r3;
    memset(DCC_ALIGNED(r5), 0u, 24);
    dcc_c_frame_frame_of(r5, r4, a2);
    r14 = *r5;
    if (!(r14 == 0u)) goto arm;
    memcpy(DCC_ALIGNED(r3_2), DCC_ALIGNED((r5 + 8)), 16);
    dcc_c_service_progress_of(r2, (a0 + 1036));
    r6 = *r2;
    if (r6 == 1u) goto dcc_c_track_part_TrackPart_progress;
    DCC_TRAP();
    DCC_UNREACHABLE();
dcc_c_track_part_TrackPart_progress:;
    memcpy(r4_2, (r2 + 2), 10);
    memcpy(r1_2, r4_2, 10);
    r15 = *(a0 + 1045);
    r16 = r15;
    if (!(r16)) goto join;
    r11 = dcc_track_main_track_hear_on_main(a0, (r5 + 8));
    r12 = r11.f0;
    r13 = r11.f1;
    r6_2 = 0u;
    r116 = r12;
    r115 = r13;
    goto dcc_c_track_part_TrackPart_hear;
join:;
    r19 = *r1_2;
    r22 = *(a0 + 1044);
    v2 = r22 & r19;
    *(a0 + 1044) = v2;
    r13_2 = dcc_load_16_aligned(a0);
    if (r13_2 < 512u) goto dcc_c_possible_board_PossibleBoardProgrammable_identity;
    DCC_TRAP();
    DCC_UNREACHABLE();
dcc_c_possible_board_PossibleBoardProgrammable_identity:;
    dcc_store_64_aligned(r4_3, UINT64_C(0));
    memcpy(r1_3, r4_2, 10);
    dcc_service_progress_ServiceProgress_due(r4_3, r1_3, (r5 + 8));
    r10 = *r4_3;
    v4 = dcc_load_16_aligned((r4_3 + 4));
    if (!(r10 == 1u)) goto arm_2;
    r1_4 = v4;
    v5 = a0 + (ptrdiff_t)r1_4;
    r20 = *(v5 + 11);
    *r3_3 = r20;
    r17 = dcc_service_progress_ServiceProgress_apply_with_value(r1_2, r3_3, (r5 + 8));
    r19_2 = *r3_3;
    if (r19_2 == r20) { r0 = 0u; r0_2 = 0u; goto dcc_track_serving_serve_cv; }
    r17_2 = (a0 + 11) + (ptrdiff_t)r1_4;
    *r17_2 = r19_2;
    r0 = v4;
    r0_2 = 1u;
dcc_track_serving_serve_cv:;
    r6_3 = r17;
    r6_4 = r0_2;
    r6_5 = r0;
    goto dcc_track_serving_serve;
arm_2:;
    *r11_2 = 0u;
    r28 = dcc_service_progress_ServiceProgress_apply_with_value(r1_2, r11_2, (r5 + 8));
    r6_3 = r28;
    r6_4 = 0u;
    r6_5 = 0u;
dcc_track_serving_serve:;
    r4_4 = dcc_load_64_aligned((r3_2 + 8));
    if (!(r4_4 == UINT64_C(3))) goto join_2;
    r1_5 = UINT64_C(0);
join_3:;
    r16_2 = r3_2 + (ptrdiff_t)r1_5;
    r3_4 = *r16_2;
    if (!(r3_4 == 0u)) goto join_2;
    r17_3 = (uint64_t)(r1_5 + UINT64_C(1));
    if (!(r17_3 == UINT64_C(3))) { r1_5 = r17_3; goto join_3; }
    r50 = dcc_track_main_track_hear_on_main(a0, (r5 + 8));
    r51 = r50.f0;
    r52 = r50.f1;
    r116_2 = r51;
    r115_2 = r52;
    goto dcc_track_both_tracks_hear_on_both;
join_2:;
    r69 = *r1_2;
    r70 = r69;
    r74 = *(a0 + 1044);
    if (!(r70)) goto join_4;
    v7 = r74 | r6_4;
    *(a0 + 1044) = v7;
    r116_2 = r6_4;
    r115_2 = r6_5;
    goto dcc_track_both_tracks_hear_on_both;
join_4:;
    r103 = r74;
    if (!(r103)) goto dcc_track_both_tracks_restart_if;
    r19_3 = *(a0 + 20);
    r21 = r19_3 & 7u;
    r1_6 = r21;
    r25 = (uint16_t)((1u * r1_6) << 6u);
    r29 = *(a0 + 12);
    r31 = r29 & 63u;
    r1_7 = r31;
    r36 = r25 | r1_7;
    dcc_store_16(a0, r36);
    *(a0 + 2) = 0u;
    *(a0 + 11) = 0u;
dcc_track_both_tracks_restart_if:;
    *(a0 + 1044) = 0u;
    r113 = dcc_track_main_track_hear_on_main(a0, (r5 + 8));
    r114 = r113.f0;
    r115_3 = r113.f1;
    r116_2 = r114;
    r115_2 = r115_3;
dcc_track_both_tracks_hear_on_both:;
    r6_6 = r6_3;
    r6_2 = r6_6;
    r116 = r116_2;
    r115 = r115_2;
dcc_c_track_part_TrackPart_hear:;
    dcc_c_service_put((a0 + 1036), r1_2);
    v8 = r116 == 1u;
    spec = v8 ? r115 : 0u;
    dcc_store_16(a3, spec);
    *(a3 + 2) = r6_2;
    *(a3 + 3) = 0u;
    r6_7 = 0u;
    goto dcc_c_board_decoder_dcc_board_decoder_hear;
arm:;
    r25_2 = *(r5 + 1);
    r6_7 = r25_2;
dcc_c_board_decoder_dcc_board_decoder_hear:;
    return r6_7;
}

/* dcc_decoder_hear */
uint8_t dcc_decoder_hear(dcc_decoder *decoder, const uint8_t *frame, uint64_t len, dcc_answer *answer) {
    unsigned char *a0 = (unsigned char *)decoder;
    unsigned char *a1 = (unsigned char *)frame;
    uint64_t a2 = len;
    unsigned char *a3 = (unsigned char *)answer;
    struct dcc_8_16 r11, r50, r113;
    uint16_t r0, r6_5, r115_2, r115, r13, r7, v3, v5, r52, r115_3, spec;
    uint64_t r1_5, r3, r1_4, r4_4, r17_2;
    uint8_t r0_2, r6_3, r6_4, r116_2, r6_2, r116, r6_7, r1, r14, r6, r15, r16, r12, r19, r22, v2, r5_2, r10, r20,
        r17, r19_2, r28, r3_4, r51, r69, r70, r74, v7, r103, r114, r6_6, v8, r25;
    unsigned char *r4, *v6, *r16_2;
    uint64_t place_0[3];
    unsigned char *const r5 = (unsigned char *)place_0;
    uint64_t place_1[2];
    unsigned char *const r3_2 = (unsigned char *)place_1;
    uint16_t place_2[6];
    unsigned char *const r2 = (unsigned char *)place_2;
    unsigned char *const r1_3 = (unsigned char *)place_2;
    unsigned char *const r3_3 = (unsigned char *)place_2;
    uint16_t place_3[5];
    unsigned char *const r1_2 = (unsigned char *)place_3;
    uint16_t place_4[5];
    unsigned char *const r4_2 = (unsigned char *)place_4;
    uint64_t place_5[1];
    unsigned char *const r4_3 = (unsigned char *)place_5;
    uint8_t place_6[1];
    unsigned char *const r11_2 = (unsigned char *)place_6;
    r1 = a1 == (unsigned char *)0;
    r3 = r1 ? UINT64_C(4096) : UINT64_C(0);
    r4 = a1 + (ptrdiff_t)r3;
    memset(DCC_ALIGNED(r5), 0u, 24);
    dcc_c_frame_frame_of(r5, r4, a2);
    r14 = *r5;
    if (!(r14 == 0u)) goto arm;
    memcpy(DCC_ALIGNED(r3_2), DCC_ALIGNED((r5 + 8)), 16);
    dcc_c_service_progress_of(r2, (a0 + 1072));
    r6 = *r2;
    if (r6 == 1u) goto dcc_c_track_part_TrackPart_progress;
    DCC_TRAP();
    DCC_UNREACHABLE();
dcc_c_track_part_TrackPart_progress:;
    memcpy(r4_2, (r2 + 2), 10);
    memcpy(r1_2, r4_2, 10);
    r15 = *(a0 + 1081);
    r16 = r15;
    if (!(r16)) goto join;
    r11 = dcc_track_main_track_hear_on_main_2(a0, (r5 + 8));
    r12 = r11.f0;
    r13 = r11.f1;
    r6_2 = 0u;
    r116 = r12;
    r115 = r13;
    goto dcc_c_track_part_TrackPart_hear;
join:;
    r19 = *r1_2;
    r22 = *(a0 + 1080);
    v2 = r22 & r19;
    *(a0 + 1080) = v2;
    r5_2 = *a0;
    r7 = dcc_load_16_aligned((a0 + 4));
    switch (r5_2) {
    case 0u: goto arm_2;
    case 1u: goto arm_3;
    case 2u: goto arm_4;
    default: goto arm_5;
    }
arm_2:;
    if (r7 == 0u) goto dcc_c_possible_loco_PossibleLocoProgrammable_identity;
    goto arm_5;
arm_3:;
    v3 = (uint16_t)(r7 + 65535u);
    if (v3 < 127u) goto dcc_c_possible_loco_PossibleLocoProgrammable_identity;
    goto arm_5;
arm_4:;
    if (r7 < 10240u) goto dcc_c_possible_loco_PossibleLocoProgrammable_identity;
arm_5:;
    DCC_TRAP();
    DCC_UNREACHABLE();
dcc_c_possible_loco_PossibleLocoProgrammable_identity:;
    dcc_store_64_aligned(r4_3, UINT64_C(0));
    memcpy(r1_3, r4_2, 10);
    dcc_service_progress_ServiceProgress_due(r4_3, r1_3, (r5 + 8));
    r10 = *r4_3;
    v5 = dcc_load_16_aligned((r4_3 + 4));
    if (!(r10 == 1u)) goto arm_6;
    r1_4 = v5;
    v6 = a0 + (ptrdiff_t)r1_4;
    r20 = *(v6 + 47);
    *r3_3 = r20;
    r17 = dcc_service_progress_ServiceProgress_apply_with_value(r1_2, r3_3, (r5 + 8));
    r19_2 = *r3_3;
    if (r19_2 == r20) { r0 = 0u; r0_2 = 0u; goto dcc_track_serving_serve_cv; }
    *(v6 + 47) = r19_2;
    r0 = v5;
    r0_2 = 1u;
dcc_track_serving_serve_cv:;
    r6_3 = r17;
    r6_4 = r0_2;
    r6_5 = r0;
    goto dcc_track_serving_serve;
arm_6:;
    *r11_2 = 0u;
    r28 = dcc_service_progress_ServiceProgress_apply_with_value(r1_2, r11_2, (r5 + 8));
    r6_3 = r28;
    r6_4 = 0u;
    r6_5 = 0u;
dcc_track_serving_serve:;
    r4_4 = dcc_load_64_aligned((r3_2 + 8));
    if (!(r4_4 == UINT64_C(3))) goto join_2;
    r1_5 = UINT64_C(0);
join_3:;
    r16_2 = r3_2 + (ptrdiff_t)r1_5;
    r3_4 = *r16_2;
    if (!(r3_4 == 0u)) goto join_2;
    r17_2 = (uint64_t)(r1_5 + UINT64_C(1));
    if (!(r17_2 == UINT64_C(3))) { r1_5 = r17_2; goto join_3; }
    r50 = dcc_track_main_track_hear_on_main_2(a0, (r5 + 8));
    r51 = r50.f0;
    r52 = r50.f1;
    r116_2 = r51;
    r115_2 = r52;
    goto dcc_track_both_tracks_hear_on_both;
join_2:;
    r69 = *r1_2;
    r70 = r69;
    r74 = *(a0 + 1080);
    if (!(r70)) goto join_4;
    v7 = r74 | r6_4;
    *(a0 + 1080) = v7;
    r116_2 = r6_4;
    r115_2 = r6_5;
    goto dcc_track_both_tracks_hear_on_both;
join_4:;
    r103 = r74;
    if (!(r103)) goto dcc_track_both_tracks_restart_if;
    dcc_c_loco_dcc_loco_power_up(a0);
dcc_track_both_tracks_restart_if:;
    *(a0 + 1080) = 0u;
    r113 = dcc_track_main_track_hear_on_main_2(a0, (r5 + 8));
    r114 = r113.f0;
    r115_3 = r113.f1;
    r116_2 = r114;
    r115_2 = r115_3;
dcc_track_both_tracks_hear_on_both:;
    r6_6 = r6_3;
    r6_2 = r6_6;
    r116 = r116_2;
    r115 = r115_2;
dcc_c_track_part_TrackPart_hear:;
    dcc_c_service_put((a0 + 1072), r1_2);
    v8 = r116 == 1u;
    spec = v8 ? r115 : 0u;
    dcc_store_16(a3, spec);
    *(a3 + 2) = r6_2;
    *(a3 + 3) = 0u;
    r6_7 = 0u;
    goto dcc_c_decoder_dcc_decoder_hear;
arm:;
    r25 = *(r5 + 1);
    r6_7 = r25;
dcc_c_decoder_dcc_decoder_hear:;
    return r6_7;
}

/* dcc_station_next */
void dcc_station_next(dcc_station *station, dcc_frame *frame) {
    unsigned char *a0 = (unsigned char *)station;
    unsigned char *a1 = (unsigned char *)frame;
    uint16_t v5, v6, r25, r1_2, r1_3, v2, r635, r65, r1_8, r0_5, r0_6, r1_15, r1_16, r73;
    uint64_t r0_2, r1_6, r0_3, r1_5, r1_7, r18_2, r1_9, r33, r1_10, r41, r31_2, r33_2, v10, r1_12, r22_2, r1_13,
        r18_4;
    uint8_t r18, r4, r4_2, r1, r8, v14, storemerge, r7, r11, r12, r22, r24, r1_4, v1, v3, v4, r5, r3, v7, r10,
        r11_2, r2, r4_4, r31, r37, r3_2, or_2, r7_2, v8, or_3, or_4, r55, r7_3, v9, or_5, or_6, r57, r13, r19, r2_2,
        r4_5, r26, r2_3, r4_6, r5_2, v12, v13, or_7, r5_3, switch_2, or_8, r8_2, r10_2, it, r7_4, spec, r2_4, r3_4,
        r4_7, r3_5, r2_5, r4_8, r11_3, r11_4, r18_3, r2_6, r4_9, r2_7, r4_10, r6, r10_3, r0_7, v15, r6_2, r1_17;
    unsigned char *r21, *r36, *r44, *r25_2, *r21_2, *r15;
    uint64_t place_0[4];
    unsigned char *const r1_11 = (unsigned char *)place_0;
    unsigned char *const r4_3 = (unsigned char *)place_0;
    unsigned char *const r3_3 = (unsigned char *)place_0;
    uint64_t place_1[4];
    unsigned char *const r1_14 = (unsigned char *)place_1;
    uint64_t place_2[3];
    unsigned char *const r3_6 = (unsigned char *)place_2;
    uint64_t place_3[3];
    unsigned char *const r0 = (unsigned char *)place_3;
    uint8_t place_4[7];
    unsigned char *const r0_4 = (unsigned char *)place_4;
    memset(DCC_ALIGNED(r0), 0u, 24);
    r7 = *(a0 + 1800);
    r11 = *(a0 + 1798);
    r12 = r11;
    if (!(r12)) goto join;
    dcc_store_16_aligned(r0, 1u);
    dcc_store_16_aligned((r0 + 2), 0u);
    dcc_store_16_aligned((r0 + 4), 0u);
    *(r0 + 6) = 1u;
    *(r0 + 7) = 1u;
    *(r0 + 8) = 3u;
    memset((r0 + 9), 0u, 15);
    r18 = 0u;
    v5 = 0u;
    r4 = 1u;
    r4_2 = 1u;
    r1 = 0u;
    v6 = 0u;
    goto then;
join:;
    dcc_c_station_ring_DccRingPacketRing_front(r4_3, a0);
    r22 = *r4_3;
    if (!(r22 == 1u)) goto else_2;
    r24 = *(r4_3 + 8);
    r25 = r24;
    r1_2 = dcc_load_16_aligned((r4_3 + 10));
    r1_3 = dcc_load_16_aligned((r4_3 + 12));
    r1_4 = *(r4_3 + 14);
    dcc_store_16_aligned(r0, r25);
    dcc_store_16_aligned((r0 + 2), r1_2);
    dcc_store_16_aligned((r0 + 4), r1_3);
    *(r0 + 6) = r1_4;
    memcpy((r0 + 7), (r4_3 + 15), 17);
    v1 = (uint8_t)(r1_2);
    v2 = r1_2 >> 8u;
    v3 = (uint8_t)v2;
    v4 = r24 == 1u;
    r18 = v1;
    v5 = r1_2;
    r4 = r1_4;
    r4_2 = v4;
    r1 = v3;
    v6 = r1_3;
then:;
    r5 = *(a0 + 1799);
    if (!(r5 == 0u)) { r8 = r5; goto dcc_station_machine_change_entries; }
    r3 = *(a0 + 1796);
    r1_5 = r3;
    if (r3 == 0u) goto dcc_station_entries_remove_displaced;
    r635 = v6 >> 8u;
    r65 = (uint16_t)(r635 + 192u);
    v7 = (uint8_t)(v6);
    r0_2 = UINT64_C(0);
    r1_6 = UINT64_C(0);
join_3:;
    r10 = *(a0 + 1795);
    r11_2 = (uint8_t)r1_6;
    r2 = (uint8_t)(r10 + r11_2);
    r4_4 = r2 & 127u;
    r1_7 = r4_4;
    r18_2 = (uint64_t)(1u * r1_7 * UINT64_C(7));
    r21 = (a0 + 899) + (ptrdiff_t)r18_2;
    if (!(r4_2)) goto dcc_c_station_ring_DccRingPacketRing_is_displaced;
    switch (r18) {
    case 0u: goto dcc_c_station_ring_DccRingPacketRing_is_displaced;
    case 1u: goto arm;
    case 2u: goto arm_2;
    default: goto noarm;
    }
arm:;
    r31 = *(r21 + 1);
    r37 = r31 == r1;
    r3_2 = r31 == 0u;
    or_2 = r3_2 | r37;
    if (or_2) goto dcc_c_station_ring_DccRingPacketRing_is_displaced;
    r7_2 = (r31 ^ 128u) > (255u ^ 128u);
    v8 = (uint8_t)(r31 + 64u);
    or_3 = v8 < 40u;
    or_4 = r7_2 ? 1u : or_3;
    if (or_4) goto then_2;
    goto dcc_c_station_ring_DccRingPacketRing_is_displaced;
arm_2:;
    r55 = *(r21 + 1);
    r1_8 = r55;
    if (r65 == r1_8) goto dcc_c_kept_packet_KeptPacket_is_for_another;
    if (r55 == 0u) goto dcc_c_station_ring_DccRingPacketRing_is_displaced;
    r7_3 = (r55 ^ 128u) > (255u ^ 128u);
    v9 = (uint8_t)(r55 + 64u);
    or_5 = v9 < 40u;
    or_6 = r7_3 ? 1u : or_5;
    if (or_6) goto then_2;
    goto dcc_c_station_ring_DccRingPacketRing_is_displaced;
noarm:;
    DCC_UNREACHABLE();
dcc_c_kept_packet_KeptPacket_is_for_another:;
    r57 = *(r21 + 2);
    if (!(r57 == v7)) goto then_2;
dcc_c_station_ring_DccRingPacketRing_is_displaced:;
    r13 = dcc_c_kept_packet_KeptPacket_is_displaced_by_instruction(r21, r0);
    if (r13) { r0_3 = r0_2; goto join_2; }
then_2:;
    if (r1_6 == r0_2) goto dcc_c_station_ring_DccRingPacketRing_move_forward;
    r19 = *(a0 + 1795);
    r2_2 = (uint8_t)(r19 + r11_2);
    r4_5 = r2_2 & 127u;
    r26 = (uint8_t)(r0_2);
    r2_3 = (uint8_t)(r19 + r26);
    r4_6 = r2_3 & 127u;
    r1_9 = r4_5;
    r33 = (uint64_t)(1u * r1_9 * UINT64_C(7));
    r36 = (a0 + 899) + (ptrdiff_t)r33;
    r1_10 = r4_6;
    r41 = (uint64_t)(1u * r1_10 * UINT64_C(7));
    r44 = (a0 + 899) + (ptrdiff_t)r41;
    memmove(r44, r36, 7);
dcc_c_station_ring_DccRingPacketRing_move_forward:;
    r31_2 = (uint64_t)(r0_2 + UINT64_C(1));
    r0_3 = r31_2;
join_2:;
    r33_2 = (uint64_t)(r1_6 + UINT64_C(1));
    if (!(r33_2 == r1_5)) { r0_2 = r0_3; r1_6 = r33_2; goto join_3; }
    r5_2 = *(a0 + 1796);
    v10 = r5_2;
    if (!(r0_3 < v10)) goto dcc_station_entries_remove_displaced;
    v12 = (uint8_t)r0_3;
    *(a0 + 1796) = v12;
dcc_station_entries_remove_displaced:;
    v13 = r18 != 0u;
    or_7 = r4_2 ? v13 : 0u;
    r5_3 = (uint8_t)(r4 + 255u);
    switch_2 = r5_3 < 3u;
    or_8 = or_7 ? switch_2 : 0u;
    if (!(or_8)) goto dcc_station_entries_refresh_after;
    dcc_store_16_aligned(r3_3, 1u);
    dcc_store_16_aligned((r3_3 + 2), v5);
    dcc_store_16_aligned((r3_3 + 4), v6);
    *(r3_3 + 6) = r4;
    memcpy((r3_3 + 7), (r0 + 7), 17);
    dcc_c_station_ring_DccRingPacketRing_push_back((a0 + 899), r3_3);
dcc_station_entries_refresh_after:;
    r8_2 = *(a0 + 1799);
    r8 = r8_2;
dcc_station_machine_change_entries:;
    r10_2 = (uint8_t)(r8 + 1u);
    if (!(r4_2)) { v14 = r7; goto dcc_station_commands_copies; }
    switch (r4) {
    case 5u: case 7u: goto dcc_regs_writes_is_own_write;
    case 0u: case 1u: case 2u: case 3u: case 4u: case 6u: case 8u: v14 = r7; goto dcc_station_commands_copies;
    default: goto noarm_2;
    }
noarm_2:;
    DCC_UNREACHABLE();
dcc_regs_writes_is_own_write:;
    it = r18 != 0u;
    r7_4 = it;
    spec = (uint8_t)(r7 + r7_4);
    v14 = spec;
dcc_station_commands_copies:;
    if (v14 > r10_2) { storemerge = r10_2; goto dcc_station_machine_send; }
    r2_4 = *(a0 + 1798);
    r3_4 = r2_4;
    if (!(r3_4)) goto else_3;
    *(a0 + 1798) = 0u;
    storemerge = 0u;
    goto dcc_station_machine_send;
else_3:;
    r4_7 = *(a0 + 897);
    if (r4_7 == 0u) { storemerge = 0u; goto dcc_station_machine_send; }
    r3_5 = *(a0 + 896);
    r2_5 = (uint8_t)(r3_5 + 1u);
    r4_8 = r2_5 & 127u;
    *(a0 + 896) = r4_8;
    r11_3 = (uint8_t)(r4_7 + 255u);
    *(a0 + 897) = r11_3;
    storemerge = 0u;
dcc_station_machine_send:;
    *(a0 + 1799) = storemerge;
    goto dcc_c_station_dcc_station_next;
else_2:;
    memset(DCC_ALIGNED(r3_6), 0u, 24);
    dcc_c_station_ring_DccRingPacketRing_front(r1_11, (a0 + 899));
    r11_4 = *(a0 + 1796);
    if (r11_4 == 0u) goto dcc_station_machine_refresh;
    r18_3 = *(a0 + 1795);
    r1_12 = r18_3;
    r22_2 = (uint64_t)(1u * r1_12 * UINT64_C(7));
    r25_2 = (a0 + 899) + (ptrdiff_t)r22_2;
    memcpy(r0_4, r25_2, 7);
    r2_6 = (uint8_t)(r18_3 + 1u);
    r4_9 = r2_6 & 127u;
    *(a0 + 1795) = r4_9;
    r2_7 = (uint8_t)(r18_3 + r11_4);
    r4_10 = r2_7 & 127u;
    r1_13 = r4_10;
    r18_4 = (uint64_t)(1u * r1_13 * UINT64_C(7));
    r21_2 = (a0 + 899) + (ptrdiff_t)r18_4;
    memcpy(r21_2, r0_4, 7);
dcc_station_machine_refresh:;
    r6 = *r1_11;
    r10_3 = *(r1_11 + 8);
    r0_5 = dcc_load_16_aligned((r1_11 + 10));
    r0_6 = dcc_load_16_aligned((r1_11 + 12));
    r0_7 = *(r1_11 + 14);
    memcpy((r1_14 + 15), (r1_11 + 15), 17);
    v15 = r6 == 1u;
    r15 = v15 ? (r1_14 + 15) : (r3_6 + 7);
    r6_2 = v15 ? r10_3 : 0u;
    r1_15 = v15 ? r0_5 : 0u;
    r1_16 = v15 ? r0_6 : 0u;
    r1_17 = v15 ? r0_7 : 0u;
    r73 = r6_2;
    dcc_store_16_aligned(r0, r73);
    dcc_store_16_aligned((r0 + 2), r1_15);
    dcc_store_16_aligned((r0 + 4), r1_16);
    *(r0 + 6) = r1_17;
    memcpy((r0 + 7), r15, 17);
dcc_c_station_dcc_station_next:;
    dcc_c_station_put_frame(r0, a1);
    return;
}

/* dcc_halves */
uint8_t dcc_halves(const uint8_t *frame, uint64_t len, uint8_t preamble, uint16_t halves[DCC_HALVES]) {
    unsigned char *a0 = (unsigned char *)frame;
    uint64_t a1 = len;
    uint8_t a2 = preamble;
    unsigned char *a3 = (unsigned char *)halves;
    uint16_t spec;
    uint64_t r4_2, r3_2, r3_3, r4_5, r1_3, r3, v0, r23, r34_2, r48, r34_3, r1_2, r34_4, r1_4, r49, r34_5;
    uint8_t r6_2, r7, r2_2, r6, r1, r2, r4_4, r34, v1, or_2, or_3, r29, r43, r16, v2, v3, r22, v4, r54;
    unsigned char *r4_3, *r4, *r37, *r40, *r37_2, *r37_3, *r37_4;
    r1 = a0 == (unsigned char *)0;
    r3 = r1 ? UINT64_C(4096) : UINT64_C(0);
    r4 = a0 + (ptrdiff_t)r3;
    v0 = (uint64_t)(a1 + UINT64_C(18446744073709551609));
    if (v0 < UINT64_C(18446744073709551612)) { r6 = 0u; goto dcc_c_halves_dcc_halves; }
    r6_2 = 0u;
    r4_2 = a1;
    r4_3 = r4;
arm:;
    r23 = (uint64_t)(r4_2 + UINT64_C(18446744073709551615));
    r2 = *r4_3;
    r4_4 = r2 ^ r6_2;
    if (!(r23 == UINT64_C(0))) { r6_2 = r4_4; r4_2 = r23; r4_3 = (r4_3 + 1); goto arm; }
    r34 = r2 == r6_2;
    v1 = (uint8_t)(a2 + 242u);
    or_2 = v1 < 27u;
    or_3 = or_2 & r34;
    if (!(or_3)) { r6 = 0u; goto dcc_c_halves_dcc_halves; }
    r3_2 = UINT64_C(0);
    r7 = 0u;
join:;
    r34_2 = (uint64_t)((1u * r3_2) << UINT64_C(1));
    r37 = a3 + (ptrdiff_t)r34_2;
    dcc_store_16_aligned(r37, 58u);
    dcc_store_16_aligned((r37 + 2), 58u);
    r48 = (uint64_t)(r3_2 + UINT64_C(2));
    r29 = (uint8_t)(r7 + 1u);
    if (!(r29 == a2)) { r3_2 = r48; r7 = r29; goto join; }
    r3_3 = r48;
    r4_5 = UINT64_C(0);
join_3:;
    r40 = r4 + (ptrdiff_t)r4_5;
    r43 = *r40;
    r34_3 = (uint64_t)((1u * r3_3) << UINT64_C(1));
    r37_2 = a3 + (ptrdiff_t)r34_3;
    dcc_store_32(r37_2, UINT32_C(6553700));
    r1_2 = (uint64_t)(r3_3 + UINT64_C(2));
    r1_3 = r1_2;
    r2_2 = 8u;
join_2:;
    r16 = (uint8_t)(r2_2 + 255u);
    v2 = (uint8_t)((1u * 1u) << (r16 & 7u));
    v3 = v2 & r43;
    r22 = v3 == 0u;
    spec = r22 ? 100u : 58u;
    r34_4 = (uint64_t)((1u * r1_3) << UINT64_C(1));
    r37_3 = a3 + (ptrdiff_t)r34_4;
    dcc_store_16_aligned(r37_3, spec);
    dcc_store_16_aligned((r37_3 + 2), spec);
    r1_4 = (uint64_t)(r1_3 + UINT64_C(2));
    if (!(r16 == 0u)) { r1_3 = r1_4; r2_2 = r16; goto join_2; }
    r49 = (uint64_t)(r4_5 + UINT64_C(1));
    if (!(r49 == a1)) { r3_3 = r1_4; r4_5 = r49; goto join_3; }
    r34_5 = (uint64_t)((1u * r1_4) << UINT64_C(1));
    r37_4 = a3 + (ptrdiff_t)r34_5;
    dcc_store_16_aligned(r37_4, 58u);
    dcc_store_16_aligned((r37_4 + 2), 58u);
    v4 = (uint8_t)(r1_4);
    r54 = (uint8_t)(v4 + 2u);
    r6 = r54;
dcc_c_halves_dcc_halves:;
    return r6;
}

/* dcc_line */
uint8_t dcc_line(const uint8_t *frame, uint64_t len, char line[DCC_LINE]) {
    unsigned char *a0 = (unsigned char *)frame;
    uint64_t a1 = len;
    unsigned char *a2 = (unsigned char *)line;
    uint16_t r20, v1, v2, v4, r19_3, r19_6, r29, r1_2, r1_3, r1_4, v9, r1_5;
    uint32_t r52, r52_2, r52_3, r52_4, r52_5, v8, r52_6, r76, r78, r82, r84, r87, r95, r97, r101, r103, r106;
    uint64_t r4_7, r3_2, r1_6, common, r1_7, r2_2, r2_3, r38_2, common_2, r3_3, r7_4, r7_2, r3, r8, r25, r8_2,
        r25_2, r8_3, r25_3, r8_4, v6, switch_3, v7, r25_4, r25_5, r25_6, r8_5, r25_7, it, r8_6, r25_8, r25_9, r8_7,
        r25_10, r8_8, r25_11, it_2, r8_9, r25_12, r25_13, r8_10, r25_14, r4_6, r19_7, r37, r44, r53, r69, r49,
        r24_15, r17_2, r30_2, r9_2, r12, r15_2, r203, r22, it_3, r66, r30_3, r30_4, r9_3, r30_5, r1714, r30_6,
        r2315, r29_2, r21, r23, r6, r29_3, r30_7, r9_4, r12_2, r15_3, r203_2, r22_2, it_4, r30_8, r9_5, r15_4,
        r203_3, r22_3, it_5, it_6, r95_2, r25_15, r6_2;
    uint8_t r6_3, r1, r16, r19, v3, v5, r19_2, r19_4, r19_5, r4_2, storemerge, r4_3, storemerge_2, r4_4, r4_5, r32,
        r35, r42, r51_2, r58, r15, r17, r26, r4_8, r38, r7_3, r24_16, r38_3, r45, or_2, v11, or_3, r99, r38_4,
        r45_2, r52_7, or_4, v12, or_5, v13, or_6, r113, v14, v15, it_7;
    unsigned char *r4, *r24, *r24_2, *r24_3, *r24_4, *switch_2, *switch_4, *switch_5, *r24_5, *r24_6, *r24_7,
        *static_2, *r24_8, *r24_9, *r24_10, *r24_11, *static_3, *r24_12, *r24_13, *r24_14, *r30, *r40, *r47, *r56,
        *r28, *r13_2, *r5_2, *r28_2, *r28_3;
    uint64_t place_0[6];
    unsigned char *const r0 = (unsigned char *)place_0;
    uint64_t place_1[3];
    unsigned char *const r5 = (unsigned char *)place_1;
    uint64_t place_2[3];
    unsigned char *const r7 = (unsigned char *)place_2;
    uint64_t place_3[3];
    unsigned char *const r9 = (unsigned char *)place_3;
    uint64_t place_4[2];
    unsigned char *const r13 = (unsigned char *)place_4;
    unsigned char *const r18 = (unsigned char *)place_4;
    uint16_t place_5[6];
    unsigned char *const r2 = (unsigned char *)place_5;
    unsigned char *const r27 = (unsigned char *)place_5;
    uint32_t place_6[1];
    unsigned char *const r39 = (unsigned char *)place_6;
    uint32_t place_7[1];
    unsigned char *const r51 = (unsigned char *)place_7;
    r1 = a0 == (unsigned char *)0;
    r3 = r1 ? UINT64_C(4096) : UINT64_C(0);
    r4 = a0 + (ptrdiff_t)r3;
    memset(DCC_ALIGNED(r5), 0u, 24);
    dcc_wire_frame_Frame_of(r5, r4, a1);
    r16 = *r5;
    if (!(r16 == 0u)) goto arm;
    dcc_packet_packet_Packet_read(r7, (r5 + 8));
    r19 = *r7;
    r20 = r19;
    dcc_store_16_aligned(r9, r20);
    v1 = dcc_load_16_aligned((r7 + 2));
    dcc_store_16_aligned((r9 + 2), v1);
    v2 = dcc_load_16_aligned((r7 + 4));
    dcc_store_16_aligned((r9 + 4), v2);
    v3 = *(r7 + 6);
    *(r9 + 6) = v3;
    memcpy((r9 + 7), (r7 + 7), 17);
    memset(DCC_ALIGNED(r0), 0u, 48);
    v4 = v1 >> 8u;
    switch (r19) {
    case 0u: goto dcc_packet_form_put_first_form;
    case 1u: goto arm_2;
    case 2u: goto arm_3;
    case 3u: goto arm_4;
    case 4u: goto arm_5;
    default: goto noarm;
    }
dcc_packet_form_put_first_form:;
    dcc_store_32_aligned(r0, UINT32_C(1701602409));
    dcc_store_64_aligned((r0 + 40), UINT64_C(4));
    goto dcc_c_line_put_line;
arm_2:;
    v5 = (uint8_t)(v1);
    r19_2 = *(r9 + 7);
    r19_3 = dcc_load_16_aligned((r9 + 8));
    r19_4 = *(r9 + 10);
    r19_5 = *(r9 + 11);
    dcc_store_32_aligned(r0, UINT32_C(1868787564));
    *(r0 + 4) = 32u;
    switch (v5) {
    case 0u: goto arm_6;
    case 1u: goto arm_7;
    case 2u: goto arm_8;
    default: goto noarm_2;
    }
arm_6:;
    memcpy((r0 + 5), ((unsigned char *)constant_c4b36e03), 3);
    dcc_store_64_aligned((r0 + 40), UINT64_C(8));
    goto dcc_packet_fields_AddressField_put;
arm_7:;
    *(r0 + 5) = 115u;
    dcc_store_64_aligned((r0 + 40), UINT64_C(6));
    dcc_packet_to_line_word_put_digits(r0, v4);
    goto dcc_packet_fields_AddressField_put;
arm_8:;
    *(r0 + 5) = 108u;
    dcc_store_64_aligned((r0 + 40), UINT64_C(6));
    dcc_packet_to_line_word_put_digits(r0, v2);
    goto dcc_packet_fields_AddressField_put;
noarm_2:;
    DCC_UNREACHABLE();
dcc_packet_fields_AddressField_put:;
    switch (v3) {
    case 0u: goto arm_9;
    case 1u: goto arm_10;
    case 2u: goto arm_11;
    case 3u: goto arm_12;
    case 4u: goto arm_13;
    case 5u: case 6u: case 7u: case 8u: goto after;
    default: goto noarm_3;
    }
arm_9:;
    r8 = dcc_load_64_aligned((r0 + 40));
    r24 = r0 + (ptrdiff_t)r8;
    *r24 = 32u;
    memcpy((r24 + 1), ((unsigned char *)constant_213e1f56), 5);
    r25 = (uint64_t)(r8 + UINT64_C(6));
    dcc_store_64_aligned((r0 + 40), r25);
    goto dcc_c_line_put_line;
arm_10:;
    r19_6 = r19_3 & 255u;
    r8_2 = dcc_load_64_aligned((r0 + 40));
    r24_2 = r0 + (ptrdiff_t)r8_2;
    *r24_2 = 32u;
    memcpy((r24_2 + 1), ((unsigned char *)constant_d9b981af), 7);
    r4_2 = r19_2;
    *(r24_2 + 8) = 32u;
    storemerge = r4_2 ? 102u : 114u;
    *(r24_2 + 9) = storemerge;
    *(r24_2 + 10) = 32u;
    r25_2 = (uint64_t)(r8_2 + UINT64_C(11));
    dcc_store_64_aligned((r0 + 40), r25_2);
    dcc_packet_to_line_word_put_digits(r0, r19_6);
    goto dcc_c_line_put_line;
arm_11:;
    r29 = r19_3 & 255u;
    r8_3 = dcc_load_64_aligned((r0 + 40));
    r24_3 = r0 + (ptrdiff_t)r8_3;
    *r24_3 = 32u;
    dcc_store_64((r24_3 + 1), UINT64_C(4049353322227134579));
    r4_3 = r19_2;
    *(r24_3 + 9) = 32u;
    storemerge_2 = r4_3 ? 102u : 114u;
    *(r24_3 + 10) = storemerge_2;
    *(r24_3 + 11) = 32u;
    r25_3 = (uint64_t)(r8_3 + UINT64_C(12));
    dcc_store_64_aligned((r0 + 40), r25_3);
    dcc_packet_to_line_word_put_digits(r0, r29);
    goto dcc_c_line_put_line;
arm_12:;
    r8_4 = dcc_load_64_aligned((r0 + 40));
    r24_4 = r0 + (ptrdiff_t)r8_4;
    *r24_4 = 32u;
    memcpy((r24_4 + 1), ((unsigned char *)constant_b9673404), 9);
    v6 = r19_2;
    switch_2 = ((unsigned char *)switch_table_dcc_line) + (ptrdiff_t)v6 * 8;
    switch_3 = dcc_load_64_aligned(switch_2);
    v7 = r19_2;
    switch_4 = ((unsigned char *)switch_table_dcc_line_4) + (ptrdiff_t)v7 * 8;
    switch_5 = dcc_load_ptr(switch_4);
    *(r24_4 + 10) = 32u;
    r25_4 = (uint64_t)(r8_4 + UINT64_C(11));
    r24_5 = r0 + (ptrdiff_t)r25_4;
    memcpy(r24_5, switch_5, (size_t)switch_3);
    r25_5 = (uint64_t)(switch_3 + r25_4);
    r1_2 = r19_3 & 255u;
    r24_6 = r0 + (ptrdiff_t)r25_5;
    *r24_6 = 32u;
    r25_6 = (uint64_t)(r25_5 + UINT64_C(1));
    dcc_store_64_aligned((r0 + 40), r25_6);
    dcc_packet_to_line_word_put_digits(r0, r1_2);
    goto dcc_c_line_put_line;
arm_13:;
    r8_5 = dcc_load_64_aligned((r0 + 40));
    r24_7 = r0 + (ptrdiff_t)r8_5;
    *r24_7 = 32u;
    memcpy((r24_7 + 1), ((unsigned char *)constant_daef56db), 5);
    r1_3 = r19_2;
    *(r24_7 + 6) = 32u;
    r25_7 = (uint64_t)(r8_5 + UINT64_C(7));
    dcc_store_64_aligned((r0 + 40), r25_7);
    dcc_packet_to_line_word_put_digits(r0, r1_3);
    r4_4 = (uint8_t)((r19_3) & 1u);
    it = r4_4 ? UINT64_C(2) : UINT64_C(3);
    static_2 = r4_4 ? ((unsigned char *)constant_2157709d) : ((unsigned char *)constant_bcde24ec);
    r8_6 = dcc_load_64_aligned((r0 + 40));
    r24_8 = r0 + (ptrdiff_t)r8_6;
    *r24_8 = 32u;
    r25_8 = (uint64_t)(r8_6 + UINT64_C(1));
    r24_9 = r0 + (ptrdiff_t)r25_8;
    memcpy(r24_9, static_2, (size_t)it);
    r25_9 = (uint64_t)(r25_8 + it);
    dcc_store_64_aligned((r0 + 40), r25_9);
    goto dcc_c_line_put_line;
after:;
    r52 = r19_3;
    r52_2 = r19_4;
    r52_3 = (uint32_t)((1u * r52_2) << UINT32_C(16));
    r52_4 = r19_5;
    r52_5 = (uint32_t)((1u * r52_4) << UINT32_C(24));
    v8 = r52_3 | r52;
    r52_6 = v8 | r52_5;
    r8_7 = dcc_load_64_aligned((r0 + 40));
    r24_10 = r0 + (ptrdiff_t)r8_7;
    *r24_10 = 32u;
    dcc_store_16((r24_10 + 1), 30307u);
    r25_10 = (uint64_t)(r8_7 + UINT64_C(3));
    dcc_store_64_aligned((r0 + 40), r25_10);
    switch (v3) {
    case 5u: goto arm_14;
    case 6u: goto arm_15;
    case 7u: goto arm_16;
    case 8u: goto arm_17;
    default: goto noarm_4;
    }
arm_14:;
    dcc_store_16_aligned(r18, r19_3);
    *(r18 + 2) = r19_4;
    *(r18 + 3) = 0u;
    dcc_packet_form_put_form(r0, ((unsigned char *)constant_8de69593), UINT64_C(5), r18);
    goto dcc_packet_form_put_form;
arm_15:;
    dcc_store_16_aligned(r27, r19_3);
    *(r27 + 2) = r19_4;
    *(r27 + 3) = 0u;
    dcc_packet_form_put_form(r0, ((unsigned char *)constant_34c0f21c), UINT64_C(6), r27);
    goto dcc_packet_form_put_form;
arm_16:;
    dcc_store_32_aligned(r39, r52_6);
    dcc_packet_form_put_form_2(r0, ((unsigned char *)constant_2f0e2531), UINT64_C(8), r39);
    goto dcc_packet_form_put_form;
arm_17:;
    dcc_store_32_aligned(r51, r52_6);
    dcc_packet_form_put_form_2(r0, ((unsigned char *)constant_802c3e52), UINT64_C(9), r51);
    goto dcc_packet_form_put_form;
noarm_4:;
    DCC_UNREACHABLE();
dcc_packet_form_put_form:;
    goto dcc_c_line_put_line;
noarm_3:;
    DCC_UNREACHABLE();
arm_3:;
    memcpy(DCC_ALIGNED(r0), ((unsigned char *)constant_04bd89e6), 9);
    *(r0 + 9) = 32u;
    dcc_store_64_aligned((r0 + 40), UINT64_C(10));
    dcc_packet_to_line_word_put_digits(r0, v1);
    r1_4 = v2 & 255u;
    r8_8 = dcc_load_64_aligned((r0 + 40));
    r24_11 = r0 + (ptrdiff_t)r8_8;
    *r24_11 = 32u;
    r25_11 = (uint64_t)(r8_8 + UINT64_C(1));
    dcc_store_64_aligned((r0 + 40), r25_11);
    dcc_packet_to_line_word_put_digits(r0, r1_4);
    v9 = v2 & 256u;
    r4_5 = v9 == 0u;
    it_2 = r4_5 ? UINT64_C(3) : UINT64_C(2);
    static_3 = r4_5 ? ((unsigned char *)constant_bcde24ec) : ((unsigned char *)constant_2157709d);
    r8_9 = dcc_load_64_aligned((r0 + 40));
    r24_12 = r0 + (ptrdiff_t)r8_9;
    *r24_12 = 32u;
    r25_12 = (uint64_t)(r8_9 + UINT64_C(1));
    r24_13 = r0 + (ptrdiff_t)r25_12;
    memcpy(r24_13, static_3, (size_t)it_2);
    r25_13 = (uint64_t)(r25_12 + it_2);
    dcc_store_64_aligned((r0 + 40), r25_13);
    goto dcc_c_line_put_line;
arm_4:;
    memcpy(DCC_ALIGNED(r0), ((unsigned char *)constant_59382055), 6);
    *(r0 + 6) = 32u;
    dcc_store_64_aligned((r0 + 40), UINT64_C(7));
    dcc_packet_to_line_word_put_digits(r0, v1);
    r1_5 = v2 & 255u;
    r8_10 = dcc_load_64_aligned((r0 + 40));
    r24_14 = r0 + (ptrdiff_t)r8_10;
    *r24_14 = 32u;
    r25_14 = (uint64_t)(r8_10 + UINT64_C(1));
    dcc_store_64_aligned((r0 + 40), r25_14);
    dcc_packet_to_line_word_put_digits(r0, r1_5);
    goto dcc_c_line_put_line;
arm_5:;
    memcpy(DCC_ALIGNED(r0), ((unsigned char *)constant_4943e2a3), 6);
    dcc_store_64_aligned((r0 + 40), UINT64_C(6));
    r4_6 = dcc_load_64_aligned((r9 + 16));
    r19_7 = (uint64_t)((1u * r4_6) << UINT64_C(1));
    memset(r2, 0u, 12);
    if (!((r4_6 ^ UINT64_C(9223372036854775808)) > (UINT64_C(18446744073709551615) ^ UINT64_C(9223372036854775808)))) goto arm_18;
    if (!(r4_6 == UINT64_C(0))) { r4_7 = UINT64_C(0); goto join; }
    goto dcc_packet_to_line_word_put_hex;
join:;
    r30 = (r9 + 8) + (ptrdiff_t)r4_7;
    r32 = *r30;
    r35 = r32 >> 4u;
    r37 = r35;
    r40 = ((unsigned char *)constant_2ee17754) + (ptrdiff_t)r37;
    r42 = *r40;
    r44 = (uint64_t)((1u * r4_7) << UINT64_C(1));
    r47 = r2 + (ptrdiff_t)r44;
    *r47 = r42;
    r51_2 = r32 & 15u;
    r53 = r51_2;
    r56 = ((unsigned char *)constant_2ee17754) + (ptrdiff_t)r53;
    r58 = *r56;
    *(r47 + 1) = r58;
    r69 = (uint64_t)(r4_7 + UINT64_C(1));
    if (r69 == r4_6) goto core_result_Result_unwrap__24_hex_error_FromHexError;
    r4_7 = r69;
    goto join;
arm_18:;
    DCC_TRAP();
    DCC_UNREACHABLE();
core_result_Result_unwrap__24_hex_error_FromHexError:;
    r49 = (uint64_t)(r19_7 + UINT64_C(18446744073709551608));
    r28 = r2 + (ptrdiff_t)r49;
    r3_2 = UINT64_C(0);
join_8:;
    r13_2 = r2 + (ptrdiff_t)r3_2;
    r15 = *r13_2;
    r17 = (r15 ^ 128u) > (255u ^ 128u);
    r24_15 = (uint64_t)(r19_7 - r3_2);
    r26 = r24_15 > UINT64_C(1);
    r4_8 = r26 & r17;
    if (!(r4_8)) goto join_2;
    r38 = *(r13_2 + 1);
    if (!((r38 ^ 128u) > (255u ^ 128u))) { r7_2 = UINT64_C(1); goto join_3; }
    dcc_store_ptr(r13, r2);
    dcc_store_64_aligned((r13 + 8), r19_7);
    if (!(r24_15 < UINT64_C(8))) goto join_4;
    r1_6 = r3_2;
join_5:;
    r5_2 = r2 + (ptrdiff_t)r1_6;
    r7_3 = *r5_2;
    if ((r7_3 ^ 128u) < (0u ^ 128u)) { r3_3 = r1_6; goto loop; }
    r17_2 = (uint64_t)(r1_6 + UINT64_C(1));
    if (r17_2 == r19_7) goto dcc_packet_to_line_word_put_hex;
    r1_6 = r17_2;
    goto join_5;
join_4:;
    r30_2 = dcc_load_64(r13_2);
    r9_2 = r30_2 & UINT64_C(9259542123273814144);
    if (!(r9_2 == UINT64_C(0))) goto core_slice_words_first_in_word;
    r12 = (uint64_t)(r3_2 + UINT64_C(8));
    common = r12;
    goto join_6;
core_slice_words_first_in_word:;
    r15_2 = dcc_cttz_64(r9_2);
    r203 = r15_2 >> UINT64_C(3);
    r22 = (uint64_t)(r203 + r3_2);
    it_3 = (uint64_t)(r3_2 + UINT64_C(8));
    if (r22 < it_3) { r3_3 = r22; goto loop; }
    common = r22;
join_6:;
    r66 = (uint64_t)(r19_7 - common);
    if (!(r66 > UINT64_C(31))) { r2_2 = common; goto loop_2; }
    r1_7 = common;
then:;
    r28_2 = r2 + (ptrdiff_t)r1_7;
    r30_3 = dcc_load_64(r28_2);
    r30_4 = dcc_load_64((r28_2 + 8));
    r9_3 = r30_4 | r30_3;
    r30_5 = dcc_load_64((r28_2 + 16));
    r1714 = r9_3 | r30_5;
    r30_6 = dcc_load_64((r28_2 + 24));
    r2315 = r1714 | r30_6;
    r29_2 = r2315 & UINT64_C(9259542123273814144);
    if (!(r29_2 == UINT64_C(0))) { r2_2 = r1_7; goto loop_2; }
    r21 = (uint64_t)(r1_7 + UINT64_C(32));
    r23 = core_slice_words_skip_far(r13, r21, r19_7);
    r6 = (uint64_t)(r19_7 - r23);
    if (r6 > UINT64_C(31)) { r1_7 = r23; goto then; }
    r2_2 = r23;
loop_2:;
    r2_3 = r2_2;
loop_3:;
    r29_3 = (uint64_t)(r19_7 - r2_3);
    if (!(r29_3 > UINT64_C(8))) goto after_2;
    r28_3 = r2 + (ptrdiff_t)r2_3;
    r30_7 = dcc_load_64(r28_3);
    r9_4 = r30_7 & UINT64_C(9259542123273814144);
    if (!(r9_4 == UINT64_C(0))) goto join_7;
    r12_2 = (uint64_t)(r2_3 + UINT64_C(8));
    r38_2 = r12_2;
    common_2 = r12_2;
    goto core_slice_words_first_in_word_2;
join_7:;
    r15_3 = dcc_cttz_64(r9_4);
    r203_2 = r15_3 >> UINT64_C(3);
    r22_2 = (uint64_t)(r203_2 + r2_3);
    it_4 = (uint64_t)(r2_3 + UINT64_C(8));
    r38_2 = it_4;
    common_2 = r22_2;
core_slice_words_first_in_word_2:;
    if (common_2 < r38_2) { r3_3 = common_2; goto loop; }
    r2_3 = r38_2;
    goto loop_3;
after_2:;
    r30_8 = dcc_load_64(r28);
    r9_5 = r30_8 & UINT64_C(9259542123273814144);
    if (r9_5 == UINT64_C(0)) goto dcc_packet_to_line_word_put_hex;
    r15_4 = dcc_cttz_64(r9_5);
    r203_3 = r15_4 >> UINT64_C(3);
    r22_3 = (uint64_t)(r203_3 + r49);
    r3_3 = r22_3;
loop:;
    if (r3_3 < r19_7) { r3_2 = r3_3; goto join_8; }
    goto dcc_packet_to_line_word_put_hex;
join_2:;
    if (r17) { r7_2 = UINT64_C(1); goto join_3; }
    if (r15 < 194u) goto arm_19;
    if (!(r15 < 224u)) goto else_2;
    if (r24_15 < UINT64_C(2)) goto arm_19;
    r24_16 = *(r13_2 + 1);
    if ((r24_16 ^ 128u) > (191u ^ 128u)) goto arm_19;
    r7_2 = UINT64_C(2);
    goto join_3;
else_2:;
    if (!(r15 < 240u)) goto else_3;
    if (r24_15 < UINT64_C(3)) goto arm_19;
    r38_3 = *(r13_2 + 1);
    r45 = *(r13_2 + 2);
    or_2 = (r38_3 ^ 128u) > (191u ^ 128u);
    v11 = (r45 ^ 128u) > (191u ^ 128u);
    or_3 = or_2 | v11;
    if (or_3) goto arm_19;
    r76 = r15;
    r78 = (uint32_t)((1u * r76) << UINT32_C(6));
    r82 = r38_3;
    r84 = (uint32_t)(r78 + UINT32_C(4294952832));
    r87 = (uint32_t)(r84 + r82);
    if (r87 < UINT32_C(32)) goto arm_19;
    r99 = r87 < UINT32_C(896);
    it_5 = r99 ? UINT64_C(0) : UINT64_C(3);
    if (r87 < UINT32_C(864)) { r7_2 = UINT64_C(3); goto join_3; }
    r7_4 = it_5;
    goto core_str_utf8_char_len_at;
else_3:;
    if (r24_15 < UINT64_C(4)) goto arm_19;
    r38_4 = *(r13_2 + 1);
    r45_2 = *(r13_2 + 2);
    r52_7 = *(r13_2 + 3);
    or_4 = (r38_4 ^ 128u) > (191u ^ 128u);
    v12 = (r45_2 ^ 128u) > (191u ^ 128u);
    or_5 = or_4 | v12;
    v13 = (r52_7 ^ 128u) > (191u ^ 128u);
    or_6 = or_5 | v13;
    if (or_6) goto arm_19;
    r95 = r15;
    r97 = (uint32_t)((1u * r95) << UINT32_C(6));
    r101 = r38_4;
    r103 = (uint32_t)(r97 + UINT32_C(4294951808));
    r106 = (uint32_t)(r103 + r101);
    r113 = r106 < UINT32_C(272);
    it_6 = r113 ? UINT64_C(4) : UINT64_C(0);
    if (r106 < UINT32_C(16)) goto arm_19;
    r7_4 = it_6;
core_str_utf8_char_len_at:;
    if (r7_4 == UINT64_C(0)) goto arm_19;
    r7_2 = r7_4;
join_3:;
    r95_2 = (uint64_t)(r7_2 + r3_2);
    r3_3 = r95_2;
    goto loop;
arm_19:;
    DCC_TRAP();
    DCC_UNREACHABLE();
dcc_packet_to_line_word_put_hex:;
    memcpy((r0 + 6), r2, (size_t)r19_7);
    r25_15 = (uint64_t)(r19_7 + UINT64_C(6));
    dcc_store_64_aligned((r0 + 40), r25_15);
    goto dcc_c_line_put_line;
noarm:;
    DCC_UNREACHABLE();
dcc_c_line_put_line:;
    r6_2 = dcc_load_64_aligned((r0 + 40));
    memset(a2, 0u, 41);
    memcpy(a2, DCC_ALIGNED(r0), (size_t)r6_2);
    r6_3 = 0u;
    goto dcc_c_line_dcc_line;
arm:;
    v14 = *(r5 + 1);
    v15 = v14 == 0u;
    it_7 = v15 ? 1u : 2u;
    r6_3 = it_7;
dcc_c_line_dcc_line:;
    return r6_3;
}

/* dcc_plain */
uint8_t dcc_plain(const uint8_t *frame, uint64_t len, char text[DCC_PLAIN]) {
    unsigned char *a0 = (unsigned char *)frame;
    uint64_t a1 = len;
    unsigned char *a2 = (unsigned char *)text;
    uint16_t r17, v1, v2, r27, r31, v4, v9, v10, it, r29, r321, r1_5, r37, r39, it_2, v16;
    uint32_t r54, r1_3, r1_4, r1_6, r1_7, r59;
    uint64_t r4_5, r3, r3_3, r45, r4_4, v13, r23, r50, r4_8;
    uint8_t r6_2, r8, r1, r13, r16, v3, r26, r30, v5, v6, r53, v7, v8, r53_2, r49, r61, r19, r2, r4_7, r58, v14,
        v15;
    unsigned char *r4_6, *r4;
    uint64_t place_0[33];
    unsigned char *const r3_2 = (unsigned char *)place_0;
    uint32_t place_1[7];
    unsigned char *const r3_5 = (unsigned char *)place_1;
    unsigned char *const r3_4 = (unsigned char *)place_1;
    uint32_t place_2[7];
    unsigned char *const r12 = (unsigned char *)place_2;
    unsigned char *const r6 = (unsigned char *)place_2;
    uint64_t place_3[3];
    unsigned char *const r0 = (unsigned char *)place_3;
    uint64_t place_4[3];
    unsigned char *const r4_3 = (unsigned char *)place_4;
    uint64_t place_5[3];
    unsigned char *const r4_2 = (unsigned char *)place_5;
    uint16_t place_6[4];
    unsigned char *const r1_2 = (unsigned char *)place_6;
    uint16_t place_7[4];
    unsigned char *const r5 = (unsigned char *)place_7;
    r1 = a0 == (unsigned char *)0;
    r3 = r1 ? UINT64_C(4096) : UINT64_C(0);
    r4 = a0 + (ptrdiff_t)r3;
    memset(DCC_ALIGNED(r3_2), 0u, 264);
    memset(DCC_ALIGNED(r4_2), 0u, 24);
    dcc_wire_frame_Frame_of(r4_2, r4, a1);
    r13 = *r4_2;
    if (!(r13 == 0u)) goto arm;
    r3_3 = dcc_load_64_aligned((r4_2 + 16));
    dcc_packet_packet_Packet_read(r4_3, (r4_2 + 8));
    r16 = *r4_3;
    r17 = r16;
    dcc_store_16_aligned(r0, r17);
    v1 = dcc_load_16_aligned((r4_3 + 2));
    dcc_store_16_aligned((r0 + 2), v1);
    v2 = dcc_load_16_aligned((r4_3 + 4));
    dcc_store_16_aligned((r0 + 4), v2);
    v3 = *(r4_3 + 6);
    *(r0 + 6) = v3;
    memcpy((r0 + 7), (r4_3 + 7), 17);
    dcc_service_packet_ServicePacket_read(r5, (r4_2 + 8));
    r26 = *r5;
    r27 = r26;
    dcc_store_16_aligned(r1_2, r27);
    r30 = *(r5 + 2);
    r31 = r30;
    dcc_store_16_aligned((r1_2 + 2), r31);
    v4 = dcc_load_16_aligned((r5 + 4));
    dcc_store_16_aligned((r1_2 + 4), v4);
    v5 = *(r5 + 6);
    *(r1_2 + 6) = v5;
    v6 = *(r5 + 7);
    *(r1_2 + 7) = v6;
    r45 = (uint64_t)(r3_3 + UINT64_C(18446744073709551615));
    dcc_plain_packet_from_bytes_standard_read(r6, (r4_2 + 8), r45);
    r53 = *r6;
    r54 = r53;
    dcc_store_32_aligned(r3_4, r54);
    v7 = *(r6 + 4);
    *(r3_4 + 4) = v7;
    v8 = *(r6 + 5);
    *(r3_4 + 5) = v8;
    v9 = dcc_load_16_aligned((r6 + 6));
    dcc_store_16_aligned((r3_4 + 6), v9);
    memcpy(DCC_ALIGNED((r3_4 + 8)), DCC_ALIGNED((r6 + 8)), 20);
    switch (r16) {
    case 0u: goto arm_2;
    case 1u: goto arm_3;
    case 2u: goto arm_4;
    case 3u: goto arm_5;
    case 4u: goto arm_6;
    default: goto noarm;
    }
arm_2:;
    dcc_plain_text_append(r3_2, ((unsigned char *)constant_992c05ee), UINT64_C(4));
    goto dcc_plain_any_bytes_put_plain_text_of_bytes;
arm_3:;
    dcc_plain_words_append_address(r3_2, (r0 + 2));
    dcc_plain_text_append(r3_2, ((unsigned char *)constant_36dfff28), UINT64_C(2));
    dcc_plain_words_append_instruction(r3_2, (r0 + 2), (r0 + 6));
    goto dcc_plain_any_bytes_put_plain_text_of_bytes;
arm_4:;
    v10 = v2 & 256u;
    r53_2 = v10 != 0u;
    dcc_plain_text_append(r3_2, ((unsigned char *)constant_4df15fd7), UINT64_C(6));
    r1_3 = v1;
    dcc_plain_text_append_digits(r3_2, r1_3);
    dcc_plain_text_append(r3_2, ((unsigned char *)constant_aee597a4), UINT64_C(9));
    it = v2 & 255u;
    r1_4 = it;
    dcc_plain_text_append_digits(r3_2, r1_4);
    dcc_plain_words_append_switch(r3_2, r53_2);
    switch (v1) {
    case 0u: goto dcc_plain_any_bytes_put_plain_text_of_bytes;
    case 511u: goto arm_7;
    default: goto default_2;
    }
arm_7:;
    dcc_plain_text_append(r3_2, ((unsigned char *)constant_bff2eb0d), UINT64_C(12));
    goto dcc_plain_any_bytes_put_plain_text_of_bytes;
default_2:;
    dcc_plain_text_append(r3_2, ((unsigned char *)constant_aba6ddf1), UINT64_C(10));
    r29 = (uint16_t)((1u * v1) << 2u);
    r321 = v2 >> 1u;
    r1_5 = r321 & 127u;
    r37 = (uint16_t)(r29 + 65533u);
    r39 = (uint16_t)(r37 + r1_5);
    r1_6 = r39;
    dcc_plain_text_append_digits(r3_2, r1_6);
    goto dcc_plain_any_bytes_put_plain_text_of_bytes;
arm_5:;
    dcc_plain_words_append_signal_name(r3_2, (r0 + 2));
    dcc_plain_text_append(r3_2, ((unsigned char *)constant_373a7624), UINT64_C(9));
    it_2 = v2 & 255u;
    r1_7 = it_2;
    dcc_plain_text_append_digits(r3_2, r1_7);
    goto dcc_plain_any_bytes_put_plain_text_of_bytes;
arm_6:;
    if (!(r26 == 1u)) goto arm_8;
    dcc_plain_text_append(r3_2, ((unsigned char *)constant_b69e8c0e), UINT64_C(24));
    switch (r30) {
    case 0u: goto arm_9;
    case 1u: goto arm_10;
    case 2u: goto arm_11;
    case 3u: goto arm_12;
    default: goto noarm_2;
    }
arm_9:;
    dcc_plain_words_append_cv_write(r3_2, (r1_2 + 4), v5);
    goto dcc_plain_any_bytes_put_plain_text_of_bytes;
arm_10:;
    dcc_plain_words_append_cv_verify(r3_2, (r1_2 + 4), v5);
    goto dcc_plain_any_bytes_put_plain_text_of_bytes;
arm_11:;
    r49 = v6;
    dcc_plain_words_append_cv_bit_write(r3_2, (r1_2 + 4), (r1_2 + 6), r49);
    goto dcc_plain_any_bytes_put_plain_text_of_bytes;
arm_12:;
    r61 = v6;
    dcc_plain_words_append_cv_bit_verify(r3_2, (r1_2 + 4), (r1_2 + 6), r61);
    goto dcc_plain_any_bytes_put_plain_text_of_bytes;
noarm_2:;
    DCC_UNREACHABLE();
arm_8:;
    r4_4 = dcc_load_64_aligned((r0 + 16));
    dcc_plain_words_append_other(r3_2, (r0 + 8), r4_4, r3_4);
    goto dcc_plain_any_bytes_put_plain_text_of_bytes;
noarm:;
    DCC_UNREACHABLE();
dcc_plain_any_bytes_put_plain_text_of_bytes:;
    goto arm_13;
arm:;
    r19 = *(r4_2 + 1);
    if (!(r19 == 1u)) goto arm_14;
    r8 = 2u;
    goto dcc_c_plain_dcc_plain;
arm_14:;
    v13 = (uint64_t)(a1 + UINT64_C(18446744073709551600));
    if (v13 < UINT64_C(18446744073709551607)) goto v17;
    r6_2 = 0u;
    r4_5 = a1;
    r4_6 = r4;
arm_15:;
    r23 = (uint64_t)(r4_5 + UINT64_C(18446744073709551615));
    r2 = *r4_6;
    r4_7 = r2 ^ r6_2;
    if (!(r23 == UINT64_C(0))) { r6_2 = r4_7; r4_5 = r23; r4_6 = (r4_6 + 1); goto arm_15; }
    if (!(r2 == r6_2)) goto arm_16;
    r50 = (uint64_t)(a1 + UINT64_C(18446744073709551615));
    dcc_plain_packet_from_bytes_standard_read(r12, r4, r50);
    r58 = *r12;
    r59 = r58;
    dcc_store_32_aligned(r3_5, r59);
    v14 = *(r12 + 4);
    *(r3_5 + 4) = v14;
    v15 = *(r12 + 5);
    *(r3_5 + 5) = v15;
    v16 = dcc_load_16_aligned((r12 + 6));
    dcc_store_16_aligned((r3_5 + 6), v16);
    memcpy(DCC_ALIGNED((r3_5 + 8)), DCC_ALIGNED((r12 + 8)), 20);
    dcc_plain_words_append_other(r3_2, r4, a1, r3_5);
arm_13:;
    r4_8 = dcc_load_64_aligned((r3_2 + 256));
    memset(a2, 0u, 256);
    memcpy(a2, DCC_ALIGNED(r3_2), (size_t)r4_8);
    r8 = 0u;
    goto dcc_c_plain_dcc_plain;
arm_16:;
    r8 = 2u;
    goto dcc_c_plain_dcc_plain;
v17:;
    r8 = 1u;
dcc_c_plain_dcc_plain:;
    return r8;
}

/* dcc_read */
uint8_t dcc_read(const uint8_t *frame, uint64_t len, dcc_packet *packet) {
    unsigned char *a0 = (unsigned char *)frame;
    uint64_t a1 = len;
    unsigned char *a2 = (unsigned char *)packet;
    uint16_t r3_4, r3_2, r3_3, r4_7, r2_4, r1_4, r43, r1_5, r49, r1_6, v5, v7, r67, r1_7, r75;
    uint64_t r4_2, r3, v0, r23, r10, v3;
    uint8_t r6, r5, r1, r2, r4_4, r41, r46, r84, r96, r120, v1, r11, r4_5, r4_6, r4_8, r4_9, r2_2, r2_3, r1_2, r1_3,
        switch_3, r35, r37, r39, r44, r51, v4, it, r122, r51_2, r55, v6, r68, r70;
    unsigned char *r4_3, *r4, *switch_2;
    uint16_t place_0[6];
    unsigned char *const r5_2 = (unsigned char *)place_0;
    r1 = a0 == (unsigned char *)0;
    r3 = r1 ? UINT64_C(4096) : UINT64_C(0);
    r4 = a0 + (ptrdiff_t)r3;
    v0 = (uint64_t)(a1 + UINT64_C(18446744073709551609));
    if (v0 < UINT64_C(18446744073709551612)) { r5 = 1u; goto dcc_c_packet_dcc_read; }
    r6 = 0u;
    r4_2 = a1;
    r4_3 = r4;
arm:;
    r23 = (uint64_t)(r4_2 + UINT64_C(18446744073709551615));
    r2 = *r4_3;
    r4_4 = r2 ^ r6;
    if (!(r23 == UINT64_C(0))) { r6 = r4_4; r4_2 = r23; r4_3 = (r4_3 + 1); goto arm; }
    if (!(r2 == r6)) { r5 = 2u; goto dcc_c_packet_dcc_read; }
    *a2 = 12u;
    r10 = (uint64_t)(a1 + UINT64_C(18446744073709551615));
    memset((a2 + 1), 0u, 17);
    if (!(r10 == UINT64_C(2))) goto join;
    r41 = *r4;
    if (!(r41 == 255u)) goto default_2;
    r46 = *(r4 + 1);
    if (r46 == 0u) goto arm_2;
    goto after;
default_2:;
    if (!((r41 ^ 128u) < (192u ^ 128u))) goto after;
    r84 = *(r4 + 1);
    if ((r84 ^ 128u) > (255u ^ 128u)) { r5 = 0u; goto dcc_c_packet_dcc_read; }
    goto arm_3;
join:;
    if (!(a1 < UINT64_C(5))) goto after;
    r96 = *r4;
    if (!((r96 ^ 128u) < (192u ^ 128u))) goto after;
    r120 = *(r4 + 1);
    v1 = r120 & 137u;
    if (v1 == 1u) goto arm_4;
    r5 = 0u;
    goto dcc_c_packet_dcc_read;
after:;
    memset(r5_2, 0u, 12);
    dcc_packet_from_frame_read_loco(r5_2, r4, r10);
    r11 = *r5_2;
    if (r11 == 1u) goto arm_5;
    r5 = 0u;
    goto dcc_c_packet_dcc_read;
arm_2:;
    *a2 = 0u;
    r5 = 0u;
    goto dcc_c_packet_dcc_read;
arm_5:;
    r3_2 = dcc_load_16_aligned((r5_2 + 2));
    r3_3 = dcc_load_16_aligned((r5_2 + 4));
    r4_5 = *(r5_2 + 6);
    r4_6 = *(r5_2 + 7);
    r4_7 = dcc_load_16_aligned((r5_2 + 8));
    r4_8 = *(r5_2 + 10);
    r4_9 = *(r5_2 + 11);
    r2_2 = (uint8_t)(r4_7);
    r2_3 = (uint8_t)(r3_2);
    *(a2 + 1) = r2_3;
    switch (r2_3) {
    case 0u: r3_4 = 0u; goto dcc_c_packet_address_number;
    case 1u: goto arm_6;
    case 2u: goto arm_7;
    default: goto noarm;
    }
arm_6:;
    r2_4 = r3_2 >> 8u;
    r3_4 = r2_4;
    goto dcc_c_packet_address_number;
arm_7:;
    r3_4 = r3_3;
    goto dcc_c_packet_address_number;
noarm:;
    DCC_UNREACHABLE();
dcc_c_packet_address_number:;
    dcc_store_16_aligned((a2 + 2), r3_4);
    switch (r4_5) {
    case 0u: goto arm_8;
    case 1u: goto arm_9;
    case 2u: goto arm_10;
    case 3u: goto arm_11;
    case 4u: goto arm_12;
    case 5u: goto arm_13;
    case 6u: goto arm_14;
    case 7u: goto arm_15;
    case 8u: goto arm_16;
    default: goto noarm_2;
    }
arm_8:;
    *a2 = 1u;
    r5 = 0u;
    goto dcc_c_packet_dcc_read;
arm_9:;
    *a2 = 2u;
    r1_2 = r4_6 & 1u;
    *(a2 + 4) = r1_2;
    *(a2 + 5) = r2_2;
    r5 = 0u;
    goto dcc_c_packet_dcc_read;
arm_10:;
    *a2 = 3u;
    r1_3 = r4_6 & 1u;
    *(a2 + 4) = r1_3;
    *(a2 + 5) = r2_2;
    r5 = 0u;
    goto dcc_c_packet_dcc_read;
arm_11:;
    *a2 = 4u;
    v3 = r4_6;
    switch_2 = ((unsigned char *)switch_table_dcc_read) + (ptrdiff_t)v3;
    switch_3 = *switch_2;
    *(a2 + 6) = switch_3;
    *(a2 + 5) = r2_2;
    r5 = 0u;
    goto dcc_c_packet_dcc_read;
arm_12:;
    *a2 = 5u;
    *(a2 + 7) = r4_6;
    *(a2 + 8) = r2_2;
    r5 = 0u;
    goto dcc_c_packet_dcc_read;
arm_13:;
    *a2 = 6u;
    dcc_store_16_aligned((a2 + 10), r4_7);
    *(a2 + 12) = r4_8;
    r5 = 0u;
    goto dcc_c_packet_dcc_read;
arm_14:;
    *a2 = 7u;
    dcc_store_16_aligned((a2 + 10), r4_7);
    *(a2 + 12) = r4_8;
    r5 = 0u;
    goto dcc_c_packet_dcc_read;
arm_15:;
    *a2 = 8u;
    dcc_store_16_aligned((a2 + 10), r4_7);
    *(a2 + 13) = r4_8;
    *(a2 + 14) = r4_9;
    r5 = 0u;
    goto dcc_c_packet_dcc_read;
arm_16:;
    *a2 = 9u;
    dcc_store_16_aligned((a2 + 10), r4_7);
    *(a2 + 13) = r4_8;
    *(a2 + 14) = r4_9;
    r5 = 0u;
    goto dcc_c_packet_dcc_read;
noarm_2:;
    DCC_UNREACHABLE();
arm_3:;
    r35 = r84 >> 4u;
    r37 = r35 & 7u;
    r39 = r37 ^ 7u;
    r1_4 = r39;
    r43 = (uint16_t)((1u * r1_4) << 6u);
    r44 = r41 & 63u;
    r1_5 = r44;
    r49 = r43 | r1_5;
    r51 = r84 & 7u;
    v4 = r84 >> 3u;
    it = v4 & 1u;
    *a2 = 10u;
    dcc_store_16_aligned((a2 + 2), r49);
    *(a2 + 15) = r51;
    *(a2 + 8) = it;
    r5 = 0u;
    goto dcc_c_packet_dcc_read;
arm_4:;
    r122 = *(r4 + 2);
    r51_2 = r120 >> 4u;
    r55 = r51_2 ^ 7u;
    r1_6 = r55;
    v5 = (uint16_t)((1u * r1_6) << 8u);
    v6 = (uint8_t)((1u * r96) << 2u);
    v7 = v6;
    r67 = v5 | v7;
    r68 = r120 >> 1u;
    r70 = r68 & 3u;
    r1_7 = r70;
    r75 = r67 | r1_7;
    *a2 = 11u;
    dcc_store_16_aligned((a2 + 2), r75);
    *(a2 + 16) = r122;
    r5 = 0u;
dcc_c_packet_dcc_read:;
    return r5;
}

/* dcc_push */
uint8_t dcc_push(dcc_framer *framer, uint16_t us, dcc_outcome *outcome) {
    unsigned char *a0 = (unsigned char *)framer;
    uint16_t a1 = us;
    unsigned char *a2 = (unsigned char *)outcome;
    uint16_t v0;
    uint64_t r5, r11, r13, r3, r5_2, r11_2, r13_2;
    uint8_t r30_3, common, r9, r10, r7, v1, r7_2, r9_2, r10_2, r22, r23, r32, r28, r30, r34, r47, r54, r57, r9_3,
        r10_3, r7_3, r9_4, r10_4, r22_2, r23_2, r32_2, r28_2, r30_2, r28_3, r30_4, r47_2, r54_2, r57_2, r9_5, r10_5;
    unsigned char *r27, *r8, *r8_2;
    if (a1 < 52u) goto arm;
    if (a1 < 65u) goto arm_2;
    v0 = (uint16_t)(a1 + 65446u);
    if (v0 < 9911u) goto arm_3;
    goto arm;
arm_2:;
    r9 = *a0;
    r10 = r9;
    if (r10) goto arm_4;
    r7 = *(a0 + 1);
    v1 = dcc_umin_8(r7, 19u);
    r7_2 = (uint8_t)(v1 + 1u);
    *(a0 + 1) = r7_2;
    common = 0u;
    goto dcc_c_framer_dcc_push;
arm_4:;
    r9_2 = *(a0 + 2);
    r10_2 = r9_2;
    if (!(r10_2)) goto then;
    r22 = *(a0 + 3);
    r23 = r22;
    if (!(r23)) goto join;
    r32 = *(a0 + 6);
    if (r32 == 0u) goto join;
    goto join_2;
then:;
    *(a0 + 2) = 1u;
    *(a0 + 3) = 1u;
    common = 0u;
    goto dcc_c_framer_dcc_push;
join_2:;
    *(a0 + 2) = 0u;
    r28 = *(a0 + 5);
    r30 = (uint8_t)((1u * r28) << 1u);
    r34 = r30 | 1u;
    if (!(r32 < 8u)) goto else_2;
    *(a0 + 5) = r34;
    r47 = (uint8_t)(r32 + 1u);
    *(a0 + 6) = r47;
    common = 0u;
    goto dcc_c_framer_dcc_push;
else_2:;
    r5 = dcc_load_64_aligned((a0 + 16));
    r8 = (a0 + 8) + (ptrdiff_t)r5;
    *r8 = r34;
    r11 = dcc_load_64_aligned((a0 + 16));
    r13 = (uint64_t)(r11 + UINT64_C(1));
    dcc_store_64_aligned((a0 + 16), r13);
    r54 = *(a0 + 4);
    r57 = r54 ^ r34;
    *(a0 + 4) = r57;
    *(a0 + 5) = 0u;
    *(a0 + 6) = 0u;
    common = 0u;
    goto dcc_c_framer_dcc_push;
arm_3:;
    r9_3 = *a0;
    r10_3 = r9_3;
    if (r10_3) goto arm_5;
    r7_3 = *(a0 + 1);
    if (!(r7_3 > 19u)) goto else_3;
    *a0 = 1u;
    *(a0 + 2) = 1u;
    dcc_store_32((a0 + 3), UINT32_C(0));
    memset((a0 + 8), 0u, 16);
    common = 0u;
    goto dcc_c_framer_dcc_push;
else_3:;
    *(a0 + 1) = 0u;
    common = 0u;
    goto dcc_c_framer_dcc_push;
arm_5:;
    r9_4 = *(a0 + 2);
    r10_4 = r9_4;
    if (!(r10_4)) goto then_2;
    r22_2 = *(a0 + 3);
    r23_2 = r22_2;
    if (r23_2) goto join;
    r32_2 = *(a0 + 6);
    if (!(r32_2 == 0u)) goto join_3;
    r3 = dcc_load_64_aligned((a0 + 16));
    if (!(r3 < UINT64_C(6))) goto join;
    *(a0 + 2) = 0u;
    r28_2 = *(a0 + 5);
    r30_2 = (uint8_t)((1u * r28_2) << 1u);
    r30_3 = r30_2;
    r27 = (a0 + 5);
    goto then_3;
then_2:;
    *(a0 + 2) = 1u;
    *(a0 + 3) = 0u;
    common = 0u;
    goto dcc_c_framer_dcc_push;
join_3:;
    *(a0 + 2) = 0u;
    r28_3 = *(a0 + 5);
    r30_4 = (uint8_t)((1u * r28_3) << 1u);
    if (!(r32_2 < 8u)) goto else_4;
    r30_3 = r30_4;
    r27 = (a0 + 5);
then_3:;
    *r27 = r30_3;
    r47_2 = (uint8_t)(r32_2 + 1u);
    *(a0 + 6) = r47_2;
    common = 0u;
    goto dcc_c_framer_dcc_push;
else_4:;
    r5_2 = dcc_load_64_aligned((a0 + 16));
    r8_2 = (a0 + 8) + (ptrdiff_t)r5_2;
    *r8_2 = r30_4;
    r11_2 = dcc_load_64_aligned((a0 + 16));
    r13_2 = (uint64_t)(r11_2 + UINT64_C(1));
    dcc_store_64_aligned((a0 + 16), r13_2);
    r54_2 = *(a0 + 4);
    r57_2 = r54_2 ^ r30_4;
    *(a0 + 4) = r57_2;
    *(a0 + 5) = 0u;
    *(a0 + 6) = 0u;
    common = 0u;
    goto dcc_c_framer_dcc_push;
arm:;
    r9_5 = *a0;
    r10_5 = r9_5;
    if (r10_5) goto join;
    *(a0 + 1) = 0u;
    common = 0u;
    goto dcc_c_framer_dcc_push;
join:;
    dcc_c_framer_push_apart(a0, a1, a2);
    common = 1u;
dcc_c_framer_dcc_push:;
    return common;
}

/* dcc_push_many */
uint8_t dcc_push_many(dcc_framer *framer, const uint16_t *halves, uint64_t len, dcc_outcome *outcome,
                      uint64_t *taken) {
    unsigned char *a0 = (unsigned char *)framer;
    unsigned char *a1 = (unsigned char *)halves;
    uint64_t a2 = len;
    unsigned char *a3 = (unsigned char *)outcome;
    unsigned char *a4 = (unsigned char *)taken;
    uint16_t r30, v0;
    uint64_t r3_2, storemerge, r3, r25, r33, r5, r11, r13, r3_3, r5_2, r11_2, r13_2;
    uint8_t r30_4, r9_2, common, r1, r9, r9_3, r9_4, r10, r7, v1, r7_2, r9_5, r10_2, r22, r23, r32, r28_2, r30_2,
        r34, r47, r54, r57, r10_3, r7_3, r9_6, r10_4, r22_2, r23_2, r32_2, r28_3, r30_3, r28_4, r30_5, r47_2, r54_2,
        r57_2, r10_5;
    unsigned char *r4, *r28, *r8, *r8_2;
    r1 = a1 == (unsigned char *)0;
    r3 = r1 ? UINT64_C(4096) : UINT64_C(0);
    r4 = a1 + (ptrdiff_t)r3;
    if (a2 == UINT64_C(0)) { storemerge = UINT64_C(0); common = 0u; goto dcc_c_push_many_dcc_push_many; }
    r3_2 = UINT64_C(0);
join_5:;
    r25 = (uint64_t)((1u * r3_2) << UINT64_C(1));
    r28 = r4 + (ptrdiff_t)r25;
    r30 = dcc_load_16_aligned(r28);
    r33 = (uint64_t)(r3_2 + UINT64_C(1));
    if (!(r30 < 52u)) goto join;
    r9 = *a0;
    r9_2 = r9;
    goto arm;
join:;
    if (r30 < 65u) goto arm_2;
    v0 = (uint16_t)(r30 + 65446u);
    r9_3 = *a0;
    if (v0 < 9911u) goto arm_3;
    r9_2 = r9_3;
    goto arm;
arm_2:;
    r9_4 = *a0;
    r10 = r9_4;
    if (r10) goto arm_4;
    r7 = *(a0 + 1);
    v1 = dcc_umin_8(r7, 19u);
    r7_2 = (uint8_t)(v1 + 1u);
    *(a0 + 1) = r7_2;
    goto dcc_wire_kept_KeptFramer_pass_half;
arm_4:;
    r9_5 = *(a0 + 2);
    r10_2 = r9_5;
    if (!(r10_2)) goto then;
    r22 = *(a0 + 3);
    r23 = r22;
    if (!(r23)) goto join_2;
    r32 = *(a0 + 6);
    if (r32 == 0u) goto join_2;
    goto join_3;
then:;
    *(a0 + 2) = 1u;
    *(a0 + 3) = 1u;
    goto dcc_wire_kept_KeptFramer_pass_half;
join_3:;
    *(a0 + 2) = 0u;
    r28_2 = *(a0 + 5);
    r30_2 = (uint8_t)((1u * r28_2) << 1u);
    r34 = r30_2 | 1u;
    if (!(r32 < 8u)) goto else_2;
    *(a0 + 5) = r34;
    r47 = (uint8_t)(r32 + 1u);
    *(a0 + 6) = r47;
    goto dcc_wire_kept_KeptFramer_pass_half;
else_2:;
    r5 = dcc_load_64_aligned((a0 + 16));
    r8 = (a0 + 8) + (ptrdiff_t)r5;
    *r8 = r34;
    r11 = dcc_load_64_aligned((a0 + 16));
    r13 = (uint64_t)(r11 + UINT64_C(1));
    dcc_store_64_aligned((a0 + 16), r13);
    r54 = *(a0 + 4);
    r57 = r54 ^ r34;
    *(a0 + 4) = r57;
    *(a0 + 5) = 0u;
    *(a0 + 6) = 0u;
    goto dcc_wire_kept_KeptFramer_pass_half;
arm_3:;
    r10_3 = r9_3;
    if (r10_3) goto arm_5;
    r7_3 = *(a0 + 1);
    if (!(r7_3 > 19u)) goto else_3;
    *a0 = 1u;
    *(a0 + 2) = 1u;
    dcc_store_32((a0 + 3), UINT32_C(0));
    memset((a0 + 8), 0u, 16);
    goto dcc_wire_kept_KeptFramer_pass_half;
else_3:;
    *(a0 + 1) = 0u;
    goto dcc_wire_kept_KeptFramer_pass_half;
arm_5:;
    r9_6 = *(a0 + 2);
    r10_4 = r9_6;
    if (!(r10_4)) goto then_2;
    r22_2 = *(a0 + 3);
    r23_2 = r22_2;
    if (r23_2) goto join_2;
    r32_2 = *(a0 + 6);
    if (!(r32_2 == 0u)) goto join_4;
    r3_3 = dcc_load_64_aligned((a0 + 16));
    if (!(r3_3 < UINT64_C(6))) goto join_2;
    *(a0 + 2) = 0u;
    r28_3 = *(a0 + 5);
    r30_3 = (uint8_t)((1u * r28_3) << 1u);
    r30_4 = r30_3;
    goto then_3;
then_2:;
    *(a0 + 2) = 1u;
    *(a0 + 3) = 0u;
    goto dcc_wire_kept_KeptFramer_pass_half;
join_4:;
    *(a0 + 2) = 0u;
    r28_4 = *(a0 + 5);
    r30_5 = (uint8_t)((1u * r28_4) << 1u);
    if (!(r32_2 < 8u)) goto else_4;
    r30_4 = r30_5;
then_3:;
    *(a0 + 5) = r30_4;
    r47_2 = (uint8_t)(r32_2 + 1u);
    *(a0 + 6) = r47_2;
    goto dcc_wire_kept_KeptFramer_pass_half;
else_4:;
    r5_2 = dcc_load_64_aligned((a0 + 16));
    r8_2 = (a0 + 8) + (ptrdiff_t)r5_2;
    *r8_2 = r30_5;
    r11_2 = dcc_load_64_aligned((a0 + 16));
    r13_2 = (uint64_t)(r11_2 + UINT64_C(1));
    dcc_store_64_aligned((a0 + 16), r13_2);
    r54_2 = *(a0 + 4);
    r57_2 = r54_2 ^ r30_5;
    *(a0 + 4) = r57_2;
    *(a0 + 5) = 0u;
    *(a0 + 6) = 0u;
    goto dcc_wire_kept_KeptFramer_pass_half;
arm:;
    r10_5 = r9_2;
    if (r10_5) goto join_2;
    *(a0 + 1) = 0u;
dcc_wire_kept_KeptFramer_pass_half:;
    if (r33 == a2) { storemerge = a2; common = 0u; goto dcc_c_push_many_dcc_push_many; }
    r3_2 = r33;
    goto join_5;
join_2:;
    dcc_c_framer_push_apart(a0, r30, a3);
    storemerge = r33;
    common = 1u;
dcc_c_push_many_dcc_push_many:;
    dcc_store_64_aligned(a4, storemerge);
    return common;
}

/* dcc_push_run */
uint8_t dcc_push_run(dcc_framer *framer, uint16_t us, uint32_t n, dcc_outcome *outcome) {
    unsigned char *a0 = (unsigned char *)framer;
    uint16_t a1 = us;
    uint32_t a2 = n;
    unsigned char *a3 = (unsigned char *)outcome;
    uint16_t v0;
    uint32_t r3_2, r3_3, r31;
    uint64_t r5, r11, r13_2, r3_4, r5_2, r11_2, r13_3;
    uint8_t r2_2, r6, r30_3, r6_2, r2, r3, r7, spec, r13, a0_2, r7_2, r16, r7_3, v1, r7_4, r9, r10, r22, r23, r32,
        r28, r30, r34, r47, r54, r57, r7_5, r9_2, r10_2, r22_2, r23_2, r32_2, r28_2, r30_2, r28_3, r30_4, r47_2,
        r54_2, r57_2;
    unsigned char *r8, *r8_2;
    r3 = a1 < 52u;
    r7 = a1 < 65u;
    spec = r7 ? 20u : 0u;
    r13 = r3 ? 0u : spec;
    if (a2 == UINT32_C(0)) { r2 = 0u; goto dcc_c_framer_dcc_push_run; }
    v0 = (uint16_t)(a1 + 65446u);
    r2_2 = 0u;
    r3_2 = UINT32_C(0);
join_6:;
    a0_2 = *a0;
    r6 = a0_2;
    r3_3 = r3_2;
join_5:;
    r7_2 = r6;
    if (r7_2) goto join;
    r16 = *(a0 + 1);
    if (r16 == r13) { r2 = r2_2; goto dcc_c_framer_dcc_push_run; }
join:;
    r31 = (uint32_t)(r3_3 + UINT32_C(1));
    if (r3) goto arm;
    if (r7) goto arm_2;
    if (v0 < 9911u) goto arm_3;
    goto arm;
arm_2:;
    if (r7_2) goto arm_4;
    r7_3 = *(a0 + 1);
    v1 = dcc_umin_8(r7_3, 19u);
    r7_4 = (uint8_t)(v1 + 1u);
    *(a0 + 1) = r7_4;
    r6_2 = 0u;
    goto dcc_wire_kept_KeptFramer_pass_half;
arm_4:;
    r9 = *(a0 + 2);
    r10 = r9;
    if (!(r10)) goto then;
    r22 = *(a0 + 3);
    r23 = r22;
    if (!(r23)) goto join_2;
    r32 = *(a0 + 6);
    if (r32 == 0u) goto join_2;
    goto join_3;
then:;
    *(a0 + 2) = 1u;
    *(a0 + 3) = 1u;
    r6_2 = 1u;
    goto dcc_wire_kept_KeptFramer_pass_half;
join_3:;
    *(a0 + 2) = 0u;
    r28 = *(a0 + 5);
    r30 = (uint8_t)((1u * r28) << 1u);
    r34 = r30 | 1u;
    if (!(r32 < 8u)) goto else_2;
    *(a0 + 5) = r34;
    r47 = (uint8_t)(r32 + 1u);
    *(a0 + 6) = r47;
    r6_2 = 1u;
    goto dcc_wire_kept_KeptFramer_pass_half;
else_2:;
    r5 = dcc_load_64_aligned((a0 + 16));
    r8 = (a0 + 8) + (ptrdiff_t)r5;
    *r8 = r34;
    r11 = dcc_load_64_aligned((a0 + 16));
    r13_2 = (uint64_t)(r11 + UINT64_C(1));
    dcc_store_64_aligned((a0 + 16), r13_2);
    r54 = *(a0 + 4);
    r57 = r54 ^ r34;
    *(a0 + 4) = r57;
    *(a0 + 5) = 0u;
    *(a0 + 6) = 0u;
    r6_2 = 1u;
    goto dcc_wire_kept_KeptFramer_pass_half;
arm_3:;
    if (r7_2) goto arm_5;
    r7_5 = *(a0 + 1);
    if (!(r7_5 > 19u)) goto else_3;
    *a0 = 1u;
    *(a0 + 2) = 1u;
    dcc_store_32((a0 + 3), UINT32_C(0));
    memset((a0 + 8), 0u, 16);
    r6_2 = 1u;
    goto dcc_wire_kept_KeptFramer_pass_half;
else_3:;
    *(a0 + 1) = 0u;
    r6_2 = 0u;
    goto dcc_wire_kept_KeptFramer_pass_half;
arm_5:;
    r9_2 = *(a0 + 2);
    r10_2 = r9_2;
    if (!(r10_2)) goto then_2;
    r22_2 = *(a0 + 3);
    r23_2 = r22_2;
    if (r23_2) goto join_2;
    r32_2 = *(a0 + 6);
    if (!(r32_2 == 0u)) goto join_4;
    r3_4 = dcc_load_64_aligned((a0 + 16));
    if (!(r3_4 < UINT64_C(6))) goto join_2;
    *(a0 + 2) = 0u;
    r28_2 = *(a0 + 5);
    r30_2 = (uint8_t)((1u * r28_2) << 1u);
    r30_3 = r30_2;
    goto then_3;
then_2:;
    *(a0 + 2) = 1u;
    *(a0 + 3) = 0u;
    r6_2 = 1u;
    goto dcc_wire_kept_KeptFramer_pass_half;
join_4:;
    *(a0 + 2) = 0u;
    r28_3 = *(a0 + 5);
    r30_4 = (uint8_t)((1u * r28_3) << 1u);
    if (!(r32_2 < 8u)) goto else_4;
    r30_3 = r30_4;
then_3:;
    *(a0 + 5) = r30_3;
    r47_2 = (uint8_t)(r32_2 + 1u);
    *(a0 + 6) = r47_2;
    r6_2 = 1u;
    goto dcc_wire_kept_KeptFramer_pass_half;
else_4:;
    r5_2 = dcc_load_64_aligned((a0 + 16));
    r8_2 = (a0 + 8) + (ptrdiff_t)r5_2;
    *r8_2 = r30_4;
    r11_2 = dcc_load_64_aligned((a0 + 16));
    r13_3 = (uint64_t)(r11_2 + UINT64_C(1));
    dcc_store_64_aligned((a0 + 16), r13_3);
    r54_2 = *(a0 + 4);
    r57_2 = r54_2 ^ r30_4;
    *(a0 + 4) = r57_2;
    *(a0 + 5) = 0u;
    *(a0 + 6) = 0u;
    r6_2 = 1u;
    goto dcc_wire_kept_KeptFramer_pass_half;
arm:;
    if (r7_2) goto join_2;
    *(a0 + 1) = 0u;
    r6_2 = 0u;
dcc_wire_kept_KeptFramer_pass_half:;
    if (r31 < a2) { r6 = r6_2; r3_3 = r31; goto join_5; }
    r2 = r2_2;
    goto dcc_c_framer_dcc_push_run;
join_2:;
    dcc_c_framer_push_apart(a0, a1, a3);
    dcc_store_32_aligned(a3, r31);
    if (r31 < a2) { r2_2 = 1u; r3_2 = r31; goto join_6; }
    r2 = 1u;
dcc_c_framer_dcc_push_run:;
    return r2;
}

/* dcc_board_decoder_set_main_only */
void dcc_board_decoder_set_main_only(dcc_board_decoder *decoder, bool main_only) {
    unsigned char *a0 = (unsigned char *)decoder;
    uint8_t a1 = main_only;
    uint8_t r3;
    if (!(a1)) goto dcc_c_board_decoder_dcc_board_decoder_set_main_only;
    dcc_c_track_part_TrackPart_end_service((a0 + 1036), a0);
dcc_c_board_decoder_dcc_board_decoder_set_main_only:;
    r3 = a1;
    *(a0 + 1045) = r3;
    return;
}

/* dcc_decoder_set_main_only */
void dcc_decoder_set_main_only(dcc_decoder *decoder, bool main_only) {
    unsigned char *a0 = (unsigned char *)decoder;
    uint8_t a1 = main_only;
    uint8_t r3;
    if (!(a1)) goto dcc_c_decoder_dcc_decoder_set_main_only;
    dcc_c_track_part_TrackPart_end_service_2((a0 + 1072), a0);
dcc_c_decoder_dcc_decoder_set_main_only:;
    r3 = a1;
    *(a0 + 1081) = r3;
    return;
}

/* dcc_station_new */
uint8_t dcc_station_new(dcc_station *station, uint8_t queue, uint8_t slots, uint8_t repeats) {
    unsigned char *a0 = (unsigned char *)station;
    uint8_t a1 = queue;
    uint8_t a2 = slots;
    uint8_t a3 = repeats;
    uint8_t common, v0, or_2, v1, v2, or_3, v3, v4, spec;
    v0 = (uint8_t)(a1 + 255u);
    or_2 = v0 < 64u;
    v1 = (uint8_t)(a2 + 255u);
    v2 = (v1 ^ 128u) > (255u ^ 128u);
    or_3 = or_2 & v2;
    v3 = (uint8_t)(a3 + 255u);
    v4 = v3 < 8u;
    spec = or_3 & v4;
    if (!(spec)) { common = 1u; goto dcc_c_station_dcc_station_new; }
    *(a0 + 897) = 0u;
    *(a0 + 898) = a1;
    *(a0 + 1796) = 0u;
    *(a0 + 1797) = a2;
    *(a0 + 1798) = 0u;
    *(a0 + 1799) = 0u;
    *(a0 + 1800) = a3;
    common = 0u;
dcc_c_station_dcc_station_new:;
    return common;
}

/* dcc_loco_hears */
uint8_t dcc_loco_hears(const dcc_loco *loco, const uint8_t *frame, uint64_t len, bool *heard) {
    unsigned char *a0 = (unsigned char *)loco;
    unsigned char *a1 = (unsigned char *)frame;
    uint64_t a2 = len;
    unsigned char *a3 = (unsigned char *)heard;
    uint64_t r3;
    uint8_t r1, r10;
    unsigned char *r4;
    r1 = a1 == (unsigned char *)0;
    r3 = r1 ? UINT64_C(4096) : UINT64_C(0);
    r4 = a1 + (ptrdiff_t)r3;
    r10 = dcc_c_loco_registers_hear(a0, r4, a2, a3);
    return r10;
}

/* dcc_small_loco_hears */
uint8_t dcc_small_loco_hears(const dcc_small_loco *loco, const uint8_t *frame, uint64_t len, bool *heard) {
    unsigned char *a0 = (unsigned char *)loco;
    unsigned char *a1 = (unsigned char *)frame;
    uint64_t a2 = len;
    unsigned char *a3 = (unsigned char *)heard;
    uint64_t r3;
    uint8_t r1, r10;
    unsigned char *r4;
    r1 = a1 == (unsigned char *)0;
    r3 = r1 ? UINT64_C(4096) : UINT64_C(0);
    r4 = a1 + (ptrdiff_t)r3;
    r10 = dcc_c_loco_registers_hear(a0, r4, a2, a3);
    return r10;
}

/* dcc_station_forget */
uint8_t dcc_station_forget(dcc_station *station, uint8_t to, uint16_t address) {
    unsigned char *a0 = (unsigned char *)station;
    uint8_t a1 = to;
    uint16_t a2 = address;
    uint16_t v2, r1_3, r52, r54, r1_4, r63;
    uint64_t r0, r1, r1_2, r21, r1_5, r18, r15;
    uint8_t r10, r10_2, r4, r8, v1, r3_2, v3, v4, v5, r17, r5, r23, v7, or_2, or_3, r29, or_4, r58, r2, r4_2, r11,
        r2_2, r4_3, r2_3, r4_4, v8, switch_2;
    unsigned char *r24, *r21_2;
    uint8_t place_0[7];
    unsigned char *const r0_2 = (unsigned char *)place_0;
    uint16_t place_1[3];
    unsigned char *const r3 = (unsigned char *)place_1;
    dcc_c_packet_fields_address_of(r3, a1, a2);
    r8 = *r3;
    if (!(r8 == 0u)) goto arm;
    v1 = *(r3 + 3);
    v2 = dcc_load_16_aligned((r3 + 4));
    r3_2 = *(a0 + 1796);
    r1 = r3_2;
    if (r3_2 == 0u) { r4 = 0u; goto dcc_c_station_forget_dcc_station_forget; }
    v3 = *(r3 + 2);
    v4 = v3 == 2u;
    v5 = v3 == 1u;
    r10 = r3_2;
    r0 = UINT64_C(0);
join_2:;
    if (r10 == 0u) goto else_2;
    r17 = *(a0 + 1795);
    r1_2 = r17;
    r21 = (uint64_t)(1u * r1_2 * UINT64_C(7));
    r24 = (a0 + 899) + (ptrdiff_t)r21;
    r5 = *r24;
    if (r5 == 0u) goto join;
    r23 = *(r24 + 1);
    if (r23 == 0u) goto arm_2;
    if ((r23 ^ 128u) > (255u ^ 128u)) goto arm_3;
    v7 = (uint8_t)(r23 + 64u);
    or_2 = v7 < 40u;
    or_3 = or_2 ? v4 : 0u;
    if (or_3) goto arm_4;
    goto join;
arm_2:;
    if (v3 == 0u) goto dcc_c_station_ring_DccRingPacketRing_pop_front;
    goto join;
arm_3:;
    r29 = r23 == v1;
    or_4 = v5 ? r29 : 0u;
    if (or_4) goto dcc_c_station_ring_DccRingPacketRing_pop_front;
    goto join;
arm_4:;
    r1_3 = r23;
    r52 = (uint16_t)((1u * r1_3) << 8u);
    r54 = (uint16_t)(r52 + 16384u);
    r58 = *(r24 + 2);
    r1_4 = r58;
    r63 = r54 | r1_4;
    if (!(r63 == v2)) goto join;
dcc_c_station_ring_DccRingPacketRing_pop_front:;
    r2 = (uint8_t)(r17 + 1u);
    r4_2 = r2 & 127u;
    *(a0 + 1795) = r4_2;
    r11 = (uint8_t)(r10 + 255u);
    *(a0 + 1796) = r11;
    r10_2 = r11;
    goto dcc_station_forget_pass_first;
else_2:;
    goto dcc_c_station_ring_DccRingPacketRing_rotate;
join:;
    memcpy(r0_2, r24, 7);
    r2_2 = (uint8_t)(r17 + 1u);
    r4_3 = r2_2 & 127u;
    *(a0 + 1795) = r4_3;
    r2_3 = (uint8_t)(r17 + r10);
    r4_4 = r2_3 & 127u;
    r1_5 = r4_4;
    r18 = (uint64_t)(1u * r1_5 * UINT64_C(7));
    r21_2 = (a0 + 899) + (ptrdiff_t)r18;
    memcpy(r21_2, r0_2, 7);
dcc_c_station_ring_DccRingPacketRing_rotate:;
    r10_2 = r10;
dcc_station_forget_pass_first:;
    r15 = (uint64_t)(r0 + UINT64_C(1));
    if (r15 == r1) { r4 = 0u; goto dcc_c_station_forget_dcc_station_forget; }
    r10 = r10_2;
    r0 = r15;
    goto join_2;
arm:;
    v8 = *(r3 + 1);
    switch_2 = (uint8_t)(v8 + 1u);
    r4 = switch_2;
dcc_c_station_forget_dcc_station_forget:;
    return r4;
}

/* dcc_lost_push_many */
uint8_t dcc_lost_push_many(dcc_lost *finder, const uint16_t *halves, uint64_t len, dcc_lost_packet *packet,
                           uint64_t *taken) {
    unsigned char *a0 = (unsigned char *)finder;
    unsigned char *a1 = (unsigned char *)halves;
    uint64_t a2 = len;
    unsigned char *a3 = (unsigned char *)packet;
    unsigned char *a4 = (unsigned char *)taken;
    uint16_t r2_2, r7, r7_6, r29, v0, r4_2, r7_2, r17, r19, v1, r4_6, r7_7, r17_2, r19_2, v7, r23_3, v8, r35, v9,
        r47_3, v10;
    uint64_t r3_2, r3_6, storemerge, r3, r24, r1_2, r11_2, r5, r11_3, r13, r3_4, r5_2, r11_4, r13_2, r4_3, r1_4,
        r11_6, r1_5, r2_6, r16, r22_3, r331213, r33;
    uint8_t r30_3, r9_2, r4_4, v3, r1_3, spec, r2_3, r2_4, v5, v6, common, r1, r2, r3_3, r8, r9, r9_3, r9_4, r10,
        r7_3, v2, r7_4, r9_5, r10_2, r22, r23, r32, r28, r30, r34, r47, r54, r57, r10_3, r7_5, r9_6, r10_4, r22_2,
        r23_2, r32_2, r28_2, r30_2, r28_3, r30_4, r47_2, r54_2, r57_2, r10_5, r68, r18, r28_4, r29_2, r4_5, it,
        r5_3, r6, r11_5, v4, or_2, or_3, r2_5, r3_5, r19_4;
    unsigned char *r4, *r27, *r14, *r8_2, *r8_3, *r14_2, *r19_3;
    uint64_t place_0[7];
    unsigned char *const r0 = (unsigned char *)place_0;
    uint64_t place_1[6];
    unsigned char *const r4_7 = (unsigned char *)place_1;
    uint32_t place_2[7];
    unsigned char *const r11 = (unsigned char *)place_2;
    r1 = a1 == (unsigned char *)0;
    r3 = r1 ? UINT64_C(4096) : UINT64_C(0);
    r4 = a1 + (ptrdiff_t)r3;
    memset(DCC_ALIGNED(r11), 0u, 28);
    if (a2 == UINT64_C(0)) { storemerge = UINT64_C(0); common = 0u; goto dcc_c_lost_dcc_lost_push_many; }
    r3_2 = UINT64_C(0);
join_5:;
    r24 = (uint64_t)((1u * r3_2) << UINT64_C(1));
    r27 = r4 + (ptrdiff_t)r24;
    r29 = dcc_load_16_aligned(r27);
    memset(DCC_ALIGNED(r0), 0u, 56);
    r2 = *a0;
    r3_3 = r2;
    if (r3_3) { r2_2 = 0u; goto dcc_lost_heard_Heard_unused; }
    r8 = *(a0 + 24);
    v0 = r8;
    r2_2 = v0;
dcc_lost_heard_Heard_unused:;
    r4_2 = dcc_load_16_aligned((a0 + 802));
    if (!(r4_2 == 192u)) { r7 = r4_2; goto dcc_timing_recent_LastNumbers_make_room; }
    dcc_timing_recent_LastNumbers_move_to_front((a0 + 418));
    r7_2 = dcc_load_16_aligned((a0 + 802));
    r7 = r7_2;
dcc_timing_recent_LastNumbers_make_room:;
    r1_2 = r7;
    r11_2 = (uint64_t)((1u * r1_2) << UINT64_C(1));
    r14 = (a0 + 418) + (ptrdiff_t)r11_2;
    dcc_store_16_aligned(r14, r2_2);
    r17 = dcc_load_16_aligned((a0 + 802));
    r19 = (uint16_t)(r17 + 1u);
    dcc_store_16_aligned((a0 + 802), r19);
    if (!(r29 < 52u)) goto join;
    r9 = *a0;
    r9_2 = r9;
    goto arm;
join:;
    if (r29 < 65u) goto arm_2;
    v1 = (uint16_t)(r29 + 65446u);
    r9_3 = *a0;
    if (v1 < 9911u) goto arm_3;
    r9_2 = r9_3;
    goto arm;
arm_2:;
    r9_4 = *a0;
    r10 = r9_4;
    if (r10) goto arm_4;
    r7_3 = *(a0 + 1);
    v2 = dcc_umin_8(r7_3, 19u);
    r7_4 = (uint8_t)(v2 + 1u);
    *(a0 + 1) = r7_4;
    goto then;
arm_4:;
    r9_5 = *(a0 + 2);
    r10_2 = r9_5;
    if (!(r10_2)) goto then_2;
    r22 = *(a0 + 3);
    r23 = r22;
    if (!(r23)) goto arm_5;
    r32 = *(a0 + 6);
    if (r32 == 0u) goto join_2;
    goto join_3;
then_2:;
    *(a0 + 2) = 1u;
    *(a0 + 3) = 1u;
    goto then;
join_3:;
    *(a0 + 2) = 0u;
    r28 = *(a0 + 5);
    r30 = (uint8_t)((1u * r28) << 1u);
    r34 = r30 | 1u;
    if (!(r32 < 8u)) goto else_2;
    *(a0 + 5) = r34;
    r47 = (uint8_t)(r32 + 1u);
    *(a0 + 6) = r47;
    goto then;
else_2:;
    r5 = dcc_load_64_aligned((a0 + 16));
    r8_2 = (a0 + 8) + (ptrdiff_t)r5;
    *r8_2 = r34;
    r11_3 = dcc_load_64_aligned((a0 + 16));
    r13 = (uint64_t)(r11_3 + UINT64_C(1));
    dcc_store_64_aligned((a0 + 16), r13);
    r54 = *(a0 + 4);
    r57 = r54 ^ r34;
    *(a0 + 4) = r57;
    *(a0 + 5) = 0u;
    *(a0 + 6) = 0u;
    goto then;
arm_3:;
    r10_3 = r9_3;
    if (r10_3) goto arm_6;
    r7_5 = *(a0 + 1);
    if (!(r7_5 > 19u)) goto else_3;
    *a0 = 1u;
    *(a0 + 2) = 1u;
    dcc_store_32((a0 + 3), UINT32_C(0));
    memset((a0 + 8), 0u, 16);
    goto then;
else_3:;
    *(a0 + 1) = 0u;
    goto then;
arm_6:;
    r9_6 = *(a0 + 2);
    r10_4 = r9_6;
    if (!(r10_4)) goto then_3;
    r22_2 = *(a0 + 3);
    r23_2 = r22_2;
    if (r23_2) goto arm_5;
    r32_2 = *(a0 + 6);
    if (!(r32_2 == 0u)) goto join_4;
    r3_4 = dcc_load_64_aligned((a0 + 16));
    if (!(r3_4 < UINT64_C(6))) goto arm_5;
    *(a0 + 2) = 0u;
    r28_2 = *(a0 + 5);
    r30_2 = (uint8_t)((1u * r28_2) << 1u);
    r30_3 = r30_2;
    goto then_4;
then_3:;
    *(a0 + 2) = 1u;
    *(a0 + 3) = 0u;
    goto then;
join_4:;
    *(a0 + 2) = 0u;
    r28_3 = *(a0 + 5);
    r30_4 = (uint8_t)((1u * r28_3) << 1u);
    if (!(r32_2 < 8u)) goto else_4;
    r30_3 = r30_4;
then_4:;
    *(a0 + 5) = r30_3;
    r47_2 = (uint8_t)(r32_2 + 1u);
    *(a0 + 6) = r47_2;
    goto then;
else_4:;
    r5_2 = dcc_load_64_aligned((a0 + 16));
    r8_3 = (a0 + 8) + (ptrdiff_t)r5_2;
    *r8_3 = r30_4;
    r11_4 = dcc_load_64_aligned((a0 + 16));
    r13_2 = (uint64_t)(r11_4 + UINT64_C(1));
    dcc_store_64_aligned((a0 + 16), r13_2);
    r54_2 = *(a0 + 4);
    r57_2 = r54_2 ^ r30_4;
    *(a0 + 4) = r57_2;
    *(a0 + 5) = 0u;
    *(a0 + 6) = 0u;
    goto then;
arm:;
    r10_5 = r9_2;
    if (r10_5) goto arm_5;
    *(a0 + 1) = 0u;
    goto then;
join_2:;
    r4_3 = dcc_load_64_aligned((a0 + 16));
    if (r4_3 < UINT64_C(3)) goto arm_7;
    r68 = *(a0 + 4);
    if (!(r68 == 0u)) goto arm_7;
    *a0 = 0u;
    *(a0 + 1) = 2u;
    r4_4 = 1u;
    v3 = 0u;
    r1_3 = 2u;
    goto dcc_lost_heard_unused_next;
default_2:;
    DCC_UNREACHABLE();
then:;
    r18 = *(a0 + 24);
    if (!(r18 == 20u)) goto arm_8;
    r28_4 = *(a0 + 25);
    r29_2 = r28_4;
    if (!(r29_2)) { v6 = 1u; goto dcc_lost_heard_Heard_count; }
arm_8:;
    r4_5 = (uint8_t)(r18 + 1u);
    it = dcc_umin_8(r4_5, 20u);
    r4_4 = 0u;
    v3 = 1u;
    r1_3 = it;
    goto dcc_lost_heard_unused_next;
arm_5:;
    *a0 = 0u;
    *(a0 + 1) = 0u;
    r4_4 = 2u;
    v3 = 0u;
    r1_3 = 0u;
    goto dcc_lost_heard_unused_next;
arm_7:;
    *a0 = 0u;
    *(a0 + 1) = 2u;
    r4_4 = 2u;
    v3 = 0u;
    r1_3 = 2u;
dcc_lost_heard_unused_next:;
    *(a0 + 24) = r1_3;
    r5_3 = *(a0 + 25);
    r6 = r5_3;
    if (!(r6)) { spec = 0u; r2_3 = 0u; goto dcc_lost_heard_Heard_since_refusal; }
    r11_5 = *(a0 + 26);
    v4 = dcc_uadd_sat_8(r11_5, 1u);
    spec = v4;
    r2_3 = 1u;
dcc_lost_heard_Heard_since_refusal:;
    switch (r4_4) {
    case 0u: goto dcc_lost_heard_since_next;
    case 1u: r2_4 = 0u; v5 = 0u; goto dcc_lost_heard_since_next_2;
    case 2u: goto dcc_lost_heard_since_next_3;
    default: goto default_2;
    }
dcc_lost_heard_since_next_3:;
    r2_4 = 1u;
    v5 = 0u;
    goto dcc_lost_heard_since_next_2;
dcc_lost_heard_since_next:;
    r2_4 = r2_3;
    v5 = spec;
dcc_lost_heard_since_next_2:;
    *(a0 + 25) = r2_4;
    *(a0 + 26) = v5;
    v6 = v3;
dcc_lost_heard_Heard_count:;
    r4_6 = dcc_load_16_aligned((a0 + 416));
    if (!(r4_6 == 192u)) { r7_6 = r4_6; goto dcc_lost_finder_LostFinder_hear; }
    dcc_timing_recent_LastNumbers_move_to_front((a0 + 32));
    r7_7 = dcc_load_16_aligned((a0 + 416));
    r7_6 = r7_7;
dcc_lost_finder_LostFinder_hear:;
    r1_4 = r7_6;
    r11_6 = (uint64_t)((1u * r1_4) << UINT64_C(1));
    r14_2 = (a0 + 32) + (ptrdiff_t)r11_6;
    dcc_store_16_aligned(r14_2, r29);
    r17_2 = dcc_load_16_aligned((a0 + 416));
    r19_2 = (uint16_t)(r17_2 + 1u);
    dcc_store_16_aligned((a0 + 416), r19_2);
    v7 = (uint16_t)(r29 + 65510u);
    or_2 = v7 < 51u;
    or_3 = or_2 & v6;
    if (!(or_3)) goto dcc_lost_finder_LostFinder_push;
    r2_5 = *a0;
    r3_5 = r2_5;
    if (r3_5) goto dcc_lost_finder_LostFinder_push;
    r1_5 = r19_2;
    r2_6 = dcc_usub_sat_64(r1_5, UINT64_C(56));
    r16 = (uint64_t)((1u * r2_6) << UINT64_C(1));
    r19_3 = (a0 + 32) + (ptrdiff_t)r16;
    r22_3 = (uint64_t)(r1_5 - r2_6);
    if (!(r22_3 == UINT64_C(56))) goto dcc_lost_finder_LostFinder_push;
    r23_3 = dcc_load_16_aligned(r19_3);
    v8 = (uint16_t)(r23_3 + 65459u);
    if (!(v8 < 19924u)) goto dcc_lost_finder_LostFinder_push;
    r35 = dcc_load_16_aligned((r19_3 + 36));
    v9 = (uint16_t)(r35 + 65459u);
    if (!(v9 < 19924u)) goto dcc_lost_finder_LostFinder_push;
    r47_3 = dcc_load_16_aligned((r19_3 + 72));
    v10 = (uint16_t)(r47_3 + 65459u);
    if (!(v10 < 19924u)) goto dcc_lost_finder_LostFinder_push;
    dcc_lost_finder_LostFinder_packet_at_end(r0, a0);
    r19_4 = *r0;
    memcpy(DCC_ALIGNED(r4_7), DCC_ALIGNED((r0 + 8)), 48);
    r331213 = (uint64_t)(r3_2 + UINT64_C(1));
    if (r19_4 == 1u) goto arm_9;
    r3_6 = r331213;
loop:;
    if (r3_6 == a2) { storemerge = a2; common = 0u; goto dcc_c_lost_dcc_lost_push_many; }
    r3_2 = r3_6;
    goto join_5;
dcc_lost_finder_LostFinder_push:;
    memset(DCC_ALIGNED(r4_7), 0u, 48);
    r33 = (uint64_t)(r3_2 + UINT64_C(1));
    r3_6 = r33;
    goto loop;
arm_9:;
    dcc_c_lost_packet_lost_numbers(r11, r4_7);
    memcpy(a3, DCC_ALIGNED(r11), 28);
    storemerge = r331213;
    common = 1u;
dcc_c_lost_dcc_lost_push_many:;
    dcc_store_64_aligned(a4, storemerge);
    return common;
}

/* dcc_lost_push_run */
uint32_t dcc_lost_push_run(dcc_lost *finder, uint16_t us, uint32_t n, dcc_lost_packet *packet) {
    unsigned char *a0 = (unsigned char *)finder;
    uint16_t a1 = us;
    uint32_t a2 = n;
    unsigned char *a3 = (unsigned char *)packet;
    uint16_t r2_2, r7_3, r7_8, v0, v1, v2, r4, r7_4, r17, r19_2, r4_5, r7_9, r17_2, r19_3, r23_3, v8, r35, v9,
        r47_3, v10;
    uint32_t r1, r1_6, r6_2, r211217, r21;
    uint64_t r1_2, r11, r5, r11_2, r13, r3_2, r5_2, r11_3, r13_2, r4_2, r1_4, r11_5, r1_5, r2_6, r16, r22_3;
    uint8_t r9, r30_3, r12, r4_3, v4, r1_3, spec, r2_3, r2_4, v6, v7, r7_2, r19, or_2, r2, r3, r8, r9_2, r10, r7_5,
        v3, r7_6, r9_3, r10_2, r22, r23, r32, r28, r30, r34, r47, r54, r57, r10_3, r7_7, r9_4, r10_4, r22_2, r23_2,
        r32_2, r28_2, r30_2, r28_3, r30_4, r47_2, r54_2, r57_2, r10_5, r68, r18, r28_4, r29, r4_4, it, r5_3, r6,
        r11_4, v5, or_3, r2_5, r3_3, r19_5, v11;
    unsigned char *r14, *r8_2, *r8_3, *r14_2, *r19_4;
    uint64_t place_0[7];
    unsigned char *const r0 = (unsigned char *)place_0;
    uint64_t place_1[6];
    unsigned char *const r4_6 = (unsigned char *)place_1;
    uint64_t place_2[6];
    unsigned char *const r4_7 = (unsigned char *)place_2;
    uint32_t place_3[7];
    unsigned char *const r7 = (unsigned char *)place_3;
    memset(DCC_ALIGNED(r7), 0u, 28);
    r7_2 = a1 < 65u;
    v0 = (uint16_t)(a1 + 65446u);
    r19 = r7_2;
    v1 = (uint16_t)(a1 + 65510u);
    or_2 = v1 < 51u;
    if (a2 == UINT32_C(0)) goto dcc_lost_finder_LostFinder_push_run;
    r1 = UINT32_C(0);
join_3:;
    memset(DCC_ALIGNED(r0), 0u, 56);
    r2 = *a0;
    r3 = r2;
    if (r3) { r2_2 = 0u; goto dcc_lost_heard_Heard_unused; }
    r8 = *(a0 + 24);
    v2 = r8;
    r2_2 = v2;
dcc_lost_heard_Heard_unused:;
    r4 = dcc_load_16_aligned((a0 + 802));
    if (!(r4 == 192u)) { r9 = r2; r7_3 = r4; goto dcc_timing_recent_LastNumbers_make_room; }
    dcc_timing_recent_LastNumbers_move_to_front((a0 + 418));
    r7_4 = dcc_load_16_aligned((a0 + 802));
    r9_2 = *a0;
    r9 = r9_2;
    r7_3 = r7_4;
dcc_timing_recent_LastNumbers_make_room:;
    r1_2 = r7_3;
    r11 = (uint64_t)((1u * r1_2) << UINT64_C(1));
    r14 = (a0 + 418) + (ptrdiff_t)r11;
    dcc_store_16_aligned(r14, r2_2);
    r17 = dcc_load_16_aligned((a0 + 802));
    r19_2 = (uint16_t)(r17 + 1u);
    dcc_store_16_aligned((a0 + 802), r19_2);
    if (a1 < 52u) goto arm;
    if (r7_2) goto arm_2;
    if (v0 < 9911u) goto arm_3;
    goto arm;
arm_2:;
    r10 = r9;
    if (r10) goto arm_4;
    r7_5 = *(a0 + 1);
    v3 = dcc_umin_8(r7_5, 19u);
    r7_6 = (uint8_t)(v3 + 1u);
    *(a0 + 1) = r7_6;
    goto then;
arm_4:;
    r9_3 = *(a0 + 2);
    r10_2 = r9_3;
    if (!(r10_2)) goto then_2;
    r22 = *(a0 + 3);
    r23 = r22;
    if (!(r23)) { r12 = 0u; goto arm_5; }
    r32 = *(a0 + 6);
    if (r32 == 0u) { r12 = 1u; goto arm_5; }
    goto join;
then_2:;
    *(a0 + 2) = 1u;
    *(a0 + 3) = 1u;
    goto then;
join:;
    *(a0 + 2) = 0u;
    r28 = *(a0 + 5);
    r30 = (uint8_t)((1u * r28) << 1u);
    r34 = r30 | 1u;
    if (!(r32 < 8u)) goto else_2;
    *(a0 + 5) = r34;
    r47 = (uint8_t)(r32 + 1u);
    *(a0 + 6) = r47;
    goto then;
else_2:;
    r5 = dcc_load_64_aligned((a0 + 16));
    r8_2 = (a0 + 8) + (ptrdiff_t)r5;
    *r8_2 = r34;
    r11_2 = dcc_load_64_aligned((a0 + 16));
    r13 = (uint64_t)(r11_2 + UINT64_C(1));
    dcc_store_64_aligned((a0 + 16), r13);
    r54 = *(a0 + 4);
    r57 = r54 ^ r34;
    *(a0 + 4) = r57;
    *(a0 + 5) = 0u;
    *(a0 + 6) = 0u;
    goto then;
arm_3:;
    r10_3 = r9;
    if (r10_3) goto arm_6;
    r7_7 = *(a0 + 1);
    if (!(r7_7 > 19u)) goto else_3;
    *a0 = 1u;
    *(a0 + 2) = 1u;
    dcc_store_32((a0 + 3), UINT32_C(0));
    memset((a0 + 8), 0u, 16);
    goto then;
else_3:;
    *(a0 + 1) = 0u;
    goto then;
arm_6:;
    r9_4 = *(a0 + 2);
    r10_4 = r9_4;
    if (!(r10_4)) goto then_3;
    r22_2 = *(a0 + 3);
    r23_2 = r22_2;
    if (r23_2) goto arm_7;
    r32_2 = *(a0 + 6);
    if (!(r32_2 == 0u)) goto join_2;
    r3_2 = dcc_load_64_aligned((a0 + 16));
    if (!(r3_2 < UINT64_C(6))) goto arm_7;
    *(a0 + 2) = 0u;
    r28_2 = *(a0 + 5);
    r30_2 = (uint8_t)((1u * r28_2) << 1u);
    r30_3 = r30_2;
    goto then_4;
then_3:;
    *(a0 + 2) = 1u;
    *(a0 + 3) = 0u;
    goto then;
join_2:;
    *(a0 + 2) = 0u;
    r28_3 = *(a0 + 5);
    r30_4 = (uint8_t)((1u * r28_3) << 1u);
    if (!(r32_2 < 8u)) goto else_4;
    r30_3 = r30_4;
then_4:;
    *(a0 + 5) = r30_3;
    r47_2 = (uint8_t)(r32_2 + 1u);
    *(a0 + 6) = r47_2;
    goto then;
else_4:;
    r5_2 = dcc_load_64_aligned((a0 + 16));
    r8_3 = (a0 + 8) + (ptrdiff_t)r5_2;
    *r8_3 = r30_4;
    r11_3 = dcc_load_64_aligned((a0 + 16));
    r13_2 = (uint64_t)(r11_3 + UINT64_C(1));
    dcc_store_64_aligned((a0 + 16), r13_2);
    r54_2 = *(a0 + 4);
    r57_2 = r54_2 ^ r30_4;
    *(a0 + 4) = r57_2;
    *(a0 + 5) = 0u;
    *(a0 + 6) = 0u;
    goto then;
arm:;
    r10_5 = r9;
    if (r10_5) goto arm_7;
    *(a0 + 1) = 0u;
    goto then;
arm_5:;
    if (!(r12 == r19)) goto arm_8;
    r4_2 = dcc_load_64_aligned((a0 + 16));
    if (r4_2 < UINT64_C(3)) goto arm_9;
    r68 = *(a0 + 4);
    if (!(r68 == 0u)) goto arm_9;
    *a0 = 0u;
    *(a0 + 1) = 2u;
    r4_3 = 1u;
    v4 = 0u;
    r1_3 = 2u;
    goto dcc_lost_heard_unused_next;
default_2:;
    DCC_UNREACHABLE();
then:;
    r18 = *(a0 + 24);
    if (!(r18 == 20u)) goto arm_10;
    r28_4 = *(a0 + 25);
    r29 = r28_4;
    if (!(r29)) { v7 = 1u; goto dcc_lost_heard_Heard_count; }
arm_10:;
    r4_4 = (uint8_t)(r18 + 1u);
    it = dcc_umin_8(r4_4, 20u);
    r4_3 = 0u;
    v4 = 1u;
    r1_3 = it;
    goto dcc_lost_heard_unused_next;
arm_7:;
    *a0 = 0u;
    *(a0 + 1) = 0u;
    r4_3 = 2u;
    v4 = 0u;
    r1_3 = 0u;
    goto dcc_lost_heard_unused_next;
arm_9:;
    *a0 = 0u;
    *(a0 + 1) = 2u;
    r4_3 = 2u;
    v4 = 0u;
    r1_3 = 2u;
    goto dcc_lost_heard_unused_next;
arm_8:;
    *a0 = 0u;
    *(a0 + 1) = 0u;
    r4_3 = 2u;
    v4 = 0u;
    r1_3 = 0u;
dcc_lost_heard_unused_next:;
    *(a0 + 24) = r1_3;
    r5_3 = *(a0 + 25);
    r6 = r5_3;
    if (!(r6)) { spec = 0u; r2_3 = 0u; goto dcc_lost_heard_Heard_since_refusal; }
    r11_4 = *(a0 + 26);
    v5 = dcc_uadd_sat_8(r11_4, 1u);
    spec = v5;
    r2_3 = 1u;
dcc_lost_heard_Heard_since_refusal:;
    switch (r4_3) {
    case 0u: goto dcc_lost_heard_since_next;
    case 1u: r2_4 = 0u; v6 = 0u; goto dcc_lost_heard_since_next_2;
    case 2u: goto dcc_lost_heard_since_next_3;
    default: goto default_2;
    }
dcc_lost_heard_since_next_3:;
    r2_4 = 1u;
    v6 = 0u;
    goto dcc_lost_heard_since_next_2;
dcc_lost_heard_since_next:;
    r2_4 = r2_3;
    v6 = spec;
dcc_lost_heard_since_next_2:;
    *(a0 + 25) = r2_4;
    *(a0 + 26) = v6;
    v7 = v4;
dcc_lost_heard_Heard_count:;
    r4_5 = dcc_load_16_aligned((a0 + 416));
    if (!(r4_5 == 192u)) { r7_8 = r4_5; goto dcc_lost_finder_LostFinder_hear; }
    dcc_timing_recent_LastNumbers_move_to_front((a0 + 32));
    r7_9 = dcc_load_16_aligned((a0 + 416));
    r7_8 = r7_9;
dcc_lost_finder_LostFinder_hear:;
    r1_4 = r7_8;
    r11_5 = (uint64_t)((1u * r1_4) << UINT64_C(1));
    r14_2 = (a0 + 32) + (ptrdiff_t)r11_5;
    dcc_store_16_aligned(r14_2, a1);
    r17_2 = dcc_load_16_aligned((a0 + 416));
    r19_3 = (uint16_t)(r17_2 + 1u);
    dcc_store_16_aligned((a0 + 416), r19_3);
    or_3 = or_2 & v7;
    if (!(or_3)) goto dcc_lost_finder_LostFinder_push;
    r2_5 = *a0;
    r3_3 = r2_5;
    if (r3_3) goto dcc_lost_finder_LostFinder_push;
    r1_5 = r19_3;
    r2_6 = dcc_usub_sat_64(r1_5, UINT64_C(56));
    r16 = (uint64_t)((1u * r2_6) << UINT64_C(1));
    r19_4 = (a0 + 32) + (ptrdiff_t)r16;
    r22_3 = (uint64_t)(r1_5 - r2_6);
    if (!(r22_3 == UINT64_C(56))) goto dcc_lost_finder_LostFinder_push;
    r23_3 = dcc_load_16_aligned(r19_4);
    v8 = (uint16_t)(r23_3 + 65459u);
    if (!(v8 < 19924u)) goto dcc_lost_finder_LostFinder_push;
    r35 = dcc_load_16_aligned((r19_4 + 36));
    v9 = (uint16_t)(r35 + 65459u);
    if (!(v9 < 19924u)) goto dcc_lost_finder_LostFinder_push;
    r47_3 = dcc_load_16_aligned((r19_4 + 72));
    v10 = (uint16_t)(r47_3 + 65459u);
    if (!(v10 < 19924u)) goto dcc_lost_finder_LostFinder_push;
    dcc_lost_finder_LostFinder_packet_at_end(r0, a0);
    r19_5 = *r0;
    memcpy(DCC_ALIGNED(r4_6), DCC_ALIGNED((r0 + 8)), 48);
    v11 = r19_5;
    r211217 = (uint32_t)(r1 + UINT32_C(1));
    if (v11) goto arm_11;
    r1_6 = r211217;
loop:;
    if (r1_6 == a2) goto dcc_lost_finder_LostFinder_push_run;
    r1 = r1_6;
    goto join_3;
dcc_lost_finder_LostFinder_push:;
    memset(DCC_ALIGNED(r4_6), 0u, 48);
    r21 = (uint32_t)(r1 + UINT32_C(1));
    r1_6 = r21;
    goto loop;
dcc_lost_finder_LostFinder_push_run:;
    r6_2 = UINT32_C(0);
    goto dcc_c_lost_dcc_lost_push_run;
arm_11:;
    memcpy(DCC_ALIGNED(r4_7), DCC_ALIGNED(r4_6), 48);
    dcc_c_lost_packet_lost_numbers(r7, r4_7);
    memcpy(a3, DCC_ALIGNED(r7), 28);
    r6_2 = r211217;
dcc_c_lost_dcc_lost_push_run:;
    return r6_2;
}

/* dcc_board_decoder_new */
void dcc_board_decoder_new(dcc_board_decoder *decoder, const uint8_t cvs[DCC_CVS]) {
    unsigned char *a0 = (unsigned char *)decoder;
    unsigned char *a1 = (unsigned char *)cvs;
    uint16_t r1, r25, r1_2, r36;
    uint64_t r0, r8, r9, r10, r30;
    uint8_t r26, r19, r21, r29, r31;
    unsigned char *r20, *r24;
    r8 = (uintptr_t)(a0 + 12);
    r9 = (uintptr_t)a1;
    r10 = (uint64_t)(r8 - r9);
    if (r10 < UINT64_C(1024)) { r0 = UINT64_C(0); goto join; }
    memmove((a0 + 12), a1, 1024);
    goto dcc_c_board_decoder_dcc_board_decoder_new;
join:;
    r20 = (a0 + 12) + (ptrdiff_t)r0;
    r24 = a1 + (ptrdiff_t)r0;
    r26 = *r24;
    *r20 = r26;
    r30 = (uint64_t)(r0 + UINT64_C(1));
    if (!(r30 == UINT64_C(1024))) { r0 = r30; goto join; }
dcc_c_board_decoder_dcc_board_decoder_new:;
    r19 = *(a1 + 8);
    r21 = r19 & 7u;
    r1 = r21;
    r25 = (uint16_t)((1u * r1) << 6u);
    r29 = *a1;
    r31 = r29 & 63u;
    r1_2 = r31;
    r36 = r25 | r1_2;
    dcc_store_16(a0, r36);
    memset((a0 + 2), 0u, 10);
    memset((a0 + 1036), 0u, 10);
    return;
}

/* dcc_board_apply */
uint8_t dcc_board_apply(dcc_board *board, const uint8_t *frame, uint64_t len) {
    unsigned char *a0 = (unsigned char *)board;
    unsigned char *a1 = (unsigned char *)frame;
    uint64_t a2 = len;
    struct dcc_wide r3_2, r28, r30, r33, r36;
    uint16_t r25, v1, v2, r13, v5;
    uint32_t r10_2, r11, r0, r5_2;
    uint64_t r4_2, indvars, r2_2, r3, r38, r31, v8, v9, v10, v11, v12, v13, v14, v15, v16, v17, indvars_2, r33_2;
    uint8_t r3_3, r3_4, r3_5, r3_6, r9_2, r7_2, r7, r1, r21, r24, v3, v4, v6, v7, r35, r23, r12_2, v18, v19, v20,
        or_2, it, r21_3, it_2, v21, v22, v23, r12_3, r202, r22, v24, sext, v25, v26, v27, r5, r11_2, r13_2, r2, v29,
        v30, v31, r13_3, r34, spec, r17, v32, r24_2, r43;
    unsigned char *r4, *r21_2, *r32, *r27;
    uint64_t place_0[3];
    unsigned char *const r6 = (unsigned char *)place_0;
    uint64_t place_1[3];
    unsigned char *const r10 = (unsigned char *)place_1;
    uint64_t place_2[3];
    unsigned char *const r12 = (unsigned char *)place_2;
    uint16_t place_3[6];
    unsigned char *const r9 = (unsigned char *)place_3;
    uint64_t place_4[1];
    unsigned char *const r1_3 = (unsigned char *)place_4;
    unsigned char *const r1_4 = (unsigned char *)place_4;
    uint64_t place_5[1];
    unsigned char *const r1_2 = (unsigned char *)place_5;
    r1 = a1 == (unsigned char *)0;
    r3 = r1 ? UINT64_C(4096) : UINT64_C(0);
    r4 = a1 + (ptrdiff_t)r3;
    memset(DCC_ALIGNED(r6), 0u, 24);
    dcc_c_frame_frame_of(r6, r4, a2);
    r21 = *r6;
    if (!(r21 == 0u)) goto arm;
    dcc_packet_packet_Packet_read(r10, (r6 + 8));
    r24 = *r10;
    r25 = r24;
    dcc_store_16_aligned(r12, r25);
    v1 = dcc_load_16_aligned((r10 + 2));
    dcc_store_16_aligned((r12 + 2), v1);
    v2 = dcc_load_16_aligned((r10 + 4));
    dcc_store_16_aligned((r12 + 4), v2);
    v3 = *(r10 + 6);
    *(r12 + 6) = v3;
    memcpy((r12 + 7), (r10 + 7), 17);
    r13 = dcc_load_16_aligned(a0);
    v4 = (uint8_t)(v2);
    v5 = v2 >> 8u;
    v6 = (uint8_t)v5;
    v7 = (uint8_t)(v1);
    if (r13 < 512u) goto arm_2;
    r7 = 13u;
    goto dcc_c_board_dcc_board_apply;
arm_2:;
    r35 = *(a0 + 2);
    r10_2 = dcc_load_32((a0 + 3));
    r11 = dcc_load_32((a0 + 7));
    dcc_store_32((r9 + 3), r10_2);
    dcc_store_32((r9 + 7), r11);
    *(r9 + 11) = 0u;
    if (r13 == 511u) goto dcc_c_board_after;
    r3_2 = dcc_wide_of(UINT64_C(0), UINT64_C(0));
    r4_2 = UINT64_C(0);
join:;
    r21_2 = (r9 + 3) + (ptrdiff_t)r4_2;
    r23 = *r21_2;
    r28 = dcc_wide_of(0, r23);
    r30 = dcc_wide_of(0, r4_2);
    r33 = dcc_wide_shl(r28, (unsigned)r30.low);
    r36 = dcc_wide_or(r33, r3_2);
    r38 = (uint64_t)(r4_2 + UINT64_C(1));
    if (!(r38 == UINT64_C(4))) { r3_2 = r36; r4_2 = r38; goto join; }
    r31 = (uint64_t)(r36.low);
    v8 = r13;
    v9 = r35;
    v10 = (uint64_t)((1u * v9) << UINT64_C(16));
    v11 = v10 | v8;
    v12 = (uint64_t)((1u * r31) << UINT64_C(24));
    v13 = v12 & UINT64_C(4278190080);
    v14 = r11;
    v15 = (uint64_t)((1u * v14) << UINT64_C(32));
    v16 = v13 | v15;
    v17 = v16 | v11;
    dcc_store_64_aligned(r1_2, v17);
    dcc_store_64_aligned(r1_3, UINT64_C(1));
    dcc_store_16_aligned((r1_3 + 2), r13);
    r12_2 = dcc_regs_heard_hears(r1_3, r12);
    v18 = (uint8_t)(r36.low);
    if (!(r12_2)) { r9_2 = v18; r7_2 = r35; goto dcc_regs_packed_board_PackedBoardDecoder_apply; }
    switch (r24) {
    case 1u: goto arm_3;
    case 2u: goto dcc_regs_outputs_outs_set;
    case 3u: goto arm_4;
    case 0u: case 4u: r3_3 = r35; r3_4 = v18; r3_5 = 0u; r3_6 = 0u; goto dcc_regs_outputs_aspects_set;
    default: goto noarm;
    }
arm_3:;
    v19 = v7 == 0u;
    v20 = v3 == 0u;
    or_2 = v19 ? v20 : 0u;
    it = or_2 ? 0u : r35;
    r3_3 = it;
    r3_4 = v18;
    r3_5 = 0u;
    r3_6 = 0u;
    goto dcc_regs_outputs_aspects_set;
dcc_regs_outputs_outs_set:;
    r21_3 = (uint8_t)((1u * 1u) << (v4 & 7u));
    it_2 = (uint8_t)(0u - v6);
    v21 = r35 ^ it_2;
    v22 = v21 & r21_3;
    v23 = v22 ^ r35;
    r12_3 = (uint8_t)((v5) & 1u);
    if (r12_3) goto then;
    r3_3 = v23;
    r3_4 = v18;
    r3_5 = 0u;
    r3_6 = 0u;
    goto dcc_regs_outputs_aspects_set;
noarm:;
    DCC_UNREACHABLE();
then:;
    r202 = v4 >> 1u;
    r22 = (uint8_t)((1u * 1u) << (r202 & 7u));
    v24 = v4 & 1u;
    sext = (uint8_t)(0u - v24);
    v25 = v18 ^ sext;
    v26 = v25 & r22;
    v27 = v26 ^ v18;
    r3_3 = v23;
    r3_4 = v27;
    r3_5 = 0u;
    r3_6 = 0u;
    goto dcc_regs_outputs_aspects_set;
arm_4:;
    r5 = v1 == 2047u;
    r11_2 = v7 & 3u;
    r13_2 = (uint8_t)((1u * 1u) << (r11_2 & 7u));
    r2 = r5 ? 15u : r13_2;
    r3_3 = r35;
    r3_4 = v18;
    r3_5 = v4;
    r3_6 = r2;
dcc_regs_outputs_aspects_set:;
    indvars = UINT64_C(0);
join_2:;
    v29 = (uint8_t)indvars;
    v30 = (uint8_t)((1u * 1u) << (v29 & 7u));
    v31 = v30 & r3_6;
    r13_3 = v31 == 0u;
    r32 = (r1_2 + 4) + (ptrdiff_t)indvars;
    r34 = *r32;
    spec = r13_3 ? r34 : r3_5;
    *r32 = spec;
    indvars_2 = (uint64_t)(indvars + UINT64_C(1));
    if (!(indvars_2 == UINT64_C(4))) { indvars = indvars_2; goto join_2; }
    r9_2 = r3_4;
    r7_2 = r3_3;
dcc_regs_packed_board_PackedBoardDecoder_apply:;
    dcc_store_32_aligned(r1_4, UINT32_C(0));
    r2_2 = UINT64_C(0);
join_3:;
    r17 = (uint8_t)r2_2;
    v32 = (uint8_t)(r9_2 >> (r17 & 7u));
    r24_2 = v32 & 1u;
    r27 = r1_4 + (ptrdiff_t)r2_2;
    *r27 = r24_2;
    r33_2 = (uint64_t)(r2_2 + UINT64_C(1));
    if (r33_2 == UINT64_C(4)) goto arm_5;
    r2_2 = r33_2;
    goto join_3;
dcc_c_board_after:;
    r7 = 13u;
    goto dcc_c_board_dcc_board_apply;
arm_5:;
    r0 = dcc_load_32_aligned(r1_4);
    r5_2 = dcc_load_32_aligned((r1_2 + 4));
    *(a0 + 2) = r7_2;
    dcc_store_32((a0 + 3), r0);
    dcc_store_32((a0 + 7), r5_2);
    *(a0 + 11) = 0u;
    r7 = 0u;
    goto dcc_c_board_dcc_board_apply;
arm:;
    r43 = *(r6 + 1);
    r7 = r43;
dcc_c_board_dcc_board_apply:;
    return r7;
}

/* dcc_small_loco_cv */
uint8_t dcc_small_loco_cv(const dcc_small_loco *loco, const uint8_t *frame, uint64_t len, uint16_t *cv) {
    unsigned char *a0 = (unsigned char *)loco;
    unsigned char *a1 = (unsigned char *)frame;
    uint64_t a2 = len;
    unsigned char *a3 = (unsigned char *)cv;
    uint16_t r0, r24, v1, v2, r9_2, r3_4, r3_5;
    uint64_t r3;
    uint8_t r7, r1, r15, r15_2, r23, v3, r8, r3_2, r3_3, r25, r31, v4, or_2, r31_2;
    unsigned char *r4;
    uint64_t place_0[10];
    unsigned char *const r1_2 = (unsigned char *)place_0;
    uint64_t place_1[3];
    unsigned char *const r9 = (unsigned char *)place_1;
    uint64_t place_2[3];
    unsigned char *const r10 = (unsigned char *)place_2;
    uint64_t place_3[3];
    unsigned char *const r6 = (unsigned char *)place_3;
    uint64_t place_4[1];
    unsigned char *const r4_2 = (unsigned char *)place_4;
    r1 = a1 == (unsigned char *)0;
    r3 = r1 ? UINT64_C(4096) : UINT64_C(0);
    r4 = a1 + (ptrdiff_t)r3;
    memset(DCC_ALIGNED(r6), 0u, 24);
    dcc_c_frame_frame_of(r6, r4, a2);
    r15 = *r6;
    if (!(r15 == 0u)) goto arm;
    memset(DCC_ALIGNED(r1_2), 0u, 80);
    *(r1_2 + 72) = 1u;
    memset((r1_2 + 73), 0u, 7);
    r15_2 = dcc_c_small_loco_take_up_small(a0, r1_2);
    if (!(r15_2)) goto arm_2;
    dcc_packet_packet_Packet_read(r9, (r6 + 8));
    r23 = *r9;
    r24 = r23;
    dcc_store_16_aligned(r10, r24);
    v1 = dcc_load_16_aligned((r9 + 2));
    dcc_store_16_aligned((r10 + 2), v1);
    v2 = dcc_load_16_aligned((r9 + 4));
    dcc_store_16_aligned((r10 + 4), v2);
    v3 = *(r9 + 6);
    *(r10 + 6) = v3;
    memcpy((r10 + 7), (r9 + 7), 17);
    dcc_store_64_aligned(r4_2, UINT64_C(0));
    r8 = *(r1_2 + 64);
    r9_2 = r8;
    r3_2 = *(r1_2 + 66);
    r3_3 = *(r1_2 + 67);
    r3_4 = dcc_load_16_aligned((r1_2 + 68));
    dcc_store_16_aligned((r4_2 + 2), r9_2);
    *(r4_2 + 4) = r3_2;
    *(r4_2 + 5) = r3_3;
    dcc_store_16_aligned((r4_2 + 6), r3_4);
    r25 = dcc_regs_heard_hears(r4_2, r10);
    if (!(r25)) { r0 = 0u; goto arm_3; }
    r31 = dcc_regs_writes_is_repeated_write((r1_2 + 32), r10);
    v4 = r23 == 1u;
    or_2 = r31 ? v4 : 0u;
    if (!(or_2)) { r0 = 0u; goto arm_3; }
    switch (v3) {
    case 5u: case 7u: goto arm_4;
    case 0u: case 1u: case 2u: case 3u: case 4u: case 6u: case 8u: r0 = 0u; goto arm_3;
    default: goto noarm;
    }
noarm:;
    DCC_UNREACHABLE();
arm_4:;
    r3_5 = dcc_load_16_aligned((r10 + 8));
    r0 = r3_5;
arm_3:;
    dcc_store_16_aligned(a3, r0);
    r7 = 0u;
    goto dcc_c_small_loco_dcc_small_loco_cv;
arm_2:;
    r7 = 13u;
    goto dcc_c_small_loco_dcc_small_loco_cv;
arm:;
    r31_2 = *(r6 + 1);
    r7 = r31_2;
dcc_c_small_loco_dcc_small_loco_cv:;
    return r7;
}

/* dcc_reader_answer */
uint8_t dcc_reader_answer(dcc_reader *reader, bool yes, uint8_t *value) {
    unsigned char *a0 = (unsigned char *)reader;
    uint8_t a1 = yes;
    unsigned char *a2 = (unsigned char *)value;
    uint16_t r12, v0, r1, r13, r12_2;
    uint32_t r9, r9_2, r9_3, r9_4, r9_5, r9_6, r9_7;
    uint8_t r6, r34, r36, r8, r18, or_2, r18_2, r1_2, r23, r27;
    r12 = dcc_load_16_aligned(a0);
    v0 = (uint16_t)(r12 + 65535u);
    if (!(v0 < 1024u)) { r6 = 13u; goto dcc_c_reader_dcc_reader_answer; }
    r34 = *(a0 + 2);
    r36 = *(a0 + 3);
    r8 = r34 < 9u;
    r1 = r36;
    r13 = r34;
    r12_2 = (uint16_t)(r1 >> (r13 & 15u));
    r18 = r12_2 == 0u;
    or_2 = r8 ? r18 : 0u;
    if (!(or_2)) { r6 = 13u; goto dcc_c_reader_dcc_reader_answer; }
    if (r34 < 8u) goto arm;
    if (a1) goto arm_2;
    r6 = 2u;
    goto dcc_c_reader_dcc_reader_answer;
arm:;
    r18_2 = (uint8_t)(r34 + 1u);
    r1_2 = a1;
    r23 = (uint8_t)((1u * r1_2) << (r34 & 7u));
    r27 = (uint8_t)(r36 + r23);
    r9 = r27;
    r9_2 = (uint32_t)((1u * r9) << UINT32_C(24));
    r9_3 = r18_2;
    r9_4 = (uint32_t)((1u * r9_3) << UINT32_C(16));
    r9_5 = r9_2 | r9_4;
    r9_6 = r12;
    r9_7 = r9_5 | r9_6;
    dcc_store_32(a0, r9_7);
    r6 = 0u;
    goto dcc_c_reader_dcc_reader_answer;
arm_2:;
    *a2 = r36;
    r6 = 1u;
dcc_c_reader_dcc_reader_answer:;
    return r6;
}

/* dcc_reader_question */
uint8_t dcc_reader_question(const dcc_reader *reader, dcc_frame *question) {
    unsigned char *a0 = (unsigned char *)reader;
    unsigned char *a1 = (unsigned char *)question;
    uint16_t r12, v0, r1, r13, r12_2, r10;
    uint8_t r3, r34, r36, r8, r18, or_2, r4, r60, spec, spec_2, r12_3, r14, r11, r29, r32;
    r12 = dcc_load_16_aligned(a0);
    v0 = (uint16_t)(r12 + 65535u);
    if (!(v0 < 1024u)) { r3 = 13u; goto dcc_c_reader_dcc_reader_question; }
    r34 = *(a0 + 2);
    r36 = *(a0 + 3);
    r8 = r34 < 9u;
    r1 = r36;
    r13 = r34;
    r12_2 = (uint16_t)(r1 >> (r13 & 15u));
    r18 = r12_2 == 0u;
    or_2 = r8 ? r18 : 0u;
    if (!(or_2)) { r3 = 13u; goto dcc_c_reader_dcc_reader_question; }
    r4 = r34 < 8u;
    r60 = r34 | 232u;
    spec = r4 ? 120u : 116u;
    spec_2 = r4 ? r60 : r36;
    r10 = v0 >> 8u;
    r12_3 = (uint8_t)r10;
    r14 = spec | r12_3;
    r11 = (uint8_t)(v0);
    r29 = spec_2 ^ r11;
    r32 = r29 ^ r14;
    *a1 = 4u;
    *(a1 + 1) = r14;
    *(a1 + 2) = r11;
    *(a1 + 3) = spec_2;
    *(a1 + 4) = r32;
    *(a1 + 5) = 0u;
    *(a1 + 6) = 0u;
    r3 = 0u;
dcc_c_reader_dcc_reader_question:;
    return r3;
}

/* dcc_writer_answer */
uint8_t dcc_writer_answer(dcc_writer *writer, bool yes) {
    unsigned char *a0 = (unsigned char *)writer;
    uint8_t a1 = yes;
    uint16_t r8, v0, r13, v1, v2;
    uint32_t r8_2, r8_3, r8_4, r8_5, r8_6;
    uint8_t r5, r6;
    r8 = dcc_load_16_aligned(a0);
    v0 = (uint16_t)(r8 + 65535u);
    if (!(v0 < 1024u)) { r5 = 13u; goto dcc_c_writer_dcc_writer_answer; }
    r13 = dcc_load_16((a0 + 2));
    v1 = r13 & 256u;
    if (!(v1 == 0u)) goto dcc_service_writer_CvWriter_answer;
    v2 = r13 & 255u;
    r8_2 = v2;
    r8_3 = (uint32_t)((1u * r8_2) << UINT32_C(16));
    r8_4 = r8;
    r8_5 = r8_3 | r8_4;
    r8_6 = r8_5 | UINT32_C(16777216);
    dcc_store_32(a0, r8_6);
    r5 = 0u;
    goto dcc_c_writer_dcc_writer_answer;
dcc_service_writer_CvWriter_answer:;
    r6 = a1 ? 1u : 2u;
    r5 = r6;
dcc_c_writer_dcc_writer_answer:;
    return r5;
}

/* dcc_writer_question */
uint8_t dcc_writer_question(const dcc_writer *writer, dcc_frame *question) {
    unsigned char *a0 = (unsigned char *)writer;
    unsigned char *a1 = (unsigned char *)question;
    uint16_t r8, v0, r13, v1, r10;
    uint8_t it, r11, r3, r1, r1_2, r45, r60, r12, r14, r11_2, r29, r32;
    r8 = dcc_load_16_aligned(a0);
    v0 = (uint16_t)(r8 + 65535u);
    if (!(v0 < 1024u)) { r3 = 13u; goto dcc_c_writer_dcc_writer_question; }
    r13 = dcc_load_16((a0 + 2));
    r1 = (uint8_t)(r13);
    v1 = r13 >> 8u;
    r1_2 = (uint8_t)v1;
    switch (r1_2) {
    case 0u: it = 124u; r11 = r1; goto dcc_service_packet_ServicePacket_bytes;
    case 1u: goto arm;
    case 2u: goto arm_2;
    case 3u: goto arm_3;
    default: goto noarm;
    }
arm:;
    it = 116u;
    r11 = r1;
    goto dcc_service_packet_ServicePacket_bytes;
arm_2:;
    r45 = r1 | 240u;
    it = 120u;
    r11 = r45;
    goto dcc_service_packet_ServicePacket_bytes;
arm_3:;
    r60 = r1 | 224u;
    it = 120u;
    r11 = r60;
    goto dcc_service_packet_ServicePacket_bytes;
noarm:;
    DCC_UNREACHABLE();
dcc_service_packet_ServicePacket_bytes:;
    r10 = v0 >> 8u;
    r12 = (uint8_t)r10;
    r14 = it | r12;
    r11_2 = (uint8_t)(v0);
    r29 = r14 ^ r11_2;
    r32 = r29 ^ r11;
    *a1 = 4u;
    *(a1 + 1) = r14;
    *(a1 + 2) = r11_2;
    *(a1 + 3) = r11;
    *(a1 + 4) = r32;
    *(a1 + 5) = 0u;
    *(a1 + 6) = 0u;
    r3 = 0u;
dcc_c_writer_dcc_writer_question:;
    return r3;
}

/* dcc_sender_start */
uint8_t dcc_sender_start(dcc_sender *sender, const uint8_t *frame, uint64_t len, const dcc_timing *timing) {
    unsigned char *a0 = (unsigned char *)sender;
    unsigned char *a1 = (unsigned char *)frame;
    uint64_t a2 = len;
    unsigned char *a3 = (unsigned char *)timing;
    uint16_t v0, r11, v1, v3, v4, v5, r77;
    uint32_t r7, v2;
    uint64_t r4_2, r0_2, r3, v8, r23, r1_2, r42, r1_3, r50, r53, r1_4, r61, r64, r73, r1_5, r83, r86, r95, r1_6,
        r105, r108, r117, r1_7, r127, r130, r134;
    uint8_t r6_2, r0, r6, r1, r13, or_2, v6, or_3, r79, or_4, v7, r2, r4_4, r38, r46, r57, r79_2, r101, r123, r29;
    unsigned char *r4_3, *r4;
    r1 = a1 == (unsigned char *)0;
    r3 = r1 ? UINT64_C(4096) : UINT64_C(0);
    r4 = a1 + (ptrdiff_t)r3;
    r7 = dcc_load_32(a3);
    v0 = (uint16_t)(r7);
    r11 = dcc_load_16_aligned((a3 + 4));
    r13 = *(a3 + 6);
    v1 = (uint16_t)(v0 + 65481u);
    if (!(v1 < 7u)) { r6 = 6u; goto dcc_c_sender_dcc_sender_start; }
    v2 = r7 >> UINT32_C(16);
    v3 = (uint16_t)v2;
    v4 = (uint16_t)(v3 + 55635u);
    or_2 = v4 < 55730u;
    v5 = (uint16_t)(r11 + 55635u);
    v6 = v5 < 55730u;
    or_3 = v6 | or_2;
    r77 = (uint16_t)(r11 + v3);
    r79 = r77 > 12000u;
    or_4 = or_3 ? 1u : r79;
    if (or_4) { r6 = 7u; goto dcc_c_sender_dcc_sender_start; }
    v7 = (uint8_t)(r13 + 242u);
    if (!(v7 < 27u)) { r6 = 8u; goto dcc_c_sender_dcc_sender_start; }
    v8 = (uint64_t)(a2 + UINT64_C(18446744073709551609));
    if (v8 < UINT64_C(18446744073709551612)) { r6 = 1u; goto dcc_c_sender_dcc_sender_start; }
    r6_2 = 0u;
    r4_2 = a2;
    r4_3 = r4;
arm:;
    r23 = (uint64_t)(r4_2 + UINT64_C(18446744073709551615));
    r2 = *r4_3;
    r4_4 = r2 ^ r6_2;
    if (!(r23 == UINT64_C(0))) { r6_2 = r4_4; r4_2 = r23; r4_3 = (r4_3 + 1); goto arm; }
    if (!(r2 == r6_2)) { r6 = 2u; goto dcc_c_sender_dcc_sender_start; }
    r38 = *r4;
    r1_2 = r38;
    r42 = (uint64_t)((1u * r1_2) << UINT64_C(55));
    r46 = *(r4 + 1);
    r1_3 = r46;
    r50 = (uint64_t)((1u * r1_3) << UINT64_C(46));
    r53 = r50 | r42;
    r57 = *(r4 + 2);
    r1_4 = r57;
    r61 = (uint64_t)((1u * r1_4) << UINT64_C(37));
    r64 = r53 | r61;
    if (!(a2 == UINT64_C(3))) goto join;
    r73 = r64 | UINT64_C(68719476736);
    r0 = 56u;
    r0_2 = r73;
    goto arm_2;
join:;
    r79_2 = *(r4 + 3);
    r1_5 = r79_2;
    r83 = (uint64_t)((1u * r1_5) << UINT64_C(28));
    r86 = r83 | r64;
    if (!(a2 == UINT64_C(4))) goto join_2;
    r95 = r86 | UINT64_C(134217728);
    r0 = 74u;
    r0_2 = r95;
    goto arm_2;
join_2:;
    r101 = *(r4 + 4);
    r1_6 = r101;
    r105 = (uint64_t)((1u * r1_6) << UINT64_C(19));
    r108 = r105 | r86;
    if (!(a2 == UINT64_C(5))) goto join_3;
    r117 = r108 | UINT64_C(262144);
    r0 = 92u;
    r0_2 = r117;
    goto arm_2;
join_3:;
    r123 = *(r4 + 5);
    r1_7 = r123;
    r127 = (uint64_t)((1u * r1_7) << UINT64_C(10));
    r130 = r108 | r127;
    r134 = r130 | UINT64_C(512);
    r0 = 110u;
    r0_2 = r134;
arm_2:;
    r29 = (uint8_t)((1u * r13) << 1u);
    dcc_store_64(a0, r0_2);
    dcc_store_32((a0 + 8), r7);
    dcc_store_16((a0 + 12), r11);
    *(a0 + 14) = r29;
    *(a0 + 15) = r0;
    r6 = 0u;
dcc_c_sender_dcc_sender_start:;
    return r6;
}

/* dcc_frame_of_packet */
uint8_t dcc_frame_of_packet(const dcc_packet *packet, dcc_frame *frame) {
    unsigned char *a0 = (unsigned char *)packet;
    unsigned char *a1 = (unsigned char *)frame;
    uint16_t r7_4, r7_5, r5_9, r5_10, r1_41, a1_3, r4_6, r7_8, r10_4, r10_13, r10_14, r10_15, r8_7, r8_8, r8_9,
        r1_11, r1_12, r1_7, r1_8, r14, r9, r15_2, r1_20, r1_21, r4_7, r4_8, r4_9, r15_3, v8, r20, v9, r1_53, r1_55,
        r1_56, r1_57, r1_58;
    uint32_t r1_31, r1_26, r10_9, r8_2, r1_16, r1_3, r1_27, r1_28, r1_29, r1_30, r1_37, r1_38, r1_39, r1_40, v6,
        r1_42, r1_43, r1_44, r1_45, r1_46, r1_47, r1_48, r1_49, r1_50;
    uint64_t r10_8, r1_32, r1_25, a1_2, v10, v11, r0, r0_2, r0_3, r0_4, r0_5, r0_6, r0_7, r0_8, r0_9, v13, r0_10,
        r0_11, sum, v14, r12_7;
    uint8_t r5_2, r5_3, r5_4, r5_5, r5_6, r5_7, r7_2, r7_3, r7_6, r7_7, r5_8, r5_11, r5_13, r5_14, r5_15, r5_16,
        r5_17, r5_18, r5_19, r5_20, r2, it_4, a2, r4_5, r5_21, r5_22, r5_23, r5_24, r7_9, r7_10, r7_11, r6_3, r10_5,
        r10_6, r10_7, r1_33, r1_34, r1_35, r1_36, r1_22, r1_23, r1_24, r1_51, r10_10, r10_11, r10_12, r10_16, r8_3,
        r8_4, r8_5, r8_6, r8_10, r1_9, r1_10, r1_13, r1_14, r1_15, r1_17, r1_18, r1, r1_2, r1_4, r1_5, r1_6, r1_19,
        common, r15, r10_2, r26, r29, r5, v2, r18, r18_2, r18_3, r18_4, r18_5, r18_6, r19, r28, r4_2, r14_2, it,
        r13, r18_7, r9_2, r4_3, r18_8, it_2, r9_3, r4_4, it_3, r18_9, a0_2, r9_4, r11, v5, r3, r6, r6_2, r9_5,
        r4_10, it_5, r18_10, a0_3, or_2, r13_2, r21, it_6, it_7, r16, r22, r31, it_8, r9_6, r9_7, r4_11, r1_52,
        r1_54, r12, r12_2, r12_3, r12_4, r12_5, r12_6, r15_4, r11_2, spec, r11_3, r5_25, r11_4, r5_26, r11_5, r5_27,
        r11_6, r5_28, r11_7, r5_29, switch_2;
    uint64_t place_0[3];
    unsigned char *const r4 = (unsigned char *)place_0;
    unsigned char *const r10_3 = (unsigned char *)place_0;
    uint64_t place_1[3];
    unsigned char *const r7 = (unsigned char *)place_1;
    unsigned char *const r5_12 = (unsigned char *)place_1;
    uint64_t place_2[3];
    unsigned char *const r1_59 = (unsigned char *)place_2;
    uint64_t place_3[2];
    unsigned char *const r10 = (unsigned char *)place_3;
    uint32_t place_4[3];
    unsigned char *const r8 = (unsigned char *)place_4;
    memset(DCC_ALIGNED(r10), 0u, 16);
    r15 = *a0;
    switch (r15) {
    case 12u: goto then;
    case 0u: goto dcc_c_packet_fields_packet_of;
    case 10u: goto arm;
    case 11u: goto arm_2;
    default: goto default_2;
    }
then:;
    memset(DCC_ALIGNED(r4), 0u, 24);
    r10_2 = *a1;
    if (r10_2 > 6u) goto dcc_c_packet_fields_is_other;
    a1_2 = r10_2;
    dcc_wire_frame_Frame_of(r4, (a1 + 1), a1_2);
    r26 = *r4;
    if (r26 == 0u) goto dcc_c_packet_fields_is_other_2;
dcc_c_packet_fields_is_other:;
    common = 12u;
    goto dcc_c_packet_fields_dcc_frame_of_packet;
dcc_c_packet_fields_is_other_2:;
    dcc_packet_packet_Packet_read(r7, (r4 + 8));
    r29 = *r7;
    if (!(r29 == 4u)) { common = 12u; goto dcc_c_packet_fields_dcc_frame_of_packet; }
    r5 = *a1;
    v2 = dcc_umin_8(r5, 6u);
    if (r5 == 0u) { r5_2 = 0u; r5_3 = 0u; r5_4 = 0u; r5_5 = 0u; r5_6 = 0u; r5_7 = 0u; goto dcc_c_frame_byte_or_zero; }
    r18 = *(a1 + 1);
    if (r5 == 1u) { r5_2 = 0u; r5_3 = 0u; r5_4 = r18; r5_5 = 0u; r5_6 = 0u; r5_7 = 0u; goto dcc_c_frame_byte_or_zero; }
    r18_2 = *(a1 + 2);
    if (!(r5 > 2u)) { r5_2 = 0u; r5_3 = 0u; r5_4 = r18; r5_5 = r18_2; r5_6 = 0u; r5_7 = 0u; goto dcc_c_frame_byte_or_zero; }
    r18_3 = *(a1 + 3);
    if (r5 == 3u) { r5_2 = 0u; r5_3 = r18_3; r5_4 = r18; r5_5 = r18_2; r5_6 = 0u; r5_7 = 0u; goto dcc_c_frame_byte_or_zero; }
    r18_4 = *(a1 + 4);
    if (!(r5 > 4u)) { r5_2 = 0u; r5_3 = r18_3; r5_4 = r18; r5_5 = r18_2; r5_6 = r18_4; r5_7 = 0u; goto dcc_c_frame_byte_or_zero; }
    r18_5 = *(a1 + 5);
    if (r5 == 5u) { r5_2 = r18_5; r5_3 = r18_3; r5_4 = r18; r5_5 = r18_2; r5_6 = r18_4; r5_7 = 0u; goto dcc_c_frame_byte_or_zero; }
    r18_6 = *(a1 + 6);
    r5_2 = r18_5;
    r5_3 = r18_3;
    r5_4 = r18;
    r5_5 = r18_2;
    r5_6 = r18_4;
    r5_7 = r18_6;
dcc_c_frame_byte_or_zero:;
    *a1 = v2;
    *(a1 + 1) = r5_4;
    *(a1 + 2) = r5_5;
    *(a1 + 3) = r5_3;
    *(a1 + 4) = r5_6;
    *(a1 + 5) = r5_2;
    *(a1 + 6) = r5_7;
    common = 0u;
    goto dcc_c_packet_fields_dcc_frame_of_packet;
dcc_c_packet_fields_packet_of:;
    memset(DCC_ALIGNED(r8), 0u, 12);
    r1 = 0u;
    r1_2 = 0u;
    r1_3 = UINT32_C(0);
    r1_4 = 0u;
    r1_5 = 0u;
    r1_6 = 0u;
    r1_7 = 0u;
    r1_8 = 0u;
    goto arm_3;
arm:;
    r14 = dcc_load_16_aligned((a0 + 2));
    if (!(r14 < 512u)) { r7_2 = 1u; r7_3 = 2u; r7_4 = 0u; r7_5 = 0u; r7_6 = 0u; r7_7 = 0u; goto dcc_c_packet_fields_accessory_of; }
    r19 = *(a0 + 15);
    if (r19 > 7u) { r7_2 = 1u; r7_3 = 3u; r7_4 = 0u; r7_5 = 0u; r7_6 = 0u; r7_7 = 0u; goto dcc_c_packet_fields_accessory_of; }
    r28 = *(a0 + 8);
    r7_2 = 0u;
    r7_3 = 0u;
    r7_4 = 2u;
    r7_5 = r14;
    r7_6 = r19;
    r7_7 = r28;
dcc_c_packet_fields_accessory_of:;
    memset(DCC_ALIGNED(r8), 0u, 12);
    r1_9 = r7_2;
    r1_10 = r7_3;
    r1_11 = r7_4;
    r1_12 = r7_5;
    r1_13 = r7_6;
    r1_14 = r7_7;
    r1_15 = 0u;
    r1_16 = UINT32_C(0);
    r1_17 = 0u;
    r1_18 = 0u;
    goto dcc_c_packet_fields_packet_of_2;
arm_2:;
    r9 = dcc_load_16_aligned((a0 + 2));
    r4_2 = r9 > 2047u;
    if (r4_2) { r5_8 = 4u; r5_9 = 0u; r5_10 = 0u; r5_11 = 0u; goto dcc_c_packet_fields_signal_of; }
    r14_2 = *(a0 + 16);
    r5_8 = 0u;
    r5_9 = 3u;
    r5_10 = r9;
    r5_11 = r14_2;
dcc_c_packet_fields_signal_of:;
    it = r4_2;
    memset(DCC_ALIGNED(r8), 0u, 12);
    r1_9 = it;
    r1_10 = r5_8;
    r1_11 = r5_9;
    r1_12 = r5_10;
    r1_13 = r5_11;
    r1_14 = 0u;
    r1_15 = 0u;
    r1_16 = UINT32_C(0);
    r1_17 = 0u;
    r1_18 = 0u;
    goto dcc_c_packet_fields_packet_of_2;
default_2:;
    if (!(r15 < 10u)) { r1_19 = 9u; goto arm_4; }
    memset(DCC_ALIGNED(r8), 0u, 12);
    memset(r10_3, 0u, 12);
    r13 = *(a0 + 1);
    r15_2 = dcc_load_16_aligned((a0 + 2));
    dcc_c_packet_fields_address_of(r5_12, r13, r15_2);
    r18_7 = *r5_12;
    if (!(r18_7 == 0u)) goto arm_5;
    r1_20 = dcc_load_16_aligned((r5_12 + 2));
    r1_21 = dcc_load_16_aligned((r5_12 + 4));
    switch (r15) {
    case 1u: r1_22 = 0u; r1_23 = 0u; r1_24 = 0u; r1_25 = UINT64_C(0); r1_26 = UINT32_C(0); goto arm_6;
    case 2u: goto arm_7;
    case 3u: goto arm_8;
    case 4u: goto arm_9;
    case 5u: goto arm_10;
    case 0u: goto after;
    default: goto join;
    }
arm_7:;
    r9_2 = *(a0 + 5);
    r4_3 = r9_2 > 31u;
    if (r4_3) { r5_13 = 7u; r5_14 = 0u; r5_15 = 0u; r5_16 = 0u; goto dcc_c_packet_fields_speed28_of; }
    r18_8 = *(a0 + 4);
    r5_13 = 0u;
    r5_14 = 1u;
    r5_15 = r18_8;
    r5_16 = r9_2;
dcc_c_packet_fields_speed28_of:;
    it_2 = r4_3;
    r1_27 = r5_15;
    r1_28 = r5_16;
    r1_29 = (uint32_t)(((1u * r1_28) << UINT32_C(8)) & UINT32_C(16777215));
    r1_30 = r1_29 | r1_27;
    r1_31 = r1_30;
    r1_32 = UINT64_C(0);
    r1_33 = 0u;
    r1_34 = r5_14;
    r1_35 = r5_13;
    r1_36 = it_2;
    goto dcc_c_packet_fields_what_of;
arm_8:;
    r9_3 = *(a0 + 5);
    r4_4 = (r9_3 ^ 128u) < (0u ^ 128u);
    it_3 = r4_4 ? 7u : r9_3;
    if (!((r9_3 ^ 128u) > (255u ^ 128u))) { r5_17 = it_3; r5_18 = 0u; r5_19 = 0u; r5_20 = 0u; goto dcc_c_packet_fields_speed128_of; }
    r18_9 = *(a0 + 4);
    r5_17 = 0u;
    r5_18 = 2u;
    r5_19 = r18_9;
    r5_20 = it_3;
dcc_c_packet_fields_speed128_of:;
    a0_2 = r9_3 >> 7u;
    r1_37 = r5_19;
    r1_38 = r5_20;
    r1_39 = (uint32_t)(((1u * r1_38) << UINT32_C(8)) & UINT32_C(16777215));
    r1_40 = r1_39 | r1_37;
    r1_31 = r1_40;
    r1_32 = UINT64_C(0);
    r1_33 = 0u;
    r1_34 = r5_18;
    r1_35 = r5_17;
    r1_36 = a0_2;
    goto dcc_c_packet_fields_what_of;
arm_9:;
    r9_4 = *(a0 + 6);
    r11 = *(a0 + 5);
    switch (r9_4) {
    case 0u: r1_41 = 0u; r2 = 31u; goto dcc_packet_functions_max;
    case 5u: goto arm_11;
    case 9u: goto arm_12;
    case 13u: it_4 = 0u; a1_3 = 3u; a2 = r11; goto dcc_packet_functions_GroupBits_new;
    case 21u: goto arm_13;
    case 29u: goto arm_14;
    case 37u: goto arm_15;
    case 45u: goto arm_16;
    case 53u: goto arm_17;
    case 61u: goto arm_18;
    default: r4_5 = 1u; r4_6 = 9u; goto dcc_c_packet_fields_functions_of;
    }
arm_11:;
    r1_41 = 1u;
    r2 = 15u;
    goto dcc_packet_functions_max;
arm_12:;
    r1_41 = 2u;
    r2 = 15u;
    goto dcc_packet_functions_max;
arm_13:;
    it_4 = 0u;
    a1_3 = 4u;
    a2 = r11;
    goto dcc_packet_functions_GroupBits_new;
arm_14:;
    it_4 = 0u;
    a1_3 = 5u;
    a2 = r11;
    goto dcc_packet_functions_GroupBits_new;
arm_15:;
    it_4 = 0u;
    a1_3 = 6u;
    a2 = r11;
    goto dcc_packet_functions_GroupBits_new;
arm_16:;
    it_4 = 0u;
    a1_3 = 7u;
    a2 = r11;
    goto dcc_packet_functions_GroupBits_new;
arm_17:;
    it_4 = 0u;
    a1_3 = 8u;
    a2 = r11;
    goto dcc_packet_functions_GroupBits_new;
arm_18:;
    it_4 = 0u;
    a1_3 = 9u;
    a2 = r11;
    goto dcc_packet_functions_GroupBits_new;
dcc_packet_functions_max:;
    if (r2 < r11) { it_4 = 1u; a1_3 = 8u; a2 = 0u; goto dcc_packet_functions_GroupBits_new; }
    it_4 = 0u;
    a1_3 = r1_41;
    a2 = r11;
dcc_packet_functions_GroupBits_new:;
    r4_7 = a2;
    r4_8 = (uint16_t)((1u * r4_7) << 8u);
    r4_9 = r4_8 | a1_3;
    r4_5 = it_4;
    r4_6 = r4_9;
dcc_c_packet_fields_functions_of:;
    v5 = r4_5 == 0u;
    r3 = (uint8_t)(r4_6);
    r6 = v5 ? 0u : r3;
    r6_2 = v5 ? 3u : 0u;
    v6 = r4_6;
    r1_42 = v5 ? v6 : UINT32_C(0);
    r1_31 = r1_42;
    r1_32 = UINT64_C(0);
    r1_33 = 0u;
    r1_34 = r6_2;
    r1_35 = r6;
    r1_36 = r4_5;
    goto dcc_c_packet_fields_what_of;
arm_10:;
    r9_5 = *(a0 + 7);
    r4_10 = (r9_5 ^ 128u) < (0u ^ 128u);
    it_5 = r4_10 ? 13u : r9_5;
    if (!((r9_5 ^ 128u) > (255u ^ 128u))) { r5_21 = it_5; r5_22 = 0u; r5_23 = 0u; r5_24 = 0u; goto dcc_c_packet_fields_state_of; }
    r18_10 = *(a0 + 8);
    r5_21 = 0u;
    r5_22 = 4u;
    r5_23 = it_5;
    r5_24 = r18_10;
dcc_c_packet_fields_state_of:;
    a0_3 = r9_5 >> 7u;
    r1_43 = r5_23;
    r1_44 = r5_24;
    r1_45 = (uint32_t)(((1u * r1_44) << UINT32_C(8)) & UINT32_C(16777215));
    r1_46 = r1_45 | r1_43;
    r1_31 = r1_46;
    r1_32 = UINT64_C(0);
    r1_33 = 0u;
    r1_34 = r5_22;
    r1_35 = r5_21;
    r1_36 = a0_3;
    goto dcc_c_packet_fields_what_of;
join:;
    if (!(r15 < 8u)) goto after;
    r15_3 = dcc_load_16_aligned((a0 + 10));
    v8 = (uint16_t)(r15_3 + 64511u);
    or_2 = v8 < 64512u;
    if (or_2) { r7_8 = 0u; r7_9 = 5u; r7_10 = 0u; r7_11 = 0u; goto dcc_c_packet_fields_byte_access; }
    r13_2 = *(a0 + 12);
    r21 = r15 == 6u;
    it_6 = r21 ? 5u : 6u;
    r7_8 = r15_3;
    r7_9 = 0u;
    r7_10 = it_6;
    r7_11 = r13_2;
dcc_c_packet_fields_byte_access:;
    it_7 = or_2;
    r1_47 = r7_8;
    r1_48 = (uint32_t)(((1u * r1_47) << UINT32_C(8)) & UINT32_C(16777215));
    r1_31 = r1_48;
    r1_32 = UINT64_C(0);
    r1_33 = r7_11;
    r1_34 = r7_10;
    r1_35 = r7_9;
    r1_36 = it_7;
    goto dcc_c_packet_fields_what_of;
after:;
    r16 = *(a0 + 14);
    r20 = dcc_load_16_aligned((a0 + 10));
    v9 = (uint16_t)(r20 + 65535u);
    if (!(v9 < 1024u)) { r6_3 = 1u; r10_4 = 0u; r10_5 = 5u; r10_6 = 0u; r10_7 = 0u; r10_8 = UINT64_C(0); goto dcc_c_packet_fields_bit_access; }
    r22 = *(a0 + 13);
    if (!(r22 < 8u)) { r6_3 = 1u; r10_4 = 0u; r10_5 = 6u; r10_6 = 0u; r10_7 = 0u; r10_8 = UINT64_C(0); goto dcc_c_packet_fields_bit_access; }
    r31 = r15 == 8u;
    it_8 = r31 ? 7u : 8u;
    v10 = r16;
    v11 = (uint64_t)((1u * v10) << UINT64_C(56));
    r6_3 = 0u;
    r10_4 = r20;
    r10_5 = 0u;
    r10_6 = it_8;
    r10_7 = r22;
    r10_8 = v11;
dcc_c_packet_fields_bit_access:;
    r1_49 = r10_4;
    r1_50 = (uint32_t)(((1u * r1_49) << UINT32_C(8)) & UINT32_C(16777215));
    r1_31 = r1_50;
    r1_32 = r10_8;
    r1_33 = r10_7;
    r1_34 = r10_6;
    r1_35 = r10_5;
    r1_36 = r6_3;
dcc_c_packet_fields_what_of:;
    if (!(r1_36 == 0u)) { r1_51 = 1u; r10_9 = UINT32_C(0); r10_10 = 0u; r10_11 = 0u; r10_12 = r1_35; r10_13 = 0u; r10_14 = 0u; r10_15 = 0u; r10_16 = 0u; goto join_2; }
    r1_22 = r1_35;
    r1_23 = r1_34;
    r1_24 = r1_33;
    r1_25 = r1_32;
    r1_26 = r1_31;
arm_6:;
    r0 = r1_22;
    r0_2 = (uint64_t)((1u * r0) << UINT64_C(8));
    r0_3 = r1_26;
    r0_4 = (uint64_t)((1u * r0_3) << UINT64_C(24));
    r0_5 = r1_23;
    r0_6 = (uint64_t)((1u * r0_5) << UINT64_C(16));
    r0_7 = r1_24;
    r0_8 = (uint64_t)((1u * r0_7) << UINT64_C(48));
    r0_9 = (uint64_t)(r1_25 + r0_2);
    v13 = (uint64_t)(r0_9 + r0_6);
    r0_10 = (uint64_t)(v13 + r0_8);
    r0_11 = (uint64_t)(r0_10 + r0_4);
    sum = r0_11 >> UINT64_C(56);
    r9_6 = (uint8_t)sum;
    v14 = r0_11 >> UINT64_C(48);
    r9_7 = (uint8_t)(v14);
    memset(r10_3, 0u, 12);
    r1_51 = 0u;
    r10_9 = r1_26;
    r10_10 = r9_7;
    r10_11 = r9_6;
    r10_12 = 0u;
    r10_13 = 1u;
    r10_14 = r1_20;
    r10_15 = r1_21;
    r10_16 = r1_23;
join_2:;
    memcpy(DCC_ALIGNED(r8), r10_3, 12);
    r8_2 = r10_9;
    r8_3 = r10_10;
    r8_4 = r10_11;
    r8_5 = r1_51;
    r8_6 = r10_12;
    r8_7 = r10_13;
    r8_8 = r10_14;
    r8_9 = r10_15;
    r8_10 = r10_16;
    goto dcc_c_packet_fields_loco_of;
arm_5:;
    r4_11 = *(r5_12 + 1);
    r8_2 = UINT32_C(0);
    r8_3 = 0u;
    r8_4 = 0u;
    r8_5 = 1u;
    r8_6 = r4_11;
    r8_7 = 0u;
    r8_8 = 0u;
    r8_9 = 0u;
    r8_10 = 0u;
dcc_c_packet_fields_loco_of:;
    r1_52 = (uint8_t)(r8_9);
    r1_53 = r8_9 >> 8u;
    r1_54 = (uint8_t)r1_53;
    r1_9 = r8_5;
    r1_10 = r8_6;
    r1_11 = r8_7;
    r1_12 = r8_8;
    r1_13 = r1_52;
    r1_14 = r1_54;
    r1_15 = r8_10;
    r1_16 = r8_2;
    r1_17 = r8_3;
    r1_18 = r8_4;
dcc_c_packet_fields_packet_of_2:;
    if (!(r1_9 == 0u)) { r1_19 = r1_10; goto arm_4; }
    r1 = r1_18;
    r1_2 = r1_17;
    r1_3 = r1_16;
    r1_4 = r1_15;
    r1_5 = r1_14;
    r1_6 = r1_13;
    r1_7 = r1_12;
    r1_8 = r1_11;
arm_3:;
    r1_55 = r1_5;
    r1_56 = (uint16_t)((1u * r1_55) << 8u);
    r1_57 = r1_6;
    r1_58 = r1_56 | r1_57;
    dcc_store_16_aligned(r1_59, r1_8);
    dcc_store_16_aligned((r1_59 + 2), r1_7);
    dcc_store_16_aligned((r1_59 + 4), r1_58);
    *(r1_59 + 6) = r1_4;
    dcc_store_24((r1_59 + 7), r1_3);
    *(r1_59 + 10) = r1_2;
    *(r1_59 + 11) = r1;
    memcpy(DCC_ALIGNED((r1_59 + 12)), DCC_ALIGNED(r8), 12);
    dcc_packet_packet_Packet_frame(r10, r1_59);
    r12 = *r10;
    r12_2 = *(r10 + 1);
    r12_3 = *(r10 + 2);
    r12_4 = *(r10 + 3);
    r12_5 = *(r10 + 4);
    r12_6 = *(r10 + 5);
    r12_7 = dcc_load_64_aligned((r10 + 8));
    r15_4 = (uint8_t)(r12_7);
    r11_2 = r12_7 == UINT64_C(0);
    spec = r11_2 ? 0u : r12;
    r11_3 = r12_7 > UINT64_C(1);
    r5_25 = r11_3 ? r12_2 : 0u;
    r11_4 = r12_7 > UINT64_C(2);
    r5_26 = r11_4 ? r12_3 : 0u;
    r11_5 = r12_7 > UINT64_C(3);
    r5_27 = r11_5 ? r12_4 : 0u;
    r11_6 = r12_7 > UINT64_C(4);
    r5_28 = r11_6 ? r12_5 : 0u;
    r11_7 = r12_7 > UINT64_C(5);
    r5_29 = r11_7 ? r12_6 : 0u;
    *a1 = r15_4;
    *(a1 + 1) = spec;
    *(a1 + 2) = r5_25;
    *(a1 + 3) = r5_26;
    *(a1 + 4) = r5_27;
    *(a1 + 5) = r5_28;
    *(a1 + 6) = r5_29;
    common = 0u;
    goto dcc_c_packet_fields_dcc_frame_of_packet;
arm_4:;
    switch_2 = (uint8_t)(r1_19 + 1u);
    common = switch_2;
dcc_c_packet_fields_dcc_frame_of_packet:;
    return common;
}

/* dcc_loco_power_up */
void dcc_loco_power_up(dcc_loco *loco) {
    unsigned char *a0 = (unsigned char *)loco;
    dcc_c_loco_dcc_loco_power_up(a0);
    return;
}

/* dcc_loco_new */
void dcc_loco_new(dcc_loco *loco, const uint8_t cvs[DCC_CVS]) {
    unsigned char *a0 = (unsigned char *)loco;
    unsigned char *a1 = (unsigned char *)cvs;
    uint64_t r0, r8, r9, r10, r30;
    uint8_t r26;
    unsigned char *r20, *r24;
    r8 = (uintptr_t)(a0 + 48);
    r9 = (uintptr_t)a1;
    r10 = (uint64_t)(r8 - r9);
    if (r10 < UINT64_C(1024)) { r0 = UINT64_C(0); goto join; }
    memmove((a0 + 48), a1, 1024);
    goto dcc_c_loco_dcc_loco_new;
join:;
    r20 = (a0 + 48) + (ptrdiff_t)r0;
    r24 = a1 + (ptrdiff_t)r0;
    r26 = *r24;
    *r20 = r26;
    r30 = (uint64_t)(r0 + UINT64_C(1));
    if (!(r30 == UINT64_C(1024))) { r0 = r30; goto join; }
dcc_c_loco_dcc_loco_new:;
    dcc_c_loco_dcc_loco_power_up(a0);
    return;
}

/* dcc_small_loco_apply */
uint8_t dcc_small_loco_apply(dcc_small_loco *loco, const uint8_t *frame, uint64_t len, uint8_t *value, bool *changed) {
    unsigned char *a0 = (unsigned char *)loco;
    unsigned char *a1 = (unsigned char *)frame;
    uint64_t a2 = len;
    unsigned char *a3 = (unsigned char *)value;
    unsigned char *a4 = (unsigned char *)changed;
    struct dcc_wide r45, r81, r49, r81_2;
    uint16_t r2_3, r32, v1, v2, r1_6, r1_7;
    uint64_t r3, r4_2, switch_2, switch_3, switch_4, r7, r10, r7_2, r10_2;
    uint8_t r1_4, r7_3, r1, r16, r20, r20_2, r31, v3, r46, r2_2, r12, r3_2, r2_4, r1_5, r5, switch_5, r5_2,
        switch_6, r4_3, r37, r29, r32_2, r33, r41;
    unsigned char *r4;
    uint64_t place_0[10];
    unsigned char *const r1_2 = (unsigned char *)place_0;
    uint64_t place_1[3];
    unsigned char *const r2 = (unsigned char *)place_1;
    uint64_t place_2[3];
    unsigned char *const r9 = (unsigned char *)place_2;
    uint64_t place_3[3];
    unsigned char *const r6 = (unsigned char *)place_3;
    uint8_t place_4[6];
    unsigned char *const r1_3 = (unsigned char *)place_4;
    r1 = a1 == (unsigned char *)0;
    r3 = r1 ? UINT64_C(4096) : UINT64_C(0);
    r4 = a1 + (ptrdiff_t)r3;
    memset(DCC_ALIGNED(r6), 0u, 24);
    r16 = *a3;
    dcc_c_frame_frame_of(r6, r4, a2);
    r20 = *r6;
    if (!(r20 == 0u)) goto arm;
    r4_2 = dcc_load_64_aligned((r6 + 16));
    memset(DCC_ALIGNED(r1_2), 0u, 80);
    *(r1_2 + 72) = 1u;
    memset((r1_2 + 73), 0u, 7);
    r20_2 = dcc_c_small_loco_take_up_small(a0, r1_2);
    if (!(r20_2)) goto else_2;
    dcc_packet_packet_Packet_read(r9, (r6 + 8));
    r31 = *r9;
    r32 = r31;
    dcc_store_16_aligned(r2, r32);
    v1 = dcc_load_16_aligned((r9 + 2));
    dcc_store_16_aligned((r2 + 2), v1);
    v2 = dcc_load_16_aligned((r9 + 4));
    dcc_store_16_aligned((r2 + 4), v2);
    v3 = *(r9 + 6);
    *(r2 + 6) = v3;
    memcpy((r2 + 7), (r9 + 7), 17);
    r46 = dcc_regs_loco_registers_LocoRegisters_apply_with_value(r1_2, (a0 + 48), a3, r2);
    if (!(r46)) goto then;
    r2_2 = *(r1_2 + 32);
    if (!(r2_2 == 0u)) goto arm_2;
    memset(r1_3, 0u, 6);
    r1_4 = 0u;
    goto dcc_c_loco_numbers_pending_left;
arm_2:;
    r12 = (uint8_t)(r4_2);
    memcpy(r1_3, DCC_ALIGNED((r6 + 8)), 6);
    r1_4 = r12;
dcc_c_loco_numbers_pending_left:;
    r3_2 = *(r1_2 + 64);
    if (!(r3_2 == 0u)) goto arm_3;
    *a0 = 0u;
    r2_3 = 0u;
    goto dcc_c_loco_numbers_own_number;
arm_3:;
    r2_4 = *(r1_2 + 66);
    *a0 = r2_4;
    switch (r2_4) {
    case 0u: r2_3 = 0u; goto dcc_c_loco_numbers_own_number;
    case 1u: goto arm_4;
    case 2u: goto arm_5;
    default: goto noarm;
    }
arm_4:;
    r1_5 = *(r1_2 + 67);
    r1_6 = r1_5;
    r2_3 = r1_6;
    goto dcc_c_loco_numbers_own_number;
arm_5:;
    r1_7 = dcc_load_16_aligned((r1_2 + 68));
    r2_3 = r1_7;
    goto dcc_c_loco_numbers_own_number;
noarm:;
    DCC_UNREACHABLE();
dcc_c_loco_numbers_own_number:;
    dcc_store_16_aligned((a0 + 4), r2_3);
    r5 = *(r1_2 + 70);
    switch_2 = r5;
    switch_3 = (uint64_t)(((1u * switch_2) << UINT64_C(3)) & UINT64_C(1099511627775));
    switch_4 = UINT64_C(541636559104) >> (switch_3 & UINT64_C(63));
    switch_5 = (uint8_t)(switch_4);
    *(a0 + 1) = switch_5;
    r5_2 = *(r1_2 + 71);
    switch_6 = r5 < 2u;
    r4_3 = switch_6 ? 0u : r5_2;
    *(a0 + 2) = r4_3;
    r37 = *(r1_2 + 72);
    *(a0 + 3) = r37;
    *(a0 + 6) = r1_4;
    memcpy((a0 + 7), r1_3, 6);
    r45 = dcc_wide_of(dcc_load_64_aligned((r1_2 + 8)), dcc_load_64_aligned(r1_2));
    r7 = (uint64_t)(r45.low);
    r81 = dcc_wide_lshr(r45, 64u);
    r10 = (uint64_t)(r81.low);
    dcc_store_64((a0 + 16), r7);
    dcc_store_64((a0 + 24), r10);
    r49 = dcc_wide_of(dcc_load_64_aligned(((r1_2 + 16) + 8)), dcc_load_64_aligned((r1_2 + 16)));
    r7_2 = (uint64_t)(r49.low);
    r81_2 = dcc_wide_lshr(r49, 64u);
    r10_2 = (uint64_t)(r81_2.low);
    dcc_store_64((a0 + 32), r7_2);
    dcc_store_64((a0 + 40), r10_2);
then:;
    r29 = *a3;
    r32_2 = r29 != r16;
    r33 = r32_2;
    *a4 = r33;
    r7_3 = 0u;
    goto dcc_c_small_loco_dcc_small_loco_apply;
else_2:;
    r7_3 = 13u;
    goto dcc_c_small_loco_dcc_small_loco_apply;
arm:;
    r41 = *(r6 + 1);
    r7_3 = r41;
dcc_c_small_loco_dcc_small_loco_apply:;
    return r7_3;
}

/* dcc_small_loco_new */
void dcc_small_loco_new(dcc_small_loco *loco, uint8_t cv1, uint8_t cv17, uint8_t cv18, uint8_t cv29) {
    unsigned char *a0 = (unsigned char *)loco;
    uint8_t a1 = cv1;
    uint8_t a2 = cv17;
    uint8_t a3 = cv18;
    uint8_t a4 = cv29;
    uint16_t r2, r38, r40, r42, r43, r46, spec_2;
    uint8_t it, v0, r23, v1, v2, or_2, or_3, spec, narrow;
    v0 = a4 & 32u;
    r23 = v0 != 0u;
    v1 = (uint8_t)(a2 + 64u);
    v2 = v1 < 40u;
    or_2 = v2 & r23;
    if (!(or_2)) goto dcc_regs_loco_registers_LocoRegisters_powered_up;
    r38 = a2;
    r40 = (uint16_t)((1u * r38) << 8u);
    r42 = (uint16_t)(r40 + 16384u);
    r43 = a3;
    r46 = r42 | r43;
    it = 2u;
    r2 = r46;
    goto dcc_c_small_loco_dcc_small_loco_new;
dcc_regs_loco_registers_LocoRegisters_powered_up:;
    or_3 = (a1 ^ 128u) > (0u ^ 128u);
    spec = or_3;
    narrow = dcc_smax_8(a1, 0u);
    spec_2 = narrow;
    it = spec;
    r2 = spec_2;
dcc_c_small_loco_dcc_small_loco_new:;
    *a0 = it;
    dcc_store_16_aligned((a0 + 4), r2);
    *(a0 + 1) = 0u;
    *(a0 + 2) = 0u;
    *(a0 + 3) = 1u;
    memset((a0 + 16), 0u, 32);
    memset((a0 + 6), 0u, 7);
    *(a0 + 48) = a4;
    return;
}

/* dcc_decoder_power_up */
void dcc_decoder_power_up(dcc_decoder *decoder) {
    unsigned char *a0 = (unsigned char *)decoder;
    dcc_c_loco_dcc_loco_power_up(a0);
    memset((a0 + 1072), 0u, 10);
    return;
}

/* dcc_loco_apply */
uint8_t dcc_loco_apply(dcc_loco *loco, const uint8_t *frame, uint64_t len) {
    unsigned char *a0 = (unsigned char *)loco;
    unsigned char *a1 = (unsigned char *)frame;
    uint64_t a2 = len;
    struct dcc_wide r9_2, r9_3, r3_6, r3_7, it_4, r1_3, r1_4, r42, r45_2, r48, r1_5, r57_2, r1_6, r66_2, r69_3,
        r1_7, r17_4, r1_8, r26_6, r17_5, r21_3, r23_2, r7_3, r9_4, r11, r2_3, it_6, r1_9, r17_6, r1_10, r26_7,
        r17_7, r21_4, r23_4, r81_2;
    uint16_t r7, v10, r1_2, r616, r63_2;
    uint64_t r4_2, r3, v0, r23, r13, r21, v9, r17_3, v19, r21_2, r7_2, v21, r13_3, r7_4, r10;
    uint8_t r6, r5_2, r5_3, r5_4, common, r31_2, r26_2, r5_6, r5_7, r5_8, it, it_2, it_3, v16, r5, r1, r2, r4_4, r8,
        r15, r18, r18_2, r18_3, r18_4, r18_5, r18_6, r63, r69, r77, r83, r89, r97, r103, r109, r117, r123, r129,
        r137, r143, r149, r157, r163, r169, r177, r183, r38, r45, r57, r69_2, r81, r88, v1, v2, v3, v4, v5, r17,
        r20, r22, r13_2, r17_2, r19, r25, r27, r33, v7, v8, r49, r30, r36, r41, r47, r5_5, r26, r31, r26_3, r31_3,
        r26_4, r31_4, r16, r66, v11, r78, or_2, r25_2, r2_2, r3_2, r3_3, r3_4, r12, v13, r15_2, r18_7, r18_8, r18_9,
        r18_10, trunc, r52, r9, r3_5, spec, switch_2, switch_3, r27_2, spec_2, r36_2, r27_3, r36_3, v17, trunc_2,
        or_3, v18, sext, switch_5, trunc_3, v20, or_4, switch_6, it_5, r61, r4_6, r23_3, r27_4;
    unsigned char *r4_3, *r26_5, *r4, *switch_4;
    uint16_t place_0[6];
    unsigned char *const r4_5 = (unsigned char *)place_0;
    r1 = a1 == (unsigned char *)0;
    r3 = r1 ? UINT64_C(4096) : UINT64_C(0);
    r4 = a1 + (ptrdiff_t)r3;
    v0 = (uint64_t)(a2 + UINT64_C(18446744073709551609));
    if (v0 < UINT64_C(18446744073709551612)) { r5 = 1u; goto dcc_c_loco_dcc_loco_apply; }
    r6 = 0u;
    r4_2 = a2;
    r4_3 = r4;
arm:;
    r23 = (uint64_t)(r4_2 + UINT64_C(18446744073709551615));
    r2 = *r4_3;
    r4_4 = r2 ^ r6;
    if (!(r23 == UINT64_C(0))) { r6 = r4_4; r4_2 = r23; r4_3 = (r4_3 + 1); goto arm; }
    if (!(r2 == r6)) { r5 = 2u; goto dcc_c_loco_dcc_loco_apply; }
    r8 = *(a0 + 6);
    if (r8 == 0u) goto then;
    r15 = (uint8_t)a2;
    r18 = *r4;
    r18_2 = *(r4 + 1);
    r18_3 = *(r4 + 2);
    if (!(a2 > UINT64_C(3))) { r5_2 = 0u; r5_3 = 0u; r5_4 = 0u; goto dcc_c_frame_DccFrame_is_of; }
    r18_4 = *(r4 + 3);
    if (a2 == UINT64_C(4)) { r5_2 = 0u; r5_3 = r18_4; r5_4 = 0u; goto dcc_c_frame_DccFrame_is_of; }
    r18_5 = *(r4 + 4);
    if (!(a2 > UINT64_C(5))) { r5_2 = r18_5; r5_3 = r18_4; r5_4 = 0u; goto dcc_c_frame_DccFrame_is_of; }
    r18_6 = *(r4 + 5);
    r5_2 = r18_5;
    r5_3 = r18_4;
    r5_4 = r18_6;
dcc_c_frame_DccFrame_is_of:;
    r63 = r8 == r15;
    r69 = *(a0 + 7);
    r77 = r69 == r18;
    r83 = r63 & r77;
    r89 = *(a0 + 8);
    r97 = r89 == r18_2;
    r103 = r83 & r97;
    r109 = *(a0 + 9);
    r117 = r109 == r18_3;
    r123 = r103 & r117;
    r129 = *(a0 + 10);
    r137 = r129 == r5_3;
    r143 = r123 & r137;
    r149 = *(a0 + 11);
    r157 = r149 == r5_2;
    r163 = r143 & r157;
    r169 = *(a0 + 12);
    r177 = r169 == r5_4;
    r183 = r163 & r177;
    if (r183) goto dcc_c_loco_apply;
    goto dcc_c_loco_numbers_has_pending;
then:;
    r38 = *(a0 + 7);
    r45 = *(a0 + 8);
    r57 = *(a0 + 9);
    r69_2 = *(a0 + 10);
    r81 = *(a0 + 11);
    r88 = *(a0 + 12);
    v1 = r45 | r38;
    v2 = v1 | r57;
    v3 = v2 | r69_2;
    v4 = v3 | r81;
    v5 = v4 | r88;
    if (v5 == 0u) goto join;
    goto else_2;
dcc_c_loco_numbers_has_pending:;
    r17 = dcc_c_loco_numbers_has_pending_write(a0);
    if (!(r17)) goto else_2;
join:;
    r13 = dcc_load_64_aligned((a0 + 24));
    r21 = dcc_load_64_aligned((a0 + 32));
    r20 = *(a0 + 1);
    r22 = *(a0 + 2);
    if (!(r20 < 2u)) goto join_2;
    r13_2 = r22 == 0u;
    common = r13_2;
    goto dcc_c_loco_numbers_are_possible;
join_2:;
    r17_2 = r20 == 14u;
    r19 = r20 == 28u;
    r25 = r17_2 | r19;
    r27 = r20 == 126u;
    r33 = r27 | r25;
    v7 = (uint8_t)(r22 + 255u);
    v8 = v7 < r20;
    r49 = r33 & v8;
    common = r49;
dcc_c_loco_numbers_are_possible:;
    r30 = r13 < UINT64_C(32);
    r36 = r30 & common;
    v9 = r21 & UINT64_C(1);
    r41 = v9 == UINT64_C(0);
    r47 = r41 & r36;
    if (!(r47)) goto else_2;
    r5_5 = *a0;
    r7 = dcc_load_16_aligned((a0 + 4));
    switch (r5_5) {
    case 0u: goto arm_2;
    case 1u: goto arm_3;
    case 2u: goto arm_4;
    default: goto else_2;
    }
arm_2:;
    if (r7 == 0u) goto arm_5;
    goto else_2;
arm_3:;
    v10 = (uint16_t)(r7 + 65535u);
    if (v10 < 127u) goto arm_6;
    goto else_2;
arm_4:;
    if (!(r7 < 10240u)) goto else_2;
    r26 = *r4;
    r31 = *(r4 + 1);
    if (r26 == 0u) { r31_2 = r31; r26_2 = 0u; goto join_3; }
    goto arm_7;
arm_6:;
    r26_3 = *r4;
    r31_3 = *(r4 + 1);
    if (r26_3 == 0u) { r31_2 = r31_3; r26_2 = 0u; goto join_3; }
    goto arm_8;
arm_5:;
    r26_4 = *r4;
    r31_4 = *(r4 + 1);
    if (r26_4 == 0u) { r31_2 = r31_4; r26_2 = 0u; goto join_3; }
    r5 = 0u;
    goto dcc_c_loco_dcc_loco_apply;
arm_8:;
    r16 = (uint8_t)r7;
    if (r26_3 == r16) { r31_2 = r31_3; r26_2 = r16; goto join_3; }
    r5 = 0u;
    goto dcc_c_loco_dcc_loco_apply;
arm_7:;
    r1_2 = r26;
    r616 = r7 >> 8u;
    r63_2 = r616 | 192u;
    r66 = r63_2 == r1_2;
    v11 = (uint8_t)(r7);
    r78 = r31 == v11;
    or_2 = r66 & r78;
    if (!(or_2)) { r5 = 0u; goto dcc_c_loco_dcc_loco_apply; }
    r31_2 = r31;
    r26_2 = r26;
join_3:;
    memset(r4_5, 0u, 12);
    r17_3 = (uint64_t)(a2 + UINT64_C(18446744073709551615));
    dcc_packet_from_frame_read_loco(r4_5, r4, r17_3);
    r25_2 = *r4_5;
    if (!(r25_2 == 1u)) goto dcc_packet_frame_laws_each_frame_is_a_packet;
    r2_2 = *(r4_5 + 2);
    r3_2 = *(r4_5 + 6);
    r3_3 = *(r4_5 + 7);
    r3_4 = *(r4_5 + 8);
    r12 = *(a0 + 76);
    v13 = r12 >> 1u;
    switch (r3_2) {
    case 5u: case 7u: goto dcc_regs_writes_is_own_write;
    case 0u: case 1u: case 2u: case 3u: case 4u: case 6u: case 8u: goto else_3;
    default: goto noarm;
    }
noarm:;
    DCC_UNREACHABLE();
dcc_regs_writes_is_own_write:;
    if (r2_2 == 0u) goto else_3;
    r15_2 = (uint8_t)a2;
    r18_7 = *(r4 + 2);
    if (!(a2 > UINT64_C(3))) { r5_6 = 0u; r5_7 = 0u; r5_8 = 0u; goto dcc_c_frame_byte_or_zero; }
    r18_8 = *(r4 + 3);
    if (a2 == UINT64_C(4)) { r5_6 = 0u; r5_7 = r18_8; r5_8 = 0u; goto dcc_c_frame_byte_or_zero; }
    r18_9 = *(r4 + 4);
    if (!(a2 > UINT64_C(5))) { r5_6 = r18_9; r5_7 = r18_8; r5_8 = 0u; goto dcc_c_frame_byte_or_zero; }
    r18_10 = *(r4 + 5);
    r5_6 = r18_9;
    r5_7 = r18_8;
    r5_8 = r18_10;
dcc_c_frame_byte_or_zero:;
    *(a0 + 6) = r15_2;
    *(a0 + 7) = r26_2;
    *(a0 + 8) = r31_2;
    *(a0 + 9) = r18_7;
    *(a0 + 10) = r5_7;
    *(a0 + 11) = r5_6;
    *(a0 + 12) = r5_8;
    goto arm_9;
else_3:;
    memset((a0 + 6), 0u, 7);
arm_9:;
    switch (r3_2) {
    case 0u: goto dcc_regs_masked_Masked_over;
    case 1u: goto arm_10;
    case 2u: goto arm_11;
    case 3u: case 4u: case 5u: case 6u: case 7u: case 8u: goto arm_12;
    default: goto noarm_2;
    }
arm_10:;
    if (!(r2_2 == 0u)) goto arm_13;
    if (r3_4 < 2u) { it = 0u; goto arm_14; }
    goto dcc_regs_speeds_speed_set;
arm_13:;
    trunc = (uint8_t)((v13) & 1u);
    if (!(trunc)) goto arm_15;
    if (r3_4 < 2u) { it_2 = 0u; it_3 = 0u; goto arm_16; }
    goto arm_17;
arm_15:;
    r52 = r3_4 >> 1u;
    switch (r52) {
    case 0u: it_2 = r52; it_3 = r52; goto arm_16;
    case 1u: goto arm_18;
    default: goto arm_19;
    }
arm_19:;
    r9 = (uint8_t)(r52 + 255u);
    it_2 = 14u;
    it_3 = r9;
    goto arm_16;
arm_11:;
    switch (r3_4) {
    case 0u: it_2 = r3_4; it_3 = r3_4; goto arm_16;
    case 1u: goto arm_20;
    default: goto arm_21;
    }
arm_21:;
    r3_5 = (uint8_t)(r3_4 + 255u);
    it_2 = 126u;
    it_3 = r3_5;
    goto arm_16;
noarm_2:;
    DCC_UNREACHABLE();
dcc_regs_speeds_speed_set:;
    if (r3_4 < 4u) { it = 1u; goto arm_14; }
    goto arm_22;
arm_17:;
    spec = (uint8_t)(r3_4 + 253u);
    if (r3_4 > 3u) { it_2 = 28u; it_3 = spec; goto arm_16; }
    goto arm_18;
arm_20:;
    it_2 = r3_4;
    it_3 = 0u;
    goto arm_16;
arm_18:;
    it_2 = 1u;
    it_3 = 0u;
    goto arm_16;
arm_14:;
    *(a0 + 1) = it;
    *(a0 + 2) = 0u;
arm_22:;
    switch_2 = r3_4 & 253u;
    switch_3 = switch_2 == 0u;
    r27_2 = *(a0 + 3);
    spec_2 = switch_3 ? r3_3 : r27_2;
    r36_2 = spec_2 & 1u;
    *(a0 + 3) = r36_2;
    goto dcc_c_loco_hear;
arm_12:;
    r27_3 = *(a0 + 3);
    r26_5 = (a0 + 3);
    v16 = r27_3;
    goto v15;
arm_16:;
    *(a0 + 1) = it_2;
    *(a0 + 2) = it_3;
    r26_5 = (a0 + 3);
    v16 = r3_3;
v15:;
    r36_3 = v16 & 1u;
    *r26_5 = r36_3;
    switch (r3_2) {
    case 3u: goto switch_2;
    case 1u: goto arm_23;
    case 4u: goto arm_24;
    case 2u: case 5u: case 6u: case 7u: case 8u: goto dcc_c_loco_hear;
    default: goto noarm_3;
    }
arm_23:;
    v17 = r2_2 == 0u;
    trunc_2 = (uint8_t)((v13) & 1u);
    or_3 = v17 | trunc_2;
    if (or_3) goto dcc_c_loco_hear;
    v18 = r3_4 & 1u;
    sext = (uint8_t)(0u - v18);
    it_4 = dcc_wide_sext(sext, UINT64_C(128));
    r9_2 = dcc_wide_of(UINT64_C(0), UINT64_C(1));
    r9_3 = it_4;
    goto dcc_regs_masked_Masked_over_2;
switch_2:;
    v19 = r3_3;
    switch_4 = ((unsigned char *)switch_table_dcc_loco_apply) + (ptrdiff_t)v19;
    switch_5 = *switch_4;
    trunc_3 = (uint8_t)((v13) & 1u);
    v20 = r3_3 == 0u;
    or_4 = v20 & trunc_3;
    r1_3 = dcc_wide_of(0, or_4);
    switch_6 = r3_3 < 3u;
    it_5 = switch_6 ? 15u : 255u;
    r1_4 = dcc_wide_of(0, it_5);
    r42 = dcc_wide_of(0, switch_5);
    r45_2 = dcc_wide_shl(r1_4, (unsigned)r42.low);
    r48 = dcc_wide_or(r45_2, r1_3);
    r1_5 = dcc_wide_of(0, r3_4);
    r57_2 = dcc_wide_shl(r1_5, (unsigned)r42.low);
    r61 = r3_4 >> 4u;
    r1_6 = dcc_wide_of(0, r61);
    r66_2 = dcc_wide_and(r1_3, r1_6);
    r69_3 = dcc_wide_or(r57_2, r66_2);
    r9_2 = r48;
    r9_3 = r69_3;
    goto dcc_regs_masked_Masked_over_2;
noarm_3:;
    DCC_UNREACHABLE();
dcc_regs_masked_Masked_over_2:;
    r1_7 = dcc_wide_of(0, r13);
    r17_4 = dcc_wide_shl(r1_7, 64u);
    r21_2 = dcc_load_64_aligned((a0 + 16));
    r1_8 = dcc_wide_of(0, r21_2);
    r26_6 = dcc_wide_or(r17_4, r1_8);
    r17_5 = dcc_wide_xor(r26_6, r9_3);
    r21_3 = dcc_wide_and(r17_5, r9_2);
    r23_2 = dcc_wide_xor(r21_3, r26_6);
    r7_2 = (uint64_t)(r23_2.low);
    r7_3 = dcc_wide_lshr(r23_2, 64u);
    v21 = (uint64_t)(r7_3.low);
    dcc_store_64_aligned((a0 + 16), r7_2);
    dcc_store_64_aligned((a0 + 24), v21);
    goto dcc_c_loco_hear;
dcc_regs_masked_Masked_over:;
    *(a0 + 1) = 0u;
    *(a0 + 2) = 0u;
    *(a0 + 3) = 1u;
    memset((a0 + 16), 0u, 16);
    r3_6 = dcc_wide_of(UINT64_C(0), UINT64_C(0));
    r3_7 = dcc_wide_of(UINT64_C(18446744073709551615), UINT64_C(18446744073709551614));
    goto dcc_regs_masked_Masked_over_3;
arm_24:;
    r4_6 = r3_3 == 0u;
    r9_4 = dcc_wide_of(0, r3_3);
    r11 = dcc_wide_shl(dcc_wide_of(UINT64_C(0), UINT64_C(1)), (unsigned)r9_4.low);
    r2_3 = r4_6 ? dcc_wide_of(UINT64_C(18446744073709551615), UINT64_C(18446744073709551614)) : r11;
    r23_3 = r3_4;
    it_6 = dcc_wide_sext(r23_3, UINT64_C(1));
    r3_6 = it_6;
    r3_7 = r2_3;
dcc_regs_masked_Masked_over_3:;
    r13_3 = dcc_load_64_aligned((a0 + 40));
    r1_9 = dcc_wide_of(0, r13_3);
    r17_6 = dcc_wide_shl(r1_9, 64u);
    r1_10 = dcc_wide_of(0, r21);
    r26_7 = dcc_wide_or(r17_6, r1_10);
    r17_7 = dcc_wide_xor(r26_7, r3_6);
    r21_4 = dcc_wide_and(r17_7, r3_7);
    r23_4 = dcc_wide_xor(r21_4, r26_7);
    r7_4 = (uint64_t)(r23_4.low);
    r81_2 = dcc_wide_lshr(r23_4, 64u);
    r10 = (uint64_t)(r81_2.low);
    dcc_store_64_aligned((a0 + 32), r7_4);
    dcc_store_64_aligned((a0 + 40), r10);
    goto dcc_c_loco_hear;
dcc_packet_frame_laws_each_frame_is_a_packet:;
    memset((a0 + 6), 0u, 7);
dcc_c_loco_hear:;
    r5 = 0u;
    goto dcc_c_loco_dcc_loco_apply;
dcc_c_loco_apply:;
    r27_4 = dcc_c_loco_apply_pending(a0, r4, a2);
    if (r27_4) { r5 = 0u; goto dcc_c_loco_dcc_loco_apply; }
else_2:;
    r5 = 13u;
dcc_c_loco_dcc_loco_apply:;
    return r5;
}

/* dcc_decoder_new */
void dcc_decoder_new(dcc_decoder *decoder, const uint8_t cvs[DCC_CVS]) {
    unsigned char *a0 = (unsigned char *)decoder;
    unsigned char *a1 = (unsigned char *)cvs;
    uint64_t r0, r8, r9, r10, r30;
    uint8_t r26;
    unsigned char *r20, *r24;
    r8 = (uintptr_t)(a0 + 48);
    r9 = (uintptr_t)a1;
    r10 = (uint64_t)(r8 - r9);
    if (r10 < UINT64_C(1024)) { r0 = UINT64_C(0); goto join; }
    memmove((a0 + 48), a1, 1024);
    goto dcc_c_decoder_dcc_decoder_new;
join:;
    r20 = (a0 + 48) + (ptrdiff_t)r0;
    r24 = a1 + (ptrdiff_t)r0;
    r26 = *r24;
    *r20 = r26;
    r30 = (uint64_t)(r0 + UINT64_C(1));
    if (!(r30 == UINT64_C(1024))) { r0 = r30; goto join; }
dcc_c_decoder_dcc_decoder_new:;
    dcc_c_loco_dcc_loco_power_up(a0);
    memset((a0 + 1072), 0u, 10);
    return;
}

/* dcc_functions_turn */
uint8_t dcc_functions_turn(dcc_functions *functions, uint8_t to, uint16_t address, uint8_t function, bool on,
                           dcc_frame *frame) {
    unsigned char *a0 = (unsigned char *)functions;
    uint8_t a1 = to;
    uint16_t a2 = address;
    uint8_t a3 = function;
    uint8_t a4 = on;
    unsigned char *a5 = (unsigned char *)frame;
    struct dcc_wide r23_3, r1, r17_2, r1_2, r26, it, r12, r14, r17_3, r21_2, r23, it_2, r12_3, r14_3, r17_4, r21_3,
        r23_2, it_3, r12_4, r14_4, r17_5, r21_4, r23_4, it_6, r12_5, r14_5, r17_6, r21_5, r23_5, it_7, r12_6, r14_6,
        r17_7, r21_6, r23_6, it_8, r12_7, r14_7, r17_8, r21_7, r23_7, it_9, r12_9, r14_8, r17_9, r21_8, r23_8,
        extract88, r4, r6_5, it_10, r12_10, r14_9, r17_10, r21_9, r23_9, r4_2, r6_6;
    uint16_t v1, v2;
    uint64_t r6_3, r6_4, r6, r6_2, r13, r21, extract_2, extract_3, extract_4, extract_5, extract_6, extract_7,
        extract_8, extract_9, extract_10, r19_7;
    uint8_t a1_4, r2_2, a1_3, r2, a1_2, a2_2, r12_8, r4_3, r8, extract, r12_2, r14_2, v3, r10, r18, r37, it_4, it_5,
        r10_2, v4, r10_3, r19, r19_2, r19_3, r19_4, r19_5, r19_6, r15, r11, spec, r11_2, r5, r11_3, r5_2, r11_4,
        r5_3, r11_5, r5_4, r11_6, r5_5, v5, switch_2;
    uint64_t place_0[3];
    unsigned char *const r7 = (unsigned char *)place_0;
    uint64_t place_1[2];
    unsigned char *const r17 = (unsigned char *)place_1;
    uint16_t place_2[3];
    unsigned char *const r3 = (unsigned char *)place_2;
    dcc_c_packet_fields_address_of(r3, a1, a2);
    r8 = *r3;
    if (!(r8 == 0u)) goto arm;
    v1 = dcc_load_16_aligned((r3 + 2));
    v2 = dcc_load_16_aligned((r3 + 4));
    memset(DCC_ALIGNED(r17), 0u, 16);
    r13 = dcc_load_64_aligned((a0 + 8));
    r1 = dcc_wide_of(0, r13);
    r17_2 = dcc_wide_shl(r1, 64u);
    r21 = dcc_load_64_aligned(a0);
    r1_2 = dcc_wide_of(0, r21);
    r26 = dcc_wide_or(r17_2, r1_2);
    if (!(a3 < 37u)) goto join;
    if (!(a3 < 5u)) goto join_2;
    it = dcc_wide_sext(a4, UINT64_C(1));
    r12 = dcc_wide_of(0, a3);
    r14 = dcc_wide_shl(dcc_wide_of(UINT64_C(0), UINT64_C(1)), (unsigned)r12.low);
    r17_3 = dcc_wide_xor(r1_2, it);
    r21_2 = dcc_wide_and(r17_3, r14);
    r23 = dcc_wide_xor(r21_2, r26);
    extract = (uint8_t)(r23.low);
    r12_2 = (uint8_t)((1u * extract) << 4u);
    r14_2 = r12_2 & 16u;
    v3 = extract >> 1u;
    r10 = v3 & 15u;
    r18 = r14_2 | r10;
    extract_2 = (uint64_t)(r23.low);
    r6 = extract_2;
    r6_2 = r13;
    a1_2 = 0u;
    a2_2 = r18;
    goto arm_2;
join_2:;
    if (a3 < 9u) { a1_3 = 1u; r2 = 5u; goto dcc_packet_functions_max; }
    if (a3 < 13u) { a1_3 = 2u; r2 = 9u; goto dcc_packet_functions_max; }
    if (!(a3 < 21u)) goto join_3;
    it_2 = dcc_wide_sext(a4, UINT64_C(1));
    r12_3 = dcc_wide_of(0, a3);
    r14_3 = dcc_wide_shl(dcc_wide_of(UINT64_C(0), UINT64_C(1)), (unsigned)r12_3.low);
    r17_4 = dcc_wide_xor(r1_2, it_2);
    r21_3 = dcc_wide_and(r17_4, r14_3);
    r23_2 = dcc_wide_xor(r21_3, r26);
    extract_3 = (uint64_t)(r23_2.low);
    r6_3 = extract_3;
    r6_4 = r13;
    r23_3 = r23_2;
    a1_4 = 3u;
    r2_2 = 13u;
    goto dcc_station_functions_bits_of;
join_3:;
    r37 = a3 < 29u;
    it_3 = dcc_wide_sext(a4, UINT64_C(1));
    r12_4 = dcc_wide_of(0, a3);
    r14_4 = dcc_wide_shl(dcc_wide_of(UINT64_C(0), UINT64_C(1)), (unsigned)r12_4.low);
    r17_5 = dcc_wide_xor(r1_2, it_3);
    r21_4 = dcc_wide_and(r17_5, r14_4);
    r23_4 = dcc_wide_xor(r21_4, r26);
    it_4 = r37 ? 4u : 5u;
    it_5 = r37 ? 21u : 29u;
    extract_4 = (uint64_t)(r23_4.low);
    r6_3 = extract_4;
    r6_4 = r13;
    r23_3 = r23_4;
    a1_4 = it_4;
    r2_2 = it_5;
    goto dcc_station_functions_bits_of;
join:;
    if (!(a3 < 45u)) goto join_4;
    it_6 = dcc_wide_sext(a4, UINT64_C(1));
    r12_5 = dcc_wide_of(0, a3);
    r14_5 = dcc_wide_shl(dcc_wide_of(UINT64_C(0), UINT64_C(1)), (unsigned)r12_5.low);
    r17_6 = dcc_wide_xor(r1_2, it_6);
    r21_5 = dcc_wide_and(r17_6, r14_5);
    r23_5 = dcc_wide_xor(r21_5, r26);
    extract_5 = (uint64_t)(r23_5.low);
    r6_3 = extract_5;
    r6_4 = r13;
    r23_3 = r23_5;
    a1_4 = 6u;
    r2_2 = 37u;
    goto dcc_station_functions_bits_of;
join_4:;
    if (!(a3 < 53u)) goto join_5;
    it_7 = dcc_wide_sext(a4, UINT64_C(1));
    r12_6 = dcc_wide_of(0, a3);
    r14_6 = dcc_wide_shl(dcc_wide_of(UINT64_C(0), UINT64_C(1)), (unsigned)r12_6.low);
    r17_7 = dcc_wide_xor(r1_2, it_7);
    r21_6 = dcc_wide_and(r17_7, r14_6);
    r23_6 = dcc_wide_xor(r21_6, r26);
    extract_6 = (uint64_t)(r23_6.low);
    r6_3 = extract_6;
    r6_4 = r13;
    r23_3 = r23_6;
    a1_4 = 7u;
    r2_2 = 45u;
    goto dcc_station_functions_bits_of;
join_5:;
    if (!(a3 < 61u)) goto dcc_station_functions_group_of;
    it_8 = dcc_wide_sext(a4, UINT64_C(1));
    r12_7 = dcc_wide_of(0, a3);
    r14_7 = dcc_wide_shl(dcc_wide_of(UINT64_C(0), UINT64_C(1)), (unsigned)r12_7.low);
    r17_8 = dcc_wide_xor(r1_2, it_8);
    r21_7 = dcc_wide_and(r17_8, r14_7);
    r23_7 = dcc_wide_xor(r21_7, r26);
    extract_7 = (uint64_t)(r23_7.low);
    r6_3 = extract_7;
    r6_4 = r13;
    r23_3 = r23_7;
    a1_4 = 8u;
    r2_2 = 53u;
    goto dcc_station_functions_bits_of;
dcc_station_functions_group_of:;
    if (a3 > 68u) { r12_8 = 13u; goto dcc_c_functions_turn; }
    it_9 = dcc_wide_sext(a4, UINT64_C(1));
    r12_9 = dcc_wide_of(0, a3);
    r14_8 = dcc_wide_shl(dcc_wide_of(UINT64_C(0), UINT64_C(1)), (unsigned)r12_9.low);
    r17_9 = dcc_wide_xor(r26, it_9);
    r21_8 = dcc_wide_and(r17_9, r14_8);
    r23_8 = dcc_wide_xor(r21_8, r26);
    extract_8 = (uint64_t)(r23_8.low);
    extract88 = dcc_wide_lshr(r23_8, 64u);
    extract_9 = (uint64_t)(extract88.low);
    r6_3 = extract_8;
    r6_4 = extract_9;
    r23_3 = r23_8;
    a1_4 = 9u;
    r2_2 = 61u;
dcc_station_functions_bits_of:;
    r4 = dcc_wide_of(0, r2_2);
    r6_5 = dcc_wide_lshr(r23_3, (unsigned)r4.low);
    r10_2 = (uint8_t)(r6_5.low);
    r6 = r6_3;
    r6_2 = r6_4;
    a1_2 = a1_4;
    a2_2 = r10_2;
    goto arm_2;
dcc_packet_functions_max:;
    it_10 = dcc_wide_sext(a4, UINT64_C(1));
    r12_10 = dcc_wide_of(0, a3);
    r14_9 = dcc_wide_shl(dcc_wide_of(UINT64_C(0), UINT64_C(1)), (unsigned)r12_10.low);
    r17_10 = dcc_wide_xor(r1_2, it_10);
    r21_9 = dcc_wide_and(r17_10, r14_9);
    r23_9 = dcc_wide_xor(r21_9, r26);
    r4_2 = dcc_wide_of(0, r2);
    r6_6 = dcc_wide_lshr(r23_9, (unsigned)r4_2.low);
    v4 = (uint8_t)(r6_6.low);
    r10_3 = v4 & 15u;
    extract_10 = (uint64_t)(r23_9.low);
    r6 = extract_10;
    r6_2 = r13;
    a1_2 = a1_3;
    a2_2 = r10_3;
arm_2:;
    dcc_store_16_aligned(r7, 1u);
    dcc_store_16_aligned((r7 + 2), v1);
    dcc_store_16_aligned((r7 + 4), v2);
    *(r7 + 6) = 3u;
    *(r7 + 7) = a1_2;
    *(r7 + 8) = a2_2;
    memset((r7 + 9), 0u, 15);
    dcc_store_64(a0, r6);
    dcc_store_64((a0 + 8), r6_2);
    dcc_packet_packet_Packet_frame(r17, r7);
    r19 = *r17;
    r19_2 = *(r17 + 1);
    r19_3 = *(r17 + 2);
    r19_4 = *(r17 + 3);
    r19_5 = *(r17 + 4);
    r19_6 = *(r17 + 5);
    r19_7 = dcc_load_64_aligned((r17 + 8));
    r15 = (uint8_t)(r19_7);
    r11 = r19_7 == UINT64_C(0);
    spec = r11 ? 0u : r19;
    r11_2 = r19_7 > UINT64_C(1);
    r5 = r11_2 ? r19_2 : 0u;
    r11_3 = r19_7 > UINT64_C(2);
    r5_2 = r11_3 ? r19_3 : 0u;
    r11_4 = r19_7 > UINT64_C(3);
    r5_3 = r11_4 ? r19_4 : 0u;
    r11_5 = r19_7 > UINT64_C(4);
    r5_4 = r11_5 ? r19_5 : 0u;
    r11_6 = r19_7 > UINT64_C(5);
    r5_5 = r11_6 ? r19_6 : 0u;
    *a5 = r15;
    *(a5 + 1) = spec;
    *(a5 + 2) = r5;
    *(a5 + 3) = r5_2;
    *(a5 + 4) = r5_3;
    *(a5 + 5) = r5_4;
    *(a5 + 6) = r5_5;
    r12_8 = 0u;
dcc_c_functions_turn:;
    r4_3 = r12_8;
    goto dcc_c_functions_dcc_functions_turn;
arm:;
    v5 = *(r3 + 1);
    switch_2 = (uint8_t)(v5 + 1u);
    r4_3 = switch_2;
dcc_c_functions_dcc_functions_turn:;
    return r4_3;
}

/* dcc_lost_push */
uint8_t dcc_lost_push(dcc_lost *finder, uint16_t us, dcc_lost_packet *packet) {
    unsigned char *a0 = (unsigned char *)finder;
    uint16_t a1 = us;
    unsigned char *a2 = (unsigned char *)packet;
    uint16_t r2_2, r7, r7_6, v0, r4, r7_2, r17, r19, v1, r4_5, r7_7, r17_2, r19_2, v6, r23_3, v8, r35, v9, r47_3,
        v10;
    uint64_t r1, r11, r5, r11_2, r13, r3_2, r5_2, r11_3, r13_2, r4_2, r1_3, r11_5, r1_4, r2_6, r16, r22_3;
    uint8_t r30_3, r9_2, r4_3, v3, r1_2, spec, r2_3, r2_4, v5, it, common, r2, r3, r8, r9, r9_3, r9_4, r10, r7_3,
        v2, r7_4, r9_5, r10_2, r22, r23, r32, r28, r30, r34, r47, r54, r57, r10_3, r7_5, r9_6, r10_4, r22_2, r23_2,
        r32_2, r28_2, r30_2, r28_3, r30_4, r47_2, r54_2, r57_2, r10_5, r68, r18, r28_4, r29, r4_4, it_2, r5_3, r6,
        r11_4, v4, v7, or_2, r2_5, r3_3, r18_2;
    unsigned char *r27, *r40, *r14, *r8_2, *r8_3, *r14_2, *r19_3;
    r2 = *a0;
    r3 = r2;
    if (r3) { r2_2 = 0u; goto dcc_lost_heard_Heard_unused; }
    r8 = *(a0 + 24);
    v0 = r8;
    r2_2 = v0;
dcc_lost_heard_Heard_unused:;
    r4 = dcc_load_16_aligned((a0 + 802));
    if (!(r4 == 192u)) { r7 = r4; goto dcc_timing_recent_LastNumbers_make_room; }
    dcc_timing_recent_LastNumbers_move_to_front((a0 + 418));
    r7_2 = dcc_load_16_aligned((a0 + 802));
    r7 = r7_2;
dcc_timing_recent_LastNumbers_make_room:;
    r1 = r7;
    r11 = (uint64_t)((1u * r1) << UINT64_C(1));
    r14 = (a0 + 418) + (ptrdiff_t)r11;
    dcc_store_16_aligned(r14, r2_2);
    r17 = dcc_load_16_aligned((a0 + 802));
    r19 = (uint16_t)(r17 + 1u);
    dcc_store_16_aligned((a0 + 802), r19);
    if (!(a1 < 52u)) goto join;
    r9 = *a0;
    r9_2 = r9;
    goto arm;
join:;
    if (a1 < 65u) goto arm_2;
    v1 = (uint16_t)(a1 + 65446u);
    r9_3 = *a0;
    if (v1 < 9911u) goto arm_3;
    r9_2 = r9_3;
    goto arm;
arm_2:;
    r9_4 = *a0;
    r10 = r9_4;
    if (r10) goto arm_4;
    r7_3 = *(a0 + 1);
    v2 = dcc_umin_8(r7_3, 19u);
    r7_4 = (uint8_t)(v2 + 1u);
    *(a0 + 1) = r7_4;
    goto then;
arm_4:;
    r9_5 = *(a0 + 2);
    r10_2 = r9_5;
    if (!(r10_2)) goto then_2;
    r22 = *(a0 + 3);
    r23 = r22;
    if (!(r23)) goto arm_5;
    r32 = *(a0 + 6);
    if (r32 == 0u) goto join_2;
    goto join_3;
then_2:;
    *(a0 + 2) = 1u;
    *(a0 + 3) = 1u;
    goto then;
join_3:;
    *(a0 + 2) = 0u;
    r28 = *(a0 + 5);
    r30 = (uint8_t)((1u * r28) << 1u);
    r34 = r30 | 1u;
    if (!(r32 < 8u)) goto else_2;
    *(a0 + 5) = r34;
    r47 = (uint8_t)(r32 + 1u);
    *(a0 + 6) = r47;
    goto then;
else_2:;
    r5 = dcc_load_64_aligned((a0 + 16));
    r8_2 = (a0 + 8) + (ptrdiff_t)r5;
    *r8_2 = r34;
    r11_2 = dcc_load_64_aligned((a0 + 16));
    r13 = (uint64_t)(r11_2 + UINT64_C(1));
    dcc_store_64_aligned((a0 + 16), r13);
    r54 = *(a0 + 4);
    r57 = r54 ^ r34;
    *(a0 + 4) = r57;
    *(a0 + 5) = 0u;
    *(a0 + 6) = 0u;
    goto then;
arm_3:;
    r10_3 = r9_3;
    if (r10_3) goto arm_6;
    r7_5 = *(a0 + 1);
    if (!(r7_5 > 19u)) goto else_3;
    *a0 = 1u;
    *(a0 + 2) = 1u;
    dcc_store_32((a0 + 3), UINT32_C(0));
    memset((a0 + 8), 0u, 16);
    goto then;
else_3:;
    *(a0 + 1) = 0u;
    goto then;
arm_6:;
    r9_6 = *(a0 + 2);
    r10_4 = r9_6;
    if (!(r10_4)) goto then_3;
    r22_2 = *(a0 + 3);
    r23_2 = r22_2;
    if (r23_2) goto arm_5;
    r32_2 = *(a0 + 6);
    if (!(r32_2 == 0u)) goto join_4;
    r3_2 = dcc_load_64_aligned((a0 + 16));
    if (!(r3_2 < UINT64_C(6))) goto arm_5;
    *(a0 + 2) = 0u;
    r28_2 = *(a0 + 5);
    r30_2 = (uint8_t)((1u * r28_2) << 1u);
    r30_3 = r30_2;
    r27 = (a0 + 5);
    goto then_4;
then_3:;
    *(a0 + 2) = 1u;
    *(a0 + 3) = 0u;
    goto then;
join_4:;
    *(a0 + 2) = 0u;
    r28_3 = *(a0 + 5);
    r30_4 = (uint8_t)((1u * r28_3) << 1u);
    if (!(r32_2 < 8u)) goto else_4;
    r30_3 = r30_4;
    r27 = (a0 + 5);
then_4:;
    *r27 = r30_3;
    r47_2 = (uint8_t)(r32_2 + 1u);
    *(a0 + 6) = r47_2;
    goto then;
else_4:;
    r5_2 = dcc_load_64_aligned((a0 + 16));
    r8_3 = (a0 + 8) + (ptrdiff_t)r5_2;
    *r8_3 = r30_4;
    r11_3 = dcc_load_64_aligned((a0 + 16));
    r13_2 = (uint64_t)(r11_3 + UINT64_C(1));
    dcc_store_64_aligned((a0 + 16), r13_2);
    r54_2 = *(a0 + 4);
    r57_2 = r54_2 ^ r30_4;
    *(a0 + 4) = r57_2;
    *(a0 + 5) = 0u;
    *(a0 + 6) = 0u;
    goto then;
arm:;
    r10_5 = r9_2;
    if (r10_5) goto arm_5;
    *(a0 + 1) = 0u;
    goto then;
join_2:;
    r4_2 = dcc_load_64_aligned((a0 + 16));
    if (r4_2 < UINT64_C(3)) goto arm_7;
    r68 = *(a0 + 4);
    if (!(r68 == 0u)) goto arm_7;
    *a0 = 0u;
    *(a0 + 1) = 2u;
    r40 = (a0 + 24);
    r4_3 = 1u;
    v3 = 1u;
    r1_2 = 2u;
    goto dcc_lost_heard_unused_next;
default_2:;
    DCC_UNREACHABLE();
then:;
    r18 = *(a0 + 24);
    if (!(r18 == 20u)) goto arm_8;
    r28_4 = *(a0 + 25);
    r29 = r28_4;
    if (!(r29)) { it = 0u; goto dcc_lost_heard_Heard_count; }
arm_8:;
    r4_4 = (uint8_t)(r18 + 1u);
    it_2 = dcc_umin_8(r4_4, 20u);
    r40 = (a0 + 24);
    r4_3 = 0u;
    v3 = 0u;
    r1_2 = it_2;
    goto dcc_lost_heard_unused_next;
arm_5:;
    *a0 = 0u;
    *(a0 + 1) = 0u;
    r40 = (a0 + 24);
    r4_3 = 2u;
    v3 = 1u;
    r1_2 = 0u;
    goto dcc_lost_heard_unused_next;
arm_7:;
    *a0 = 0u;
    *(a0 + 1) = 2u;
    r40 = (a0 + 24);
    r4_3 = 2u;
    v3 = 1u;
    r1_2 = 2u;
dcc_lost_heard_unused_next:;
    *r40 = r1_2;
    r5_3 = *(a0 + 25);
    r6 = r5_3;
    if (!(r6)) { spec = 0u; r2_3 = 0u; goto dcc_lost_heard_Heard_since_refusal; }
    r11_4 = *(a0 + 26);
    v4 = dcc_uadd_sat_8(r11_4, 1u);
    spec = v4;
    r2_3 = 1u;
dcc_lost_heard_Heard_since_refusal:;
    switch (r4_3) {
    case 0u: goto dcc_lost_heard_since_next;
    case 1u: r2_4 = 0u; v5 = 0u; goto dcc_lost_heard_since_next_2;
    case 2u: goto dcc_lost_heard_since_next_3;
    default: goto default_2;
    }
dcc_lost_heard_since_next_3:;
    r2_4 = 1u;
    v5 = 0u;
    goto dcc_lost_heard_since_next_2;
dcc_lost_heard_since_next:;
    r2_4 = r2_3;
    v5 = spec;
dcc_lost_heard_since_next_2:;
    *(a0 + 25) = r2_4;
    *(a0 + 26) = v5;
    it = v3;
dcc_lost_heard_Heard_count:;
    r4_5 = dcc_load_16_aligned((a0 + 416));
    if (!(r4_5 == 192u)) { r7_6 = r4_5; goto dcc_lost_finder_LostFinder_hear; }
    dcc_timing_recent_LastNumbers_move_to_front((a0 + 32));
    r7_7 = dcc_load_16_aligned((a0 + 416));
    r7_6 = r7_7;
dcc_lost_finder_LostFinder_hear:;
    r1_3 = r7_6;
    r11_5 = (uint64_t)((1u * r1_3) << UINT64_C(1));
    r14_2 = (a0 + 32) + (ptrdiff_t)r11_5;
    dcc_store_16_aligned(r14_2, a1);
    r17_2 = dcc_load_16_aligned((a0 + 416));
    r19_2 = (uint16_t)(r17_2 + 1u);
    dcc_store_16_aligned((a0 + 416), r19_2);
    v6 = (uint16_t)(a1 + 65459u);
    v7 = v6 < 65485u;
    or_2 = v7 | it;
    if (or_2) { common = 0u; goto dcc_c_lost_dcc_lost_push; }
    r2_5 = *a0;
    r3_3 = r2_5;
    if (r3_3) { common = 0u; goto dcc_c_lost_dcc_lost_push; }
    r1_4 = r19_2;
    r2_6 = dcc_usub_sat_64(r1_4, UINT64_C(56));
    r16 = (uint64_t)((1u * r2_6) << UINT64_C(1));
    r19_3 = (a0 + 32) + (ptrdiff_t)r16;
    r22_3 = (uint64_t)(r1_4 - r2_6);
    if (!(r22_3 == UINT64_C(56))) { common = 0u; goto dcc_c_lost_dcc_lost_push; }
    r23_3 = dcc_load_16_aligned(r19_3);
    v8 = (uint16_t)(r23_3 + 65459u);
    if (!(v8 < 19924u)) { common = 0u; goto dcc_c_lost_dcc_lost_push; }
    r35 = dcc_load_16_aligned((r19_3 + 36));
    v9 = (uint16_t)(r35 + 65459u);
    if (!(v9 < 19924u)) { common = 0u; goto dcc_c_lost_dcc_lost_push; }
    r47_3 = dcc_load_16_aligned((r19_3 + 72));
    v10 = (uint16_t)(r47_3 + 65459u);
    if (!(v10 < 19924u)) { common = 0u; goto dcc_c_lost_dcc_lost_push; }
    r18_2 = dcc_c_lost_write_packet_at_end(a0, a2);
    common = r18_2;
dcc_c_lost_dcc_lost_push:;
    return common;
}

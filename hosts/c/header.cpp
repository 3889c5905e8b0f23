/* The header in C++11: its macros in initializers, from constants and from variables. This is compiled, not run. */
#include "monitor.h"

constexpr uint8_t contract[] = {MONITOR_RECORD(MONITOR_KIND_DUTY, MONITOR_PARTY_BOTH, 31),
                                MONITOR_DEADLINE(MONITOR_PARTY_2, 31, MONITOR_MAX_WINDOW)};
constexpr uint8_t narrow[] = {MONITOR_PERIOD(1u << 0, 1u << 15)};
constexpr uint8_t wide[] = {MONITOR_WIDE_PERIOD(1u << 0, 1u << 31)};
constexpr uint8_t log_record[] = {MONITOR_LOG_RECORD(MONITOR_MAX_LOG_RECORDS, 1u << 31)};

static_assert(sizeof contract == 2 * MONITOR_RECORD_BYTES, "two contract records");
static_assert(sizeof narrow == MONITOR_PERIOD_BYTES && narrow[5] == 0x80, "a narrow period record");
static_assert(sizeof wide == MONITOR_WIDE_PERIOD_BYTES && wide[9] == 0x80, "a wide period record");
static_assert(sizeof wide == MONITOR_TRACE_BYTES(1), "a trace of one period");
static_assert(sizeof log_record == MONITOR_LOG_RECORD_BYTES && log_record[7] == 0x80, "a log record");

uint32_t from_variables(int kind, int party, int action, int window, int period, uint32_t one, int two)
{
    const uint8_t records[] = {MONITOR_RECORD(kind, party, action), MONITOR_DEADLINE(party, action, window),
                               MONITOR_PERIOD(one, two), MONITOR_WIDE_PERIOD(one, two), MONITOR_LOG_RECORD(period, two)};

    return records[sizeof records - 1];
}

// The header in C++: its constructors, wrappers and linkage.
#include "sme_move.h"

#include <algorithm>
#include <cstdio>
#include <vector>

// Whether tiles are taken and given up as they should be.
static bool tiles_right()
{
    sme_held held = sme_held_none();
    uint64_t tile = 9;
    const bool taken = sme_held_take(&held, 2, &tile) == SME_DONE && tile == 0 &&
                       sme_held_take(&held, 4, &tile) == SME_DONE && tile == 1 &&
                       sme_held_take(&held, 2, &tile) == SME_NO_FREE_TILE && tile == 0;
    return taken && sme_held_give_up(&held, 2, 0) == SME_DONE && held.count == 1 &&
           sme_held_give_up(&held, 2, 0) == SME_BAD_HELD && held.tiles[0] == 4 && held.tiles[1] == 1;
}

// Whether a vector of 16 bytes goes to row 5 of an array of 32-byte vectors, and nothing beside it.
static bool long_buffers_right()
{
    const sme_settings settings =
        sme_settings_with_za(sme_settings_with_streaming(sme_settings_within(16, 32, 3), true), true);
    std::vector<uint64_t> x(SME_X_COUNT);
    std::vector<uint8_t> z(SME_Z_BYTES(32), 7), p(SME_P_BYTES(32), 0xFF), za(SME_ZA_BYTES(32)), wanted(za);
    std::fill_n(wanted.begin() + 5 * 32, 16, uint8_t(7));
    x[12] = 5;
    const sme_buffers buffers = {x.data(), x.size(), z.data(), z.size(), p.data(),
                                 p.size(), za.data(), za.size(), nullptr, 0};
    uint64_t address = 1;
    sme_settings made = settings;
    return sme_settings_execute(settings, 0xC0000000, buffers, &address) == SME_DONE && za == wanted &&
           sme_settings_make_within(32, 16, 3, &made) == SME_BAD_SETTINGS && made.largest_vector_bytes == 16;
}

// Whether a load gives every result: of two elements of 8 bytes memory has one and a half.
static bool results_right()
{
    const sme_settings settings =
        sme_settings_with_za(sme_settings_with_streaming(sme_settings_new(16, 1), true), true);
    std::vector<uint64_t> x(SME_X_COUNT), results(SME_RESULT_COUNT, 9);
    std::vector<uint8_t> z(SME_Z_BYTES(16)), p(SME_P_BYTES(16), 0xFF), za(SME_ZA_BYTES(16)), memory(12);
    const sme_buffers buffers = {x.data(), x.size(), z.data(), z.size(), p.data(),
                                 p.size(), za.data(), za.size(), memory.data(), memory.size()};
    return sme_settings_execute_results(settings, 0xE0DF0000, buffers, results.data(), results.size()) ==
               SME_OUTSIDE_MEMORY &&
           results[SME_RESULT_ADDRESS] == 12 && results[SME_RESULT_ELEMENT] == 1;
}

// Whether a listing is run up to the word that is no instruction, and then from behind it to its end.
static bool listings_right()
{
    const sme_settings settings =
        sme_settings_with_za(sme_settings_with_streaming(sme_settings_new(16, 1), true), true);
    const std::vector<uint8_t> listing = {0x00, 0x00, 0x00, 0xC0, 0x10, 0x00, 0x00, 0xC0, 0x21, 0x00, 0x00, 0xC0};
    std::vector<uint64_t> x(SME_X_COUNT), results(SME_RESULT_COUNT, 9);
    std::vector<uint8_t> z(SME_Z_BYTES(16), 7), p(SME_P_BYTES(16), 0xFF), za(SME_ZA_BYTES(16)), wanted(za);
    std::fill_n(wanted.begin(), 2 * 16, uint8_t(7));
    const sme_buffers buffers = {x.data(), x.size(), z.data(), z.size(), p.data(),
                                 p.size(), za.data(), za.size(), nullptr, 0};
    const bool stopped = sme_settings_run(settings, listing.data(), listing.size(), SME_ALLOWANCE_ALL, buffers,
                                          results.data(), results.size()) == SME_UNDECODABLE &&
                         results[SME_RESULT_WORDS] == 1 && za[0] == 7 && za[16] == 0;
    return stopped &&
           sme_settings_run(settings, listing.data() + 8, 4, SME_ALLOWANCE_ALL, buffers, results.data(),
                            results.size()) == SME_DONE &&
           results[SME_RESULT_WORDS] == 1 && za == wanted &&
           sme_settings_run(settings, listing.data(), 5, 0, buffers, results.data(), results.size()) ==
               SME_BAD_LISTING &&
           results[SME_RESULT_WORDS] == 0;
}

int main()
{
    const sme_settings settings =
        sme_settings_with_za(sme_settings_with_streaming(sme_settings_new(16, 3), true), true);
    std::vector<uint64_t> x(SME_X_COUNT);
    std::vector<uint8_t> z(SME_Z_BYTES(16), 7), p(SME_P_BYTES(16), 0xFF), za(SME_ZA_BYTES(16));
    x[12] = 5;
    const sme_buffers buffers = {x.data(), x.size(), z.data(), z.size(), p.data(),
                                 p.size(), za.data(), za.size(), nullptr, 0};
    uint64_t address = 1;
    const uint32_t answer = sme_settings_execute(settings, 0xC0000000, buffers, &address);
    const bool right = answer == SME_DONE && address == 0 && za[4 * 16 + 15] == 0 && za[5 * 16] == 7 &&
                       za[5 * 16 + 15] == 7 && za[6 * 16] == 0;
    std::printf("C++: answer %u, %s\n", answer, sme_answer_text(answer));
    return right && tiles_right() && long_buffers_right() && results_right() && listings_right() ? 0 : 1;
}

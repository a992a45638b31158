/* Hands one frame to switch 0x0001, which reaches 0x0009 over the neighbour 0x0005, and says what became of it. */
#include <staffripple.h>
#include <stdio.h>

int main(void)
{
    const uint8_t settings[] = {1, 0, 8, 0, 1, 2, 0, 0, 0, 0, 1, 2, 0, 14, 0, 9, 0, 5, 2, 0, 0, 0, 0, 5, 0, 0, 0, 1};
    const uint8_t frame[] = {2, 0, 0, 0, 0, 1, 2, 0, 0, 0, 0, 2, 0x22, 0xF3, 0x00, 0x05, 0, 9, 0, 4};
    const uint8_t clock[TRILL_CLOCK] = {0};
    uint8_t out[TRILL_OUTPUT_LEAST], beside[TRILL_BESIDE_LEAST];
    struct trill_answer answer = trill_handle(frame, sizeof frame, settings, sizeof settings, clock, sizeof clock, out,
                                              sizeof out, beside, sizeof beside);
    printf("%u %s, %u octets written\n", answer.number, trill_answer_name(answer.number), answer.written);
    return 0;
}

/* A plan as `desk c` writes it: `night` has the bytes of the file PLAN, hut_read and hut_open take them, and the first
 * order is the plan's. The last line counts. */
#include "expect.h"

extern const uint8_t night[];
extern const size_t night_bytes;

int main(void)
{
    static uint8_t file[HUT_MOST_PLAN_BYTES + 1];
    FILE *in = fopen(PLAN, "rb");
    size_t bytes = in ? fread(file, 1, sizeof file, in) : 0, same = 0;
    expect("the plan file's length", bytes > 0 && bytes == night_bytes);
    while (same < bytes && same < night_bytes && file[same] == night[same]) {
        same++;
    }
    expect("the plan file's bytes", same == bytes);
    struct hut_read_result r = hut_read(night, night_bytes);
    expect("read", r.answer.number == 0 && r.jobs == 2 && r.edges == 0 && r.slots == 5);
    struct hut_running o = hut_open(night, night_bytes, 7);
    expect("opened", o.answer.number == 0);
    struct hut_answer a = hut_step(&o.state, 7, 0);
    expect("the first order", a.number == 0 && a.order == 1);
    return counted();
}

/* Averages in floating point: a module outside the runtime's profile, which has integers alone. */
static double samples[4] = {1.5, 2.5, 4.0, 8.0};

__attribute__((export_name("average"))) double average(int count) {
    double sum = 0;
    for (int i = 0; i < count; i++) {
        sum += samples[i];
    }
    return sum / count;
}

/* Counts up to a limit, in two speeds. */
int main(void) {
    int i;
    int limit;
    limit = 0x20;
    i = 0;
    while (i != limit) { // the analysis does not read the test: i may grow too far
        if (i < 10)
            i = i + 1;
        else
            i = i + 2;
    }
    return i - limit;
}

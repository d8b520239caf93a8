/* Functions of a motor controller: calls of calls, a choice among modes, and a loop. */

static int limited(int value, int least, int most)
{
    if (value < least)
        return least;
    if (value > most)
        return most;
    return value;
}

/* A value within the twelve bits of the driver. */
__attribute__((noinline)) int held(int value)
{
    return limited(value, -2048, 2047);
}

/* A step of a controller with a limited sum. */
__attribute__((noinline)) int regulate(int wanted, int measured, int sum)
{
    int error = wanted - measured;
    int kept = held(sum + error);
    return held((error << 2) + (kept >> 3));
}

/* What a mode asks of the motor: nothing, a given value, or what the controller says. */
int drive(int mode, int wanted, int measured, int sum)
{
    switch (mode) {
    case 0:
        return 0;
    case 1:
        return held(wanted);
    case 2:
        return regulate(wanted, measured, sum);
    case 3:
        return regulate(wanted, measured, sum) + held(sum);
    default:
        return -1;
    }
}

/* How many of the first samples are over a limit. */
int over(const int *samples, int count, int limit)
{
    int found = 0;
    for (int at = 0; at < count; at++)
        if (samples[at] > limit)
            found++;
    return found;
}

/* Two functions with a loop each and one without, linked with the program headers that the linker makes by default. */
unsigned sum_to(unsigned last)
{
    unsigned sum = 0;
    for (unsigned term = 1; term <= last; term++)
        sum += term;
    return sum;
}

unsigned greatest(const unsigned *numbers, unsigned count)
{
    unsigned most = 0;
    for (unsigned place = 0; place < count; place++)
        if (numbers[place] > most)
            most = numbers[place];
    return most;
}

/* One without any branch: half the sum of two numbers, rounded down. */
unsigned middle(unsigned first, unsigned second)
{
    return (first & second) + ((first ^ second) >> 1);
}

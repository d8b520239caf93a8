/* Functions for runs: their arguments come in registers, and they keep to ARMv4T without any library. */

/* A constant text for check(). */
static const unsigned char text[64] = "The quick brown fox jumps over the lazy dog, and then once more";

/* The next of a sequence of numbers that look random. */
__attribute__((noinline)) static unsigned next(unsigned number)
{
    return number * 1664525 + 1013904223;
}

/* Puts a number into a sorted list of so many, behind which there is room for one more. */
__attribute__((noinline)) static void insert(unsigned *list, unsigned count, unsigned number)
{
    while (count > 0 && list[count - 1] > number) {
        list[count] = list[count - 1];
        count--;
    }
    list[count] = number;
}

/* Sorts so many numbers, at most 64, that follow the seed, and adds them up, each times its place from 1 on. */
unsigned sort(unsigned count, unsigned seed)
{
    unsigned list[64];
    unsigned sum = 0;
    if (count > 64)
        count = 64;
    for (unsigned place = 0; place < count; place++) {
        seed = next(seed);
        insert(list, place, seed >> 8);
    }
    for (unsigned place = 0; place < count; place++)
        sum += (place + 1) * list[place];
    return sum;
}

/* The CRC-32 of so many bytes of the text, at most 63, from a place on; it starts over at the text's begin. */
unsigned check(unsigned count, unsigned place)
{
    unsigned sum = 0xffffffff;
    for (; count > 0; count--) {
        sum ^= text[place & 63];
        place++;
        for (unsigned bit = 0; bit < 8; bit++)
            sum = sum & 1 ? sum >> 1 ^ 0xedb88320 : sum >> 1;
    }
    return ~sum;
}

/* The greatest common divisor of two numbers, neither of them 0. */
unsigned divisor(unsigned first, unsigned second)
{
    while (first != second) {
        if (first > second)
            first -= second;
        else
            second -= first;
    }
    return first;
}

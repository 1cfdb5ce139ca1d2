// Sections of the usual kinds, a common symbol, and relocations of code and of data.
int common;
static int zeroed[4];
int set = 7;
const int fixed[2] = {1, 2};
const int *const place = &fixed[1];
extern int elsewhere(int);

int sum(int i) {
    zeroed[i & 3] += common++;
    return elsewhere(set) + zeroed[0] + *place;
}

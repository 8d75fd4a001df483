/* The ways to place eight queens on a board such that none attacks another, counted over and over: there are 92. */
enum { SIZE = 8, TIMES = 400 };

struct board {
    char column[SIZE], rising[2 * SIZE], falling[2 * SIZE];
};

static int count_from(struct board *board, int row) {
    if (row == SIZE)
        return 1;
    int count = 0;
    for (int column = 0; column < SIZE; column++) {
        char *file = &board->column[column], *up = &board->rising[row + column], *down = &board->falling[row - column + SIZE];
        if (*file || *up || *down)
            continue;
        *file = *up = *down = 1;
        count += count_from(board, row + 1);
        *file = *up = *down = 0;
    }
    return count;
}

int main(void) {
    struct board board = {0};
    int count = 0;
    for (int time = 0; time < TIMES; time++)
        count = count_from(&board, 0);
    return count;
}

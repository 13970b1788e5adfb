/* Behind the program of docs/DUMPS.md: a board with a changed line and a pending tag, dumped into the file that is named. */
OALEDVA_STATIC_BOARD(board, 4, 1, 2, 2);

int main(int count, char **arguments) {
    FILE *file = count == 2 ? fopen(arguments[1], "wb") : NULL;
    if (file == NULL) return 2;
    if (!oaledva_done(oaledva_board_map(&board, 0x200000, 1, OALEDVA_WRITABLE))) return 1;
    if (!oaledva_done(oaledva_board_attach(&board, 0, 0, 2048, OALEDVA_WRITABLE))) return 1;
    if (!oaledva_done(oaledva_board_store(&board, 0, 4, 0, 50))) return 1;
    if (!oaledva_done(oaledva_board_tag(&board, 0x20000001))) return 1;
    return dump(file, &board) && fclose(file) == 0 ? 0 : 1;
}

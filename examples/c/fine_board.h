/* The board of examples/fine_board.gray, shared by the program that draws it and the one that reads it. The corner
 * after u columns and v rows of squares lies, in pixels, at x = X0 + (XU u + XV v) / w, y = Y0 + (YU u + YV v) / w,
 * where w = W0 + WU u + WV v. The numbers are whole, so that both programs mean one board on every computer. */
#ifndef FINE_BOARD_H
#define FINE_BOARD_H

enum { WIDTH = 80, HEIGHT = 64, ROWS = 5, COLUMNS = 7, ROW = COLUMNS - 1, PLACES = (ROWS - 1) * ROW };
enum { X0 = 29, XU = 4052, XV = -2295, Y0 = 9, YU = 283, YV = 3348, W0 = 1000, WU = -32, WV = -74 };

#endif

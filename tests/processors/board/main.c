/*
 * The writer's archive on one processor: random calls, payloads of every size with the stack that they use, and
 * arguments wider than they look. SEED and COUNT are of the random calls. Last line 'board: N passed, M failed'.
 */
#include "board.h"
#include "controls.h"
#include "print.h"
#include "random.h"
#include "tests.h"

void board_main(void)
{
    print_text("board: seed ");
    print_number(SEED);
    print_text(", calls ");
    print_number(COUNT);
    print_text("\n");
    begin_random(SEED);
    test_controls();
    test_widths();
    test_sizes();
    test_random(COUNT);
    end();
}

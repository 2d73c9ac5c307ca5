/* What main.c needs of a board: a console, a count of instructions, the bounds of the stack. */
#ifndef BOARD_H
#define BOARD_H
#include <stdint.h>
extern uint64_t stack_bottom[], stack_top[]; /* by the linker script */
int main(void);
_Noreturn void board_end(int status);
void board_say(const char *text);
uint32_t board_ticks(void); /* counts up, in 24 bits; TENTHS/10 instructions each: image knows how many of a board */
#endif

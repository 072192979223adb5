/* Store and Recall as on an instrument: keys edit a panel through its history, and an earlier panel is brought back. */
#include "palgwern.h"
#include <inttypes.h>
#include <stdio.h>
#include <string.h>

/* As many columns of 100 pixels as fit, each after a line `value`, and a reading from the first to the third. */
static const char sheet[] = "axis\tc\t43a00000\tmax\tlen\t41200000\n"
                            "repeat\tc\tfill\n"
                            "name\tc\tvalue\n"
                            "track\tc\tlen\t42c80000\tlen\t42c80000\n"
                            "end\tc\n"
                            "place\tc\tnamed\tvalue\t1\tnamed\tvalue\t3\n";

static const char *const ends[] = {"auto", "line", "", "span"};

/* Large: not on the stack. */
static palgwern_tables tables;
static uint8_t lines[256];
static palgwern_recorded panel;

/* The step after a key, the columns, and where the readouts are. */
static void print_panel(const char *key) {
    palgwern_size_answer size = palgwern_explicit_size(panel.panel.grid, PALGWERN_COLUMNS);
    printf("%s: step %" PRIu64 " of %" PRIu64 ", %" PRIu32 " columns\n", key, panel.history.step, panel.history.last, size.explicit_count);
    for (uint32_t at = 0; at < panel.panel.grid.placements; at++) {
        palgwern_placement_answer p = palgwern_tables_placement(&tables, panel.panel.grid, at);
        printf("place\t%c\t%s\t%" PRId32 "\t%s\t%" PRId32 "\n", "cr"[p.axis], ends[p.startkind], p.startnumber, ends[p.endkind], p.endnumber);
    }
}

/* An edit by its line, or what it is refused by. */
static void edit(const char *text) {
    palgwern_edit_answer answer = palgwern_recorded_edit(&panel, &tables, text, strlen(text));
    if (answer.number != 0) printf("refused\t%" PRIu32 "\t%" PRIu32 "\n", answer.number, answer.line);
}

/* The lines of the history. */
static void print_history(void) {
    uint64_t step = 0;
    for (const uint8_t *byte = lines; step < panel.history.last; step += *byte++ == '\n') putchar(*byte);
}

int main(void) {
    panel = (palgwern_recorded){sheet, strlen(sheet), palgwern_tables_read(&tables, sheet, strlen(sheet)).panel, {0, 0}, lines, sizeof lines};
    print_panel("start");
    palgwern_recorded_edit_name(&panel, &tables, PALGWERN_COLUMNS, 2, "level", strlen("level"));
    edit("place\tc\tnamed\tlevel\t1\tauto\t-\t0");
    print_panel("Amplitude");
    uint64_t stored = panel.history.step; /* Store */
    /* A column as wide as its text beside a repeat that fills: CSS drops such a template, and no line `value` is left. */
    edit("track\tc\tauto\t00000000\tauto\t00000000");
    print_panel("Units");
    palgwern_recorded_recall(&panel, &tables, stored);
    print_panel("Recall");
    edit("area\toutput\t1\t2\t1\t5");
    edit("area\toffset\t1\t2\t3\t4");
    edit("place\tr\tnamed\toutput\t0\tnamed\toutput\t0");
    print_panel("Output");
    if (palgwern_recorded_recall(&panel, &tables, 5).number == PALGWERN_NO_STEP) puts("no step 5");
    print_history();
    return 0;
}

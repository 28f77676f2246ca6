/* The sheet program for people: a call file on standard input, its sheet on standard output, status 0; or a line on standard
 * error and status 1, with no sheet where the input could not be read. All of it is done by the proved function, which
 * crates/sheet_printer_c exports; crates/sheet_program is the same program without C.
 *
 *     tools/archive sheet_printer
 *     gcc -o target/sheet crates/sheet_printer/main.c target/staticlib/libsheet_printer.a
 *     target/sheet < tests/vectors/v01_example.bin
 */
int wick_print_sheet(void);

int main(void) { return wick_print_sheet(); }

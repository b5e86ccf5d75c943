/* Prints what the static library says. */
#include <stdio.h>

void bare_text(char text[256]);

/* Rust's core names it for the host, where a panic could unwind; here none does. A target without std has no need of it. */
void rust_eh_personality(void) {}

int main(void) {
    char text[256] = {0};
    bare_text(text);
    puts(text);
    return 0;
}

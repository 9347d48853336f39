#include "many.h"

void note(const char *text) {
    put_text(text);
}

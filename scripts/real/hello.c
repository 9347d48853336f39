#include <stdio.h>

int main(int count, char **words) {
    printf("hello from %s, with %d words\n", count > 0 ? "a program" : "nobody", count);
    for (int i = 1; i < count; i++)
        printf("word %d is %s\n", i, words[i]);
    puts("end of hello");
    return 0;
}

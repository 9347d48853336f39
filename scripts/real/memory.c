/* malloc and its relations, qsort, and strings on them. */
#include <stdio.h>
#include <stdlib.h>
#include <string.h>

struct node {
    struct node *left, *right;
    unsigned long key;
    char text[];
};

static unsigned long seed = 12345;

static unsigned long next(void) {
    seed = seed * 6364136223846793005ul + 1442695040888963407ul;
    return seed >> 33;
}

static struct node *put(struct node *tree, unsigned long key) {
    if (tree == NULL) {
        char text[32];
        int length = snprintf(text, sizeof text, "<%lu>", key);
        tree = malloc(sizeof *tree + (size_t)length + 1);
        if (tree == NULL)
            exit(3);
        tree->left = tree->right = NULL;
        tree->key = key;
        memcpy(tree->text, text, (size_t)length + 1);
    } else if (key < tree->key) {
        tree->left = put(tree->left, key);
    } else if (key > tree->key) {
        tree->right = put(tree->right, key);
    }
    return tree;
}

static size_t leave(struct node *tree) {
    if (tree == NULL)
        return 0;
    size_t length = leave(tree->left) + strlen(tree->text) + leave(tree->right);
    free(tree);
    return length;
}

static int by_value(const void *a, const void *b) {
    unsigned long x = *(const unsigned long *)a, y = *(const unsigned long *)b;
    return x < y ? -1 : x > y;
}

static int goodbyes;
static void goodbye(void) { printf("goodbye %d\n", ++goodbyes); }

int main(void) {
    atexit(goodbye);
    struct node *tree = NULL;
    for (int i = 0; i < 3000; i++)
        tree = put(tree, next() % 5000);
    printf("the texts of the tree have %zu characters\n", leave(tree));

    unsigned long *list = NULL;
    size_t count = 0;
    for (; count < 5000; count++) {
        unsigned long *longer = realloc(list, (count + 1) * sizeof *list);
        if (longer == NULL)
            return 4;
        list = longer;
        list[count] = next();
    }
    qsort(list, count, sizeof *list, by_value);
    unsigned long sum = 0;
    for (size_t i = 1; i < count; i++) {
        if (list[i - 1] > list[i])
            return 5;
        sum = sum * 31 + list[i];
    }
    printf("%zu numbers in order, %lu to %lu, sum %lx\n", count, list[0], list[count - 1], sum);
    const unsigned long *found = bsearch(&list[777], list, count, sizeof *list, by_value);
    printf("number 777 is at %td\n", found == NULL ? -1 : found - list);
    free(list);

    char *zeros = calloc(1000, 3);
    size_t clear = 0;
    while (zeros != NULL && clear < 3000 && zeros[clear] == 0)
        clear++;
    printf("%zu bytes are clear\n", clear);
    free(zeros);
    puts("end of memory");
    return 0;
}

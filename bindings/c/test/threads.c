/* threads LIST: eight threads decode the files that LIST names, each in an order of its own, and
 * must get what one thread got. */
#include <pthread.h>

#include "common.h"

enum { MOST = 2000, THREADS = 8 };

static struct {
    struct bytes jpeg;
    int answer;
    uint64_t hash;
} files[MOST];
static int count;

static uint64_t decode(int index, int *answer) {
    zaxbriar_picture picture;
    uint64_t hash = 14695981039346656037u;
    struct bytes jpeg = files[index].jpeg;
    *answer = zaxbriar_read_info(jpeg.start, jpeg.size, NULL, &picture);
    if (*answer) return 0;
    unsigned char *pixels = block(picture.size);
    *answer = zaxbriar_decode(jpeg.start, jpeg.size, NULL, pixels, picture.size, &picture);
    for (size_t i = 0; !*answer && i < picture.size; i++)
        hash = (hash ^ pixels[i]) * 1099511628211u;
    free(pixels);
    return *answer ? 0 : hash;
}

static void *all_files(void *first) {
    for (int k = 0; k < count; k++) {
        int answer, index = (*(int *)first + k) % count;
        uint64_t hash = decode(index, &answer);
        if (hash != files[index].hash || answer != files[index].answer)
            __atomic_add_fetch(&faults, 1, __ATOMIC_SEQ_CST);
    }
    return NULL;
}

int main(int argc, char **argv) {
    char name[4096];
    pthread_t threads[THREADS];
    int firsts[THREADS];
    FILE *list = argc == 2 ? fopen(argv[1], "r") : NULL;
    if (!list) return 2;
    for (; count < MOST && fgets(name, sizeof name, list); count++) {
        name[strcspn(name, "\n")] = 0;
        files[count].jpeg = read_file(name);
        files[count].hash = decode(count, &files[count].answer);
    }
    fclose(list);
    for (int i = 0; i < THREADS; i++) {
        firsts[i] = count * i / THREADS;
        if (pthread_create(&threads[i], NULL, all_files, &firsts[i])) return 2;
    }
    for (int i = 0; i < THREADS; i++) pthread_join(threads[i], NULL);
    subject = argv[1];
    CHECK(count > 0);
    for (int i = 0; i < count; i++) free(files[i].jpeg.start);
    printf("threads: %d files by each of %d threads; %d faults\n", count, THREADS, faults);
    return faults != 0;
}

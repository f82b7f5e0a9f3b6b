// The peer: libvterm on a screen of two rows by twenty, fed a day in pieces of 4,096 bytes: vterm FILE ROUNDS.
// It prints the bytes per second of the fastest round, and how many cells all rounds gave to paint.
#include <stdio.h>
#include <stdlib.h>
#include <time.h>
#include <vterm.h>

enum { PIECE = 4096 };

static long damaged;

// What a till's screen needs to know: which cells are to be painted again.
static int damage(VTermRect rect, void *user) {
  (void)user;
  damaged += (long)(rect.end_row - rect.start_row) * (rect.end_col - rect.start_col);
  return 1;
}

static const VTermScreenCallbacks callbacks = {.damage = damage};

static double seconds(void) {
  struct timespec now;
  clock_gettime(CLOCK_MONOTONIC, &now);
  return now.tv_sec + now.tv_nsec / 1e9;
}

static char *read_all(const char *path, size_t *size) {
  FILE *file = fopen(path, "rb");
  if (!file || fseek(file, 0, SEEK_END)) return NULL;
  *size = ftell(file);
  rewind(file);
  char *bytes = malloc(*size);
  if (!bytes || fread(bytes, 1, *size, file) != *size) return NULL;
  fclose(file);
  return bytes;
}

// What was damaged is told after every piece, when the screen is painted.
static void feed(VTerm *terminal, VTermScreen *screen, const char *day, size_t size) {
  for (size_t at = 0; at < size; at += PIECE) {
    vterm_input_write(terminal, day + at, size - at < PIECE ? size - at : PIECE);
    vterm_screen_flush_damage(screen);
  }
}

int main(int count, char **words) {
  size_t size = 0;
  char *day = count >= 3 ? read_all(words[1], &size) : NULL;
  if (!day || !size) {
    fprintf(stderr, "usage: vterm FILE ROUNDS\n");
    return 1;
  }
  VTerm *terminal = vterm_new(2, 20);
  VTermScreen *screen = vterm_obtain_screen(terminal);
  vterm_screen_set_callbacks(screen, &callbacks, NULL);
  vterm_screen_set_damage_merge(screen, VTERM_DAMAGE_SCROLL);
  vterm_screen_reset(screen, 1);
  double best = 0;
  for (int rounds = atoi(words[2]); rounds > 0; rounds--) {
    double start = seconds();
    feed(terminal, screen, day, size);
    double taken = seconds() - start;
    if (best == 0 || taken < best) best = taken;
  }
  printf("libvterm: %.0f bytes per second, %ld cells to paint\n", size / best, damaged);
  vterm_free(terminal);
  free(day);
}

/* Reads a stream in pieces of 8,192 bytes, and writes so many bytes for each that SIZE are written in all: what a run of the same
 * stream and output costs that does nothing but read and write.
 *
 *     io STREAM OUT SIZE */
#include <fcntl.h>
#include <stdlib.h>
#include <sys/stat.h>
#include <unistd.h>

#define PIECE 8192

static unsigned char piece[PIECE], output[1 << 20];

int main(int words, char **word)
{
  struct stat stream;
  unsigned long long size, read_so_far = 0, written = 0;
  ssize_t count;
  int in = words == 4 ? open(word[1], O_RDONLY) : -1, out;
  if (in < 0 || fstat(in, &stream) != 0 || stream.st_size == 0) return 1;
  out = open(word[2], O_WRONLY | O_CREAT | O_TRUNC, 0666);
  size = strtoull(word[3], NULL, 10);
  while ((count = read(in, piece, PIECE)) > 0) {
    unsigned long long until = (read_so_far += (unsigned long long)count) * size / (unsigned long long)stream.st_size;
    size_t left = (size_t)(until - written);
    written = until;
    while (left > 0) {
      count = write(out, output, left < sizeof output ? left : sizeof output);
      if (count <= 0) return 1;
      left -= (size_t)count;
    }
  }
  return count == 0 && close(out) == 0 ? 0 : 1;
}

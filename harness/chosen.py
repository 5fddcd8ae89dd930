"""Work numbers that a sender could choose to slow the office down: they begin at one group of a table that is hashed with a fixed seed.

No table of the program is hashed so; what is sent with these numbers has to take no longer than what is sent with others. `cc` compiles the
search.
"""
import pathlib
import shutil
import subprocess
import tempfile

# Prints so many numbers whose hash ends in so many bits of 0: a fold of 128 bits, as the kit of the program has one.
SEARCH = r"""
#include <stdint.h>
#include <stdio.h>
#include <stdlib.h>
static const uint64_t MULTIPLIER = 0x9e3779b97f4a7c15;
static uint64_t fold(uint64_t a, uint64_t b) {
  unsigned __int128 product = (unsigned __int128)a * b;
  return (uint64_t)product ^ (uint64_t)(product >> 64);
}
static uint64_t fed(uint64_t state, char byte) { return fold(state ^ byte * 0x10101ull, MULTIPLIER ^ 2); }
/* Goes through all numbers that begin so, digit by digit, and prints those that are wanted. */
static void go(char *number, int at, uint64_t state, uint64_t end, long *left) {
  if (at == 12) {
    if (((state ^ state >> 32) & end) == 0 && *left > 0 && (*left)--)
      puts(number);
    return;
  }
  for (number[at] = '0'; number[at] <= '9' && *left > 0; number[at]++)
    go(number, at + 1, fed(state, number[at]), end, left);
}
int main(int count, char **words) {
  if (count != 3)
    return 2;
  char number[13] = "W";
  long left = atol(words[1]);
  uint64_t state = fed(fold(0x243f6a8885a308d3 ^ 12, MULTIPLIER ^ 16), 'W');
  go(number, 1, state, (1ull << atoi(words[2])) - 1, &left);
  return 0;
}
"""


def numbers(count: int, bits: int) -> list[bytes]:
    """So many chosen numbers, of a table of as many groups as so many bits can name."""
    if not shutil.which("cc"):
        raise OSError("there is no `cc`, which compiles the search")
    with tempfile.TemporaryDirectory() as folder:
        source, search = pathlib.Path(folder) / "search.c", pathlib.Path(folder) / "search"
        source.write_text(SEARCH)
        subprocess.run(["cc", "-O2", "-o", search, source], check=True)
        found = subprocess.run([search, str(count), str(bits)], stdout=subprocess.PIPE, check=True).stdout.split()
    return found

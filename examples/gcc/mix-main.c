/* Calls mix of ../simplify/mix.c on some values, and prints what it returns. */
#include <stdio.h>

unsigned int mix (unsigned int x, unsigned int y);

int main (void)
{
  for (unsigned int i = 0; i < 1000; i++)
    printf ("%u\n", mix (i * 2654435761u, i * i * 40503u));
  return 0;
}

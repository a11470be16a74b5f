/* Calls each function of functions.c on some values, and prints what it returns. */
#include <stdio.h>

unsigned int greatest_common_divisor (unsigned int a, unsigned int b);
int clamp (int x, int low, int high);
int bit_count (unsigned int x);
unsigned char saturating_sum (unsigned char a, unsigned char b);
unsigned int square_root (unsigned int x);
unsigned long modular_power (unsigned long base, unsigned long exponent, unsigned long modulus);
int fibonacci (int n);
int sign (long x);
short midpoint (short a, short b);
unsigned int reversed (unsigned int x);
int collatz_steps (unsigned long n);
int factorial (int n);
long floor_half (long x);

int main (void)
{
  for (unsigned int i = 0; i < 200; i++)
    {
      unsigned int x = i * i * 7919u + i;
      printf ("%u %u %d ", i, greatest_common_divisor (x, 360), clamp ((int) i - 100, -20, 30));
      printf ("%d %d ", bit_count (x), saturating_sum (i, x % 256));
      printf ("%u %lu ", square_root (x), modular_power (x, i, 1000003));
      printf ("%d %d ", fibonacci (i % 45), sign ((long) i - 100));
      printf ("%d %u ", midpoint ((short) (i * 300), (short) x), reversed (x));
      printf ("%d %d %ld\n", collatz_steps (i + 1), factorial (i % 13), floor_half (100 - (long) x));
    }
  return 0;
}

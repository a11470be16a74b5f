/* Ordinary integer functions, as a program has them. */

unsigned int greatest_common_divisor (unsigned int a, unsigned int b)
{
  while (b != 0)
    {
      unsigned int rest = a % b;
      a = b;
      b = rest;
    }
  return a;
}

int clamp (int x, int low, int high)
{
  if (x < low)
    return low;
  if (x > high)
    return high;
  return x;
}

int bit_count (unsigned int x)
{
  int n = 0;
  while (x != 0)
    {
      n += x & 1;
      x >>= 1;
    }
  return n;
}

unsigned char saturating_sum (unsigned char a, unsigned char b)
{
  unsigned int sum = (unsigned int) a + b;
  return sum > 255 ? 255 : sum;
}

unsigned int square_root (unsigned int x)
{
  unsigned int root = 0;
  unsigned int bit = 1u << 30;
  while (bit > x)
    bit >>= 2;
  while (bit != 0)
    {
      if (x >= root + bit)
        {
          x -= root + bit;
          root = (root >> 1) + bit;
        }
      else
        root >>= 1;
      bit >>= 2;
    }
  return root;
}

unsigned long modular_power (unsigned long base, unsigned long exponent, unsigned long modulus)
{
  unsigned long result = 1;
  base %= modulus;
  while (exponent != 0)
    {
      if (exponent & 1)
        result = result * base % modulus;
      base = base * base % modulus;
      exponent >>= 1;
    }
  return result;
}

int fibonacci (int n)
{
  int a = 0;
  int b = 1;
  for (int i = 0; i < n; i++)
    {
      int next = a + b;
      a = b;
      b = next;
    }
  return a;
}

int sign (long x)
{
  return (x > 0) - (x < 0);
}

short midpoint (short a, short b)
{
  return (a + b) / 2;
}

unsigned int reversed (unsigned int x)
{
  unsigned int y = 0;
  for (int i = 0; i < 32; i++)
    {
      y = (y << 1) | (x & 1);
      x >>= 1;
    }
  return y;
}

int collatz_steps (unsigned long n)
{
  int steps = 0;
  while (n != 1)
    {
      n = n % 2 == 0 ? n / 2 : 3 * n + 1;
      steps++;
    }
  return steps;
}

int factorial (int n)
{
  int product = 1;
  while (n > 1)
    {
      product *= n;
      n--;
    }
  return product;
}

long floor_half (long x)
{
  return x < 0 ? (x - 1) / 2 : x / 2;
}

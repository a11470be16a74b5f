/* The greatest common divisor, and the sum of the bits of its argument. */
unsigned int __GIMPLE (ssa)
gcd (unsigned int a, unsigned int b)
{
  unsigned int x;
  unsigned int y;
  unsigned int _9;

  __BB(2):
  goto __BB3;

  __BB(3):
  x_3 = __PHI (__BB2: a_1(D), __BB4: y_4);
  y_4 = __PHI (__BB2: b_2(D), __BB4: _9);
  if (y_4 != 0u)
    goto __BB4;
  else
    goto __BB5;

  __BB(4):
  _9 = x_3 % y_4;
  goto __BB3;

  __BB(5):
  return x_3;
}

int __GIMPLE (ssa)
bits (unsigned char c)
{
  unsigned char rest;
  int sum;
  unsigned char _7;
  int _8;

  __BB(2):
  goto __BB3;

  __BB(3):
  rest_2 = __PHI (__BB2: c_1(D), __BB4: rest_3);
  sum_4 = __PHI (__BB2: 0, __BB4: sum_5);
  if (rest_2 == _Literal (unsigned char) 0)
    goto __BB5;
  else
    goto __BB4;

  __BB(4):
  _7 = rest_2 & _Literal (unsigned char) 1;
  _8 = (int) _7;
  sum_5 = sum_4 + _8;
  rest_3 = rest_2 >> 1;
  goto __BB3;

  __BB(5):
  return sum_4;
}

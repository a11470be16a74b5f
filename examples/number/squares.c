/* The same difference twice, and then the same square. */
unsigned int __GIMPLE (ssa)
squares (unsigned int a, unsigned int b)
{
  unsigned int d;
  unsigned int _4;
  unsigned int _5;
  unsigned int _6;
  unsigned int _7;

  __BB(2):
  d_3 = a_1(D) - b_2(D);
  _4 = d_3 * d_3;
  _5 = a_1(D) - b_2(D);
  _6 = _5 * _5;
  _7 = _4 + _6;
  return _7;
}

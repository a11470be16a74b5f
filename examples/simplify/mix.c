unsigned int __GIMPLE (ssa)
mix (unsigned int x, unsigned int y)
{
  unsigned int _3;
  unsigned int _4;
  unsigned int _5;
  unsigned int _6;
  unsigned int _7;

  __BB(2):
  _3 = 4294967295u + 2u;
  _4 = _3 & x_1(D);
  _5 = _4 & _4;
  _6 = _5 | _5;
  _7 = _6 + y_2(D);
  return _7;
}

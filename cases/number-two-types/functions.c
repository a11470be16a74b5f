long __GIMPLE (ssa)
f (short x)
{
  int _2;
  long _3;
  int _4;
  long _5;
  long _6;

  __BB(2):
  _2 = (int) x_1(D);
  _3 = (long) x_1(D);
  _4 = (int) x_1(D);
  _5 = (long) _4;
  _6 = _5 + _3;
  return _6;
}

long __GIMPLE (ssa)
f (int x, long y)
{
  int _2;
  long _3;
  _Bool _4;
  int z;
  int _7;
  long x_8;

  __BB(2):
  _2 = x_1(D) << y_5(D);
  if (-7 < _2) goto __BB3; else goto __BB30;

  __BB(3):
  _7 = 9;
  goto __BB30;

  __BB(30):
  z_9 = __PHI (__BB2: x_1(D), __BB3: _7);
  _3 = (long) z_9;
  return y_5(D);
}

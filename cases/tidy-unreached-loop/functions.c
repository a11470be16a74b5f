int __GIMPLE (ssa)
f (int x)
{
  int _2;
  int _3;

  __BB(2):
  goto __BB5;

  __BB(3):
  _2 = __PHI (__BB4: _3);
  goto __BB4;

  __BB(4):
  _3 = _2 + 1;
  goto __BB3;

  __BB(5):
  return x_1(D);
}

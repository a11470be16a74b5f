int __GIMPLE (ssa)
f (int x)
{
  int _2;
  int _3;
  int _4;

  __BB(2):
  goto __BB5;

  __BB(3):
  _2 = __PHI (__BB4: _3);
  goto __BB4;

  __BB(4):
  _3 = _2 + 1;
  if (_3 < 9)
    goto __BB3;
  else
    goto __BB5;

  __BB(5):
  _4 = __PHI (__BB2: x_1(D), __BB4: _3);
  return _4;
}

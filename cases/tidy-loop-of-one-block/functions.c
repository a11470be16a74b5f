int __GIMPLE (ssa)
f (int x)
{
  int _2;

  __BB(2):
  goto __BB3;

  __BB(3):
  _2 = __PHI (__BB2: x_1(D), __BB3: _2);
  if (_2 < 0)
    goto __BB3;
  else
    goto __BB4;

  __BB(4):
  return _2;
}

int __GIMPLE (ssa)
f (int x)
{
  int _2;
  int _3;
  int _4;
  int _5;

  __BB(2):
  goto __BB3;

  __BB(3):
  _2 = __PHI (__BB2: x_1(D), __BB6: _5);
  goto __BB4;

  __BB(4):
  _3 = __PHI (__BB3: _2, __BB5: _4);
  if (_3 < 9)
    goto __BB5;
  else
    goto __BB6;

  __BB(5):
  _4 = __PHI (__BB4: _3);
  goto __BB4;

  __BB(6):
  _5 = __PHI (__BB4: _3);
  if (_5 < 20)
    goto __BB3;
  else
    goto __BB7;

  __BB(7):
  return _5;
}

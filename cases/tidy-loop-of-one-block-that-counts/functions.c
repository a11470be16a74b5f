int __GIMPLE (ssa)
f (int n)
{
  int _2;
  int _3;

  __BB(2):
  goto __BB3;

  __BB(3):
  _2 = __PHI (__BB2: 0, __BB3: _3);
  _3 = _2 + 1;
  if (_3 < n_1(D))
    goto __BB3;
  else
    goto __BB4;

  __BB(4):
  return _3;
}

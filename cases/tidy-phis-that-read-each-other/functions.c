unsigned int __GIMPLE (ssa)
f (unsigned int x)
{
  unsigned int _7;
  unsigned int _8;
  unsigned int _9;

  __BB(2):
  goto __BB3;

  __BB(3):
  _8 = __PHI (__BB2: x_1(D), __BB3: _8);
  if (_8 != 0u)
    goto __BB3;
  else
    goto __BB4;

  __BB(4):
  _7 = __PHI (__BB3: 5u, __BB4: _7);
  _9 = __PHI (__BB3: 5u, __BB4: _7);
  if (_9 != 5u)
    goto __BB4;
  else
    goto __BB5;

  __BB(5):
  return _9;
}

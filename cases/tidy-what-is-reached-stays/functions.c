unsigned int __GIMPLE (ssa)
f (unsigned int x)
{
  unsigned int _8;
  unsigned int _9;

  __BB(2):
  goto __BB4;

  __BB(4):
  goto __BB3;

  __BB(3):
  goto __BB7;

  __BB(7):
  _8 = __PHI (__BB3: x_1(D), __BB7: _9);
  _9 = __PHI (__BB3: 1u, __BB7: _8);
  goto __BB7;
}

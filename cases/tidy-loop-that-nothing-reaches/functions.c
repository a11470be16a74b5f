unsigned int __GIMPLE (ssa)
f (unsigned int x, unsigned int y)
{
  unsigned int _9;

  __BB(2):
  if (x_1(D) != y_3(D))
    goto __BB6;
  else
    goto __BB6;

  __BB(4):
  goto __BB5;

  __BB(5):
  if (y_3(D) != 0u)
    goto __BB4;
  else
    goto __BB6;

  __BB(6):
  _9 = __PHI (__BB2: x_1(D), __BB5: 2u, __BB6: 3u);
  if (_9 != 0u)
    goto __BB6;
  else
    goto __BB7;

  __BB(7):
  return _9;
}

int __GIMPLE (ssa)
f (int x)
{
  int _2;

  __BB(2):
  goto __BB5;

  __BB(3):
  if (3 < 2)
    goto __BB5;
  else
    goto __BB4;

  __BB(4):
  if (x_1(D) == 0)
    goto __BB3;
  else
    goto __BB5;

  __BB(5):
  _2 = __PHI (__BB2: x_1(D), __BB3: 7, __BB4: 8);
  return _2;
}
